"""Builds the wheel and the source distribution of kobdzila: a backend for pip and `python -m build` (PEP 517) without
dependencies, and the command of tools/wheel.

The wheel: the extension is compiled with the C compiler, libkobdzila.a is linked into it, and it is packed with the
package and the program catsession, if that was built. With the same Python and compiler, the wheel of a commit is the
same bytes in any folder and at any time, also from the source distribution: the members are sorted, and their time is
SOURCE_DATE_EPOCH, or 1980.

The source distribution has the sources of the package and, in lib/MACHINE, libkobdzila.a and catsession as they were
built here: the proved part needs its own compiler. On another kind of machine KOBDZILA_LIB_DIR names the folder that
has a libkobdzila.a.

CC names the C compiler if it isn't cc, and CFLAGS adds to its options. KOBDZILA_BUILD is the build folder if it isn't
build/ of the repository. MACHINE names another machine to build the wheel for (tools/machine).
"""
from __future__ import annotations

import base64
import functools
import gzip
import hashlib
import io
import os
import re
import shlex
import shutil
import subprocess
import sys
import sysconfig
import tarfile
import tempfile
import time
import zipfile
from collections.abc import Iterable
from pathlib import Path
from typing import Any

try:
    import tomllib
except ImportError:  # (Python 3.10)
    from pip._vendor import tomli as tomllib  # type: ignore[import,no-redef]

HERE = Path(__file__).resolve().parent
TOP = HERE if (HERE / "PKG-INFO").is_file() else HERE.parent  # (of a source distribution, or of the repository)
VERSION = (TOP / "VERSION").read_text(encoding="utf-8").strip()
LEAST_GLIBC = 17  # no Linux that runs Python 3.10 has an older one than 2.17
MUSL = "musllinux_1_2"  # (PEP 656; musl's symbols have no versions, and all of 1.2 have the same interface)
FLAGS = ("-std=c11", "-O2", "-fPIC", "-Wall", "-Wextra", "-Werror", "-fvisibility=hidden")
LINKED = ("-shared", "-Wl,--exclude-libs,ALL", "-Wl,-z,text", "-Wl,-z,relro", "-Wl,-z,now", "-Wl,--build-id=none")
OF_PACKAGE = (".py", ".pyi", ".typed")  # the endings of its files
# (outside of python/: files, and folders of services)
OUTSIDE = (
    "VERSION", "include/kobdzila.h", "tools/hardening", "tools/machine", "tools/completion/words",
    "tools/completion/write", "docs/man/kob-fleet.1", "packaging/systemd",
)
# where the completions of kob-fleet belong below the prefix of an installation
COMPLETIONS = {
    "bash": "bash-completion/completions/kob-fleet",
    "zsh": "zsh/site-functions/_kob-fleet",
    "fish": "fish/vendor_completions.d/kob-fleet.fish",
}


class Trouble(Exception):
    """Why nothing can be built."""


def run(*command: str) -> str:
    try:
        done = subprocess.run(command, capture_output=True, text=True)
    except OSError as fault:
        needed = "building needs a C compiler and binutils, which Debian has in gcc"
        raise Trouble(f"{command[0]} can't be run ({fault.strerror}): {needed}") from None
    if done.returncode != 0:
        raise Trouble(f"{command[0]} failed: {(done.stderr or done.stdout).strip()}")
    return done.stdout


# --- what is built of ------------------------------------------------------------------------------------------------


def of_machine(what: str) -> str:
    """Return what depends on the machine that is built for, by its name in tools/machine."""
    return run("sh", str(TOP / "tools/machine"), what).strip()


@functools.cache
def tracked() -> frozenset[Path] | None:
    """Return the files that git tracks, or None where there is no clone or no git: a source distribution has no other
    files."""
    if TOP == HERE or not (TOP / ".git").exists() or not shutil.which("git"):
        return None
    done = subprocess.run(["git", "-C", str(TOP), "ls-files", "-z"], capture_output=True, text=True)
    return frozenset(TOP / it for it in done.stdout.split("\0")) if done.returncode == 0 else None


def ours(paths: Iterable[Path]) -> list[Path]:
    """Return the files of these that belong to the sources, without those that only happen to lie there, sorted."""
    known = tracked()
    return sorted(it for it in paths if it.is_file() and (known is None or it in known))


def build_folder() -> Path:
    """Return the folder of what was built for that machine."""
    return Path(os.environ.get("KOBDZILA_BUILD", TOP / of_machine("build")))


def bundled() -> Path:
    """Return the folder of a source distribution with what was built for that machine."""
    return HERE / "lib" / of_machine("machine")


def library() -> Path:
    """Return the path of libkobdzila.a: that of KOBDZILA_LIB_DIR, the one that was built, or that of the distribution."""
    named = os.environ.get("KOBDZILA_LIB_DIR")
    places = [Path(named)] if named else [build_folder() / "lib", bundled()]
    for place in places:
        if (place / "libkobdzila.a").is_file():
            return place.resolve() / "libkobdzila.a"
    if named:
        raise Trouble(f"KOBDZILA_LIB_DIR is {named}, which has no libkobdzila.a")
    if TOP != HERE:
        raise Trouble(f"there is no {build_folder() / 'lib' / 'libkobdzila.a'}: make library builds it")
    raise Trouble(
        f"this source distribution has no libkobdzila for {of_machine('machine')}: set KOBDZILA_LIB_DIR to the folder "
        "that has libkobdzila.a, such as `lib` of an unpacked release"
    )


def catsession() -> Path | None:
    """Return the path of the program that Session starts, or None if it isn't there."""
    found = [it for it in (build_folder() / "static" / "catsession", bundled() / "catsession") if it.is_file()]
    return found[0] if found else None


def configuration(headers: Path, room: Path) -> list[str]:
    """Return the flags by which each compiler finds Python's pyconfig.h. Debian has one for each machine, in a folder of its
    name, where a compiler for another machine doesn't look. That of this machine serves, since the sizes in it
    are the same (python/src/module.h compares them)."""
    own = Path("/usr/include", f"{os.uname().machine}-linux-gnu", headers.name, "pyconfig.h")
    found = Path(room, f"{of_machine('machine')}-linux-gnu", headers.name, "pyconfig.h")
    if own.is_file():
        found.parent.mkdir(parents=True)
        found.symlink_to(own)
    return [f"-I{room}"]


def compile_extension(to: Path, *more: str) -> None:
    """Compile and link the extension module into the file `to`."""
    archive, headers = library(), Path(sysconfig.get_path("include"))
    if not (headers / "Python.h").is_file():
        raise Trouble(f"there is no Python.h in {headers}: Debian has it in python3-dev")
    compiler = shlex.split(of_machine("cc"))
    hardened = run("sh", str(TOP / "tools/hardening"), *compiler).split()
    # (the names of the sources, which an error message may have, are those of the repository)
    flags = [*FLAGS, *hardened, f"-ffile-prefix-map={HERE}=./python", *shlex.split(os.environ.get("CFLAGS", "")), *more]
    run(*compiler, *flags, f"-I{TOP / 'include'}", f"-I{headers}", *configuration(headers, to.parent),
        *map(str, ours((HERE / "src").glob("*.c"))), str(archive), *LINKED, "-o", str(to))


def system_of(extension: Path) -> str:
    """Return the system that the extension is for, by the C library that it needs."""
    said = run(f"{of_machine('prefix')}objdump", "-p", "-T", str(extension))
    if re.search(r"NEEDED +libc\.so$", said, re.MULTILINE):
        return MUSL
    glibc = max([LEAST_GLIBC, *map(int, re.findall(r"\(GLIBC_2\.(\d+)", said))])
    return f"manylinux_2_{glibc}"


def tag_of(extension: Path) -> str:
    """Return the wheel's tag."""
    return f"cp310-abi3-{system_of(extension)}_{of_machine('machine')}"


def manual_page() -> str:
    """Return the manual page of kob-fleet, which names the version."""
    text = (TOP / "docs" / "man" / "kob-fleet.1").read_text(encoding="utf-8")
    return text.replace(" Kobdzila ", f' "Kobdzila {VERSION}" ', 1)


def completions(shell: str) -> str:
    """Return the completions of kob-fleet for a shell."""
    return run(sys.executable, "-B", str(TOP / "tools" / "completion" / "write"), shell, "kob-fleet")


# --- what pyproject.toml says ------------------------------------------------------------------------------------------


def project() -> dict[str, Any]:
    found: dict[str, Any] = tomllib.loads((HERE / "pyproject.toml").read_text(encoding="utf-8"))["project"]
    return found


def metadata() -> bytes:
    """Return the file METADATA ("Core metadata specifications" of the Python Packaging User Guide, version 2.1)."""
    own = project()
    lines = ["Metadata-Version: 2.1", f"Name: {own['name']}", f"Version: {VERSION}", f"Summary: {own['description']}",
             f"Keywords: {','.join(own['keywords'])}", *(f"Classifier: {it}" for it in own["classifiers"]),
             f"Requires-Python: {own['requires-python']}", "Description-Content-Type: text/markdown"]
    for extra, needed in own["optional-dependencies"].items():
        lines += [f"Provides-Extra: {extra}", *(f"Requires-Dist: {it}; extra == '{extra}'" for it in needed)]
    text = (HERE / own["readme"]).read_text(encoding="utf-8")
    return ("\n".join(lines) + "\n\n" + text).encode()


def entry_points() -> bytes:
    lines = [f"{name} = {function}" for name, function in project()["scripts"].items()]
    return ("\n".join(["[console_scripts]", *lines]) + "\n").encode()


# --- the wheel ---------------------------------------------------------------------------------------------------------


def members(extension: bytes, tag: str) -> dict[str, bytes]:
    """Return the files of the wheel but for RECORD, by their names in it."""
    files = {"kobdzila/_kobdzila.abi3.so": extension}
    for path in ours((HERE / "src" / "kobdzila").rglob("*")):
        if path.suffix in OF_PACKAGE or path.name == "py.typed":
            files[path.relative_to(HERE / "src").as_posix()] = path.read_bytes()
    program = catsession()
    if program:
        with tempfile.TemporaryDirectory() as room:
            run(f"{of_machine('prefix')}strip", "-o", f"{room}/catsession", str(program))
            files["kobdzila/bin/catsession"] = Path(room, "catsession").read_bytes()
    info, shared = f"kobdzila-{VERSION}.dist-info", f"kobdzila-{VERSION}.data/data/share"
    files[f"{info}/METADATA"] = metadata()
    files[f"{info}/entry_points.txt"] = entry_points()
    files[f"{shared}/man/man1/kob-fleet.1"] = manual_page().encode()
    for shell, place in COMPLETIONS.items():
        files[f"{shared}/{place}"] = completions(shell).encode()
    for path in ours((TOP / "packaging" / "systemd").glob("*.service")):
        files[f"{shared}/kobdzila/systemd/{path.name}"] = path.read_bytes()
    files[f"{info}/WHEEL"] = (
        f"Wheel-Version: 1.0\nGenerator: kobdzila ({VERSION})\nRoot-Is-Purelib: false\nTag: {tag}\n".encode()
    )
    return files


def made() -> int:
    """Return the time of each member of an archive; a zip archive has none before 1980."""
    return max(int(os.environ.get("SOURCE_DATE_EPOCH", "0")), 315532800)


def write_wheel(to: Path, files: dict[str, bytes]) -> None:
    """Write the files, and RECORD after them, as a zip archive."""
    rows = []
    for name, data in sorted(files.items()):
        digest = base64.urlsafe_b64encode(hashlib.sha256(data).digest()).rstrip(b"=").decode()
        rows.append(f"{name},sha256={digest},{len(data)}\n")
    record = f"kobdzila-{VERSION}.dist-info/RECORD"
    with zipfile.ZipFile(to, "w", zipfile.ZIP_DEFLATED, compresslevel=9) as archive:
        for name, data in [*sorted(files.items()), (record, "".join([*rows, f"{record},,\n"]).encode())]:
            member = zipfile.ZipInfo(name, time.gmtime(made())[:6])
            member.compress_type = zipfile.ZIP_DEFLATED
            member.create_system = 3
            member.external_attr = (0o100755 if name.endswith((".so", "/catsession")) else 0o100644) << 16
            archive.writestr(member, data)


def build_wheel(wheel_directory: str, config_settings: object = None, metadata_directory: object = None) -> str:
    """Build the wheel into a folder, and return its name (PEP 517)."""
    with tempfile.TemporaryDirectory() as room:
        extension = Path(room, "_kobdzila.abi3.so")
        compile_extension(extension)
        run(f"{of_machine('prefix')}strip", "--strip-unneeded", str(extension))
        tag = tag_of(extension)
        files = members(extension.read_bytes(), tag)
    name = f"kobdzila-{VERSION}-{tag}.whl"
    Path(wheel_directory).mkdir(parents=True, exist_ok=True)
    write_wheel(Path(wheel_directory, name), files)
    return name


def prepare_metadata_for_build_wheel(metadata_directory: str, config_settings: object = None) -> str:
    """Write what the wheel says of itself, without building it, and return the folder's name (PEP 517)."""
    name = f"kobdzila-{VERSION}.dist-info"
    Path(metadata_directory, name).mkdir(parents=True)
    Path(metadata_directory, name, "METADATA").write_bytes(metadata())
    Path(metadata_directory, name, "entry_points.txt").write_bytes(entry_points())
    return name


# --- the source distribution -------------------------------------------------------------------------------------------


def sources() -> dict[str, bytes]:
    """Return the files of the source distribution, by their names in it."""
    paths = {name: HERE / name for name in ("pyproject.toml", "wheel_backend.py", "README.md")}
    for path in ours((HERE / "src").rglob("*")):
        if path.suffix in (*OF_PACKAGE, ".c", ".h") or path.name == "py.typed":
            paths[path.relative_to(HERE).as_posix()] = path
    for name in OUTSIDE:
        for path in ours([TOP / name, *(TOP / name).glob("*.service")]):
            paths[path.relative_to(TOP).as_posix()] = path
    machine = of_machine("machine")
    paths[f"lib/{machine}/libkobdzila.a"] = library()
    program = catsession()
    if program:
        paths[f"lib/{machine}/catsession"] = program
    return {"PKG-INFO": metadata(), **{name: path.read_bytes() for name, path in paths.items()}}


def build_sdist(sdist_directory: str, config_settings: object = None) -> str:
    """Build the source distribution into a folder, and return its name (PEP 517 and PEP 625)."""
    room = f"kobdzila-{VERSION}"
    packed = io.BytesIO()
    with gzip.GzipFile("", "wb", 9, packed, made()) as file, tarfile.open(None, "w", file, format=tarfile.PAX_FORMAT) as archive:
        for name, data in sorted(sources().items()):
            member = tarfile.TarInfo(f"{room}/{name}")
            member.size, member.mtime = len(data), made()
            member.mode = 0o755 if name.endswith(("/hardening", "/machine", "/write", "/catsession")) else 0o644
            archive.addfile(member, io.BytesIO(data))
    Path(sdist_directory).mkdir(parents=True, exist_ok=True)
    Path(sdist_directory, f"{room}.tar.gz").write_bytes(packed.getvalue())
    return f"{room}.tar.gz"


def main(words: list[str]) -> int:
    build = build_sdist if "--sdist" in words else build_wheel
    try:
        folder = next((it for it in words if it != "--sdist"), str(build_folder() / "dist"))
        name = build(folder)
    except Trouble as trouble:
        print(f"tools/wheel: {trouble}", file=sys.stderr)
        return 1
    path = Path(folder, name)
    note = "" if catsession() else ", without catsession, which wasn't built"
    print(f"{os.path.relpath(path)}: {path.stat().st_size} bytes{note}")
    return 0


if __name__ == "__main__":
    sys.exit(main(sys.argv[1:]))
