//! Finds libkobdzila and tells cargo how to link it.
//!
//! `KOBDZILA_LIB_DIR` names the folder of the library. Without it the program `pkg-config` is asked, or the one that
//! the variable `PKG_CONFIG` names.

use std::env;
use std::path::{Path, PathBuf};
use std::process::Command;
#[cfg(unix)]
use std::{ffi::OsStr, os::unix::ffi::OsStrExt};

const LIB_DIR: &str = "KOBDZILA_LIB_DIR";
/// The first version of the library that has all that this crate declares.
const LEAST_VERSION: &str = "0.2.0";
/// The first version that may have removed or changed some of it.
const NEXT_INTERFACE: &str = "1";
/// The variables by which pkg-config is one of the machine that the program is for.
const PKG_CONFIG_OF_TARGET: [&str; 4] = [
    "PKG_CONFIG",
    "PKG_CONFIG_ALLOW_CROSS",
    "PKG_CONFIG_LIBDIR",
    "PKG_CONFIG_SYSROOT_DIR",
];

fn main() {
    for name in [LIB_DIR, "DOCS_RS", "PKG_CONFIG_PATH"]
        .iter()
        .chain(&PKG_CONFIG_OF_TARGET)
    {
        println!("cargo:rerun-if-env-changed={name}");
    }
    println!("cargo:rerun-if-changed=build.rs");
    // (docs.rs has no libkobdzila, and links nothing; nor does Miri, nor a system that lib.rs refuses)
    let is_set = |name| env::var_os(name).is_some();
    if is_set("DOCS_RS") || is_set("CARGO_CFG_MIRI") || !is_supported() {
        return;
    }
    let is_static = is_set("CARGO_FEATURE_STATIC");
    match folders(is_static) {
        Ok(folders) => link(&folders, is_static),
        Err(why) => {
            eprintln!("{why}");
            std::process::exit(1);
        }
    }
}

/// Whether the program is for a system that libkobdzila runs on. On another one, `lib.rs` says so.
fn is_supported() -> bool {
    let is = |name, value| env::var_os(name).map_or(false, |it| it == value);
    is("CARGO_CFG_TARGET_OS", "linux") && is("CARGO_CFG_TARGET_POINTER_WIDTH", "64")
}

/// The library's file.
fn file_name(is_static: bool) -> &'static str {
    if is_static {
        "libkobdzila.a"
    } else {
        "libkobdzila.so"
    }
}

/// Links the library of these folders. Another one in its place, such as an upgrade, is linked anew.
fn link(folders: &[PathBuf], is_static: bool) {
    for folder in folders {
        let file = folder.join(file_name(is_static));
        if file.exists() {
            println!("cargo:rerun-if-changed={}", file.display());
        }
        println!("cargo:rustc-link-search=native={}", folder.display());
    }
    let kind = if is_static { "static" } else { "dylib" };
    println!("cargo:rustc-link-lib={kind}=kobdzila");
}

/// The folders in which the linker looks for the library.
fn folders(is_static: bool) -> Result<Vec<PathBuf>, String> {
    match env::var_os(LIB_DIR) {
        Some(folder) => Ok(vec![named_folder(Path::new(&folder), is_static)?]),
        None => folders_by_pkg_config(),
    }
}

/// The folder of `KOBDZILA_LIB_DIR`, if it has the library.
fn named_folder(folder: &Path, is_static: bool) -> Result<PathBuf, String> {
    let file = file_name(is_static);
    if folder.is_relative() {
        return Err(format!("{LIB_DIR} is {}: name it by its full path", folder.display()));
    }
    if !folder.join(file).exists() {
        return Err(format!("{LIB_DIR} is {}, which has no {file}", folder.display()));
    }
    Ok(folder.to_path_buf())
}

/// The folders that pkg-config says, also those in which a linker looks anyway.
fn folders_by_pkg_config() -> Result<Vec<PathBuf>, String> {
    let (host, target) = (env::var("HOST").ok(), env::var("TARGET").ok());
    if host != target && PKG_CONFIG_OF_TARGET.iter().all(|name| env::var_os(name).is_none()) {
        return Err(missing(&format!(
            "pkg-config finds the libraries of {}, and the program is for {}: use {LIB_DIR}, or say by \
             PKG_CONFIG_SYSROOT_DIR where pkg-config finds those of that one",
            host.unwrap_or_default(),
            target.unwrap_or_default(),
        )));
    }
    let program = env::var_os("PKG_CONFIG").unwrap_or_else(|| "pkg-config".into());
    let asked = Command::new(&program)
        .env("PKG_CONFIG_ALLOW_SYSTEM_LIBS", "1")
        .args(["--print-errors", "--libs-only-L"])
        .arg(format!("kobdzila >= {LEAST_VERSION}"))
        .arg(format!("kobdzila < {NEXT_INTERFACE}"))
        .output();
    let said = match asked {
        Ok(output) if output.status.success() => output.stdout,
        Ok(output) => return Err(missing(String::from_utf8_lossy(&output.stderr).trim())),
        Err(why) => return Err(missing(&format!("{}: {why}", program.to_string_lossy()))),
    };
    let words = words_of(&said);
    Ok(words
        .iter()
        .filter_map(|word| word.strip_prefix(b"-L"))
        .map(path_of)
        .collect())
}

#[cfg(unix)]
fn path_of(bytes: &[u8]) -> PathBuf {
    OsStr::from_bytes(bytes).into()
}

/// On another system, where the script only has to run: `lib.rs` says why there is no library.
#[cfg(not(unix))]
fn path_of(bytes: &[u8]) -> PathBuf {
    String::from_utf8_lossy(bytes).into_owned().into()
}

/// The words of a line of the shell: pkg-config puts `\` before each blank, quote and `\` of a folder's name.
fn words_of(line: &[u8]) -> Vec<Vec<u8>> {
    let (mut words, mut word, mut quote) = (Vec::new(), None::<Vec<u8>>, None);
    let mut rest = line.iter().copied();
    while let Some(byte) = rest.next() {
        match (byte, quote) {
            (b'\\', None | Some(b'"')) => word.get_or_insert_with(Vec::new).extend(rest.next()),
            (b'\'' | b'"', None) => {
                quote = Some(byte);
                word.get_or_insert_with(Vec::new);
            }
            (_, Some(open)) if byte == open => quote = None,
            (b' ' | b'\t' | b'\n', None) => words.extend(word.take()),
            _ => word.get_or_insert_with(Vec::new).push(byte),
        }
    }
    words.extend(word);
    words
}

fn missing(why: &str) -> String {
    format!(
        "libkobdzila {LEAST_VERSION} or later, below {NEXT_INTERFACE}, was not found. Install it, or set {LIB_DIR} to \
         the folder that has it, such as `lib` of an unpacked release.\n{why}"
    )
}
