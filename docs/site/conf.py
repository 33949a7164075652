"""How Sphinx makes the site of docs/ (tools/site calls it, with a copy of the pages and with what it made of the code)."""
from __future__ import annotations

import os
import re
from pathlib import Path
from posixpath import normpath

from pygments.lexer import inherit
from pygments.lexers.rust import RustLexer
from pygments.token import Operator

SOURCE = Path(os.environ["SITE_SOURCE"])
API = {"C": "docs/api/c", "Python": "docs/api/python", "Rust": "docs/api/rust"}

project = "Kobdzila"
copyright = "the maintainers of Kobdzila"
version = release = (SOURCE / "VERSION").read_text(encoding="utf-8").strip()
root_doc = "README"
extensions = ["myst_parser", "breathe", "sphinx.ext.autodoc", "sphinx_copybutton"]
include_patterns = ["*.md", "docs/**.md", "docs/**.rst", "fuzz/*.md"]
suppress_warnings = ["myst.header"]

myst_heading_anchors = 4
myst_enable_extensions = ["colon_fence"]

breathe_projects = {"kobdzila": os.environ["SITE_DOXYGEN"]}
breathe_default_project = "kobdzila"
breathe_domain_by_extension = {"h": "c"}

autodoc_typehints = "signature"
autodoc_member_order = "bysource"
autodoc_preserve_defaults = True

html_theme = "furo"
html_title = f"Kobdzila {version}"
html_static_path = ["site.css"]
html_css_files = ["site.css"]
html_copy_source = False
html_show_sphinx = False
html_last_updated_fmt = None
copybutton_prompt_text = r"\$ |>>> |\.\.\. "
copybutton_prompt_is_regexp = True
pygments_style = "default"

HEADING = re.compile(r"^## (.+)$|^- .*?\]\(([^)#]+\.md)\)|^- \[[^]]*\]\(([^)#]+\.md)\)", re.M)

LINK = re.compile(r"\[([^]]*)\]\(([^)#:]+)\)")
DECISION = re.compile(r"docs/internals/decisions/[\w-]+/")
ANCHOR = re.compile(r'<a id="([\w-]+)"></a>')
SIDEBARS: dict[tuple, str] = {}


class RattleLexer(RustLexer):
    """Rust with contracts, whose formulas have letters and signs of their own."""

    tokens = {"base": [inherit, (r"[^\x00-\x7f]|.", Operator)]}


def sections(text: str) -> dict[str, list[str]]:
    """The pages that docs/index.md lists, by heading."""
    found: dict[str, list[str]] = {}
    heading = ""
    for match in HEADING.finditer(text):
        if match[1]:
            heading = match[1]
        else:
            found.setdefault(heading, []).append(normpath("docs/" + (match[2] or match[3]).removesuffix(".md")))
    return found


def contents(index: str) -> str:
    """The site's contents: what docs/index.md lists, the pages of the interfaces, the man pages."""
    listed = sections(index)
    listed["Interfaces"] = list(API.values())
    listed["Man pages"] = sorted(f"docs/man/{it.name}".removesuffix(".md") for it in (SOURCE / "docs/man").glob("*.md"))
    listed["The project"] = ["docs/index", "CHANGELOG", "CONTRIBUTING", "SECURITY"]
    tables = (f":::{{toctree}}\n:hidden:\n:caption: {name}\n\n" + "\n".join(pages) + "\n:::\n" for name, pages in listed.items())
    return "\n\n" + "\n".join(tables)


def change_page(app, name: str, source: list[str]) -> None:
    """The front page gets the contents, which the sidebar shows. A link to a folder of the sources becomes its name, and a
    place of a page gets the name that Sphinx knows."""

    def link(match: re.Match[str]) -> str:
        return match[1] if (SOURCE / name).parent.joinpath(match[2]).is_dir() else match[0]

    text = LINK.sub(link, source[0])
    for anchor in ANCHOR.findall(text):
        text = text.replace(f'<a id="{anchor}"></a>', f"({anchor})=\n").replace(f"](#{anchor})", f"]({anchor})")
    source[0] = text
    if DECISION.match(name):  # (hundreds, which their own index lists: not for the sidebar)
        source[0] = f"---\norphan: true\n---\n\n{text}"
    if name == root_doc:
        source[0] += contents((SOURCE / "docs/index.md").read_text(encoding="utf-8"))


def order_pages(app, env) -> None:
    """Pages that were read in parallel come in any order, in which the search index would list its titles."""
    env.all_docs = dict(sorted(env.all_docs.items()))


def share_contents(app, name: str, template: str, context: dict, tree) -> None:
    """The sidebar doesn't list the decisions, so it is the same on all their pages of one depth. Making it anew for each of
    these hundreds was half of the time."""
    if not DECISION.match(name):
        return
    make = context["toctree"]

    def toctree(**options: object) -> str:
        key = (name.count("/"), *sorted(options.items()))
        if key not in SIDEBARS:
            SIDEBARS[key] = make(**options)
        return SIDEBARS[key]

    context["toctree"] = toctree


def setup(app) -> None:
    app.connect("source-read", change_page)
    app.connect("env-updated", order_pages)
    app.connect("html-page-context", share_contents, priority=400)
    app.add_object_type("rustitem", "rustitem", "pair: %s; Rust", objname="item of the crate for Rust")
    for name in ("rust", "rust,compile_fail"):
        app.add_lexer(name, RattleLexer)
