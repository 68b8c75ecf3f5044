"""Writes target/web/xaropinto.html: the web page with its modules, tables and the proved code.

The modules of web/src are put one behind the other, those that are imported first, each in a
function of its own; an import becomes a line that takes names from what another function returned.
Comments that have lines of their own are left out; nothing else is shortened. The page's policy
allows these bytes and no connection.
"""

import argparse
import base64
import hashlib
import os
import re
import sys
import tempfile
import zlib
from pathlib import Path
from typing import NamedTuple

from tests import ROOT
from tools.targets import BuildError
from tools.targets.build import build
from tools.web_tables import TABLES, in_javascript, tables_text, write_tables

sys.path.insert(0, str(ROOT / "python"))

from xaropinto.html_parts import STYLE  # noqa: E402
from xaropinto.version import VERSION  # noqa: E402

WEB = ROOT / "web"
MAIN = WEB / "src" / "main.js"
PAGE = ROOT / "target" / "web" / "xaropinto.html"
MOST_BYTES = 200_000
# A statement begins at the start of a line and ends with the first semicolon.
IMPORT = re.compile(r'^import\s*(?:\{([^{}]*)\}|\*\s*as\s+(\w+))\s*from\s*"([^"]+)";$',
                    re.MULTILINE)
EXPORT = re.compile(r"^export\s+(?:async\s+)?(?:function\*?|class|const)\s+(\w+)", re.MULTILINE)
EXPORTED_PARTS = re.compile(r"^export\s+const\s*\{([^{}]*)\}\s*=", re.MULTILINE)
EXPORTED_NAMES = re.compile(r"^export\s*\{([^{}]*)\};$", re.MULTILINE)
LEFT = re.compile(r"^(?:import|export)\b.*", re.MULTILINE)
COMMENT = re.compile(r"^[ \t]*(?://[^\n]*|/\*(?:(?!\*/).)*\*/[ \t]*)\n", re.MULTILINE | re.DOTALL)
FIRST_STYLE = 'globalThis.document?.querySelector("style")?.textContent'
HEADING = """"use strict";
// Put together by tools/web_page.py from web/src, where the comments are.
"""
# What would end a script inside a page, or change how its end is found.
ENDS_A_SCRIPT = re.compile(r"</script|<!--|<script", re.IGNORECASE)
MARK = re.compile(r"@([a-z_]+)@")


class BundleError(Exception):
    """A module that cannot be put into the page, and why."""


class Module(NamedTuple):
    """A module: where it is, its text, the paths that it imports and the names that it exports."""

    path: Path
    text: str
    imports: tuple
    exports: tuple


def read_module(path, text=None):
    """A module, of the file or of a text that would be in it."""
    text = path.read_text(encoding="utf-8") if text is None else text
    imports = tuple(Path(os.path.normpath(path.parent / found[3]))
                    for found in IMPORT.finditer(text))
    exports = [(found.start(), [found[1]]) for found in EXPORT.finditer(text)]
    for pattern in (EXPORTED_PARTS, EXPORTED_NAMES):
        exports += [(found.start(), [new for _, new in pairs_of(found[1])])
                    for found in pattern.finditer(text)]
    return Module(path, text, imports,
                  tuple(name for _, names in sorted(exports) for name in names))


def pairs_of(names):
    """Each name between braces, and the name that it is given."""
    for each in filter(None, (part.strip() for part in names.split(","))):
        old, _, new = re.sub(r"\s+as\s+|\s*:\s*", ":", each).partition(":")
        yield old, new or old


def modules_from(main, texts):
    """The modules that a module needs, itself last; `texts` are those of files not yet written."""
    held, order = {}, []

    def visit(path, above):
        if path in above:
            raise BundleError(f"{path.name} imports itself through others")
        if path not in held:
            held[path] = read_module(path, texts.get(path))
            for each in held[path].imports:
                visit(each, (*above, path))
            order.append(held[path])

    visit(main, ())
    return order


def variable(path):
    """The name under which a module's exports are kept."""
    return re.sub(r"\W", "_", os.path.relpath(path, ROOT).removesuffix(".js"))


def without_comments(module):
    """A module's text without the comments that have lines of their own.

    A line inside a text between backticks may look like a comment: such texts keep to one line.
    """
    for number, line in enumerate(module.text.splitlines(), 1):
        if line.count("`") % 2:
            raise BundleError(f"{module.path.name}, line {number}: a text goes on in the next line")
    return COMMENT.sub("", module.text)


def in_a_function(module):
    """A module as a constant that has its exports."""
    def imported(found):
        source = variable(Path(os.path.normpath(module.path.parent / found[3])))
        if found[2]:
            return f"const {found[2]} = {source};"
        names = ", ".join(old if old == new else f"{old}: {new}" for old, new in pairs_of(found[1]))
        return f"const {{ {names} }} = {source};"

    text = IMPORT.sub(imported, without_comments(module))
    renamed = [each for found in EXPORTED_NAMES.finditer(text) for each in pairs_of(found[1])]
    text = re.sub(r"^export\s+(?=async\b|function\b|class\b|const\b)", "",
                  EXPORTED_NAMES.sub("", text), flags=re.MULTILINE)
    left = LEFT.search(text)
    if left:
        raise BundleError(f"{module.path.name}: {left[0]!r} is no import or export that is known")
    old_names = {new: old for old, new in renamed}
    given = ", ".join(f"{name}: {old_names[name]}" if old_names.get(name, name) != name else name
                      for name in module.exports)
    return (f"const {variable(module.path)} = (() => {{\n{text.strip()}\n"
            f"return Object.freeze({{ {given} }});\n}})();\n")


def page_tables():
    """The tables without the style of pages, which is in the page already: its first style."""
    before, found, after = tables_text().partition(in_javascript(STYLE))
    if not found:
        raise BundleError("the tables have no style of pages")
    return f"{before}{FIRST_STYLE}{after}"


def bundle(main=MAIN):
    """All modules as one text, in which each is a constant with the exports of the module."""
    modules = modules_from(main, {TABLES: page_tables()})
    return HEADING + "".join(map(in_a_function, modules))


def script_text(wasm):
    """The page's script: the modules, and a line that starts the page with the proved code, which
    is compressed."""
    module = base64.b64encode(zlib.compress(wasm, 9)).decode()
    text = f'{bundle()}{variable(MAIN)}.openPage("{module}");\n'
    found = ENDS_A_SCRIPT.search(text)
    if found:
        raise BundleError(f"{found[0]!r} may not be in a script of a page")
    return text


def digest_of(text):
    """How the policy names a script or style."""
    return f"'sha256-{base64.b64encode(hashlib.sha256(text.encode()).digest()).decode()}'"


def policy_of(script, styles):
    """What the page may do: run this script and compile the proved code, use these styles."""
    return "; ".join([
        "default-src 'none'", f"script-src {digest_of(script)} 'wasm-unsafe-eval'",
        f"style-src {' '.join(map(digest_of, styles))}", "connect-src 'none'", "form-action 'none'",
        "base-uri 'none'"])


def page_text(wasm):
    """The whole page."""
    script = script_text(wasm)
    style = (WEB / "style.css").read_text(encoding="utf-8")
    parts = {"policy": policy_of(script, (STYLE, style)), "page_style": STYLE, "style": style,
             "script": script, "version": VERSION, "module_bytes": f"{len(wasm):,}",
             "module_digest": hashlib.sha256(wasm).hexdigest()}
    text = MARK.sub(lambda found: parts[found[1]], (WEB / "index.html").read_text(encoding="utf-8"))
    if len(text.encode()) > MOST_BYTES:
        raise BundleError(f"the page has {len(text.encode()):,} bytes; {MOST_BYTES:,} are allowed")
    return text


def write_page(module=None, page=PAGE):
    """Write the page and the tables that its modules import; its length. Whoever reads it meanwhile
    finds a whole one."""
    module = module or next(path for path in build() if path.suffix == ".wasm")
    text = page_text(module.read_bytes())
    page.parent.mkdir(parents=True, exist_ok=True)
    write_tables()
    with tempfile.TemporaryDirectory(dir=page.parent) as folder:
        part = Path(folder) / page.name
        part.write_text(text, encoding="utf-8")
        os.replace(part, page)
    return len(text.encode())


def main():
    """Write the page; the exit code."""
    parser = argparse.ArgumentParser(description=__doc__.splitlines()[0])
    parser.add_argument("--module", type=Path,
                        help="the proved code in WebAssembly; without it, it is built")
    parser.add_argument("--page", type=Path, default=PAGE, help="the file that is written")
    wanted = parser.parse_args()
    try:
        length = write_page(wanted.module, wanted.page)
    except (BuildError, BundleError, OSError) as error:
        print(f"web_page: {error}", file=sys.stderr)
        return 1
    print(f"{wanted.page}: {length:,} bytes")
    return 0


if __name__ == "__main__":
    sys.exit(main())
