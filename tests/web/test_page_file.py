"""The web page as a file: which bytes it has, what it may do, and that its modules are whole."""

import base64
import hashlib
import json
import re
import sys
import tempfile
import zlib
from html.parser import HTMLParser
from pathlib import Path

from tests import ROOT
from tests.support.case import Case
from tests.support.command import run
from tests.support.report import run_unit_tests
from tests.web.node import module_path, node_path
from tools import web_page

MOST_SECONDS = 60
MOST_BYTES = 200_000
SOURCES = sorted((ROOT / "web" / "src").glob("*.js"))
# What the page's policy must say of each kind of content.
POLICY = {"default-src": "'none'", "connect-src": "'none'", "form-action": "'none'",
          "base-uri": "'none'"}
# What would run words as code, or read them as markup that is no XML.
NOT_USED = re.compile(r"\beval\(|new Function|\.innerHTML|insertAdjacentHTML|document\.write|"
                      r"\bfetch\(|XMLHttpRequest|sendBeacon|WebSocket|localStorage|sessionStorage|"
                      r"indexedDB|document\.cookie")
# Prints the names that each module exports, as the engine sees them.
EXPORTS_SCRIPT = """
const held = {};
for (const path of process.argv.slice(1)) held[path] = Object.keys(await import(path)).sort();
process.stdout.write(JSON.stringify(held));
"""


class Parts(HTMLParser):
    """The elements of a page with their attributes, and the text of its scripts and styles."""

    def __init__(self, text):
        super().__init__()
        self.elements, self.texts, self.within = [], {"script": [], "style": []}, None
        self.feed(text)

    def handle_starttag(self, tag, attrs):
        self.elements.append((tag, dict(attrs)))
        self.within = tag if tag in self.texts else None

    def handle_endtag(self, tag):
        self.within = None

    def handle_data(self, data):
        if self.within:
            self.texts[self.within].append(data)


class PageFile(Case):
    """The page that `make web` writes."""

    @classmethod
    def setUpClass(cls):
        cls.module = Path(module_path())
        cls.wasm = cls.module.read_bytes()
        cls.text = web_page.page_text(cls.wasm)
        cls.parts = Parts(cls.text)

    def test_is_small_and_the_same_each_time(self):
        self.check("size", len(self.text.encode()) <= MOST_BYTES,
                   f"{len(self.text.encode()):,} bytes")
        with tempfile.TemporaryDirectory() as folder:
            path = Path(folder) / "page.html"
            code, written = run([sys.executable, "-m", "tools.web_page", "--module",
                                 str(self.module), "--page", str(path)], MOST_SECONDS)
            self.check("written", code == 0, written)
            self.check("same bytes", path.read_bytes() == self.text.encode())

    def test_holds_the_proved_code(self):
        found = re.search(r'openPage\("([A-Za-z0-9+/=]+)"\);', self.text)
        self.check("module", zlib.decompress(base64.b64decode(found[1])) == self.wasm)
        self.check("its digest", hashlib.sha256(self.wasm).hexdigest() in self.text)

    def test_policy_allows_its_own_bytes_and_no_connection(self):
        content = next(each["content"] for tag, each in self.parts.elements
                       if each.get("http-equiv") == "Content-Security-Policy")
        policy = dict(part.split(" ", 1) for part in content.split("; "))
        for name, due in POLICY.items():
            self.check(name, policy.pop(name, None) == due)
        digests = {kind: [f"'sha256-{digest(text)}'" for text in self.parts.texts[kind]]
                   for kind in ("script", "style")}
        self.check("scripts", policy.pop("script-src").split()
                   == [*digests["script"], "'wasm-unsafe-eval'"])
        self.check("styles", policy.pop("style-src").split() == digests["style"])
        self.check("nothing else", not policy, str(policy))
        before = [tag for tag, _ in self.parts.elements]
        self.check("before all content", before.index("meta") < before.index("style"))

    def test_stands_alone(self):
        for tag, attributes in self.parts.elements:
            for name in ("src", "href", "srcset", "action", "style", "onclick", "onload"):
                self.check(f"{tag} has no {name}", name not in attributes)

    def test_modules_export_the_same_names_in_the_page(self):
        code, written = run([node_path(), "--input-type=module", "-e", EXPORTS_SCRIPT,
                             *(str(path) for path in SOURCES)], MOST_SECONDS)
        self.assertEqual(code, 0, written)
        due = json.loads(written)
        for path in SOURCES:
            names = sorted(web_page.read_module(path).exports)
            self.check(path.name, names == due[str(path)], f"{names} and {due[str(path)]}")

    def test_bundle_gives_the_exports(self):
        names = {web_page.variable(each.path): list(each.exports) for each in self.modules()}
        shown = ", ".join(names)
        script = (f"{web_page.bundle()}\nconst held = {{ {shown} }};\n"
                  "process.stdout.write(JSON.stringify(Object.fromEntries(Object.entries(held)"
                  ".map(([name, each]) => [name, Object.keys(each).filter((key) => each[key] "
                  "!== undefined)]))));")
        with tempfile.TemporaryDirectory() as folder:
            path = Path(folder) / "bundle.js"
            path.write_text(script, encoding="utf-8")
            code, written = run([node_path(), str(path)], MOST_SECONDS)
        self.assertEqual(code, 0, written[-2_000:])
        self.check("names", json.loads(written) == names)

    def test_modules_use_nothing_that_leaves_the_page(self):
        for path in SOURCES:
            found = NOT_USED.search(path.read_text(encoding="utf-8"))
            self.check(path.name, found is None, f"{path.name} uses {found and found[0]}")

    def modules(self):
        """The modules of the page, in their order."""
        return web_page.modules_from(web_page.MAIN, {web_page.TABLES: web_page.tables_text()})


class Bundles(Case):
    """How modules become one text; what is not known is refused and not passed on."""

    def bundled(self, **texts):
        """The text of modules of these names, the last of which is the main one."""
        folder = ROOT / "web" / "src"
        held = {folder / f"{name}.js": text for name, text in texts.items()}
        order = web_page.modules_from(list(held)[-1], held)
        return "".join(map(web_page.in_a_function, order))

    def test_imports_come_first_and_once(self):
        text = self.bundled(low="export const a = 1;\n",
                            mid='import { a } from "./low.js";\nexport const b = a;\n',
                            top='import { a as c } from "./low.js";\n'
                                'import * as mid from "./mid.js";\nexport const d = c + mid.b;\n')
        order = re.findall(r"^const web_src_(\w+) = \(\(\)", text, re.MULTILINE)
        self.assertEqual(order, ["low", "mid", "top"])
        self.assertIn("const { a: c } = web_src_low;", text)
        self.assertIn("const mid = web_src_mid;", text)

    def test_refuses_what_it_does_not_know(self):
        for name, text in (("default", "export default 1;\n"), ("variable", "export let a = 1;\n"),
                           ("side effects", 'import "./other.js";\n'),
                           ("passed on", 'export { a } from "./other.js";\n')):
            self.rejects(name, web_page.BundleError, lambda: self.bundled(one=text))
        self.rejects("circle", web_page.BundleError, lambda: self.bundled(
            one='import { b } from "./two.js";\nexport const a = 1;\n',
            two='import { a } from "./one.js";\nexport const b = 1;\n'))


def digest(text):
    """The SHA-256 of a text, as policies write it."""
    return base64.b64encode(hashlib.sha256(text.encode()).digest()).decode()


if __name__ == "__main__":
    sys.exit(run_unit_tests(sys.modules[__name__]))
