"""What the pages share: the document with its style, tables, and lists of facts."""

from html import escape
from typing import Sequence
from unicodedata import category

# Control characters and halves of characters.
NO_TEXT = ("Cc", "Cs")
STYLE = """
:root { color-scheme: light; }
body { font: 15px/1.4 system-ui, sans-serif; color: #1c2430; background: #fff; max-width: 50rem;
  margin: 0 auto; padding: 1.25rem 1rem; }
h1 { font-size: 1.45rem; margin: 0 0 .25rem; overflow-wrap: anywhere; }
h2 { font-size: 1.1rem; margin: 1.5rem 0 .4rem; border-bottom: 1px solid #c9d0d8; }
h3 { font-size: .95rem; margin: .25rem 0; font-weight: 600; }
p { margin: .4rem 0; }
.verdict { font-size: 1.1rem; font-weight: 600; }
.good { color: #14532d; } .bad { color: #9a1b1b; } .open { color: #6b4a00; }
table { border-collapse: collapse; width: 100%; margin: .4rem 0 .8rem;
  font-variant-numeric: tabular-nums; }
caption { text-align: left; color: #4a5563; font-size: .9rem; padding-bottom: .2rem; }
th, td { padding: .18rem .5rem .18rem 0; border-bottom: 1px solid #e3e7ec; text-align: left;
  vertical-align: top; font-weight: 400; }
thead th { font-weight: 600; vertical-align: bottom; }
.number { text-align: right; padding-right: 0; padding-left: .5rem; }
td.number { white-space: nowrap; }
.facts th { width: 9rem; color: #4a5563; }
.hash { overflow-wrap: anywhere; font-family: ui-monospace, monospace; font-size: .85rem; }
.note { color: #4a5563; font-size: .9rem; }
.charts { display: grid; gap: .25rem 1.25rem;
  grid-template-columns: minmax(0, 1fr) minmax(0, 1fr); }
svg { width: 100%; height: auto; display: block; }
svg text { font: 12px system-ui, sans-serif; fill: #1c2430; }
svg .unit { fill: #4a5563; }
.grid { stroke: #dde2e8; stroke-width: 1; } .axis { stroke: #4a5563; stroke-width: 1; }
.line0, .line1 { fill: none; stroke-width: 2; stroke-linejoin: round; }
.line0 { stroke: #12406f; } .line1 { stroke: #d9692a; stroke-dasharray: 5 3; }
.fill0 { fill: #12406f; } .fill1 { fill: #f2b27a; }
.fill2 { fill: #b9d3ea; stroke: #12406f; stroke-width: .6; }
section { break-inside: avoid; }
@media screen and (max-width: 36rem) {
  body { font-size: 14px; padding: .75rem; } .charts { grid-template-columns: minmax(0, 1fr); }
  .number { padding-left: .3rem; } .facts th { width: 6.5rem; }
  .stack thead { display: none; } .stack tr { display: block; border-bottom: 1px solid #c9d0d8; }
  .stack th, .stack td { display: flex; justify-content: space-between; border: 0;
    padding: .1rem 0; }
  .stack tbody th { font-weight: 600; } .stack td::before { content: attr(data-label); }
}
@media print {
  @page { size: A4; margin: 14mm; }
  html { font-size: 9.5pt; } body { max-width: none; padding: 0; font-size: 1rem; }
  h2, h3 { break-after: avoid; } h2 { margin-top: 1rem; }
}
"""


def document(title: str, sections: Sequence[str]) -> str:
    """A page that stands alone."""
    return "\n".join([
        '<?xml version="1.0" encoding="utf-8"?>', "<!DOCTYPE html>",
        '<html xmlns="http://www.w3.org/1999/xhtml" lang="en">', "<head>",
        '<meta charset="utf-8"/>',
        '<meta name="viewport" content="width=device-width, initial-scale=1"/>',
        f"<title>{text(title)}</title>", f"<style>{STYLE}</style>", "</head>", "<body>", *sections,
        "</body>", "</html>", ""])


def text(words: str) -> str:
    """Words as they may stand in a page: what is no character of a text is marked."""
    shown = "".join("\ufffd" if is_no_text(letter) else letter for letter in words)
    return escape(shown, quote=False).replace('"', "&quot;")


def is_no_text(letter: str) -> bool:
    """Whether it is no character of a text, in every version of Unicode: what is not assigned in
    one of them may be in the next."""
    code = ord(letter)
    is_never_assigned = 0xFDD0 <= code <= 0xFDEF or code & 0xFFFE == 0xFFFE
    return is_never_assigned or category(letter) in NO_TEXT


def section(title: str, *parts: str) -> str:
    """A heading with what belongs to it, kept on one printed page where it fits."""
    return "\n".join([f"<section><h2>{text(title)}</h2>", *parts, "</section>"])


def note(words: str) -> str:
    """A remark."""
    return f'<p class="note">{text(words)}</p>'


def element(tag: str, words: str, **attributes: str) -> str:
    """An element with its attributes; an empty attribute is left out."""
    given = "".join(f' {name.rstrip("_").replace("_", "-")}="{text(value)}"'
                    for name, value in attributes.items() if value)
    return f"<{tag}{given}>{text(words)}</{tag}>"


def table(caption: str, headings: Sequence[str], rows: Sequence[Sequence[str]],
          kind: str = "") -> str:
    """A table whose first column names the row and whose others are numbers."""
    top = "".join(element("th", cell, scope="col", class_="number" if at else "")
                  for at, cell in enumerate(headings))
    body = []
    for name, *cells in rows:
        numbers = "".join(element("td", cell, class_="number", data_label=heading)
                          for heading, cell in zip(headings[1:], cells))
        body.append(f"<tr>{element('th', name, scope='row')}{numbers}</tr>")
    return "\n".join([f'<table class="{kind or "plain"}">', element("caption", caption),
                      f"<thead><tr>{top}</tr></thead>", "<tbody>", *body, "</tbody></table>"])


def facts(caption: str, rows: Sequence[tuple[str, str]]) -> str:
    """Names with their values; a SHA-256 may be broken anywhere."""
    body = [f"<tr>{element('th', name, scope='row')}"
            f"{element('td', held, class_='hash' if len(held) == 64 else '')}</tr>"
            for name, held in rows]
    return "\n".join(['<table class="facts">', element("caption", caption), "<tbody>", *body,
                      "</tbody></table>"])


def items(lines: Sequence[str]) -> str:
    """A list."""
    return "\n".join(["<ul>", *(f"<li>{text(line)}</li>" for line in lines), "</ul>"])


def charts(parts: Sequence[str]) -> str:
    """Charts in two columns, in one on a narrow screen."""
    return "\n".join(['<div class="charts">', *parts, "</div>"])


def captioned(title: str, chart: str) -> str:
    """A chart below its title."""
    return f"<section>{element('h3', title)}\n{chart}</section>"
