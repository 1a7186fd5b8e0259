#!/usr/bin/env python3
"""Gives the names of specs/ and proofs/ their spelling in snake case, by the rows of spelling.tsv: old, new and, where it doesn't hold everywhere,
'in' or 'not in' and the files. Rows behind the empty line are for pages and must-fail edits alone: names that the sources have in the new spelling already.

usage: tools/spelling.py [FOLDER]        at the top of the repository, or with its FOLDER

Whole words turn: in .antt files, in clauses and ghost items of .rt files, in the lines old: and new: of must-fail edits, and in code spans and blocks of
.md files. In prose, comments included, only names with a capital inside a word turn. Strings and Rust's own names stay. Run it once, over the old names: some new ones are old ones of others.
"""
import pathlib
import re
import sys

WORD = re.compile(r'[^\s(){}.;,@"«»`\[\]|/:*…’#]+')
CAMEL = re.compile(r"[a-z0-9'][A-Z]")
SPAN = re.compile(r"(`+)(?:[^\n]|\n(?!\s*\n))*?\1")
FENCE = re.compile(r"^( *)(`{3,})[^\n`]*\n.*?^\1\2 *$", re.S | re.M)
QUIET = {".antt": re.compile(r'(?P<string>"(?:[^"\\\n]|\\.)*")|(?<![^\s(){}.;,@"])--[^\n]*|\{-.*?-\}', re.S), ".rt": re.compile(r'(?P<string>b?"(?:\\.|[^"\\])*"|b?\'(?:\\.|[^\'\\])\')|//[^\n]*')}


def split(pattern, text, on, off):
    """text with on(match) for each match of pattern, and off(text) for what lies between."""
    out, at = [], 0
    for m in pattern.finditer(text):
        out += [off(text[at : m.start()]), on(m)]
        at = m.end()
    return "".join(out + [off(text[at:])])


class Names:
    def __init__(self, table, path):
        """The names that turn in the file at path."""
        self.names = {}
        page = path.endswith((".md", ".edit"))
        for old, new, where, late in table:
            files = where.removeprefix("not ").removeprefix("in ").split()
            holds = path not in files if where.startswith("not ") else path in files if where else True
            if (page or not late) and holds:
                self.names[old] = new

    def code(self, text):
        return WORD.sub(lambda m: self.names.get(m[0], m[0]), text)

    def prose(self, text):
        return WORD.sub(lambda m: self.names.get(m[0], m[0]) if CAMEL.search(m[0]) else m[0], text)

    def comment(self, text):
        return split(SPAN, text, lambda m: self.code(m[0]), self.prose)

    def source(self, text, kind):
        return split(QUIET[kind], text, lambda m: m[0] if m["string"] else self.comment(m[0]), self.code)

    def edit(self, text):
        return re.sub(r"(?m)^((?:old|new):)(.*)$", lambda m: m[1] + self.code(m[2]), text)

    def page(self, text):
        return split(FENCE, text, lambda m: self.code(m[0]), lambda t: split(SPAN, t, lambda m: self.code(m[0]), lambda x: x))


def rows(path):
    table, late = [], False
    for row in path.read_text(encoding="utf-8").split("\n"):
        late = late or not row
        if row:
            table.append((*(row.split("\t") + [""])[:3], late))
    return table


def main():
    top = pathlib.Path(sys.argv[1] if len(sys.argv) > 1 else ".").resolve()
    table = rows(pathlib.Path(__file__).resolve().with_name("spelling.tsv"))
    for p in sorted(top.rglob("*")):
        path = str(p.relative_to(top))
        if p.suffix not in (".antt", ".rt", ".edit", ".md") or not p.is_file() or {"out", "target", ".git"} & set(path.split("/")):
            continue
        names, text = Names(table, path), p.read_text(encoding="utf-8")
        new = names.source(text, p.suffix) if p.suffix in QUIET else names.edit(text) if p.suffix == ".edit" else names.page(text)
        if new != text:
            p.write_text(new, encoding="utf-8")


main()
