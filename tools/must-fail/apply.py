"""apply.py CRATE EDIT: makes the edit in the crate's folder. Each `old:` text stands exactly once in its file."""
import pathlib
import sys

crate, edit = map(pathlib.Path, sys.argv[1:3])
path = old = None
for line in edit.read_text().splitlines():
    if line.startswith("file: "):
        path = crate / line[6:]
    elif line.startswith("old: "):
        old = line[5:]
    elif line.startswith("new: "):
        text = path.read_text()
        if text.count(old) != 1:
            sys.exit(f"{edit}: {text.count(old)} places have {old!r} in {path.name}")
        path.write_text(text.replace(old, line[5:]))
