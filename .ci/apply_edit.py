"""Applies a must-fail edit to a crate: usage: apply_edit.py EDIT CRATE_FOLDER"""

import pathlib
import sys

edit, folder = sys.argv[1:]
place, old = None, None
for line in pathlib.Path(edit).read_text(encoding="utf-8").splitlines():
    if line.startswith("file: "):
        place = pathlib.Path(folder, line[6:])
    elif line.startswith("old: "):
        old = line[5:]
    elif line.startswith("new: "):
        text = place.read_text(encoding="utf-8")
        if text.count(old) != 1:
            sys.exit(f"{edit}: an old text stands {text.count(old)} times")
        place.write_text(text.replace(old, line[5:]), encoding="utf-8")
