#!/usr/bin/env python3
"""Tries the edits crates/NAME/must-not-compile/*.edit: the compiler must refuse each, with the error that the edit names.

They are those that never reach the prover, so that `rt must-fail` calls them bad: a linear value that is let go, or used after it
has moved. Each has a line `error: CODE`, a line `file: PATH`, and one pair of lines `old: TEXT` and `new: TEXT`.
Each is tried on a copy, once the crate has passed `rt check`.
"""

import pathlib
import shutil
import subprocess
import sys
import tempfile

TOP = pathlib.Path(__file__).resolve().parent.parent


def listed_files():
    command = ["git", "ls-files", "--cached", "--others", "--exclude-standard", "-z"]
    names = subprocess.run(command, cwd=TOP, capture_output=True, check=True, text=True).stdout
    return [name for name in names.split("\0") if name and (TOP / name).is_file()]


def copy_into(folder):
    for name in listed_files():
        (folder / name).parent.mkdir(parents=True, exist_ok=True)
        shutil.copy2(TOP / name, folder / name)


def read_edit(path):
    lines = path.read_text().splitlines()
    return {key: text for key, text in (line.split(": ", 1) for line in lines if ": " in line)}


def said_of(edit, crate, folder):
    place = folder / "crates" / crate / edit["file"]
    text = place.read_text()
    if text.count(edit["old"]) != 1:
        return "the old text does not stand there once"
    place.write_text(text.replace(edit["old"], edit["new"]))
    ran = subprocess.run(["rt", "check"], cwd=folder / "crates" / crate, capture_output=True, text=True)
    return ran.stdout + ran.stderr


def refused(path):
    crate = path.parent.parent.name
    edit = read_edit(path)
    with tempfile.TemporaryDirectory() as name:
        folder = pathlib.Path(name)
        copy_into(folder)
        said = said_of(edit, crate, folder)
    errors = [line for line in said.splitlines() if " error[" in line]
    passed = any(f"error[{edit['error']}]" in line and line.startswith(edit["file"]) for line in errors)
    print(f"{crate}/{path.name}: " + ("refused: " + errors[0] if passed else "NOT REFUSED AS IT SHOULD BE\n" + said))
    return passed


edits = sorted(TOP.glob("crates/*/must-not-compile/*.edit"))
sys.exit(0 if all([refused(path) for path in edits]) else 1)
