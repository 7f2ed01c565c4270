#!/usr/bin/env python3
"""Checks that each must-fail edit that names a fact ('# fact: NAME') is refused at that fact itself, and not only at what is built on it
or for a name that it took away.

    python3 tools/edit_facts.py [--all] [--logs FOLDER] [CRATE..]

rt says only the first line of what refuses an edit. So each edit is applied to a copy of the crates, in a temporary folder, and checked there:
a line 'error: `NAME`:' of the check, or one of a goal 'NAME' that is not proved, shows the fact. --all tries the edits that name no fact too,
and wants them refused; --logs keeps what each check said. The last line is 'N passed, M failed', and the status is 0 only if M is 0.
"""
import glob
import os
import re
import shutil
import subprocess
import sys
import tempfile

TOP = os.path.dirname(os.path.dirname(os.path.abspath(__file__)))
PARTS = ("src", "specs", "proofs")
# What antt says of a name that an edit took away.
GONE = re.compile(r": error: .*(has no `|has no field|is not in scope)")


def lay_out(room):
    """Copies what a check reads."""
    shutil.copy(f"{TOP}/crates.txt", room)
    for folder in glob.glob(f"{TOP}/crates/*/"):
        for part in PARTS:
            if os.path.isdir(folder + part):
                shutil.copytree(folder + part, f"{room}/crates/{os.path.basename(folder[:-1])}/{part}")


def read(edit):
    """Returns the name of the fact, or None, and the pairs of texts with their files."""
    fact, pairs, file, old = None, [], None, None
    with open(edit, encoding="utf-8") as lines:
        for line in lines.read().split("\n"):
            if line.startswith("# fact: "):
                fact = line[len("# fact: ") :].strip()
            elif line.startswith("file: "):
                file = line[len("file: ") :].strip()
            elif line.startswith("old: "):
                old = line[len("old: ") :]
            elif line.startswith("new: "):
                pairs.append((file, old, line[len("new: ") :]))
    return fact, pairs


def changed(crate, pairs):
    """Applies the pairs in the copy, and returns what the files held before."""
    before = {}
    for file, old, new in pairs:
        path = f"{crate}/{file}"
        with open(path, encoding="utf-8") as it:
            text = it.read()
        before.setdefault(path, text)
        if text.count(old) != 1:
            raise ValueError(f"an old text stands {text.count(old)} times in {file}: {old}")
        with open(path, "w", encoding="utf-8") as it:
            it.write(text.replace(old, new))
    return before


def check(crate):
    ran = subprocess.run(["rt", "check"], cwd=crate, stdin=subprocess.DEVNULL, stdout=subprocess.PIPE, stderr=subprocess.STDOUT, errors="replace")
    return ran.returncode, ran.stdout


def is_refused(said, status, fact):
    """Returns whether the check refuses the edit at the fact, or anywhere where none is named, and no proof only misses a name."""
    if status != 1 or "logic=not-proved" not in said or GONE.search(said):
        return False
    # (what is only built on the fact is 'not checked', in a line of another form)
    return fact is None or bool(re.search(rf"error: `{re.escape(fact)}`:|not proved .*\(`{re.escape(fact)}`\)", said))


def tried(crate, edit, logs):
    """Returns whether the edit is refused where it says, and prints it if not."""
    fact, pairs = read(edit)
    name = os.path.relpath(edit, TOP)
    before = {}
    try:
        before = changed(crate, pairs)
        status, said = check(crate)
    except ValueError as error:
        print(f"FAILED: {name}: {error}", flush=True)
        return False
    finally:
        for path, text in before.items():
            with open(path, "w", encoding="utf-8") as it:
                it.write(text)
    if logs:
        kept = f"{logs}/{name.replace('/', '_')}.log"
        with open(kept, "w", encoding="utf-8") as it:
            it.write(said)
    good = is_refused(said, status, fact)
    print(f"{name}: refused at {fact or 'its crate'}" if good else f"FAILED: {name} is not refused at {fact or 'its crate'}", flush=True)
    return good


def main(words):
    every = "--all" in words
    logs = None
    if "--logs" in words:
        logs = words[words.index("--logs") + 1]
        os.makedirs(logs, exist_ok=True)
    names = [it for it in words if not it.startswith("--") and it != logs]
    passed = failed = 0
    with tempfile.TemporaryDirectory(prefix="edit-facts-") as room:
        lay_out(room)
        for edit in sorted(glob.glob(f"{TOP}/crates/*/must-fail/*.edit")):
            crate = os.path.basename(os.path.dirname(os.path.dirname(edit)))
            if (names and crate not in names) or not (every or read(edit)[0]):
                continue
            if tried(f"{room}/crates/{crate}", edit, logs):
                passed += 1
            else:
                failed += 1
    print(f"{passed} passed, {failed} failed")
    return 1 if failed or not passed else 0


if __name__ == "__main__":
    sys.exit(main(sys.argv[1:]))
