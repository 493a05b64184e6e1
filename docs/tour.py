#!/usr/bin/env python3
"""Runs the commands of README.md, docs/TOUR.md and docs/MESSAGES.md in a shell, and compares what they write with what stands below them.

Use: docs/tour.py [--build] PROGRAM TOP [DOCUMENT ..]

PROGRAM is a built `vax`, which comes first in PATH; TOP is the top of a checkout. A command is a line of four blanks and `$ `; the lines of four blanks
below it are what it writes, to standard output or standard error. The commands run in a folder of their own, with copies of the examples.
Commands that build with `rt` are left out unless `--build` is said; of these the lines below must be among the written ones, in order.
"""
import argparse
import difflib
import os
import re
import shutil
import subprocess
import sys
import tempfile

DOCUMENTS = ["README.md", "docs/TOUR.md", "docs/MESSAGES.md"]
SECONDS = 300
SECONDS_TO_BUILD = 6 * 3600


def commands(text):
    """The commands of a document, each with the lines that it is to write."""
    found, current = [], None
    for line in text.split("\n"):
        if line.startswith("    $ "):
            current = (line[6:], [])
            found.append(current)
        elif line.startswith("    ") and current:
            current[1].append(line[4:])
        else:
            current = None
    return found


def builds(command):
    return re.search(r"\brt (try|run|ci|check)\b", command) is not None


def script(found):
    """A script that runs the commands one after the other, with a mark behind what each writes."""
    lines = ["exec 2>&1"]
    for number, (command, _) in enumerate(found):
        # PATH has the program already.
        lines.append(re.sub(r"^PATH=\S+ ; ", "", command))
        lines.append("echo; echo '@@ %d @@'" % number)
    return "\n".join(lines) + "\n"


def written(found, folder, path, seconds):
    """What each command wrote; fewer where the shell ended."""
    environment = dict(os.environ, PATH=path + os.pathsep + os.environ["PATH"])
    shell = subprocess.run(["bash", "-c", script(found)], cwd=folder, env=environment, stdin=subprocess.DEVNULL,
                           stdout=subprocess.PIPE, timeout=seconds, check=False)
    rest, texts = shell.stdout.decode(errors="replace"), []
    for number in range(len(found)):
        text, mark, rest = rest.partition("\n@@ %d @@\n" % number)
        if not mark:
            break
        texts.append(text.rstrip("\n").split("\n") if text.rstrip("\n") else [])
    return texts


def agrees(command, wanted, got):
    if not builds(command):
        return wanted == got
    rest = iter(got)
    return all(line in rest for line in wanted)


def check(document, top, path, build):
    """Runs a document's commands, prints each difference, and answers how many passed and failed."""
    with open(os.path.join(top, document), encoding="utf-8") as file:
        found = commands(file.read())
    found = [one for one in found if build or not builds(one[0])]
    with tempfile.TemporaryDirectory() as folder:
        shutil.copytree(os.path.join(top, "crates/vax_examples/data"), os.path.join(folder, "examples"))
        os.symlink(os.path.join(top, "crates"), os.path.join(folder, "crates"))
        got = written(found, folder, path, SECONDS_TO_BUILD if build else SECONDS)
    passed = 0
    for number, (command, wanted) in enumerate(found):
        if number >= len(got):
            print("%s: %s\n  wasn't reached" % (document, command))
        elif agrees(command, wanted, got[number]):
            passed += 1
        else:
            print("%s: %s" % (document, command))
            for line in difflib.unified_diff(wanted, got[number], "written here", "written now", lineterm="", n=1):
                print("  " + line)
    return passed, len(found) - passed


def main():
    words = argparse.ArgumentParser(description=__doc__, formatter_class=argparse.RawDescriptionHelpFormatter)
    words.add_argument("--build", action="store_true", help="run the commands that build with rt too")
    words.add_argument("program", help="a built vax")
    words.add_argument("top", help="the top of a checkout")
    words.add_argument("documents", nargs="*", help="documents below the top (README.md, docs/TOUR.md)")
    given = words.parse_args()
    top = os.path.abspath(given.top)
    passed = failed = 0
    with tempfile.TemporaryDirectory() as path:
        os.symlink(os.path.abspath(given.program), os.path.join(path, "vax"))
        for document in given.documents or DOCUMENTS:
            good, bad = check(document, top, path, given.build)
            passed += good
            failed += bad
    print("%d passed, %d failed" % (passed, failed))
    return 1 if failed else 0


if __name__ == "__main__":
    sys.exit(main())
