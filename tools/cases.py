#!/usr/bin/env python3
"""Makes crates/umpire_cases/stdout from the answers of a reference program: python3 tools/cases.py REFERENCE

REFERENCE is a Python program with the commands, statuses, texts and files of umpire. It is run for each command line of
each folder that crates/umpire_cases/data/cases names, in a copy of that folder. Where a folder has a file `told`, that is
what is written for its lines, and the reference program isn't asked: it knows commands that umpire refuses, and its
numbers have no bound, so that a number out of range, with its place, was worked out step by step.
"""
import os
import shutil
import subprocess
import sys
import tempfile

CRATE = os.path.join(os.path.dirname(os.path.abspath(__file__)), "..", "crates", "umpire_cases")
# These tell the reference program to keep the rules that umpire has.
SETTINGS = {"UMPIRE_PENALTIES": "0", "UMPIRE_READ": "1", "UMPIRE_TREE": "1", "UMPIRE_ROWARCS": "0"}


def content(path):
    """The bytes of a file, or None where there is none."""
    if not os.path.isfile(path):
        return None
    with open(path, "rb") as file:
        return file.read()


def counted(what, data):
    return b"-- %s, %d bytes\n" % (what.encode(), len(data)) + data


def answer(reference, room, words):
    """What is written for one command line."""
    before = {word: content(os.path.join(room, word)) for word in words}
    ran = subprocess.run([sys.executable, reference, *words], cwd=room, env={**os.environ, **SETTINGS},
                         stdin=subprocess.DEVNULL, stdout=subprocess.PIPE, stderr=subprocess.DEVNULL, check=False)
    told = b"-- status %d\n" % ran.returncode + counted("output", ran.stdout)
    for word in dict.fromkeys(words):
        after = content(os.path.join(room, word))
        if after is not None and after != before[word]:
            told += counted(word, after)
    return told


def folder(reference, name):
    """What is written for one folder."""
    source = os.path.join(CRATE, "data", name)
    told = content(os.path.join(source, "told"))
    if told is not None:
        return told
    told = b""
    with tempfile.TemporaryDirectory() as top:
        room = os.path.join(top, "room")
        shutil.copytree(source, room)
        for line in content(os.path.join(source, "words")).decode().splitlines():
            told += b"== %s: %s\n" % (name.encode(), line.encode()) + answer(reference, room, line.split(" "))
    return told


def main():
    if len(sys.argv) != 2:
        sys.exit(__doc__)
    reference = os.path.abspath(sys.argv[1])
    names = content(os.path.join(CRATE, "data", "cases")).decode().splitlines()
    told = b"".join(folder(reference, name) for name in names)
    with open(os.path.join(CRATE, "stdout"), "wb") as file:
        file.write(told)


if __name__ == "__main__":
    main()
