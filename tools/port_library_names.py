#!/usr/bin/env python3
"""Gives a library's names back their spelling where tools/port_names.py took them for the project's own.

usage: tools/port_library_names.py    at the top of a checkout in which tools/port_names.py ran

A name that a file brings from a library is the library's in all of that file.
"""
import os
import re

HERE = os.path.dirname(os.path.realpath(__file__))
USE = re.compile(r"(?m)^((?:ghost )?use )([\w.'·-]+)\.\{([^}]*)\}")


def main():
    with open(os.path.join(HERE, "port_names.tsv"), encoding="utf-8") as f:
        back = {new: old for old, new in (line.rstrip("\n").split("\t") for line in f)}
    own = set(os.listdir("crates"))
    for folder, dirs, files in os.walk("crates"):
        dirs[:] = sorted(d for d in dirs if d != "out")
        for file in sorted(files):
            if not file.endswith((".antt", ".rt")):
                continue
            path = os.path.join(folder, file)
            with open(path, encoding="utf-8") as f:
                text = f.read()
            theirs = set()
            for it in USE.finditer(text):
                steps = it[2].split(".")
                if steps[0] != "Rattle" or steps[1] not in own:
                    theirs.update(name for name in re.split(r"[\s,]+", it[3]) if name in back)
            new = text
            for name in sorted(theirs):
                new = re.sub(rf"(?<![\w'·-]){re.escape(name)}(?![\w'·-])", back[name], new)
            if new != text:
                print(path, *sorted(theirs))
                with open(path, "w", encoding="utf-8") as f:
                    f.write(new)


if __name__ == "__main__":
    main()
