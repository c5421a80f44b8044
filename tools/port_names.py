#!/usr/bin/env python3
"""Spells the project's definitions and lemmas as today's Rattle does: words in snake case, types and modules in camel case.

usage: tools/port_names.py    at the top of a checkout in which port.py ran; rewrites crates/ (.rt, .antt, .edit) and the documents in place, by the table port_names.tsv

A row is an old name and its new one. A lemma that would fall together with a definition's new name ends in _lem, in the files that declare or import it. In .rt files
only clauses and comments have such names: functions, strings and exported names stay.
"""
import os
import re
import sys

HERE = os.path.dirname(os.path.realpath(__file__))
TOKEN = re.compile(r"(?<![\w'′·-])([a-z][\w'′]*(?:-[\w'′]+)*)(?![\w'′·-])")
# A lemma's name, and the end of the module that declares it.
LEMMAS = [
    ("four_bytes", "line_up/proofs/keep/Cells"),
    ("is_digit", "leap_lists/proofs/lines/digits/Proof"),
    ("last_digits", "leap_lists/proofs/Back"),
    ("one_more", "line_listing/proofs/laws/Looks"),
    ("out_line", "line_listing/proofs/laws/SummaryCases"),
    ("plain_end", "utc_scales/proofs/round_trip/Monotone"),
    ("rows_in", "leap_table/proofs/rows/ByParts"),
    ("same_sign", "leap_days/proofs/drift/Tests"),
    ("text_at", "stamps/proofs/listing_laws/Longest"),
    ("two_digits", "parsing_laws/proofs/Heads"),
]


def table():
    with open(os.path.join(HERE, "port_names.tsv"), encoding="utf-8") as f:
        return dict(line.rstrip("\n").split("\t") for line in f)


def imports(text, module, name):
    """Whether a use line of the text brings the name from the module."""
    for it in re.finditer(re.escape(module) + r"\.\{([^}]*)\}", text):
        if name in re.split(r"[\s,]+", it[1]):
            return True
    return False


def with_lemmas(path, text):
    for name, place in LEMMAS:
        module = "Rattle." + place.replace("/", ".")
        if path.endswith(place + ".antt") or imports(text, module, name):
            text = re.sub(rf"(?<![\w'.·-]){name}(?![\w'·-])", name + "_lem", text)
    return text


def turned(names, text):
    return TOKEN.sub(lambda m: names.get(m[1], m[1]), text)


def in_quotes(names, text):
    """The text with each name between backquotes turned."""
    return re.sub(r"`[^`\n]*`", lambda m: turned(names, m[0]), text)


def prose(names, text):
    """A comment: a name between backquotes turned, and elsewhere those in camel case alone, since a word of prose may have a dash."""
    camel = {old: new for old, new in names.items() if "-" not in old}
    return in_quotes(names, turned(camel, text))


def by_parts(names, text, sign):
    """The text of code with the names turned, but in strings; its comments begin with the sign."""
    parts = re.split(r'("(?:\\.|[^"\\\n])*"|' + sign + r"[^\n]*)", text)
    return "".join(turned(names, it) if k % 2 == 0 else it if it[0] == '"' else prose(names, it) for k, it in enumerate(parts))


def antt(names, text):
    return by_parts(names, text, "--")


def rust(names, text):
    return by_parts(names, text, "//")


def edit(names, text):
    """A wrong program: lines of code, which are .antt's or .rt's, and comments behind #."""
    lines = [prose(names, it) if it.startswith("#") else by_parts(names, it, "(?:--|//)") for it in text.split("\n")]
    return "\n".join(lines)


def main():
    names = table()
    for top in ("crates", "docs", "tests"):
        for folder, dirs, files in os.walk(top):
            dirs[:] = sorted(d for d in dirs if d not in ("out", ".git"))
            for file in sorted(files):
                path = os.path.join(folder, file)
                how = {".antt": antt, ".rt": rust, ".edit": edit, ".md": in_quotes}.get(os.path.splitext(file)[1])
                if how is None or top != "crates" and how is not in_quotes:
                    continue
                with open(path, encoding="utf-8") as f:
                    text = f.read()
                new = how(names, with_lemmas(path, text) if how is antt else text)
                if new != text:
                    with open(path, "w", encoding="utf-8") as f:
                        f.write(new)
    for path in ("README.md",):
        with open(path, encoding="utf-8") as f:
            text = f.read()
        with open(path, "w", encoding="utf-8") as f:
            f.write(in_quotes(names, text))


if __name__ == "__main__":
    sys.exit(main())
