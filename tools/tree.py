"""The tree as data: the crates, their public functions and theorems, and the wrong programs. tests/edits, tests/wrong and tools/generate read it here."""
import collections
import glob
import os
import re

ROOT = os.path.dirname(os.path.dirname(os.path.abspath(__file__)))
PARTS = ("src", "specs", "proofs")
# A wrong program: an .edit file. `kind` is its folder: must-fail is tried by `rt ci`, wrong by tests/wrong. `breaks` are statements that were seen to fail by it.
# `pairs` are (file, old text, new text).
Edit = collections.namedtuple("Edit", "crate kind name path sentence tries breaks pairs")


class Misfit(Exception):
    """An edit that does not fit the tree."""


def read(path):
    with open(os.path.join(ROOT, path), encoding="utf-8", newline="") as file:
        return file.read()


def crates():
    """What crates.txt lists: (group, crate, what it builds on). A group is the comment line above it; the first line of the file is its head."""
    listed, group = [], ""
    for line in read("crates.txt").splitlines()[1:]:
        if line.startswith("#"):
            group = line[1:].strip()
        elif ":" in line:
            name, below = line.split(":", 1)
            listed.append((group, name.split()[0], below.split()))
    return listed


def read_edit(path):
    """An .edit file by its path from the root: comment lines, then `file:`, `old:` and `new:` lines. A `file:` line holds for the pairs after it."""
    _, crate, kind, base = path.split("/")
    sentence, tries, breaks, pairs, name, old = "", [], [], [], "", ""
    for line in read(path).split("\n"):
        if line.startswith("# tries: "):
            tries += [one.strip() for one in line[9:].split(",") if one.strip()]
        elif line.startswith("# breaks: "):
            breaks += [one.strip() for one in line[10:].split(",") if one.strip()]
        elif line.startswith("# ") and not sentence:
            sentence = line[2:].strip()
        elif line.startswith("file: "):
            name = line[6:]
        elif line.startswith("old: "):
            old = line[5:]
        elif line.startswith("new:"):
            pairs.append((name, old, line[4:].removeprefix(" ")))
            old = ""
    return Edit(crate, kind, base[:-5], path, sentence, tries, breaks, pairs)


def edits():
    """Every wrong program, by crate in the order of crates.txt, then by name."""
    return [read_edit(os.path.relpath(path, ROOT)) for _, crate, _ in crates() for kind in ("must-fail", "wrong")
            for path in sorted(glob.glob(os.path.join(ROOT, "crates", crate, kind, "*.edit")))]


def edited(edit, folder):
    """The files of a crate in `folder` that an edit changes: {name: new text}. Its rules are those of `rt must-fail`."""
    texts = {}
    if not edit.pairs:
        raise Misfit("it has no pair of `old:` and `new:`")
    for name, old, new in edit.pairs:
        path = os.path.join(folder, name)
        if name.split("/")[0] not in PARTS or ".." in name.split("/") or not os.path.isfile(path):
            raise Misfit("no file of the crate: " + name)
        if name not in texts:
            with open(path, encoding="utf-8", newline="") as file:
                texts[name] = file.read()
        if not old or texts[name].count(old) != 1:
            raise Misfit("stands not once in %s: %s" % (name, old))
        texts[name] = texts[name].replace(old, new)
    return texts


def module_of(path, root):
    """crates/NAME/src/a/b.rt is NAME::a::b; lib.rt and main.rt are the crate itself."""
    crate, name = path.split("/")[1], os.path.relpath(path, "crates/%s/%s" % (path.split("/")[1], root))
    words = os.path.splitext(name)[0].split("/")
    return [crate] + [word for word in words if word not in ("lib", "main")]


def functions():
    """Every public function of the crates by the name that a caller writes: CRATE::MODULE::TYPE::FUNCTION, and CRATE::FUNCTION for C, which knows no module. A method of
    a trait is one, by the name of its type. Those of capi_c are capi's: tools/exports writes them."""
    found = []
    sources = sorted(os.path.relpath(path, ROOT) for path in glob.glob(os.path.join(ROOT, "crates/*/src/**/*.rt"), recursive=True))
    sources = [path for path in sources if not path.startswith("crates/capi_c/")]
    again = {}  # what a module hands on of a module inside it
    for path in sources:
        for start, group, one in re.findall(r"^pub use ([a-z0-9_:]*?)(?:\{([^}]*)\}|(\w+));", read(path), re.M):
            for inner in [start + name.strip() for name in (group or one).split(",") if name.strip()]:
                again["::".join(module_of(path, "src") + [inner])] = "::".join(module_of(path, "src") + [inner.split("::")[-1]])
    for path in sources:
        kind, promised = "", False
        for line in read(path).split("\n"):
            opened = re.match(r"impl (?:(\w+) for )?(\w+)", line)
            named = re.match(r'( *)(pub )?(extern "C" )?fn (\w+)', line)
            if opened:
                promised, kind = bool(opened[1]), opened[2]
            if named and (named[2] or named[1] and promised):
                words = module_of(path, "src")[:1] if named[3] else module_of(path, "src") + ([kind] if named[1] else [])
                whole = "::".join(words + [named[4]])
                found.append(again.get(whole, whole))
    return found


def statements():
    """Every public theorem and definition of the crates as CRATE::NAME."""
    found = set()
    for part in ("specs", "proofs"):
        for path in glob.glob(os.path.join(ROOT, "crates/*", part, "**/*.antt"), recursive=True):
            crate = os.path.relpath(path, ROOT).split("/")[1]
            names = re.findall(r"^ *(?:abbrev |unfoldable )?pub (?:record |data )?([^\s:]+)", read(path), re.M)
            found |= {crate + "::" + name for name in names if name not in ("mod", "use")}
    return found


def named(crate):
    """Every name that a crate's specs and proofs define, public or not."""
    found = set()
    for part in ("specs", "proofs"):
        for path in glob.glob(os.path.join(ROOT, "crates", crate, part, "**/*.antt"), recursive=True):
            found |= set(re.findall(r"^ *(?:abbrev |unfoldable )?(?:pub )?(?:record |data )?([^\s:(){}]+)(?: :| \(|$)", read(path), re.M))
    return found
