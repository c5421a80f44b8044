"""Grades the log of `rattle check` on a wrong program: why was it refused?

  shown  a fact is seen to fail: omega has a counter-example, or two sides of a statement compute to different values or fields
  open   a fact is not proved: terms differ, or search finds no proof. A right program that is written otherwise is refused so too (`t + (-1.0)` for
         `t - 1.0`), so that this rests on the author of the edit
  form   nothing but names, shapes, a call's premise, or a bound of the prover's own: refused for how its proof is written
  NOT    the crate is still proved, or the edit never reached the prover

The patterns are those of the messages of the kit that README.md names. An error of no known kind is told as form, with its text.
"""
import glob
import os
import re

import tree

ERROR = re.compile(r"^(?P<where>\S+?:\d+:\d+): error(?:\[[^\]]*\])?: (?:`(?P<decl>[^`]*)`: )?(?P<text>.*)$")
MADE = re.compile(r"^note: (?P<where>\S+?:\d+:\d+): it is not proved that (?P<text>.*) \(`(?P<decl>[^`]*)`\)(?P<more>;.*)?$")
GOAL = re.compile(r"^note: `(?P<decl>[^`]*)` of \S+ must prove: (?P<goal>.*)$")  # what was not proved, of a declaration of the line before
MISSING = re.compile(r"^fn (?P<decl>\S+): no proof: expected `[^`]*` in (?P<where>\S+?)(?P<rest>;.*)?$")
FOLLOWS = re.compile(r"was not admitted|which was rejected, w(?:as|ere) not checked")  # an error that only follows from another
PREMISE = re.compile(r"-requires(-\d+)?$")  # a declaration that is the premise of a call
ONE, OTHER = r"`([^`]*)`\s*\((?:expected|left)\)", r"`([^`]*)`\s*\((?:found|right)\)"
APART = r"the two (?:types|sides|values) (?:differ only|first differ) where one has " + ONE + r".*?the other has " + OTHER
COMPUTED = re.compile(r"computed as far as they go, " + APART, re.S)
WHOLE = re.compile(r"computed as far as they go, the two (?:types|sides|values) are " + ONE + " and " + OTHER, re.S)
PRINTED = re.compile(r"(?:as printed|compared part by part), " + APART, re.S)
EXPECTED = re.compile(r"expected type `([^`]*)`, but this has type `([^`]*)`")
BEGUN = re.compile(r"but this has type `([^`]*)`.*?the expected one begins `([^`]*)`", re.S)
KINDS = re.compile(r"^\(?(?:mathlib\.Core\.Path\.|Prim\.Native\.Nat\.)?(?:◌≡◌|◌≤◌|◌<◌|◌×◌|◌⊎◌|Path|Σ)(?![\w·.-])")
INFIX = ("→", "⊎", "×", "≡", "≤", "<")  # the operators between two terms, the loosest first
CLOSED = re.compile(r"^(?:[\d\s(){}=;,∷]|\[\]|\b(?:pos|negsuc|suc|true|false|nan|inf|fin|refusal|answer|of_bits|binary64|record)\b"
                    r"|(?:[\w·«»-]+\.)+(?=[^\s.])|[A-Z]\w*)+$")
FIELD = re.compile(r"^\(?\w+\.args\.[\w«».-]+\)?$")  # a parameter, or a field of one
MORE = re.compile(r"^\(?(?:[\w.]*\.)?(?:◌\+◌ (?P<sum>\S+) [1-9]\d*|suc (?P<next>[^\s()]+))\)?$")  # a number and one above it
SHOWN = r"does not follow from what it read|the (?:goal|part) fails, at"
BY_FORM = [  # what to call it, and what the error says
    ("a need that is not there any more", r"has no `Need-[^`]*` that can be named|expected a type, but `[^`]*Need-"),
    ("a step of the code that is not there any more", r"record `[^`]*\.Lts\.[^`]*` has no field|module `[^`]*\.Tie` has no `"),
    ("a name that is missing", r"that can be named from here|not in scope|does not define it|has no field|unknown|unbound"),
    ("a bound of the prover's own", r"stopped at a bound|met a bound of its own|ran out of|out of steps|gave up"),
    ("a rewriting step that does not apply", r"no occurrence of the path's|no equation of the list has an instance"),
    ("arguments that do not fit", r"too many arguments|too few arguments|is not a function|expected a type"),
    ("a term left undetermined", r"could not determine|cannot be determined|unsolved"),
]
NUMERAL = re.compile(r"(?<![\w.])\d+(?![\w.])")
LEFT = re.compile(r"must be a path whose two ends are equal, and `([^`]*)`\s+is none", re.S)


def errors(log):
    """What the log has against the crate: [where, declaration, text with the lines that belong to it, kind]."""
    found, last = [], None
    for line in log.split("\n"):
        error, made, missing = ERROR.match(line), MADE.match(line), MISSING.match(line)
        if last and line.startswith("  "):
            last[2] += "\n" + line
            continue
        last = None
        if error:
            last = [error["where"], error["decl"] or "", error["text"], "error"]
            found.append(last)
        elif made:
            found.append([made["where"], made["decl"], made["text"] + (made["more"] or ""), "made"])
        elif GOAL.match(line):
            found += [[one[0], one[1], "the goal is " + GOAL.match(line)["goal"], "made"] for one in found if one[3] == "made" and one[1] == GOAL.match(line)["decl"]][-1:]
        elif missing and "does not close" not in (missing["rest"] or ""):
            found.append([missing["where"], missing["decl"], "there is no proof", "missing"])
    return [one for one in found if not FOLLOWS.search(one[2].split("\n")[0])]


# A name that rattle made of a condition of the code, which the edit took away, and those that are there.
NEED = re.compile(r"has no `(?P<first>Need-\S*?-(?:then|else)-)(?P<old>\S+)` that can be named from here (?P<rest>.*)")
BRANCH = re.compile(r"has no field `(?P<first>if-)(?P<old>\S+)` \(nearest: (?P<rest>.*)")


def renamed(log, text):
    """The names of conditions that are gone where the file `text` has them, each with what stands there in the edited code: {old: new}. That is the one that the file
    does not know; others are of other conditions."""
    found = {}
    has = lambda name: re.search(r"-%s(?![\w-])" % re.escape(name), text)
    for line in log.split("\n"):
        gone = NEED.search(line) or BRANCH.search(line)
        if gone and has(gone["old"]):
            there = set(re.findall(r"(?<=[.`])" + re.escape(gone["first"]) + r"([^\s,`)]+)", gone["rest"]))
            brought = [name for name in there if not has(name)]
            if len(brought) == 1:
                found[gone["old"]] = brought[0]
    return found


def with_names(log, texts, folder):
    """The proof files of the errors in a crate's folder, by name, with the names of the edited conditions in the place of those that are gone; nothing where there are
    none. `texts` has those that are changed already."""
    changed = {}
    for path in sorted({one[0].split(":")[0].removeprefix("./") for one in errors(log)}):
        if path.startswith("proofs/") and os.path.isfile(os.path.join(folder, path)):
            new = text = texts[path] if path in texts else tree.read(os.path.join(folder, path))
            for old, name in renamed(log, text).items():
                new = re.sub(r"-%s(?![\w-])" % re.escape(old), lambda _, name=name: "-" + name, new)
            if new != text:
                changed[path] = new
    return changed


def by_place(old, new):
    """The names that rattle makes of a function's goals, places and steps that an edit changed, from its lists for the crate as it is and as it is edited:
    {path of the function's proofs: {old: new}}. Those of one place are the same, whatever they are called; a function of another shape is left out."""
    found = {}
    for key, was in old.items():
        now = new.get(key)
        if "needs" not in was or now is None or any(len(was[part]) != len(now[part]) for part in ("needs", "places")):
            continue
        pairs = [("Need-" + one[1], "Need-" + other[1]) for one, other in zip(was["needs"], now["needs"])]
        pairs += [("goal." + one[1], "goal." + other[1]) for one, other in zip(was["needs"], now["needs"])]
        pairs += [("tie." + one, "tie." + other) for one, other in zip(was["places_by_name"], now["places_by_name"])]
        pairs += [("." + one[2][1], "." + other[2][1]) for one, other in zip(was["places"], now["places"]) if one[2][1]]
        names = {one: other for one, other in pairs}
        if any(one != other for one, other in names.items()):
            found[key.split("-proofs.", 1)[1].removesuffix(".Lts").replace(".", "/")] = names
    return found


def with_places(names, texts, folder):
    """The proof files of the functions in `names`, with these in the place of the old ones; nothing where there are none."""
    changed = {}
    for function, pairs in names.items():
        word = re.compile("(?:%s)(?![\\w-])" % "|".join(re.escape(one) for one in sorted(pairs, key=len, reverse=True)))
        for file in ("Proof", "Answers", "Invariants"):
            path = "proofs/%s/%s.antt" % (function, file)
            if os.path.isfile(os.path.join(folder, path)):
                text = texts[path] if path in texts else tree.read(os.path.join(folder, path))
                new = word.sub(lambda m: pairs[m[0]], text)
                if file != "Proof":  # an answer has its goal's name
                    goals = {one[5:]: other[5:] for one, other in pairs.items() if one.startswith("goal.")}
                    new = re.sub(r"(?m)^(pub |abbrev pub )?([\w+-]+)(?= :| [^=\n]*=)", lambda m: (m[1] or "") + goals.get(m[2], m[2]), new)
                if new != text:
                    changed[path] = new
    return changed


def constructors():
    """The constructors that stand for different values, by type: of the library and of the types that specs/ declare."""
    kinds = [{"true", "false"}, {"refusal", "answer"}, {"pos", "negsuc"}, {"nan", "inf", "fin"}]
    for path in glob.glob(os.path.join(tree.ROOT, "crates/*/specs/**/*.antt"), recursive=True):
        for body in re.findall(r"^pub data .*\n((?:  .*\n)+)", tree.read(path), re.M):
            kinds.append(set(re.findall(r"^  (\S+) :", body, re.M)))
    return kinds


KINDS_OF_VALUES = constructors()


def plain(text):
    """A term without the modules of its names, without its outer parentheses, and without the word that some digits of a number are not printed."""
    text = re.sub(r"(?<=\d)…\[\d+ bytes\]…(?=\d)|(?:[\w·+-]+\.)+(?=[^\s.])", "", text)
    return text[1:-1] if re.fullmatch(r"\([^()]*\)", text) else text


def short(text):
    text = plain(text)
    return text if len(text) <= 60 else text[:59] + "…"


def one_above(one, other):
    """Whether a term is a number more than the other, by what is written."""
    found = MORE.match(one)
    return bool(found) and (found["sum"] or found["next"]) == other


def unlike(one, other):
    """Whether two computed terms have different values, whatever their variables are: closed ones, other constructors of one type, other parameters."""
    if FIELD.match(one) and FIELD.match(other) and one.strip("()") != other.strip("()") or one_above(one, other) or one_above(other, one):
        return True
    one, other = plain(one), plain(other)
    if one == other or not one or not other:
        return False
    if CLOSED.match(one) and CLOSED.match(other):
        return True
    heads = {one.split()[0], other.split()[0]}
    return len(heads) == 2 and any(heads <= kind for kind in KINDS_OF_VALUES)


def fields_of_one(one, other):
    """Whether the two are different fields of one value."""
    return one.strip().rpartition(".")[0] == other.strip().rpartition(".")[0] != "" and one.strip() != other.strip()


def parts(term):
    """The parts of an application, with the groups in parentheses whole, and without what stands in braces."""
    found, depth, last = [], 0, ""
    for sign in term + " ":
        depth += (sign in "({") - (sign in ")}")
        if sign.isspace() and depth == 0:
            found += [last] if last and not last.startswith("{") else []
            last = ""
        else:
            last += sign
    return found + ([last] if last.strip() else [])


def ends(term):
    """The two ends of a path, or nothing: `Path T a b`, `_≡_ a b` or `a ≡ b`, unless a piece of it is not printed."""
    found = parts(term) if " bytes]…" not in term else []
    if found and plain(found[0]) in ("Path", "◌≡◌") and len(found) >= 3:
        return found[-2:]
    return [" ".join(found[:found.index("≡")]), " ".join(found[found.index("≡") + 1:])] if "≡" in found else None


def same(one, other):
    """Whether two terms are the same as far as they are printed and determined."""
    one, other = (re.split(r"…|\(?\?\d", plain(term))[0] for term in (one, other))
    length = min(len(one), len(other))
    return length > 0 and one[:length] == other[:length]


def numerals_differ(one, other):
    """Whether the two are the same but for numerals, as two bounds of one order are."""
    return one != other and "…" not in one + other and NUMERAL.sub("0", one) == NUMERAL.sub("0", other)


def paths_differ(one, other):
    """Whether a path that is expected has unlike ends, or has one end that is unlike that of the path which is proved, the other end being the same."""
    due, proved = ends(one), ends(other)
    if due and unlike(*due):
        return True
    return bool(due and proved) and (unlike(due[0], proved[0]) and same(due[1], proved[1]) or unlike(due[1], proved[1]) and same(due[0], proved[0]))


def head(term):
    """What a statement says first: an operator between two terms, or its first word; an equation is a path."""
    found = parts(term)
    word = next((sign for sign in INFIX if sign in found), re.sub(r"^.*\.(?=[^.])", "", term.split()[0]).strip("◌"))
    return "Path" if word == "≡" else word


def another_kind(how, one, other):
    """Whether the two are not of one kind: an equation and an order, or the like."""
    if how == "whole":
        return head(one) != head(other)
    kinds = KINDS.match(one), KINDS.match(other)
    return how == "computed" and (bool(kinds[0]) != bool(kinds[1]) or bool(kinds[0]) and one.split()[0] != other.split()[0])


def compare(decl, how, one, other):
    """The grade of an error that says where two statements differ: computed, as a whole, or as they are printed."""
    said = "`%s` expected, `%s` found" % (short(one), short(other))
    numbers = one.isdigit() and other.isdigit()
    premise = PREMISE.search(decl) and not (how == "computed" and numbers)
    if how == "printed" and numbers:
        return "shown", said
    if how == "whole" or how == "computed" and not premise:
        if {re.sub(r"^.*\.", "", term.split()[0]) for term in (one, other)} == {"Unit", "⊥"}:
            return "shown", "a test computes to false"
        if another_kind(how, one, other):
            return "form", "another kind of statement: " + said
    if premise:
        return "form", "a call's premise is given for another value: " + said
    if how == "printed":
        passed = any(term.rstrip().endswith((".lifetimes", ".κs")) for term in (one, other))
        return ("form", "another call's fact: " + said) if passed else ("open", "as written: " + said)
    return ("shown" if how == "computed" and unlike(one, other) or how == "whole" and paths_differ(one, other) else "open"), said


def grade_error(where, decl, text, kind):
    """The grade of one error, and what to call it. A step of a function's proof that is given another value shows nothing: branches may have changed places."""
    verdict, name = grade_text(decl, text, kind)
    step = ("/Proof.antt:" in where or kind == "made") and not decl.startswith("returns")
    return ("open" if verdict == "shown" and step and "omega" not in name else verdict), name


def grade_text(decl, text, kind):
    if kind == "made":
        goal = ends(text.removeprefix("the goal is ")) if text.startswith("the goal is ") else None
        if goal and (unlike(*goal) or fields_of_one(*goal)) or "allow values at which this goal is false" in text:
            return "shown", text
        return "open", "`search` does not close it: " + text
    if kind == "missing":
        return "form", "a proof that is missing"
    own = text.split("expected type `")[0]
    if re.search(SHOWN, own):
        return "shown", "`omega` has a counter-example"
    for name, pattern in BY_FORM:
        if re.search(pattern, own):
            return "form", name
    if decl.endswith("-spec"):
        return "form", "the parts of the proof do not fit the function"
    left = LEFT.search(text)
    if left:
        return "shown" if unlike(*(ends(left[1]) or ("", ""))) else "open", "two ends that are not equal are left: `%s`" % short(left[1])
    for name in ("search", "omega"):
        if re.search("`%s`: no proof of|`%s` found no proof" % (name, name), own):
            return "open", "`%s` finds no proof" % name
    for how, pattern in (("computed", COMPUTED), ("whole", WHOLE), ("printed", PRINTED)):
        found = pattern.search(text)
        if found:
            return compare(decl, how, found[1], found[2])
    begun = BEGUN.search(text)
    if begun and paths_differ(begun[2], begun[1]):
        return "shown", "`%s` expected, `%s` found" % (short(begun[2]), short(begun[1]))
    if re.search(r"≟ .*does not hold", text, re.S):
        return "open", "two terms that are not the same"
    whole = EXPECTED.search(text)
    if whole and not PREMISE.search(decl) and paths_differ(whole[1], whole[2]):
        return "shown", "`%s` expected, `%s` found" % (short(whole[1]), short(whole[2]))
    if whole and PREMISE.search(decl) and numerals_differ(whole[1], whole[2]):
        return "shown", "`%s` expected, `%s` found" % (short(whole[1]), short(whole[2]))
    if "expected type `" in text or "the two types" in text:
        return ("form", "a call's premise is given for another value") if PREMISE.search(decl) else ("open", "another statement is proved")
    return "form", "another error: " + text.split("\n")[0][:100]


def grade(log, status):
    """(grade, reason) of a program by its log and the status of the check: the best grade of its errors."""
    if status == 0:
        return "NOT", "the crate is still proved"
    if status != 1 or not re.search(r"^logic=not-proved", log, re.M):
        first = next((line for line in log.split("\n") if "error" in line), "")
        return "NOT", "it did not reach the prover: " + re.sub(r"^\S*?/(?=(?:src|specs|proofs)/)", "", first)[:160]
    graded = [(error,) + grade_error(*error) for error in errors(log)]
    if not graded:
        return "form", "no error of its own in the log"
    best = next((one for wanted in ("shown", "open") for one in graded if one[1] == wanted), graded[0])
    also = " (the first error is by form: %s)" % graded[0][2] if best[1] != "form" and graded[0][1] == "form" else ""
    where = re.sub(r"^.*?/(?=(?:src|specs|proofs)/)", "", best[0][0])
    return best[1], "%s `%s`: %s%s" % (where, best[0][1], best[2], also)
