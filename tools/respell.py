#!/usr/bin/env python3
"""Brings the repository's own definitions and lemmas to the spelling of today's Rattle.

usage: tools/respell.py          at the top of the repository, once, after the kit's port.py
       tools/respell.py --check  writes nothing, and prints what it would rename and which names would fall together

Words (functions, lemmas, fields, constructors of antt) go to snake case, `writeRes` and `written-read` to `write_res` and
`written_read`; what is a type goes to camel case, `conclIn` to `ConclIn`; the module `inner` to `Inner`; a prime to an apostrophe.
Only what specs/ and the lemma files of proofs/ define is renamed, where it is cited in crates/ and, between backquotes, in the
documents. What Rattle makes for a function's proof keeps its name, and so do src/'s own names. In comments a name is turned where it
has a capital inside or stands between backquotes.
"""
import glob
import os
import re
import sys

TOKEN = r"[^\s(){}\[\].;,@\"«»\\λ]+"
DECL = re.compile(r"^(\s*)((?:pattern |unfoldable |abbrev |pub |ghost )*)(" + TOKEN + r"(?: " + TOKEN + r")*) : (.*)$")
DATA = re.compile(r"^\s*(?:pub |abbrev )*(?:data|record) (" + TOKEN + ")")
# values that the documents name by a capital
VALUES = {"P1", "P2", "P3", "P4", "P5", "P6", "P6-added", "P7", "P8", "P9", "P9-withdrawn", "P10"}
# lemmas that would have a function's name, and one function that would have an example's
APART = {
    "row-by": "row_by_lem",
    "bit-and": "bit_and_lem",
    "bit-or": "bit_or_lem",
    "bit-xor": "bit_xor_lem",
    "bit-of": "bit_of_lem",
    "word-of": "word_of_lem",
    "kind-at": "kind_at_lem",
    "put-in": "put_in_lem",
    "and-then": "and_then_lem",
    "twoWays": "two_ways_of",
    "kindMarks": "marks_of_kind",
    "not-permitted": "not_permitted",
    "notPermitted": "not_permitted",
}
# the same of lemmas that port.py respelled, in their crates
THERE = {"exact": {"in_frame": "in_frame_lem"}, "demands": {"one_way": "one_way_lem"}, "flags": {"both_at": "both_at_lem"}, "query": {"said_under": "said_under_lem"}}
# fields of own records that the proofs of functions cite; others that look alike are Rattle's names of steps there
CITED = {"flagBits", "byList"}


def read(path):
    with open(path, encoding="utf-8") as f:
        return f.read()


def own(path):
    """Whether a proof file is a lemma file or of specs/, and not the proof of one function."""
    return "/specs/" in path or os.path.basename(os.path.dirname(path)) == "proofs"


def antt():
    return sorted(p for p in glob.glob("crates/*/*/**/*.antt", recursive=True) if "/out/" not in p)


def snake(name):
    name = name.replace("-", "_").replace("′", "'")
    return re.sub(r"(?<=[a-z0-9])([A-Z])", r"_\1", name).lower() if name not in VALUES else name.lower()


def camel(name):
    return name[0].upper() + name[1:]


def definitions():
    """The new name of each own name that changes."""
    kinds, locals_ = {}, set()
    for path in antt():
        if not own(path):
            continue
        whole = read(path)
        for i, line in enumerate(whole.split("\n")):
            if line.lstrip().startswith("--") or " : " not in line:
                continue
            m = DECL.match(line)
            if m and not re.match(r"\s*(let|in|where|use|λ) ", line):
                for name in m.group(3).split(" "):
                    kinds.setdefault(name, []).append(m.group(4))
        # what a `where` or a `let` names, and a variable of a clause
        locals_ |= set(re.findall(r"\blet (" + TOKEN + r")", whole)) | set(re.findall(r" as (" + TOKEN + r")", whole)) | {"ifOpen", "eK", "zero-from"}
    out = {}
    for name, types in kinds.items():
        if name in VALUES:
            out[name] = snake(name)
        elif name in APART:
            out[name] = APART[name]
        elif not name[0].islower():
            continue
        elif all(re.search(r"(^|→ )Type \d$", t) for t in types):
            out[name] = camel(snake(name)) if "-" in name else camel(name)
        else:
            out[name] = snake(name)
    for name in locals_:
        if name[0].islower():
            out.setdefault(name, snake(name))
    # "a lemma that would have its function's name ends in `_lem`"
    for name in list(out):
        if "-" in name and name not in APART and any(b == out[name] and "-" not in a and a != name for a, b in out.items()):
            out[name] += "_lem"
    return {a: b for a, b in out.items() if a != b}


def imported(text):
    """The names that a file takes from the kit."""
    names = set()
    for m in re.finditer(r"^(?:ghost )?use ([^\s{]+)\.\{([^}]*)\}", text, re.M):
        path = m.group(1)
        crate = re.match(r"Rattle\.(\w+)", path)
        if not (crate and os.path.isdir("crates/" + crate.group(1))):
            names |= {w for w in re.findall(TOKEN, m.group(2))}
    return names


def turn(text, table, skip, all_fields):
    """The text with each name turned, but those that it takes from the kit and, in a function's proof, those of a record that Rattle makes."""
    def word(m):
        w = m.group(0)
        if w not in table or w in skip:
            return w
        before = text[: m.start()]
        if before.endswith(".") and not all_fields and w not in CITED and not re.search(r"Rattle\.[\w.]+\.$", before[-120:]):
            return w
        return table[w]

    return re.sub(TOKEN, word, text)


def turn_comment(text, table):
    """In prose a name is turned where it could be no word: with a capital inside, or between backquotes."""
    text = re.sub(r"`([^`\n]+)`", lambda m: "`" + re.sub(r"[^\s(){}\[\].;,@\"«»\\λ/]+", lambda w: table.get(w.group(0), w.group(0)), m.group(1)) + "`", text)
    return re.sub(TOKEN, lambda m: table[m.group(0)] if m.group(0) in table and re.search("[a-z][A-Z]", m.group(0)) else m.group(0), text)


def lines(text, mark, table, all_fields):
    skip = imported(text)
    out = []
    for line in text.split("\n"):
        at = line.find(mark) if line.lstrip().startswith(mark) else -1
        if at >= 0:
            out.append(turn_comment(line, table))
        else:
            out.append(turn(line, table, skip, all_fields))
    return "\n".join(out)


def edit(text, table):
    """An edit: what it replaces, and by what, in antt's files; src/ keeps its names but in contracts."""
    out = []
    for line in text.split("\n"):
        if line.startswith(("old: ", "new: ")):
            line = line[:5] + turn(line[5:], table, set(), True)
        out.append(line.replace("specs/inner/", "specs/Inner/") if line.startswith("file: ") else line)
    return "\n".join(out)


def modules(text):
    text = re.sub(r"(Rattle\.\w+\.specs\.)inner\b", r"\1Inner", text)
    return re.sub(r"^(\s*(?:pub )?mod )inner$", r"\1Inner", text, flags=re.M)


def main():
    check = "--check" in sys.argv
    table = definitions()
    if check:
        back = {}
        for a, b in sorted(table.items()):
            back.setdefault(b, []).append(a)
        names = set()
        for path in antt():
            names |= set(re.findall(TOKEN, re.sub(r"--.*", "", read(path))))
        print(len(table), "names")
        print("fall together:", {b: a for b, a in back.items() if len(a) > 1})
        print("there already:", sorted(b for b in back if b in names))
        return
    changed = 0
    for path in antt() + sorted(glob.glob("crates/*/src/**/*.rt", recursive=True)) + sorted(glob.glob("crates/*/must-fail/*.edit")):
        text = read(path)
        mine = dict(table, **THERE.get(path.split("/")[1], {}))
        new = modules(lines(text, "//" if path.endswith(".rt") else "--", mine, path.endswith(".antt") and own(path)))
        if path.endswith(".edit"):
            new = edit(text, mine)
        if new != text:
            changed += 1
            with open(path, "w", encoding="utf-8") as f:
                f.write(new)
    for path in sorted(glob.glob("docs/*.md")) + ["README.md"]:
        text = read(path)
        new = re.sub(r"`([^`\n]+)`", lambda m: "`" + re.sub(r"[^\s(){}\[\].;,@\"«»\\λ/]+", lambda w: table.get(w.group(0), w.group(0)), m.group(1)) + "`", text)
        if new != text:
            changed += 1
            with open(path, "w", encoding="utf-8") as f:
                f.write(new)
    for folder in sorted(glob.glob("crates/*/specs")):
        for a, b in (("inner.antt", "Inner.antt"), ("inner", "Inner")):
            if os.path.exists(os.path.join(folder, a)):
                os.rename(os.path.join(folder, a), os.path.join(folder, b))
    print(changed, "files changed,", len(table), "names")


main()
