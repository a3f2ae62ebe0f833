#!/usr/bin/env python3
"""Spells the repository's own definitions, lemmas, fields and variables in snake case: `most-rows` becomes `most_rows`. Run once, at the
top, after the kit's port.py. Names of the kit's libraries, functions of src/ and strings keep their spelling. It stops where two names of
one file would fall together. In the pages and the must-fail edits it turns the names that stand in backticks or in an edit's text."""

import collections
import glob
import re
import sys

TOKEN = re.compile(r'"[^"\n]*"|[^\s(){}\[\],;."@`]+')
NAME = re.compile(r"^◌?[\w'·₀-₉]+(?:-[\w'·₀-₉]+)+◌?$")
OWN_CRATES = "|".join(sorted(c.split("/")[1] for c in glob.glob("crates/*")))
KIT = re.compile(rf"^\s*(?:pub |ghost )*use ((?!Rattle\.(?:{OWN_CRATES})\.)[A-Za-z]\w*\.[^\s{{]*?)\.\{{(.*)\}}")
DECLARED = re.compile(r"^\s*(?:pattern |unfoldable |abbrev |pub |axiom )*([^\s(){}\[\],;.\"@]+)\s*(?:\{[^}]*\})?\s*:(?!=)")
# Functions into Type are types.
TYPES = {"entry-box": "EntryBox", "row-box": "RowBox", "rows-box": "RowsBox"}


def read(path):
    with open(path, encoding="utf-8") as f:
        return f.read()


def write(path, text):
    with open(path, "w", encoding="utf-8") as f:
        f.write(text)


def comment(line):
    return line.lstrip().startswith("--")


def kit_names(text):
    """The names that a file takes from the kit under their own spelling, and all that it names of the kit."""
    plain, named = set(), set()
    for line in text.split("\n"):
        m = KIT.match(line)
        if m:
            for item in m.group(2).split(","):
                words = item.split()
                named.add(words[0])
                if len(words) == 1:
                    plain.add(words[0])
    return plain, named


def own_names(files, kit):
    """Every name with a dash that a file of specs/ or a lemma file binds or declares, but those that come from the kit alone."""
    own, declared = set(), set()
    for path in files:
        for line in read(path).split("\n"):
            if comment(line) or KIT.match(line):
                continue
            own.update(t for t in TOKEN.findall(line) if NAME.match(t))
            m = DECLARED.match(line)
            if m and "-" in m.group(1):
                declared.add(m.group(1))
    return (own - kit) | declared, declared


# What port.py garbled: the alias of a function's module.
GARBLED = {"entry_IsPlace": "entry_place"}


def spelled(name):
    return TYPES.get(name) or GARBLED.get(name) or name.replace("-", "_")


def turn(text, own, plain, only_declared, declared):
    """The text with the own names spelled anew; in comments only declared ones."""
    out = []
    for line in text.split("\n"):
        kit = KIT.match(line)
        note = comment(line) or line.lstrip().startswith("//")

        def word(m):
            t = m.group(0)
            if t in GARBLED:
                return spelled(t)
            if t not in own or t.startswith('"'):
                return t
            if (note or only_declared) and t not in declared:
                return t
            qualified = m.start() > 0 and line[m.start() - 1] == "."
            if kit:
                # After `as` stands a name of the file's own.
                return spelled(t) if line[: m.start()].endswith(" as ") else t
            if t in plain and not qualified and not note:
                return t
            return spelled(t)

        out.append(TOKEN.sub(word, line))
    return "\n".join(out)


def main():
    antt = sorted(glob.glob("crates/*/specs/**/*.antt", recursive=True) + glob.glob("crates/*/proofs/**/*.antt", recursive=True))
    lemmas = [p for p in antt if "/specs/" in p or re.search(r"/proofs/[^/]*\.antt$", p)]
    kit = set()
    for p in antt + glob.glob("crates/*/src/**/*.rt", recursive=True):
        kit |= kit_names(read(p))[1]
    own, declared = own_names(lemmas, kit)

    clash = []
    for p in lemmas:
        text = read(p)
        tokens = collections.defaultdict(set)
        for line in text.split("\n"):
            if not comment(line):
                # Of an import only the names count, and not the path before them.
                line = re.sub(r"^\s*(?:pub )?use [^\s{]+", "", line)
                for t in TOKEN.findall(line):
                    if t in own or "_" in t:
                        tokens[spelled(t) if t in own else t].add(t)
        clash += [f"{p}: {sorted(ts)}" for ts in tokens.values() if len(ts) > 1]
    for c in clash:
        print("spell_names: fall together: " + c)
    if clash and "--go-on" not in sys.argv:
        return 1

    for p in antt:
        text = read(p)
        plain = kit_names(text)[0]
        # A proof's own lines are named after what they prove: those keep their spelling here.
        skip = set()
        if p not in lemmas:
            skip = {m.group(1) for m in map(DECLARED.match, text.split("\n")) if m}
        write(p, turn(text, own - skip, plain, p not in lemmas, declared))
    for p in sorted(glob.glob("crates/*/src/**/*.rt", recursive=True)):
        text = read(p)
        write(p, turn(text, own, kit_names(text)[0], False, declared))
    # The pages and the edits also have names that port.py spelled anew.
    present = set()
    for p in lemmas:
        present.update(TOKEN.findall(read(p)))

    def page_word(m):
        t = m.group(0).replace("′", "'")
        return spelled(t) if NAME.match(t) and t not in kit and (t in own or spelled(t) in present) else m.group(0)

    for p in sorted(glob.glob("crates/*/must-fail/*.edit")):
        write(p, re.sub(r"(?m)^(?:old|new): .*", lambda m: TOKEN.sub(page_word, m.group(0)), read(p)))
    for p in sorted(glob.glob("*.md") + glob.glob("docs/**/*.md", recursive=True)):
        write(p, re.sub(r"`([^`\n]+)`", lambda m: "`" + TOKEN.sub(page_word, m.group(1)) + "`", read(p)))
    return 0


if __name__ == "__main__":
    raise SystemExit(main())
