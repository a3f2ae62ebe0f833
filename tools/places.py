#!/usr/bin/env python3
"""places.py [CHECKOUT]: counts, in crates/*/src of a checkout (this one, if none is named), the places of the older forms that docs/DESIGN-PASS.md
speaks of, and prints each with its file and line. It finds by shape alone: what stays as it is, and why, stands on that page."""
import collections
import glob
import os
import re
import sys

ROOT = sys.argv[1] if len(sys.argv) > 1 else os.path.dirname(os.path.dirname(os.path.abspath(__file__)))
FUNCTION = re.compile(r"^(\s*)(?:pub(?:\(crate\))? )?(?:extern \"C\" )?fn (\w+)")
WORDS = {"let", "mut", "if", "else", "while", "for", "in", "return", "match", "fn", "pub", "crate", "as", "u8", "u16", "u32", "u64", "i32", "usize", "bool", "true", "false", "break", "ref"}


def sources():
    for path in sorted(glob.glob(os.path.join(ROOT, "crates", "*", "src", "**", "*.rt"), recursive=True)):
        with open(path, encoding="utf-8") as f:
            yield os.path.relpath(path, os.path.join(ROOT, "crates")).replace("/src/", "/"), f.read().split("\n")


def functions():
    """Of each function its file, line, name, head (to the brace of the body) and body."""
    for path, lines in sources():
        at = 0
        while at < len(lines):
            m = FUNCTION.match(lines[at])
            if not m:
                at += 1
                continue
            begin, indent = at, m.group(1)
            head = [lines[at]]
            while not re.match(rf"^{indent}\{{$", lines[at]) and not re.search(r"(?<!requires)(?<!ensures) \{$", re.sub(r"(requires|ensures)\*? *\w* \{.*\}", "", lines[at])):
                at += 1
                head.append(lines[at])
            body = []
            while lines[at] != indent + "}":
                at += 1
                body.append(lines[at])
            yield path, begin + 1, m.group(2), "\n".join(head), [b for b in body[:-1] if not b.strip().startswith("//")]
            at += 1


def parameters(head):
    text = head.split("(", 1)[1]
    text = re.split(r"\)\s*(?:->|\n|\{|$)", text)[0]
    return re.findall(r"(\w+):\s", text)


def shape(body):
    text = re.sub(r"//.*", "", " ".join(body))
    tokens = re.findall(r"\w+|[^\w\s]", text)
    return " ".join(t if t in WORDS or not re.match(r"\w", t) else "0" if t[0].isdigit() else "x" for t in tokens)


def show(title, found):
    print(f"{title}: {len(found)}")
    for line in found:
        print("    " + line)


def by_line(pattern, skip=r"^\s*//"):
    return [f"{p}:{n}: {l.strip()}" for p, ls in sources() for n, l in enumerate(ls, 1) if re.search(pattern, l) and not re.search(skip, l)]


every = list(functions())
where = {(p, n): name for p, n, name, _, _ in every}

show("1a own enums", by_line(r"^\s*(pub(\(crate\))? )?enum "))
show("1b a flag with values beside it", by_line(r"^\s*(pub )?ok: bool"))
show("1c a number for a kind or a refusal, as a field or a parameter", by_line(r"\b(code|file): u8\b"))
show("1d an index that stands for none", [f"{p}:{n}: {name}" for p, n, name, h, b in every
     if re.search(r"-> usize", h) and re.search(r"while|for ", "\n".join(b)) and re.search(r"return \w+;", "\n".join(b))])
show("1e numbers 0 and 1 for yes and no", by_line(r"\b(taken|moves): (&'?\w* ?(mut )?)?\[usize; ROWS\]"))

names = collections.defaultdict(list)
for p, n, name, _, _ in every:
    names[name].append(f"{p}:{n}")
show("2a functions of one name", [f"{name}: {', '.join(places)}" for name, places in sorted(names.items()) if len(places) > 1])
shapes = collections.defaultdict(list)
for p, n, name, _, body in every:
    shapes[shape(body)].append(f"{p}:{n} {name}")
show("2b groups of functions whose bodies have one shape", [", ".join(group) for text, group in sorted(shapes.items()) if len(group) > 1])
show("3a while loops", by_line(r"^\s*(?:'\w+: )?while "))
show("4a a conversion alone", [f"{p}:{n}: {name}" for p, n, name, _, b in every if len(b) == 1 and re.match(r"^\s*\w+ as \w+$", b[0])])
show("4b a comparison or a choice of two alone", [f"{p}:{n}: {name}" for p, n, name, _, b in every
     if len(b) == 1 and re.match(r"^\s*(if \w+ (<|<=|>|==) \w+ \{ \w+( - \d+)? \} else \{ \w+ \}|\w+ (<|<=|>|==) \w+)$", b[0])])
show("4c an array of one value alone", [f"{p}:{n}: {name}" for p, n, name, _, b in every if len(b) == 1 and re.match(r"^\s*\[\[?\w+; ", b[0])])
show("5a functions with six parameters or more", [f"{p}:{n}: {name} ({len(parameters(h))})" for p, n, name, h, _ in every if len(parameters(h)) >= 6])
PAIRS = [("lengths", "entries"), ("head", "f"), ("s", "q"), ("out", "at"), ("residuals", "work"), ("moves", "factors"), ("u", "point"), ("entries", "c")]
for pair in PAIRS:
    show(f"5b functions that take {' and '.join(pair)}", [f"{p}:{n}: {name}" for p, n, name, h, _ in every if set(pair) <= set(parameters(h))])
show("6a a buffer with a length or a place beside it", by_line(r"^\s*pub (length|size|start): usize"))
show("6b parallel tables", by_line(r"^(pub(\(crate\))? )?const (PRIMES|INVERSES)\b"))
show("7a a switch on a number", by_line(r"match (code|place|kind)\b"))
proofs = [p for p in glob.glob(os.path.join(ROOT, "crates", "*", "proofs", "**", "*.antt"), recursive=True)]
texts = [open(p, encoding="utf-8").read() for p in proofs]
print(f"8  files of proofs: {len(proofs)}, lines: {sum(t.count(chr(10)) for t in texts)}, walks (Proof.antt): {sum(p.endswith('/Proof.antt') for p in proofs)}, "
      f"answers: {sum(len(re.findall(r'^pub [^ ]+ : goal[.]', t, re.M)) for p, t in zip(proofs, texts) if p.endswith('/Answers.antt'))}, "
      f"of them `search rules` alone: {sum(len(re.findall(r'^[^ ]+ (?:[gt] )*c = search rules$', t, re.M)) for t in texts)}")
