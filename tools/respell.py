#!/usr/bin/env python3
"""Brings the names of this repository's own definitions and lemmas to one spelling: words in snake case, facts and types in upper camel case.

usage: tools/respell.py           at the top of the repository, once: rewrites the .rt and .antt files below crates/ in place
       tools/respell.py --list    prints each old name with its new one, and what falls together, and writes nothing

A name counts where a file of specs/ or proofs/ declares it: at the start of a line, in a module's or a where's block, as a constructor or as
a label. What the check itself names (goals, invariants, measures) keeps its name, and so do functions of src/, strings and comments.
"""
import os
import re
import sys

ROOT = os.path.join(os.path.dirname(os.path.realpath(__file__)), "..", "crates")
# a name of antt: letters, digits, _, - and '
NAME = r"[A-Za-z][A-Za-z0-9_'-]*"
DECLARED = re.compile(r"^(\s*)((?:(?:abbrev|unfoldable|pub|record|data|ruleset) )*)(" + NAME + r")((?: *[({].*)?) *:(?: (.*))?$")
# names that the check makes of the code's own words
MADE = re.compile(r"^(returns|loop|overflow|bounds|slice_bounds|invariant|decreases|nonzero|offset_bounds|ghost|prove|[a-z_0-9-]*requires)\b")
# a token of a .rt or .antt file that may be such a name: not behind a letter, a dot of a number, or inside a longer name
TOKEN = re.compile(r"(?<![A-Za-z0-9_'◌+-])" + NAME)
COMMENT = {"rt": "//", "antt": "--"}
# names that would fall together with a definition's: the lemma about it gets a longer one
LONGER = {
    "byte-to": "byte_to_reads",
    "word-to": "word_to_reads",
    "text-to": "text_to_reads",
    "fields-to": "fields_to_reads",
    "in_order": "described_in_order",
}


def files():
    for folder, below, found in os.walk(ROOT):
        below[:] = sorted(d for d in below if d not in ("out", "target"))
        for f in sorted(found):
            if f.endswith((".rt", ".antt")):
                yield os.path.join(folder, f)


def snake(name):
    name = re.sub(r"(?<=[a-z0-9])(?=[A-Z])", "_", name).lower()
    return name.replace("-", "_")


def camel(name):
    return "".join(w[:1].upper() + w[1:] for w in re.split(r"[-_]", name))


def signature(lines, at):
    """The text of the declaration that begins at this line, up to the next line that is not further in."""
    depth = len(lines[at]) - len(lines[at].lstrip())
    text = lines[at]
    for line in lines[at + 1:]:
        if not line.strip() or len(line) - len(line.lstrip()) <= depth:
            break
        text += " " + line.strip()
    return text


def renamed():
    new = {}
    for path in files():
        if not path.endswith(".antt"):
            continue
        with open(path, encoding="utf-8") as f:
            lines = f.read().splitlines()
        for at, line in enumerate(lines):
            m = DECLARED.match(line)
            if not m or line.lstrip().startswith("--"):
                continue
            depth, marks, name, _, rest = m.groups()
            if depth and not (marks or rest):
                continue
            said = signature(lines, at)
            if re.search(r": *(goal|given|Given|Goals)\.", said) or MADE.match(name):
                continue
            if "record" in marks or "data" in marks or re.search(r"Type 0\s*$", said):
                to = camel(name)
            elif name[0].isupper():
                continue
            else:
                to = LONGER.get(name, snake(name))
            if to != name:
                new[name] = to
    return new


def main():
    new = renamed()
    seen = set()
    texts = {}
    for path in files():
        with open(path, encoding="utf-8") as f:
            texts[path] = f.read()
        seen |= set(TOKEN.findall(texts[path]))
    if "--list" in sys.argv:
        for name in sorted(new):
            print(f"{name} -> {new[name]}" + ("   (stands already)" if new[name] in seen else ""))
        back = {}
        for name, to in new.items():
            back.setdefault(to, []).append(name)
        for to, names in back.items():
            if len(names) > 1:
                print("fall together:", to, names)
        return
    for path, text in texts.items():
        mark = COMMENT[path.rsplit(".", 1)[1]]
        out = []
        for line in text.split("\n"):
            code, found, said = line.partition(mark)
            code = TOKEN.sub(lambda m: new.get(m[0], m[0]), code)
            out.append(code + found + said)
        text = "\n".join(out)
        with open(path, "w", encoding="utf-8") as f:
            f.write(text)


main()
