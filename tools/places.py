#!/usr/bin/env python3
"""Lists the places in src/ that docs/DESIGN-PASS.md counts, point by point.

    tools/places.py [-l]     counts; with -l each place with its file and line

It goes by the text alone. It finds places to look at, and says nothing of whether one should change.
"""
import collections
import pathlib
import re
import sys

ROOT = pathlib.Path(__file__).resolve().parent.parent
FILES = sorted(ROOT.glob("crates/*/src/**/*.rt"))


def text_of(path):
    """The file without comments and ghost items, line numbers kept."""
    lines = path.read_text().split("\n")
    return [re.sub(r"//.*", "", line) for line in lines]


SOURCE = {path: text_of(path) for path in FILES}


def grep(pattern):
    rule = re.compile(pattern)
    for path, lines in SOURCE.items():
        for number, line in enumerate(lines, 1):
            if rule.search(line) and "ghost use" not in line:
                yield path, number, line.strip()


def enums():
    """Enums with one case that holds something and one that holds nothing, or with a case called Nothing."""
    for path, lines in SOURCE.items():
        text = "\n".join(lines)
        for m in re.finditer(r"enum (\w+)(<[^>]*>)? \{\n(.*?)\n\}", text, re.S):
            body = m.group(3)
            depth, cases, word = 0, [], ""
            for c in body:
                if c in "({[":
                    depth += 1
                if c in ")}]":
                    depth -= 1
                if c == "," and depth == 0:
                    cases.append(word.strip())
                    word = ""
                else:
                    word += c
            if word.strip():
                cases.append(word.strip())
            bare = [c for c in cases if re.fullmatch(r"\w+", c)]
            if (len(cases) == 2 and len(bare) == 1) or any(c == "Nothing" for c in bare):
                yield path, text[: m.start()].count("\n") + 1, f"enum {m.group(1)}: {len(cases)} cases"


def flags():
    """Fields of type bool; parameters are none."""
    heads = {}
    for path, number, text in functions():
        head = text.split("{\n")[0]
        heads.setdefault(path, set()).update(range(number, number + head.count("\n") + 1))
    for path, number, line in grep(r"^\s*(pub(\(crate\))? )?\w+: bool,$"):
        if number not in heads.get(path, ()):
            yield path, number, line


def functions():
    """Every function with its file, line, head and body."""
    for path, lines in SOURCE.items():
        for i, line in enumerate(lines):
            if re.match(r"\s*(pub(\(crate\))? )?fn \w+", line):
                indent = len(line) - len(line.lstrip())
                j = i
                while j + 1 < len(lines) and not re.match(r" {%d}\}" % indent, lines[j]) and not lines[j].rstrip().endswith(";"):
                    j += 1
                yield path, i + 1, "\n".join(lines[i : j + 1])


def twins():
    """Functions whose texts, contracts aside, are the same but for the names of types, functions and cases, and numbers."""
    groups = collections.defaultdict(list)
    for path, number, text in functions():
        body = re.sub(r"^\s*(requires|ensures)\b.*$", "", text, flags=re.M)
        body = re.sub(r"fn \w+", "fn", body, count=1)
        body = re.sub(r"\b[A-Z]\w*(::\w+)*", "T", body)
        body = re.sub(r"\b\d\w*", "0", body)
        body = re.sub(r"\b\w+_at\(", "f(", body)
        body = re.sub(r"(T \{)[^{}]*\}", r"\1}", body)
        body = re.sub(r"(T => T\(T\),\s*|0 => T\(T\),\s*)+", "arms ", body)
        body = re.sub(r"\b[a-z_]+: T\b", "x: T", body)
        body = re.sub(r"T::filler\(\)", "T", body)
        body = re.sub(r"\s+", " ", body)
        if len(body) > 60:
            groups[body].append((path, number, text.strip().split("\n")[0]))
    for group in groups.values():
        if len(group) > 1:
            yield from group


def together():
    """Two parameters of the same names and types in three or more functions."""
    pairs = collections.defaultdict(list)
    for path, number, text in functions():
        head = text[: text.find("{")] if "{" in text else text
        head = re.split(r"\n\s*(?:requires|ensures)", head)[0]
        m = re.search(r"\((.*)\)", head, re.S)
        if not m:
            continue
        names = sorted(set(re.findall(r"(?:mut )?(\w+): (&?(?:'\w+ )?(?:mut )?\[?\w+)", m.group(1))))
        names = [f"{n}: {t}" for n, t in names]
        for a in range(len(names)):
            for b in range(a + 1, len(names)):
                pairs[names[a], names[b]].append((path, number, text.strip().split("\n")[0]))
    for pair, places in sorted(pairs.items()):
        if len(places) > 2:
            for path, number, line in places:
                yield path, number, f"{pair[0]}, {pair[1]} | {line}"


def facts():
    """A requires clause, names aside, that stands in three or more functions."""
    found = collections.defaultdict(list)
    for path, lines in SOURCE.items():
        for number, line in enumerate(lines, 1):
            m = re.match(r"\s*requires (\w+ )?\{ (.*) \}", line)
            if m:
                fact = re.sub(r"\b[a-z_]+\.(now|old|new)\b", "x", m.group(2))
                fact = re.sub(r"rows_of x(\.\w+)?", "rows", fact)
                fact = re.sub(r"\b\d+\b", "0", fact)
                fact = re.sub(r"\b(k|at|reached\.at) ≤", "at ≤", fact)
                fact = re.sub(r"\(?length rows\)? \+ .*≤ \w+", "room", fact)
                fact = re.sub(r"length \(rows\) \+ .*≤ \w+", "room", fact)
                found[fact].append((path, number, line.strip()))
    for places in found.values():
        if len(places) > 2:
            yield from places


def proofs():
    for path in sorted(ROOT.glob("crates/*/proofs/**/*.antt")):
        if path.name == "Answers.antt":
            yield path, 1, f"{len(path.read_text().split(chr(10))) - 1} lines"


POINTS = [
    ("1a own enums of the shape of Option", enums),
    ("1b flags in a struct or a case", flags),
    ("1c numbers for kinds and refusals", lambda: grep(r"^\s*(pub )?(code|number): u|::\w+( \{ \w+ \}|\(.*\))? => \(?\d+[,)]|number: \d+,")),
    ("2 twins", twins),
    ("3a loops over a range of numbers", lambda: grep(r"for \w+ in \w+\.\.|while ")),
    ("3b counts kept by hand", lambda: grep(r"\w+ \+= (1|\w+\()|= \w+\.wrapping_add\(1\)")),
    ("3c loops that a method of the library says", lambda: grep(r"^\s*return (true|false|\w+\.\w+);$|^fn is_digit|matches!\(b, ")),
    ("4a conversion by hand", lambda: grep(r"fn (of|numbered|code_of)\((code|self|parts)|\* 256")),
    ("4b printing by hand", lambda: grep(r"=> \"|=> f\.write_str|write!\(f|fn write_\w+")),
    ("4c copying and defaults by hand", lambda: grep(r"impl.* Clone for|fn filler|nowhere")),
    ("5a parameters that travel together", together),
    ("5b a fact in three or more contracts", facts),
    ("6 buffers with a length beside, sentinels", lambda: grep(r": \[\w+; \w+\],$|^\s*(len|given): usize,|= \[\w+; \w+\];")),
    ("7 a switch on which step to run", lambda: grep(r"enum Pick|Pick::\w+|: fn\(")),
    ("8 files of answers", proofs),
]


def main():
    for name, places in POINTS:
        found = list(places())
        print(f"{len(found):4d}  {name}")
        if "-l" in sys.argv[1:]:
            for path, number, line in found:
                print(f"        {path.relative_to(ROOT)}:{number}: {line[:110]}")


main()
