#!/usr/bin/env python3
"""Lists lines of src/ that may be written otherwise, by shape. A line is a place to read, no verdict.

    python3 tools/places/places.py [COMMIT]            the counts of each shape, of the work tree or of a commit
    python3 tools/places/places.py --list SHAPE [COMMIT]    the lines of one shape
"""
import re
import subprocess
import sys
from collections import Counter

ROOT = subprocess.run(["git", "rev-parse", "--show-toplevel"], capture_output=True, text=True, check=True).stdout.strip()


def git(*words):
    return subprocess.run(["git", "-C", ROOT, *words], capture_output=True, text=True, check=True).stdout


def sources(commit):
    """Each file of src/ with its lines."""
    if commit:
        names = git("ls-tree", "-r", "--name-only", commit).split()
    else:
        names = git("ls-files").split()
    for name in names:
        if re.match(r"crates/[^/]+/src/.*\.rt$", name):
            text = git("show", f"{commit}:{name}") if commit else open(f"{ROOT}/{name}").read()
            yield name, text.split("\n")


def by_line(pattern):
    shape = re.compile(pattern)

    def find(files):
        return [(name, i + 1, line.strip()) for name, lines in files for i, line in enumerate(lines)
                if shape.search(line) and not line.lstrip().startswith("//")]
    return find


def bodies(lines):
    """Each function's name, the line it begins in, and its lines without comments."""
    i = 0
    while i < len(lines):
        head = re.match(r"(\s*)(pub(\([a-z]+\))? )?(const )?fn (\w+)", lines[i])
        if not head:
            i += 1
            continue
        end = i
        while end < len(lines) and not re.match(head.group(1) + r"(\}|\{\})$", lines[end]):
            end += 1
        yield head.group(5), i + 1, [l.strip() for l in lines[i:end] if l.strip() and not l.strip().startswith("//")]
        i = end + 1


def same_body(files):
    """Functions whose bodies are alike but for names and numbers, in one crate or in two: all of each such set but one."""
    seen, found = {}, []
    for name, lines in files:
        for function, at, text in bodies(lines):
            start = next((k for k, l in enumerate(text) if l == "{"), None)
            if start is None or len(text) - start < 3:
                continue
            body = re.sub(r"\b\w+\b", "w", " ".join(text[start:]))
            body = re.sub(r"w(::w)+", "w", body)
            if body in seen:
                found.append((name, at, f"{function}, as {seen[body]}"))
            else:
                seen[body] = function
    return found


def repeated_requires(files):
    """Preconditions that stand in three or more functions: each of their lines."""
    all_lines = [(name, i + 1, re.sub(r"\d+", "n", re.sub(r"^\s*requires( \w+)? ", "", line))) for name, lines in files
                 for i, line in enumerate(lines) if re.match(r"\s*requires", line)]
    often = Counter(text for _, _, text in all_lines)
    return [row for row in all_lines if often[row[2]] >= 3]


def travelling(files):
    """Parameters by name that stand together, three or more of them, in three or more functions of one crate."""
    lists = []
    for name, lines in files:
        for function, at, text in bodies(lines):
            head = " ".join(text)
            head = head[:head.find("{")] if "{" in head else head
            names = frozenset(re.findall(r"(\w+): ", head.split("->")[0])) - {"rt", "heap"}
            lists.append((name, at, function, names))
    found = []
    for name, at, function, names in lists:
        crate = name.split("/")[1]
        for n in range(len(names), 2, -1):
            like = [other for other in lists if other[0].split("/")[1] == crate and len(names & other[3]) >= n]
            if len(like) >= 3:
                found.append((name, at, f"{function}: " + ", ".join(sorted(names))))
                break
    return found


SHAPES = {
    "1 own enums": by_line(r"^\s*(pub(\([a-z]+\))? )?enum "),
    "1 answers of yes or no": by_line(r"\) -> bool"),
    "1 numbers for kinds": by_line(r"Option<u(8|16|32|size)>|\b(ufo|line|kind|number|code): u(8|16|32|size)"),
    "1 errors passed over": by_line(r"Err\(_\)|let Ok\(.*else|let _ = "),
    "1 flags in a struct": by_line(r"^\s+(pub(\([a-z]+\))? )?\w+: bool,"),
    "2 bodies alike": same_body,
    "3 loops": by_line(r"^\s*(for|while|loop)\b"),
    "3 counted by hand": by_line(r"^\s*(for \w+ in .*\.\.|while\b|loop\b|\w+ = \w+\.wrapping_add\(1\);|\w+ \+= 1;)"),
    "4 conversions and names by hand": by_line(r"fn (to_\w+|from_\w+|name|number|numbers|same\w*|new)\("),
    "4 printing by hand": by_line(r"-> &'static str|impl fmt::Display"),
    "5 repeated requires": repeated_requires,
    "5 parameters that travel together": travelling,
    "6 arrays and lengths in a struct": by_line(r"^\s+(pub(\([a-z]+\))? )?(\w+: \[|used: |length: |place: |at: usize|most: )"),
    "7 switches": by_line(r"match (self|change|kind|way|operation|form|number)\b"),
    "8 answers and walks in proofs": None,
}


def proofs(commit):
    names = (git("ls-tree", "-r", "--name-only", commit) if commit else git("ls-files")).split()
    return [(n, 1, "") for n in names if re.match(r"crates/[^/]+/proofs/.*\.antt$", n)]


def main(words):
    chosen = None
    if words[:1] == ["--list"]:
        chosen, words = words[1], words[2:]
    commit = words[0] if words else None
    files = list(sources(commit))
    for shape, find in SHAPES.items():
        rows = find(files) if find else proofs(commit)
        if chosen is None:
            print(f"{len(rows):5}  {shape}")
        elif shape.startswith(chosen):
            for name, at, text in rows:
                print(f"{name}:{at}: {text}")


main(sys.argv[1:])
