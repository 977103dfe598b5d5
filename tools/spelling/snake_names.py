#!/usr/bin/env python3
"""Spells the repository's own definitions and lemmas as the library does: words in snake case, types in camel case.

usage: python3 tools/spelling/snake_names.py          at the top of the repository; rewrites crates/ in place

A name is turned if it has a dash and one of the repository's .antt files defines it: a definition, a type, a field, a
constructor, a lemma, or an alias of an import. Names that the prover makes, as `loop-i-preserved`, and names that are
imported from the library stay. It stops, and writes nothing, if two names would fall together in one crate.
"""

import collections
import os
import re
import sys

NAME = r"[A-Za-z_][\w']*(?:-[\w']+)+"
TOKEN = re.compile(r"(?<![\w'\-])" + NAME + r"(?![\w'\-])")
DEFINED = re.compile(r"^\s*(?:abbrev |unfoldable |pub |abstract |data |record |\| )*(" + NAME + r")((?: \([^)\n]*\)| \{[^}\n]*\})*)\s+:(?=\s|$)(.*)$", re.M)
ALIAS = re.compile(r"\bas (" + NAME + r")(?=[\s,};])")
OUTSIDE = re.compile(r"^\s*(?:pub )?(?:ghost )?use (?!Rattle\.(?:OWN)\.)[^\n;]*", re.M)


def files(root):
    for folder, dirs, names in os.walk(root):
        dirs[:] = sorted(d for d in dirs if d != "out")
        for name in sorted(names):
            if name.endswith((".antt", ".rt", ".edit")):
                yield os.path.join(folder, name)


def code(path, text):
    """The pieces of a file in turn: (whether it is code, text). Comments and strings are not code."""
    if path.endswith(".antt"):
        at = re.compile(r"(?:(?<=\s)|^)--(?=\s|$)[^\n]*|\"(?:\\.|[^\"\\\n])*\"", re.M)
    elif path.endswith(".rt"):
        at = re.compile(r"//[^\n]*|b?\"(?:\\.|[^\"\\])*\"|b?'(?:\\.|[^'\\])'")
    else:
        at = re.compile(r"^file:[^\n]*", re.M)
    end = 0
    for m in at.finditer(text):
        yield True, text[end : m.start()]
        yield False, m.group()
        end = m.end()
    yield True, text[end:]


# other names, mostly of parameters, that are turned as well
PARAMETERS = {"exchange-top", "in-range", "open-panel", "used-here", "with-word", "zero-none"}

# where the plain spelling is that of a function in the same file
OTHERWISE = {
    "opened-page": "page_opened",
    "map-text": "text_of_map",
    "byte-through": "byte_seen_through",
    "plot-text": "text_of_plot",
    "again-zero": "again_at_zero",
    "exchange-top": "top_exchanged",
}


def spelled(name):
    if name in OTHERWISE:
        return OTHERWISE[name]
    if name[0].isupper():
        return "".join(w[0].upper() + w[1:] for w in name.split("-"))
    return name.replace("-", "_")


def main():
    own = sorted(os.listdir("crates"))
    outside = re.compile(OUTSIDE.pattern.replace("OWN", "|".join(own)), re.M)
    texts = {p: open(p, encoding="utf-8").read() for p in files("crates")}
    defined, imported = set(), set()
    for path, text in texts.items():
        plain = "".join(t for is_code, t in code(path, text) if is_code)
        for line in outside.findall(plain):
            imported.update(TOKEN.findall(line))
        defined.update(ALIAS.findall(plain))
        if path.endswith(".antt"):
            for name, _, rest in DEFINED.findall(plain):
                # what an answer file says of a goal has the prover's own name
                if not re.match(r"\s*(goal|loops)\.", rest):
                    defined.add(name)
    defined.update(PARAMETERS)
    turned = {n: spelled(n) for n in defined - imported}
    # names that fall together: two that get one spelling in a crate, or a new spelling that stands in the same file by itself
    clash = []
    for c in own:
        back = collections.defaultdict(set)
        for path, text in texts.items():
            if not path.startswith(f"crates/{c}/") or path.endswith(".edit"):
                continue
            plain = "".join(t for is_code, t in code(path, text) if is_code)
            names = {n for n in TOKEN.findall(plain) if n in turned}
            if path.endswith(".rt"):
                # only an item of the module stands beside what the file imports
                alone = set(re.findall(r"^(?:pub(?:\([^)]*\))? )?(?:fn|struct|enum|trait|const|mod|type) (\w+)", plain, re.M))
                names = {n for u in re.findall(r"ghost use [^;]*;", plain) for n in TOKEN.findall(u)} & names
            else:
                alone = set(re.findall(r"(?<![\w'.\-])[A-Za-z_][\w']*(?![\w'\-])", plain))
            for n in names:
                back[turned[n]].add(n)
                if turned[n] in alone:
                    clash.append(f"{path}: {n} -> {turned[n]}, which stands there")
        clash += [f"{c}: {' '.join(sorted(olds))} -> {new}" for new, olds in sorted(back.items()) if len(olds) > 1]
    for line in clash:
        print("together:", line)
    if clash and "--anyway" not in sys.argv:
        return 1
    changed = 0
    for path, text in texts.items():
        new = "".join(TOKEN.sub(lambda m: turned.get(m.group(), m.group()), t) if is_code else t for is_code, t in code(path, text))
        if new != text:
            changed += 1
            with open(path, "w", encoding="utf-8") as f:
                f.write(new)
    print(f"{len(turned)} names, {changed} files")
    return 0


if __name__ == "__main__":
    sys.exit(main())
