#!/usr/bin/env python3
"""Spells this repository's own definitions and lemmas in snake case.

usage: python3 tools/respell.py [ROOT]    once, on what port.py wrote

A name of specs/ or proofs/ with dashes gets underscores. Names of the library keep theirs, and so do the names that Rattle makes for
the goals of a function, which stand in a function's folder of proofs/. In src/ only what antt reads is turned: ghost use lines and
clauses. Comments keep their words, but for names in backquotes. It prints the names that would fall together, and writes nothing then.
"""

import glob
import os
import re
import sys

ROOT = sys.argv[1] if len(sys.argv) > 1 else "."
# a name: up to a bracket, a dot or a sign that no name has
NAME = re.compile(r"""[^\s(){}\[\],;.λ→":«»`]+""")
USE = re.compile(r"\s*(?:pub )?(?:ghost )?use ([^\s{]+)\.\{(.*)\}")
SIGNATURE = re.compile(r"\s*(?:pub |abbrev |unfoldable )*((?:[^\s(){}\[\],;:]+ )*[^\s(){}\[\],;:]+) : ")
# a lemma whose name would be the library's, of which it speaks
OTHERWISE = {"ones-in": "ones_by_width"}
OURS = re.compile(r"Rattle\.(?!std\b|core\b)\w")
FOLDER = re.compile(r".*/proofs/.+/")


def is_dashed(name):
    return "-" in name and re.search(r"[^\W\d_]", name) and re.match(r"[^\W\d]", name)


def antt():
    for part in ("specs", "proofs"):
        yield from sorted(glob.glob(os.path.join(ROOT, "crates", "*", part, "**", "*.antt"), recursive=True))


def read(path):
    with open(path, encoding="utf-8") as f:
        return f.read()


def in_folder(path):
    return bool(FOLDER.match(path))


def learn():
    """The names of the library that files import, and the dashed names that files outside of functions' folders have."""
    library, ours, goals = set(), set(), set()
    for path in antt():
        for line in read(path).splitlines():
            if line.lstrip().startswith("--"):
                continue
            m = USE.match(line)
            if m:
                if not OURS.match(m.group(1)):
                    library |= {n.strip().split(" as ")[0] for n in m.group(2).split(",")}
                continue
            code = line.split(" -- ")[0]
            if in_folder(path):
                m = SIGNATURE.match(code)
                goals |= set(m.group(1).split()) if m else set()
            else:
                ours |= {n for n in NAME.findall(re.sub(r'"[^"]*"', "", code)) if is_dashed(n)}
    return library, ours - library, goals - ours


def new_name(name):
    return OTHERWISE.get(name, name.replace("-", "_"))


def turned(text, names):
    return NAME.sub(lambda m: new_name(m.group()) if m.group() in names else m.group(), text)


def comment(text, names):
    return re.sub(r"`[^`]*`", lambda m: turned(m.group(), names), text)


def of_antt(text, names):
    out = []
    for line in text.split("\n"):
        at = 0 if line.lstrip().startswith("--") else line.find(" -- ")
        code, said = (line, "") if at < 0 else (line[:at], line[at:])
        parts = re.split(r'("(?:[^"\\]|\\.)*")', code)
        out.append("".join(p if p.startswith('"') else turned(p, names) for p in parts) + comment(said, names))
    return "\n".join(out)


def of_rt(text, names):
    """Turns ghost use lines and what stands between the braces of a clause or a ghost item."""
    out, depth = [], 0
    for line in text.split("\n"):
        if line.lstrip().startswith("//"):
            out.append(comment(line, names))
            continue
        if depth == 0 and not re.match(r"\s*(ghost\b|requires\b|ensures\b|pub ghost\b)", line):
            out.append(line)
            continue
        out.append(turned(line, names))
        depth += line.count("{") - line.count("}")
    return "\n".join(out)


def main():
    library, ours, goals = learn()
    every = set()
    for path in antt():
        every |= set(NAME.findall(read(path)))
    together = sorted(n for n in ours if new_name(n) in every | library)
    if together:
        print("fall together with a name that stands: " + ", ".join(together))
    twice = {}
    for n in ours:
        twice.setdefault(new_name(n), []).append(n)
    for n, of in sorted(twice.items()):
        if len(of) > 1:
            print(f"fall together: {', '.join(of)}")
    if "--look" in sys.argv:
        return
    count = 0
    for path in list(antt()) + sorted(glob.glob(os.path.join(ROOT, "crates", "*", "src", "**", "*.rt"), recursive=True)):
        text = read(path)
        names = ours - goals if in_folder(path) else ours
        new = of_rt(text, names) if path.endswith(".rt") else of_antt(text, names)
        if new != text:
            count += 1
            with open(path, "w", encoding="utf-8") as f:
                f.write(new)
    print(f"{len(ours)} names, {count} files")


main()
