#!/usr/bin/env python3
"""The places of docs/DESIGN-PASS.md in src/, point by point: tools/design_count.py [--list] [TOP]."""
import glob
import re
import sys

ARGS = [a for a in sys.argv[1:] if a != "--list"]
TOP = ARGS[0] if ARGS else "."
LIST = "--list" in sys.argv

FILES = {f[len(TOP) + 1:]: open(f).read() for f in sorted(glob.glob(TOP + "/crates/*/src/*.rt"))}
# A function: its name, what it takes, and what stands between that and its body.
FUNCTION = re.compile(r"^( *)(?:pub )?(?:extern \"C\" )?fn (\w+)(?:<[^(]*>)?\((.*?)\)((?: -> [^{]*?)?(?:\n +(?:requires|ensures).*?)?)\s*\{\n(.*?)^\1\}", re.S | re.M)


def lines(pattern):
    found = []
    for name, text in FILES.items():
        for number, line in enumerate(text.split("\n"), 1):
            if not line.lstrip().startswith("//") and re.search(pattern, line):
                found.append(f"{name}:{number}: {line.strip()}")
    return found


def functions():
    for name, text in FILES.items():
        for m in FUNCTION.finditer(text):
            yield name, m.group(2), m.group(3), m.group(4), m.group(5)


def named(test):
    return [f"{name}: {f}" for name, f, takes, says, body in functions() if test(f, takes, says, body)]


def bodies():
    seen = {}
    for name, f, takes, says, body in functions():
        plain = re.sub(r"\d+|u8|u16|u32|u64|usize", "#", re.sub(r"\s+", " ", body))
        if len(plain) > 60:
            seen.setdefault(plain, []).append(f"{name}: {f}")
    return [" = ".join(fs) for fs in seen.values() if len(fs) > 1]


def facts():
    seen = {}
    for name, f, takes, says, body in functions():
        for clause in set(re.findall(r"requires[^{]*\{ (.*?) \}\n", says + "\n", re.S)):
            for fact in re.split(r" × (?![^(]*\))", clause):
                seen.setdefault(fact.strip("() "), []).append(f"{name}: {f}")
    return [f"{fact} ({len(fs)} functions)" for fact, fs in seen.items() if len(fs) > 2]


THREE = ("slots: ", "counters: ", "items: ")
POINTS = [
    ("1a enums of its own", lines(r"^ *(pub )?enum ")),
    ("1b a refusal as a number", lines(r"Refused\(\w+\)|Refused\(|no != 0|-> u32.*refus")),
    ("1c a flag or a kind beside a value", lines(r"^ +(pub )?(told|whole|what|ending|look): ")),
    ("1d a constant that is a code", lines(r"^const [A-Z_]+: u(8|32|64) = \d;")),
    ("1e an arm on a number", lines(r"^ +\d+ => ")),
    ("1f 0 or an index for nothing", named(lambda f, t, s, b: re.search(r"-> (u32|usize)", s) and re.search(r"or_else|hit_|leading_word|with_tag|free_|slot_if|slot_among", f))),
    ("2a names that end in a width", named(lambda f, t, s, b: re.search(r"(32|64|four|eight)$", f))),
    ("2b a whole call beside its cut form", named(lambda f, t, s, b: f.endswith("_cut"))),
    ("2c bodies that are the same but for a number or a width", bodies()),
    ("3a while", lines(r"^ *('\w+: )?while ")),
    ("3b loop", lines(r"^ *('\w+: )?loop \{")),
    ("4a a function that is one cast, comparison, least or greatest", named(lambda f, t, s, b: re.fullmatch(r"\s*\(?!?\w+\)? as \w+( \+ 1)?\s*|\s*if \w+ < \w+ \{\s*return \w+;\s*\}\s*\w+\s*|\s*\(b'.' <= b\) & \(b <= b'.'\)\s*", b) is not None)),
    ("4b a value printed or dressed by hand", named(lambda f, t, s, b: re.match(r"dress_|put_(refused|reading|setting|plan|moved|entered|deleting|evicting|starting|listing|judgement|poked|reason|not_understood)|say_", f))),
    ("5a functions that take slots, counters and items, all to read", named(lambda f, t, s, b: all(w in t for w in THREE) and "&mut" not in t.split("items:")[0] and "items: &mut" not in t)),
    ("5b the same, with one at least to store to", named(lambda f, t, s, b: all(w in t for w in THREE) and ("&mut" in t.split("items:")[0] or "items: &mut" in t))),
    ("5c a buffer and a position", named(lambda f, t, s, b: re.search(r"(buffer|out): &mut \[u8\],\s*at: usize", t) is not None)),
    ("5d a fact that three or more functions require", facts()),
    ("6a an array with a count beside it", lines(r"^ +(pub )?count: usize,?$|, count: usize[,)]")),
    ("6b lengths beside runs", lines(r"^ +(pub )?(s|v|i|slots|counters|items): usize,$")),
    ("7a a switch on which step to run", lines(r"match (row|what|run) \{")),
    ("8a answers files", [f for f in sorted(glob.glob(TOP + "/crates/*/proofs/**/Answers.antt", recursive=True))]),
]

for point, found in POINTS:
    print(f"{point}: {len(found)}")
    if LIST:
        for place in found:
            print("    " + place)
