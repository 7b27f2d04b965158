#!/usr/bin/env python3
"""Brings the must-fail edits of a landed commit to today's spelling.

usage: python3 tools/port_edits.py LANDED_COMMIT    at the top of the repository; it may run again, for it reads that commit

Each edit keeps its name, its file, its place and its wrong meaning. An edit of src/ that stands as it is keeps its text. In an edit of
specs/ names get underscores for dashes, projections are written tight and names of the library are today's. What text alone can't turn
was turned by hand, and stays as it is. Every edit is then tried on the files as they are: an old text that doesn't stand once is told,
and the exit is 1.
"""

import os
import re
import subprocess
import sys

# lines that the formatter broke elsewhere, imports that an edit's new text needs, clauses, and a call that takes one argument more
BY_HAND = {
    "buffer": ["behind_the_records"],
    "clothes": ["ahead_tells_a_number", "left_not_told"],
    "model": [
        "age-by-wrapping",
        "both-list-the-mark-as-0",
        "depth-first",
        "eleven-already-stored",
        "eleven-before-four",
        "last-minute-told-as-one",
        "lent-cut-one-late",
        "reach-one-less",
        "serve-marks-the-retired",
        "tag-without-number",
    ],
    "replay_answers": ["dump_slots_twice", "room_of_twenty_a_word"],
    "replay_loop": ["portion_thrown_away"],
    "replay_rows": ["judge-line-judges-eight-ways"],
}
EDIT = re.compile(r"crates/([^/]+)/must-fail/([^/]+\.edit)$")
LIBRARY = {"Option·getD": "get_or", "getD": "get_or", "negℤ": "neg_ℤ", "ltZ": "lt_z"}
NAME = re.compile(r"[^\W\d][\w'·ℤ]*(?:-[\w'·]+)*")
# a name and its projections, right behind a bracket, an operator or the line's begin
BEHIND = r"(?:(?<=^)|(?<=[(∷+*/%=≡<≤&|;:→.] )|(?<=\()|(?<= - ))"


def git(*words):
    return subprocess.check_output(["git", *words], text=True)


def names(text):
    def one(m):
        name = m.group()
        return LIBRARY.get(name, name.replace("-", "_"))

    return NAME.sub(one, text)


def projections(text):
    # (m .slots), (w .memory .items): a projection in brackets of its own
    text = re.sub(r"\((\w+)((?: \.\w+)+)\)", lambda m: m.group(1) + m.group(2).replace(" ", ""), text)
    # S .ways, m .from / S .ways: a name alone behind a bracket or an operator
    return re.sub(BEHIND + r"(\w+)((?: \.\w+)+)", lambda m: m.group(1) + m.group(2).replace(" ", ""), text)


def respelled(text):
    return projections(names(text))


def pairs(text):
    """The edit as lists [file, [[old, new], ..]]."""
    out = []
    for line in text.splitlines():
        word, _, rest = line.partition(": ")
        if word == "file":
            out.append([rest, []])
        elif word == "old":
            out[-1][1].append([rest, None])
        elif word == "new":
            out[-1][1][-1][1] = rest
        elif line.strip():
            raise SystemExit(f"no such line in an edit: {line}")
    return out


def written(edit):
    lines = []
    for path, of in edit:
        lines.append(f"file: {path}")
        for old, new in of:
            lines += [f"old: {old}", f"new: {new}"]
    return "\n".join(lines) + "\n"


def read(path):
    with open(path, encoding="utf-8") as f:
        return f.read()


def tried(crate, edit):
    """What is wrong with an edit on today's files, or nothing."""
    texts, before = {}, {}
    for path, of in edit:
        whole = f"crates/{crate}/{path}"
        if whole not in texts:
            texts[whole] = before[whole] = read(whole)
        for old, new in of:
            n = texts[whole].count(old)
            if n != 1:
                return f"{path} has {n} times: {old}"
            texts[whole] = texts[whole].replace(old, new)
    same = [p for p in texts if texts[p] == before[p]]
    return f"changes nothing in {', '.join(same)}" if same else ""


def unread(edit):
    """What today's antt would not read in a new text, or nothing: a dash in a name, a projection with a space before its dot."""
    for path, of in edit:
        for _, new in of:
            text = re.sub(r'"[^"]*"', "", new)
            if path.endswith(".antt") and re.search(r"[^\W\d_]-[^\W\d_]|[\w)] \.\w|\w·\w|\b_\S+_\b", text):
                return f"old spelling: {new}"
    return ""


def main():
    if len(sys.argv) != 2:
        raise SystemExit(__doc__)
    landed = [p for p in git("ls-tree", "-r", "--name-only", sys.argv[1]).splitlines() if EDIT.match(p)]
    counts, wrong, hand, turned = {}, [], 0, 0
    for path in landed:
        crate, name = EDIT.match(path).groups()
        was = git("show", f"{sys.argv[1]}:{path}")
        if name.removesuffix(".edit") in BY_HAND.get(crate, []):
            now = read(path)
            hand += 1
        else:
            edit = pairs(was)
            for file, of in edit:
                if file.endswith(".antt"):
                    of[:] = [[respelled(old), respelled(new)] for old, new in of]
            now = written(edit)
        if [f for f, _ in pairs(now)] != [f for f, _ in pairs(was)]:
            wrong.append(f"{path}: other files than landed")
        told = tried(crate, pairs(now)) or unread(pairs(now))
        if told:
            wrong.append(f"{path}: {told}")
        turned += now != was
        counts[crate] = counts.get(crate, 0) + 1
        with open(path, "w", encoding="utf-8") as f:
            f.write(now)
    there = [p for p in git("ls-files", "-co", "--exclude-standard", "crates").splitlines() if EDIT.match(p) and os.path.exists(p)]
    wrong += [f"{p}: not among the landed ones" for p in there if p not in landed and p.split("/")[1] in counts]
    for line in wrong:
        print(line)
    print(" ".join(f"{c}={n}" for c, n in sorted(counts.items())))
    print(f"{len(landed)} edits, {turned} of them turned, {hand} by hand, {len(wrong)} wrong")
    return 1 if wrong else 0


if __name__ == "__main__":
    sys.exit(main())
