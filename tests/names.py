#!/usr/bin/env python3
"""Looks whether what the documents name exists: files, crates, must-fail edits, functions, theorems and definitions.

    tests/names.py [FILE ..]        README, CHANGELOG, samples/README, docs/ (but PORT.md and DESIGN-PASS.md) and docs/landings/ if none is given

A word in backticks must be a file, or a word of the code (comments and imports don't count). `c::f` must be in crate c,
a name before "in `FILE`" must be declared in that file, and names behind "crate:" must be edits of that crate. What
begins with boughladder must stand in the header or be a crate, a link must lead somewhere, and HOUSE.md must have every
crate.
"""
import pathlib
import re
import sys

TOP = pathlib.Path(__file__).resolve().parent.parent
LEFT_OUT = {'.git', 'target', 'dist', '__pycache__'}

# Sections that speak of what is not there, yet or any more.
PASSED_OVER = {
    'docs/replay-format.md': {'## What the wishes add'},             # lines of later wishes
    'docs/landings/00-ready.md': {'## Renames', '## Check times'},   # the names before that landing
}
# Single names that need not be there.
ALLOWED = {
    # packages of Debian
    'README.md': {'gcc-x86-64-linux-gnu', 'g++-x86-64-linux-gnu', 'qemu-user'},
    # a file that ./check writes; a name of the system's, and of the library's
    'docs/DECISIONS.md': {'target/difference.calls', '/dev/fd/3', 'is_power_of_two'},
    # it stands for any outcome
    'docs/HOUSE.md': {'outcome'},
    # X, c and e stand for any
    'docs/STATEMENTS.md': {'model/specs/X', 'crates/model/specs/X.antt', 'crates/c/must-fail/e.edit'},
    # slips, shown as such
    'docs/replay-format.md': {'srve'},
    # edits that went in that landing
    'docs/landings/00-ready.md': {'lines_counted_by_two', 'no-closing-addition', 'six-one-level-early', 'place_m_is_sound',
                                  'serve_edge_off_by_one', 'refuted/proofs/Reached'},
    # edits that went in landing 05, and functions that went in the design pass
    'docs/landings/00-workshop.md': {'lines_counted_by_two', 'no-row-told-as-understood', 'is_bad', 'hit_among', 'look_whole',
                                     'setting::enter_apart'},
    # the first: an edit that went in landing 05; the second went to vacancy in landing 07; the others went in the design pass
    'docs/landings/02-plain-engine.md': {'no-row-told-as-understood', 'setting/proofs/Looks', 'none_with', 'as_plain'},
    'docs/landings/05-judge-a-dump.md': {'lines_counted_by_two', 'no-row-told-as-understood', 'pour32', 'pour64',
                                         'replay_lines::body_length', 'by_tests'},
    # what went in landing 06, told in the releases that had it and in the one that took it out
    'CHANGELOG.md': {'boughladder_table_set_standing', 'boughladder_table_set_standing_cut'},
    # what was renamed or went in landing 04, and in landing 06 with the standing permissions
    'docs/landings/01-age-from-issue.md': {'another-age-2', 'stamp-of', 'row-stamp', 'standing_ignored', 'stamp_is_arrival',
                                           'standing-issue-not-tested', 'late-over-standing', 'standing-set-late',
                                           'late_over_standing', 'standing_set_late'},
    'docs/landings/04-time-left.md': {'age-told', 'another-age-2', 'refuted/proofs/Reached', 'standing_has_age_1',
                                      'age_before_permission', 'age_wraps', 'time-left', 'standing-whole',
                                      'row-standing-tells-0', 'standing_reads_ahead', 'standing_tells_0'},
}


def relative(path):
    return str(path)[len(str(TOP)) + 1:] if TOP in path.parents else str(path)


def bare(path):
    """A source without comments and imports."""
    comment = {'.antt': r'(?<!\S)--[^\n]*|^\s*use [^\n]*', '.rt': r'//[^\n]*|^\s*use [^\n]*'}.get(path.suffix)
    text = path.read_text(errors='replace')
    return re.sub(comment, '', text, flags=re.M) if comment else text


def words_of(text):
    return set(re.split(r'[\s(){}\[\];,.:=λ→×≡⊎"`|<>&*+!?/\\\']+', text))


def declared_in(path):
    """The names before a colon."""
    heads = [re.split(r' :(?: |$)', line)[0] for line in bare(path).split('\n') if re.search(r' :( |$)', line)]
    return words_of(' '.join(heads))


def is_source(path):
    room = relative(path).split('/')[0]
    if not path.is_file() or room == 'tests':  # or this file would make known what it allows
        return False
    return path.suffix in {'.rt', '.antt', '.h', '.c', '.cc', '.py', '.rs', '.toml'} or \
        path.suffix == '' and room not in {'docs', 'crates'}


FILES = [p for p in TOP.rglob('*') if not LEFT_OUT & set(p.parts[len(TOP.parts):])]
CRATES = {p.name: p for p in (TOP / 'crates').iterdir() if p.is_dir()}
EDITS = {name: {e.stem for e in path.glob('must-fail/*.edit')} for name, path in CRATES.items()}
HEADER = (TOP / 'include/boughladder.h').read_text()
BASENAMES = {p.name for p in FILES}
KNOWN = set(CRATES).union(BASENAMES, {p.stem for p in FILES}, *EDITS.values(),
                          *(words_of(bare(p)) for p in FILES if is_source(p)))


def exists(name, document):
    """Whether a path is there: from the top, below crates/, or beside the document; .antt and .c may be left out."""
    name = re.sub(r'^\./', '', name).rstrip('/').replace('…', '*')
    if name in BASENAMES:
        return True
    bases = [] if name.startswith('/') or not name else [TOP, TOP / 'crates', TOP / 'crates/model', document.parent]
    return any(True for base in bases for end in ('', '.antt', '.c') for _ in base.glob(name + end))


def wrong_part(part, open_end):
    """Whether a word of the code is unknown. `_set` may end a name, `decides-…` begin one."""
    if part in KNOWN or part.lstrip('_') in KNOWN or re.fullmatch(r'[A-Z]{1,8}|[a-z]′?', part):
        return False
    return not (open_end and any(k.startswith(part) for k in KNOWN) or
                part.startswith('_') and any(k.endswith(part) for k in KNOWN))


def wrong_word(word, document):
    """What is wrong with a word in backticks, or None."""
    if not re.search('[A-Za-z]', word) or re.fullmatch('[0-9a-f]{7}', word):  # no name; a commit
        return None
    if re.search(r'\w/|^\.{1,2}/|^[\w-]+\.(md|py|c|h|cc|svg|calls|answers|txt|antt|rt|edit|pc)$', word):
        return None if exists(word, document) else 'no such file'
    function = re.fullmatch(r'(\w+)::(\w+)', word)
    if function and function.group(1) in CRATES:
        code = '\n'.join(bare(p) for p in CRATES[function.group(1)].glob('src/**/*.rt'))
        return None if re.search(r'\b(fn|struct|enum|trait) %s\b' % function.group(2), code) else 'not in that crate'
    for part in words_of(word.replace('…', ' ')):
        if re.search('[A-Za-z]', part) and wrong_part(part.rstrip('-_'), '…' in word):
            return 'no such name: %s' % part
    return None


def links(line, document):
    for target, heading in re.findall(r'\]\(([^)#]*)#?([^)]*)\)', line):
        page = document.parent / target if target else document
        if target.startswith('http'):
            continue
        if not page.exists():
            yield target, 'no such file'
        elif heading:
            headings = re.findall('^#+ (.*)', page.read_text(), re.M)
            if heading not in [re.sub(r'[^\w -]', '', h).lower().replace(' ', '-') for h in headings]:
                yield heading, 'no such heading'


def header_names(line, allowed):
    for name in re.findall(r'\b(?:boughladder_|Boughladder|BOUGHLADDER_)\w+', line):
        if name not in allowed and name not in CRATES and not re.search(r'\b%s' % name + ('' if name.endswith('_') else r'\b'), HEADER):
            yield name, 'not in the header'


def paths_of_a_block(line, document):
    for word in line.split():
        top = re.match(r'(?:\./)?(\w[\w.-]*)', word)
        if top and '/' in word and (TOP / top.group(1)).exists() and not exists(word, document):
            yield word, 'no such file'


def names(line, document, allowed):
    plain = re.sub('`[^`]*`', '', line)
    for word in re.findall(r'(?<![\w/.-])[A-Za-z][\w/-]*\.(?:md|py|antt|svg|calls|answers)\b', plain):
        if not exists(word, document):
            yield word, 'no such file'
    for token in re.findall('`([^`]+)`', line):
        for word in token.split():
            wrong = wrong_word(word.strip('",;()[]'), document)
            if wrong and word not in allowed:
                yield token, wrong


def in_their_place(line):
    listed = r'((?:`[^`\s]+`(?:, | and |, and ))*`[^`\s]+`)'
    for found, place in re.findall(listed + r' in `([^`\s]+)`', line):
        file = TOP / 'crates' / (place + '.antt')
        name = re.findall('`([^`]+)`', found)[-1]
        if file.exists() and not re.search('[…/]', name) and name not in declared_in(file):
            yield name, 'not declared in ' + place
    for crate, found in re.findall(r'(?:^|[|.;:,(] )([a-z_]+): ' + listed, line):
        for name in re.findall('`([^`]+)`', found):
            if EDITS.get(crate) and name not in EDITS[crate]:
                yield name, 'no edit of ' + crate


def crates_left_out(document):
    told = re.findall('`([^`]+)`', ' '.join(re.findall(r'^\| (`[^|]*) \|', document.read_text(), re.M)))
    for crate in CRATES:
        if crate not in told and not any(t.endswith('…') and crate.startswith(t[:-1]) for t in told):
            yield crate, 'a crate that the wings leave out'


def complaints(document):
    name, section = relative(document), ''
    for number, line in enumerate(document.read_text().split('\n'), 1):
        section = line if line.startswith('#') else section
        if section in PASSED_OVER.get(name, set()):
            continue
        allowed = ALLOWED.get(name, set())
        found = [*links(line, document), *header_names(line, allowed)]
        if line.startswith('    '):
            found += paths_of_a_block(line, document)
        else:
            found += [*names(line, document, allowed), *in_their_place(line)]
        for what, why in found:
            yield number, what, why
    if name == 'docs/HOUSE.md':
        for what, why in crates_left_out(document):
            yield 0, what, why


def main(documents):
    if not documents:
        documents = [TOP / 'README.md', TOP / 'CHANGELOG.md', TOP / 'samples/README.md',
                     *sorted(set((TOP / 'docs').glob('**/*.md')) - {TOP / 'docs/PORT.md', TOP / 'docs/DESIGN-PASS.md'})]  # they tell the names before
    wrong = 0
    for document in documents:
        for number, name, why in complaints(document):
            wrong += 1
            print('%s:%d: `%s`: %s' % (relative(document), number, name, why))
    print('%d documents, %d wrong names' % (len(documents), wrong))
    return wrong > 0


if __name__ == '__main__':
    sys.exit(main([pathlib.Path(name).resolve() for name in sys.argv[1:]]))
