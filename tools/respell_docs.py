#!/usr/bin/env python3
"""Turns names in backticks in the documents from hyphens to underscores, where tests/names.py knows no such name as it stands
and knows the other. Prints how many it turned. What is left tests/names.py tells."""
import importlib.util
import pathlib
import re

TOP = pathlib.Path(__file__).resolve().parent.parent
spec = importlib.util.spec_from_file_location('names', TOP / 'tests/names.py')
names = importlib.util.module_from_spec(spec)
spec.loader.exec_module(names)


def turned(part):
    """The part in today's spelling, if the code has that and not this."""
    if not re.search(r"[-′″]", part) or not re.search('[A-Za-z]', part):
        return part
    open_end = part.endswith(('…', '-'))
    bare = part.rstrip('…').strip('-')
    new = bare.replace('-', '_').replace('′', "'").replace('″', "''")
    known = new in names.KNOWN or new.strip("'") in names.KNOWN or \
        open_end and any(k.startswith(new + '_') for k in names.KNOWN) or \
        part.startswith('-') and any(k.endswith('_' + new) for k in names.KNOWN)
    return part.replace('-', '_').replace('′', "'").replace('″', "''") if bare not in names.KNOWN and known else part


def main():
    count = 0
    for document in [TOP / 'README.md', TOP / 'CHANGELOG.md', TOP / 'samples/README.md', *sorted((TOP / 'docs').glob('**/*.md'))]:
        if document.name == 'PORT.md':
            continue
        lines = document.read_text().split('\n')
        for number, line in enumerate(lines):
            if line.startswith('    '):
                continue

            def token(found):
                return '`' + re.sub(r"[^\s(){}\[\];,.:=λ→×≡⊎\"`|<>&*+!?/\\]+", lambda it: turned(it.group()), found.group(1)) + '`'
            new = re.sub('`([^`]+)`', token, line)
            count += new != line
            lines[number] = new
        document.write_text('\n'.join(lines))
    print('%d lines turned' % count)


if __name__ == '__main__':
    main()
