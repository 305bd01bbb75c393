#!/usr/bin/env python3
"""Where a must-fail edit is refused: what `rt ci` and `rt must-fail` say of it, as the line `# at:` of the edit has it.

edit_places.py LOG    writes the line into each edit that a log of these tells of, in place of the one that it has; read each before it is kept."""
import os
import re
import sys

TOP = os.path.dirname(os.path.dirname(os.path.realpath(__file__)))
SAID = re.compile(r'rt: must-fail (\w+)/([\w.-]+)\.edit: (.*)')
PLACE = re.compile(r'refused, as it must be: (?:note: )?(?:\./)?(\S+?):(\d+):\d+: (.*)')
OWN = re.compile(r'at: |# at: ')


def owner(path, number):
    """What holds a line: the function, or the definition or law; an edit moves no line."""
    head = re.compile(r'.*\bfn (\w+)' if path.endswith('.rt') else r"\s*(?:(?:abbrev|unfoldable|opaque|record|data|pub) )*([^\s(){}:]+)(?= *[:({]| )")
    with open(path, encoding='utf-8') as file:
        lines = file.read().split('\n')
    while number < len(lines) and lines[number - 1].lstrip().startswith('#['):
        number += 1  # an item begins with its attributes
    for line in reversed(lines[:number]):
        found = head.match(line)
        if found and (path.endswith('.rt') or not line.startswith(' ') and not line.startswith('--')):
            return ('fn ' if path.endswith('.rt') else '') + found[1]
    return ''


def place(crate, said):
    """The file, the function or law, and the name of the fact in which an edit is refused, as far as they are told; or what is wrong with the edit."""
    found = PLACE.match(said)
    if not found:
        return 'no place' if said.startswith('refused, as it must be') and '(only' not in said else ''
    path, line, words = found.groups()
    named = re.match(r'error: `([^`]*)`', words) or re.search(r'\(`([^`]*)`\)', words) or re.search(r'`([^`]*)`', words)
    if path.endswith('.antt') and named and named[0].startswith('error'):
        return f'{path} {named[1]}'  # the law's own name, or the goal's
    return ' '.join(filter(None, [path, owner(os.path.join(TOP, 'crates', crate, path), int(line)), named and named[1]]))


def due(crate, label):
    """What the edit's own line says."""
    with open(os.path.join(TOP, 'crates', crate, 'must-fail', f'{label}.edit'), encoding='utf-8') as file:
        return [line[len('# at: '):].strip() for line in file if line.startswith('# at: ')]


def wrong(lines):
    """What is wrong with the edits that the lines of a run tell of: an edit that shows nothing, as it could not be tried or names what is not there, or that is refused
    at another place than it says."""
    for line in lines:
        found = SAID.match(line)
        if not found:
            continue
        crate, label, said = found.groups()
        where = place(crate, said)
        if not where:
            yield f'must-fail {crate}/{label}: it shows nothing: {said[:300]}'
        elif due(crate, label) != [where]:
            yield f"must-fail {crate}/{label}: refused at `{where}`, and its `# at:` says {', '.join(f'`{one}`' for one in due(crate, label)) or 'nothing'}"


def main():
    for line in open(sys.argv[1], encoding='utf-8', errors='replace'):
        found = SAID.match(line.rstrip('\n'))
        where = found and place(found[1], found[3])
        if where and where != 'no place':
            path = os.path.join(TOP, 'crates', found[1], 'must-fail', f'{found[2]}.edit')
            with open(path, encoding='utf-8') as file:
                lines = file.read().split('\n')
            at = next((i for i, one in enumerate(lines) if OWN.match(one)), None)
            rest = [one for one in lines if not OWN.match(one)]
            at = next(i for i, one in enumerate(rest) if one.startswith('file: ')) if at is None else at
            with open(path, 'w', encoding='utf-8') as file:
                file.write('\n'.join([*rest[:at], f'# at: {where}', *rest[at:]]))


if __name__ == '__main__':
    main()
