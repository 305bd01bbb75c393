#!/usr/bin/env python3
"""respell.py [--look] [--table FILE]: brings the repository's own names of specs/ and proofs/ to today's spelling: words in snake case, as `flagValue` to `flag_value` and
`natural-below` to `natural_below`. Run once, at the top, after the kit's port.py.

What turns: definitions, lemmas, fields and constructors that specs/*.antt and proofs/*.antt of a crate declare (not what proofs/FUNCTION/ declares: Rattle asks for those names).
A name stays, and is told, where the kit's library has the same spelling, or where its new spelling stands in the repository already.
Where it turns: every .antt and .rt of crates/. --look writes nothing and prints the table; --table FILE writes it, old and new with a tab between."""
import collections
import glob
import os
import re
import subprocess
import sys

WORD = re.compile(r"[^\s(){}.;,@\"«»\[\]`|:→∷≡×]+")
HEAD = re.compile(r"^(?:(?:abbrev|unfoldable|opaque|record|data|pub) )*([^\s(){}:\"=]+)\s*:(?![\w:])")
FIELD = re.compile(r"^\s+(?:pub )?([^\s(){}:\"=]+)\s*:(?![\w:])")
MANY = re.compile(r"^\s*(?:pub )?((?:[^\s(){}:\"=|]+ )+):(?![\w:])")


# where the new spelling would meet another name in one file: what a definition is called then, and which names of laws give way first
CHOSEN = {'noOps': 'has_no_ops', 'isDigit': 'is_digit'}
GIVE_WAY = [('crates/promises/proofs/LeafRows.antt', 'pos_field', 'pos_field_rows'), ('crates/promises/proofs/LongRows.antt', 'tags-number', 'tags_number_is')]


def read(path):
    with open(path, encoding='utf-8') as file:
        return file.read()


def kit():
    page = subprocess.run(['rt', 'doc'], capture_output=True, text=True, check=True).stdout.strip()
    return os.path.join(os.path.dirname(page), 'rattle')


def words(path):
    return set(WORD.findall(read(path)))


def plain(path):
    """The words of a file that could be a name in scope: without the paths of modules, and, of a source, without the names of functions and calls."""
    text = re.sub(r"\bRattle\.[\w.+'-]+(?=\.\{)", '', read(path))
    text = re.sub(r"\bRattle\.[\w.+'-]+", '', text)
    text = re.sub(r"--.*", '', text) if path.endswith('.antt') else re.sub(r"//.*", '', text)
    if path.endswith('.rt'):
        clauses = ' '.join(re.findall(r"ghost use[^;]*;|(?:ensures|requires)[^{]*\{.*", text))
        names = ' '.join(re.findall(r"(\w+): ", text))
        text = clauses + ' ' + names
    text = re.sub(r"\.[\w'-]+", '', text)
    return WORD.findall(text)


def declared():
    """The names that the repository's own definitions and laws declare, and where."""
    found = collections.defaultdict(set)
    for path in glob.glob('crates/*/specs/*.antt') + glob.glob('crates/*/proofs/*.antt'):
        for line in read(path).split('\n'):
            match = FIELD.match(line) if line.startswith(' ') else HEAD.match(line)
            if line.startswith(' ') and not re.match(r'^  (pub )?\S+ :', line):
                match = None
            if match and not match[1].startswith('--'):
                found[match[1]].add(path)
    return found


def snake(name):
    turned = re.sub(r"(?<=[a-z0-9'])([A-Z])", lambda m: '_' + m[1].lower(), name) if name[0].islower() else name
    turned = re.sub(r"(?<=[A-Z])([A-Z])(?![a-z])", lambda m: m[1].lower(), turned) if name[0].islower() else turned
    return re.sub(r"(?<=[\w'])-(?=[\w'])", '_', turned) if name[0].islower() else turned


def main():
    look = '--look' in sys.argv
    for path, old, new in () if look else GIVE_WAY:
        text = re.sub(r"(?<![\w'.-])" + old + r"(?![\w'-])", new, read(path))
        with open(path, 'w', encoding='utf-8') as file:
            file.write(text)
    names = declared()
    library = set()
    for path in glob.glob(os.path.join(kit(), '**', '*.antt'), recursive=True):
        library |= words(path)
    paths = [path for kind in ('specs/**/*.antt', 'proofs/**/*.antt', 'src/**/*.rt') for path in glob.glob('crates/*/' + kind, recursive=True)]
    uses = {path: set(plain(path)) for path in paths}
    table, kept = {}, []
    defined = {name for name in names if any('/specs/' in path for path in names[name])}
    groups = collections.defaultdict(set)
    for name in names:
        if name not in library:
            groups[snake(name)].add(name)
    for name in sorted(names):
        new = snake(name)
        if new == name:
            continue
        if name in CHOSEN:
            table[name] = CHOSEN[name]
            continue
        if name in library:
            kept.append(f'{name}: the library has it')
            continue
        # the name that a definition has goes first; whoever stands beside it in a file keeps its own
        rivals = {new} | {other for other in groups[new] if other != name and (other in defined or other in table)}
        if name in defined:
            rivals = {new} | {other for other in groups[new] if other != name and other in defined and other < name}
        meeting = [path for path in paths if name in uses[path] and uses[path] & rivals]
        if meeting:
            kept.append(f'{name}: {new} stands beside it in {meeting[0]}')
        else:
            table[name] = new
    for line in kept:
        print('kept:', line, ' '.join(sorted(names[line.split(':')[0]]))[:120])
    print(len(table), 'names turn,', len(kept), 'stay')
    if look:
        for name, new in table.items():
            print(f'{name}\t{new}')
        return
    any_name = re.compile(r"(?<![\w'\-])(" + '|'.join(re.escape(name) for name in sorted(table, key=len, reverse=True)) + r")(?![\w'\-])")
    for path in glob.glob('crates/**/*.antt', recursive=True) + glob.glob('crates/**/*.rt', recursive=True):
        if '/out/' in path:
            continue
        text = read(path)
        turned = any_name.sub(lambda m: table[m[1]], text)
        if turned != text:
            with open(path, 'w', encoding='utf-8') as file:
                file.write(turned)
    if '--table' in sys.argv:
        with open(sys.argv[sys.argv.index('--table') + 1], 'w', encoding='utf-8') as file:
            file.writelines(f'{name}\t{new}\n' for name, new in table.items())


main()
