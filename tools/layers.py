#!/usr/bin/env python3
"""Writes the layers in docs/ARCHITECTURE.md and the whole of docs/DEFINITIONS.md from the sources: tools/layers.py [--check]

The layers are the headings and lines of crates.txt. What a crate is stands in the comment that its first source file begins
with, what a module of definitions is in the comment that it begins with. What no such comment says, which notions a module
holds and whether it serves its own crate alone, is told by tools/notions.txt. With --check nothing is written: a line names
each file that is not as it would be written, and each fault of crates.txt and notions.txt; then the status is 1.
"""
import os
import re
import sys

sys.path.insert(0, os.path.dirname(os.path.abspath(__file__)))

import sources

BEGIN, END = '<!-- Written by tools/layers.py: -->', '<!-- Up to here. -->'
NOTIONS = 'tools/notions.txt'
STATEMENT = ('run_output', 'RunEndings')


def cell(text):
    return text.replace('|', '\\|')


def faults():
    """crates that stand before what they stand on, and notions of modules that are not there"""
    found, before = [], set()
    names = [name for name, _ in sources.crates()]
    for name, below in sources.crates():
        found += ['crates.txt: %s stands before %s' % (name, other) for other in below if other in names and other not in before]
        before.add(name)
    there = sorted(os.listdir(os.path.join(sources.ROOT, 'crates')))
    found += ['crates.txt: %s is not listed' % name for name in there if name not in names]
    found += ['crates.txt: %s is no crate' % name for name in names if name not in there]
    modules = {'%s/%s' % (name, module) for name in names if name in there for module in sources.modules(name)}
    return found + ['%s: %s is no module' % (NOTIONS, name) for name in sorted(set(notions()) - modules)]


def notions():
    """of a module: whether it serves its own crate alone, and the notions that it holds"""
    found = {}
    for line in sources.read(NOTIONS).split('\n'):
        if line and not line.startswith('#'):
            name, _, words = line.partition(':')
            name, _, own = name.partition(' ')
            found[name] = (own == 'own', words.strip())
    return found


def layers_text():
    """the picture of the layers, highest first, and a table of the crates, lowest first"""
    layers = sources.layers()
    wide = max(len(layer.name) for layer in layers)
    lines = ['```']
    for number, layer in reversed(list(enumerate(layers, 1))):
        row, rows = '', []
        for name, _ in layer.crates:
            if row and len(row) + 2 + len(name) > 84:
                rows.append(row)
                row = ''
            row += ('  ' if row else '') + name
        for at, row in enumerate(rows + [row]):
            lines.append('%2s  %s  %s' % ('' if at else number, ('' if at else layer.name).ljust(wide), row))
    lines += ['```', '']
    own = {name for name, _ in sources.crates()}
    over = {name: set() for name in own}
    for name, below in sources.crates():
        for other in below:
            if other in own:
                over[name] |= {other} | over[other]
    for number, layer in enumerate(layers, 1):
        lines += ['**%d. %s**: %s.' % (number, layer.name, layer.what), '', '| crate | what it is | stands right above |', '|---|---|---|']
        for name, below in layer.crates:
            below = [other for other in below if other in own]
            nearest = [other for other in below if not any(other in over[another] for another in below)]
            lines.append('| `%s` | %s | %s |' % (name, cell(sources.first_sentences(sources.crate_head(name))), ' '.join(nearest)))
        lines.append('')
    return '\n'.join(lines).rstrip('\n')


def architecture():
    text = sources.read('docs/ARCHITECTURE.md')
    if text.count(BEGIN) != 1 or text.count(END) != 1 or text.index(BEGIN) > text.index(END):
        raise ValueError('docs/ARCHITECTURE.md has no place for the layers')
    return text[:text.index(BEGIN)] + BEGIN + '\n\n' + layers_text() + '\n\n' + text[text.index(END):]


def cited_by(module):
    """a module of definitions and all that it rests on, each as its crate and its name"""
    there = {(name, other) for name, _ in sources.crates() for other in sources.modules(name)}
    found, left = set(), [module]
    while left:
        crate, name = left.pop()
        if (crate, name) in there - found:
            found.add((crate, name))
            left += re.findall(r'Rattle\.(\w+)\.specs\.(\w+)', sources.read('crates', crate, 'specs', name + '.antt'))
    return found


def definitions():
    """each module of definitions with what it says of itself, and the notions that it holds"""
    told, count, needed = notions(), 0, cited_by(STATEMENT)
    lines = []
    for number, layer in enumerate(sources.layers(), 1):
        body = []
        for name, _ in layer.crates:
            for module in sources.modules(name):
                own, words = told.get('%s/%s' % (name, module), (False, ''))
                said = sources.first_sentences(sources.module_head(name, module))
                path = '**`%s/%s`**' if (name, module) in needed else '`%s/%s`'
                body.append('| %s%s | %s | %s |' % (path % (name, module), ' (own)' if own else '', cell(said), cell(words)))
        count += len(body)
        if body:
            lines += ['', '## %d. %s' % (number, layer.name), '', '| module | what it says | notions |', '|---|---|---|'] + body
    return '\n'.join([
        '# Where each notion is defined', '',
        'Written by `tools/layers.py`: %d modules, in the order in which to read them, by the layers of [ARCHITECTURE.md](ARCHITECTURE.md).' % count,
        'A path `CRATE/Module` is the file `crates/CRATE/specs/Module.antt`. A module stands in the lowest crate that needs it, and here behind those that it cites.',
        'The second column is the beginning of the comment at the head of the module. The third one names notions that it holds, where that comment does not.',
        'The statement ([PROVED.md](PROVED.md)) is in `%s/%s`, and rests on %d modules, whose names are bold. The others serve contracts on the way to it;' % (STATEMENT + (len(needed),)),
        'those that are marked (own) serve the contracts of their crate, or of crates next to it.',
    ] + lines) + '\n'


def documents():
    return (('docs/ARCHITECTURE.md', architecture()), ('docs/DEFINITIONS.md', definitions()))


def wrong():
    """a line for each fault of what is read, and for each file that is not as it would be written"""
    return faults() + ['%s: not as tools/layers.py writes it' % path for path, text in documents() if sources.read(path) != text]


def main():
    if sys.argv[1:] not in ([], ['--check']):
        print('usage: layers.py [--check]', file=sys.stderr)
        return 2
    if not sys.argv[1:]:
        for path, text in documents():
            with open(os.path.join(sources.ROOT, path), 'w', encoding='utf-8') as file:
                file.write(text)
    lines = wrong()
    for line in lines:
        print(line)
    return 1 if lines else 0


if __name__ == '__main__':
    sys.exit(main())
