#!/usr/bin/env python3
"""Writes docs/CONTRACTS.md from the sources: each public call with its clauses and the first sentence of its comment: tools/contracts.py [--check]

It also writes two parts of docs/PROVED.md: the statement with the definitions that it uses, and a table of the crates.

A call is public where another crate can name it: it is `pub`, and its module is public or the crate hands on its name or its
type. The methods of a public trait are among them. A law is a function that gives nothing and changes nothing: its clauses hold of all values.
With --check nothing is written, and the status is 1 where a file is not as it would be written.
"""
import os
import re
import sys

sys.path.insert(0, os.path.dirname(os.path.abspath(__file__)))

import sources

PATH = 'docs/CONTRACTS.md'
PROVED = 'docs/PROVED.md'
BEGIN, END = '<!-- Written by tools/contracts.py: the %s -->', '<!-- Up to here. -->'
# The statement and what it uses, each by the module that defines it.
STATEMENT = tuple(('run_output', 'RunEndings', name) for name in ('Promises', 'Whole', 'Prefix', 'PrefixOf', 'Unread', 'UnreadPrefix')) + (
    ('drc_io', 'Sinks', 'AppendsPrefix'), ('drc_io', 'FaultCounts', 'Rose'))
# It stands in the library of the toolchain, and is told here as it is there.
APPENDS = ['Appends None new bytes = \u22a4', 'Appends (Some xs) None bytes = \u22a5', 'Appends (Some xs) (Some ys) bytes = ys \u2261 xs ++ bytes']


def cell(text):
    return text.replace('|', '\\|')


def code(text):
    """code in a table, between signs that it does not have itself"""
    if '`' in text:
        return '<code>%s</code>' % cell(text.replace('&', '&amp;').replace('<', '&lt;'))
    return '`%s`' % cell(text)


def public(crate):
    return [function for function in sources.functions(crate) if function.seen == 'pub' and function.exported and not function.of_trait]


def row(function):
    clauses = '<br>'.join(code(' '.join(part for part in (kind, name, '{ %s }' % text) if part)) for kind, name, text in function.clauses)
    sentence = (sources.sentences(' '.join(function.doc)) or [''])[0]
    signature = re.sub(r'^pub ', '', function.signature)
    if function.owner:
        signature = signature.replace('fn ' + function.name, 'fn %s' % function.call, 1)
    return '| %s%s | %s | %s |' % (code(signature), ' (law)' if function.is_law else '', clauses, cell(sentence))


def text():
    body, calls, laws, clauses = [], 0, 0, 0
    for layer in sources.layers():
        for name, _ in layer.crates:
            found = public(name) if sources.root_of(name).endswith('lib.rt') else []
            if not found:
                continue
            calls, laws, clauses = calls + len(found), laws + sum(f.is_law for f in found), clauses + sum(len(f.clauses) for f in found)
            body += ['', '## %s' % name, '', '| call | clauses | what its comment says first |', '|---|---|---|'] + [row(function) for function in found]
    return '\n'.join([
        '# What each public call promises', '',
        'Written by `tools/contracts.py` from the sources, crate by crate, lowest layer first: %d calls with %d clauses, %d of them laws.' % (calls, clauses, laws),
        'The clauses are what is proved, and the sentences beside them are not. How a clause is read stands in [CONTRIBUTING.md](../CONTRIBUTING.md), and where',
        'a name of a clause is defined in the `ghost use` lines of its file and in [DEFINITIONS.md](DEFINITIONS.md). A law gives nothing and changes nothing, so its clauses hold of all values.',
        'What holds of all values of a type stands in the `ghost invariant` of the type, and what a type is seen as in its `ghost view`; neither is repeated here.',
    ] + body) + '\n'


def definition(crate, module, name):
    """a definition without its comments: of a record the fields, of others the equations without the type"""
    lines = sources.read('crates/%s/specs/%s.antt' % (crate, module)).split('\n')
    at = next(k for k, line in enumerate(lines) if re.match(r'(?:abbrev )?pub (?:record )?%s\b' % name, line))
    end = next(k for k in range(at, len(lines)) if not lines[k].strip())
    body = lines[at:end] if 'record' in lines[at] else lines[at + 1:end]
    return [re.sub(r'^(\s*)pub ', r'\1', line) for line in body if not line.strip().startswith('--')]


def statement():
    first, *others = [definition(*each) for each in STATEMENT] + [APPENDS]
    return '\n'.join(['```', *first, '', *(line for part in others for line in part), '```'])


def table():
    lines = ['| crate | calls | laws | clauses | what it is |', '|---|---|---|---|---|']
    for name, _ in sources.crates():
        found = public(name) if sources.root_of(name).endswith('lib.rt') else []
        laws = sum(function.is_law for function in found)
        link = '[`%s`](CONTRACTS.md#%s)' % (name, name) if found else '`%s`' % name
        what = (sources.sentences(sources.crate_head(name)) or [''])[0]
        lines.append('| %s | %d | %d | %d | %s |' % (link, len(found) - laws, laws, sum(len(function.clauses) for function in found), cell(what)))
    return '\n'.join(lines)


def proved():
    """docs/PROVED.md with its two parts as the sources have them"""
    page = sources.read(PROVED)
    for what, part in (('statement', statement()), ('table', table())):
        before, begin, rest = page.partition(BEGIN % what)
        _, end, after = rest.partition(END)
        if not begin or not end:
            raise ValueError('%s has no place for the %s' % (PROVED, what))
        page = before + begin + '\n\n' + part + '\n\n' + end + after
    return page


def wrong():
    """the files that are not as they would be written"""
    return ['%s: not as tools/contracts.py writes it' % path for path, made in ((PATH, text), (PROVED, proved))
            if not os.path.exists(os.path.join(sources.ROOT, path)) or sources.read(path) != made()]


def main():
    if sys.argv[1:] not in ([], ['--check']):
        print('usage: contracts.py [--check]', file=sys.stderr)
        return 2
    if not sys.argv[1:]:
        for path, made in ((PATH, text), (PROVED, proved)):
            told = made()
            with open(os.path.join(sources.ROOT, path), 'w', encoding='utf-8') as file:
                file.write(told)
    lines = wrong()
    for line in lines:
        print(line)
    return 1 if lines else 0


if __name__ == '__main__':
    sys.exit(main())
