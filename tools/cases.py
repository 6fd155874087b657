#!/usr/bin/env python3
"""The cases of crates/drc_cases as data, for tools/test: docs/CASES.md says how they are written.

Run as tools/cases.py it writes crates/drc_cases/stdout, which has a line for each case: after one was added, renamed or deleted.
"""
import os
import re
import shlex

CRATE = os.path.join(os.path.dirname(os.path.dirname(os.path.abspath(__file__))), 'crates', 'drc_cases')

ESCAPE = re.compile(rb'\\(?:x([0-9a-f]{2})|(.))|\$([A-Za-z0-9_]+)', re.S)
PLAIN = {b'n': b'\n', b'r': b'\r', b't': b'\t', b's': b' ', b'\\': b'\\', b'$': b'$'}


class Case:
    """a run: its name, its words, its files, the status and the output that it is to have"""

    def __init__(self, name):
        self.name, self.words, self.files, self.status, self.out = name, [], {}, None, b''

    def word(self, option):
        """the file that the words name for an option"""
        for number, word in enumerate(self.words):
            if word == option and number + 1 < len(self.words):
                return self.words[number + 1]
            if word.startswith(option + '='):
                return word[len(option) + 1:]
        return None

    def board(self):
        """the name of the board's file"""
        words = list(self.words)
        while words:
            word = words.pop(0)
            if word in ('--project', '--rules', '--script', '--workers', '--make'):
                words = words[1:]
            elif word == '--':
                return words[0] if words else None
            elif not word.startswith('-'):
                return word
        return None


def decoded(text, lets):
    def one(match):
        code, sign, name = match.groups()
        return bytes([int(code, 16)]) if code else lets[name] if name else PLAIN[sign]
    return ESCAPE.sub(one, text)


def read_cases(path):
    """the cases of a file"""
    with open(path, 'rb') as file:
        lines = file.read().split(b'\n')
    cases, lets, add = [], {}, None
    for line in lines:
        word, _, rest = line.partition(b' ')
        if word == b'case':
            cases.append(Case(rest.decode()))
        elif word == b'run':
            cases[-1].words = shlex.split(rest.decode())
        elif word in (b'file', b'let'):
            name, _, text = rest.partition(b' ')
            where, key = (cases[-1].files, name.decode()) if word == b'file' else (lets, name)
            if word == b'file' and key in where:
                where = {}  # the first file of a name counts
            where[key] = decoded(text, lets)
            add = (where, key)
        elif word == b'out':
            status, _, text = rest.partition(b' ')
            cases[-1].status, cases[-1].out = int(status), decoded(text, lets)
            add = (cases[-1].__dict__, 'out')
        elif line[:1] in b'|+*' and line:
            times, text = (int(word[1:]), rest) if line[:1] == b'*' else (1, line[1:])
            more = decoded(text, lets) * times + (b'\n' if line[:1] == b'|' else b'')
            add[0][add[1]] += more
        elif word in (b'take', b'fail-read', b'fail-write'):
            cases[-1].limited = True
    return [case for case in cases if case.status is not None and not hasattr(case, 'limited')]


def names_in(path):
    with open(path, encoding='utf-8') as file:
        return [line[5:] for line in file.read().split('\n') if line.startswith('case ')]


def printed():
    """what the cases are to print: each of them, in the order of their files, and how many they are"""
    with open(os.path.join(CRATE, 'args'), encoding='utf-8') as file:
        names = [name for words in file.read().split() for name in names_in(os.path.join(CRATE, 'data', words))]
    return [name + ' ok' for name in names] + ['%d ok, 0 differ' % len(names)]


if __name__ == '__main__':
    with open(os.path.join(CRATE, 'stdout'), 'w', encoding='utf-8') as stdout:
        stdout.write('\n'.join(printed()) + '\n')
