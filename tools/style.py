#!/usr/bin/env python3
"""Says what is out of order in the sources and the documents that no proof looks at: tools/style.py [--shrink | --list]

- hidden: a function that is `pub`, stands in a private module of a library and is handed on by nobody.
- long: clauses of more than 100 columns; of each crate their number.
- doc: a comment of a function that says nothing alone, as it begins with "The same" or "As `".
- module: a name of a module of definitions that stands in several crates.
- In the documents: links and paths that lead nowhere, modules that no crate has, and names `CRATE::NAME` that no crate has.
- sentence: sentences of more than 40 words in the documents, but for the table of contracts; of each document their number.

What was so when this was written is listed in tools/style.txt. What is not listed there is told with its place, and so is what is
listed and no longer so; the status is 1 then. --shrink takes what is no longer so off the list, and adds nothing to it. --list
writes to standard output the list as it would be with all that is found now: for a merge of work that began before the list was.
"""
import collections
import glob
import os
import re
import sys

sys.path.insert(0, os.path.dirname(os.path.abspath(__file__)))

import sources

LISTED = 'tools/style.txt'
WIDEST = 100
MOST_WORDS = 40
# Its sentences are the comments of the calls.
WRITTEN = 'docs/CONTRACTS.md'
FOLDERS = r'(?:crates|docs|tools|bench|\.ci|\.github)'
# A module of a crate, and names behind it that are modules of the same crate.
FOLLOWED = re.compile(r'`(\w+)/(?:(specs|proofs)/)?[A-Z]\w*`((?:(?:, | and | or |, and )`[A-Z]\w*`)+)')


def hidden_and_docs():
    for crate, _ in sources.crates():
        library = sources.root_of(crate).endswith('lib.rt')
        for function in sources.functions(crate):
            name, place = '%s %s' % (function.path[len('crates/'):], function.call), '%s:%d' % (function.path, function.line)
            if library and function.seen == 'pub' and not function.exported and not function.of_trait:
                yield 'hidden ' + name, 1, '%s: %s is pub, and nothing outside of its crate can name it: pub(crate)' % (place, function.call)
            if function.doc and re.match(r'The same\b|As `', function.doc[0]):
                yield 'doc ' + name, 1, '%s: the comment of %s says nothing alone: %s' % (place, function.call, function.doc[0])


def long_clauses():
    """clauses of which some line is too long, those of closures among them"""
    for crate, _ in sources.crates():
        for path in sources.source_files(crate):
            text = sources.read(path)
            for clause in re.finditer(r'^[ ]*(?:requires|ensures)\b[ ]*\w*[ ]*\{', text, re.M):
                end = text.find('\n', sources.end_of_braces(text, clause.end() - 1))
                widest = max(len(line) for line in text[clause.start():end].split('\n'))
                if widest > WIDEST:
                    yield 'long ' + crate, 1, '%s:%d: a clause of %d columns' % (path, text.count('\n', 0, clause.start()) + 1, widest)


def module_names():
    """a name that stands in several crates, with these"""
    where = collections.defaultdict(list)
    for crate, _ in sources.crates():
        for module in sources.modules(crate):
            where[module].append(crate)
    for module, names in sorted(where.items()):
        for name in names if len(names) > 1 else []:
            yield 'module %s %s' % (module, name), 1, 'crates/%s/specs/%s.antt: a module of this name stands in %s too' % (
                name, module, ' and '.join(other for other in names if other != name))


def documents():
    found = ['README.md', 'CONTRIBUTING.md', 'CHANGELOG.md'] + sorted('docs/' + name for name in os.listdir(os.path.join(sources.ROOT, 'docs')) if name.endswith('.md'))
    return [path for path in found if os.path.exists(os.path.join(sources.ROOT, path))]


def anchors(text):
    """the anchors of the headings of a document"""
    return {re.sub(r'[^\w\- ]', '', heading.strip().lower()).replace(' ', '-') for heading in re.findall(r'^#+ (.+)$', text, re.M)}


def is_there(path):
    return bool(glob.glob(os.path.join(sources.ROOT, path)))


def leads_somewhere(word, crates):
    """whether what is written as code names a file or something of a crate; None where it does not look like that, or is a pattern of names"""
    if re.search(r'\b(?:CRATE|NAME|MODULE)\b', word):
        return None
    if re.fullmatch(FOLDERS + r'/[\w./*-]+', word):
        return is_there(word) or '/out/' in word
    first, _, rest = word.partition('/')
    if first in crates and re.fullmatch(r'(?:specs|src|proofs|data|must-fail)(?:/[\w./*-]*)?|[A-Z]\w*', rest):
        rest = 'specs/' + rest if rest[0].isupper() else rest
        return any(is_there('crates/%s/%s%s' % (first, rest, end)) for end in ('', '.antt', '.rt'))
    first, _, rest = word.partition('::')
    if first in crates and re.fullmatch(r'[\w:]+', rest):
        text = ''.join(sources.read(path) for path in sources.source_files(first))
        return re.search(r'\b%s\b' % rest.split('::')[-1], text) is not None
    return None


def dead_words():
    crates = {name for name, _ in sources.crates()}
    texts = {path: sources.read(path) for path in documents()}
    for path, text in texts.items():
        for number, line in enumerate(text.split('\n'), 1):
            for link in re.findall(r'\]\(([^)\s]+)\)', line):
                if re.match(r'[a-z]+:', link):
                    continue
                file, _, anchor = link.partition('#')
                file = os.path.normpath(os.path.join(os.path.dirname(path), file)) if file else path
                if not is_there(file) or (anchor and file.endswith('.md') and anchor not in anchors(sources.read(file))):
                    yield 'link %s %s' % (path, link), 1, '%s:%d: the link %s leads nowhere' % (path, number, link)
            if path != WRITTEN:
                for word in re.findall(r'`([^`\s]+)`', line):
                    if leads_somewhere(word, crates) is False:
                        yield 'path %s %s' % (path, word), 1, '%s:%d: %s is not there' % (path, number, word)
                for crate, folder, names in FOLLOWED.findall(line):
                    for name in re.findall(r'`(\w+)`', names) if crate in crates else ():
                        if not is_there('crates/%s/%s/%s.antt' % (crate, folder or 'specs', name)):
                            yield 'path %s %s/%s' % (path, crate, name), 1, '%s:%d: %s is no module of %s' % (path, number, name, crate)


def blocks(text):
    """what is read in one go: paragraphs, points of a list and cells of a table, with the line that each begins in; no code and no headings"""
    begun, lines, in_code = 0, [], False
    for number, line in enumerate(text.split('\n') + [''], 1):
        bare = line.strip()
        if bare.startswith('```'):
            in_code = not in_code
        is_point, is_row = re.match(r'(?:[-*]|\d+\.) ', bare), bare.startswith('|')
        ends = not bare or in_code or bare.startswith(('```', '#')) or is_row or (line.startswith('    ') and not lines)
        if (ends or is_point) and lines:
            yield begun, ' '.join(lines)
            lines = []
        if is_row:
            for cell in re.split(r'(?<!\\)\|', bare.strip('|')):
                yield number, cell.strip()
        elif not ends:
            begun = begun if lines else number
            lines.append(bare[is_point.end():] if is_point else bare)


def long_sentences():
    """what stands in backticks is one word"""
    for path in documents():
        if path == WRITTEN:
            continue
        for line, block in blocks(sources.read(path)):
            for sentence in re.split(r'(?<=[.?!])\s+(?=[A-Z([*`])', re.sub(r'`[^`]*`', '`X`', block)):
                words = sum(re.search(r'\w', word) is not None for word in sentence.split())
                if words > MOST_WORDS:
                    yield 'sentence ' + path, 1, '%s:%d: a sentence of %d words: %s ..' % (path, line, words, ' '.join(sentence.split()[:8]))


def listed():
    found = collections.Counter()
    for line in sources.read(LISTED).split('\n'):
        if line and not line.startswith('#'):
            name, _, count = line.rpartition(' = ')
            found[name or line] = int(count) if name else 1
    return found


def found():
    """how often each thing is there, and what is to be said of each"""
    counts, said = collections.Counter(), collections.defaultdict(list)
    for look in (hidden_and_docs, long_clauses, module_names, dead_words, long_sentences):
        for name, count, words in look():
            counts[name] += count
            said[name].append(words)
    return counts, said


def wrong():
    """a line for each thing that is out of order and not listed, or listed and no longer so"""
    (counts, said), allowed = found(), listed()
    lines = []
    for name in sorted(counts):
        if counts[name] > allowed[name]:
            lines += said[name] if not allowed[name] else ['%s: %d, and no more than %d may be' % (name, counts[name], allowed[name])] + said[name]
    return lines + ['%s: "%s" is no longer so: tools/style.py --shrink takes it out' % (LISTED, name) for name in sorted(allowed) if counts[name] < allowed[name]]


def lines_of(counts):
    """a list of what is passed over"""
    lines = [line for line in sources.read(LISTED).split('\n') if line.startswith('#')]
    return lines + [name + (' = %d' % counts[name] if name.startswith(('long ', 'sentence ')) or counts[name] > 1 else '') for name in sorted(counts) if counts[name]]


def shrink():
    counts, allowed = found()[0], listed()
    with open(os.path.join(sources.ROOT, LISTED), 'w', encoding='utf-8') as file:
        file.write('\n'.join(lines_of({name: min(counts[name], allowed[name]) for name in allowed})) + '\n')


def main():
    if sys.argv[1:] not in ([], ['--shrink'], ['--list']):
        print('usage: style.py [--shrink | --list]', file=sys.stderr)
        return 2
    if sys.argv[1:] == ['--list']:
        print('\n'.join(lines_of(found()[0])))
        return 0
    if sys.argv[1:] == ['--shrink']:
        shrink()
    lines = wrong()
    for line in lines:
        print(line)
    return 1 if lines else 0


if __name__ == '__main__':
    sys.exit(main())
