"""Reads crates.txt and the sources of the crates: their layers, head comments, modules of definitions and functions with their clauses."""
import functools
import glob
import os
import re

ROOT = os.path.dirname(os.path.dirname(os.path.abspath(__file__)))
OPENING = re.compile(r'(?:pub(?:\(crate\))? )?(?:const |unsafe )*fn (\w+)')
# A clause, with the comments above it.
CLAUSE = re.compile(r'(?:\s*//[^\n]*\n)*\s*(requires|ensures)\b\s*(\w*)\s*\{')
# What stands behind all clauses: a body, or the end.
BEHIND = re.compile(r'(?:\s|//[^\n]*\n)*[{;]')


def read(*parts):
    with open(os.path.join(ROOT, *parts), encoding='utf-8') as file:
        return file.read()


def sentences(text):
    """the sentences of a comment"""
    return re.split(r'(?<=\.) (?=[A-Z`(])', ' '.join(text.split())) if text.strip() else []


def first_sentences(text, least=40):
    """as many sentences from the front as it takes to say something"""
    said = []
    for sentence in sentences(text):
        said.append(sentence)
        if len(' '.join(said)) >= least:
            break
    return ' '.join(said)


class Layer:
    """crates that stand beside each other, under one heading of crates.txt"""

    def __init__(self, name, what):
        self.name, self.what, self.crates = name, what, []


def layers(text=None):
    """the layers of crates.txt, lowest first; a crate is its name and the names of what it stands on"""
    found = []
    for number, line in enumerate((text or read('crates.txt')).split('\n'), 1):
        heading = re.match(r'# == (.+?): (.+)$', line)
        if heading:
            found.append(Layer(*heading.groups()))
        elif line and not line.startswith('#'):
            if not found:
                raise ValueError('crates.txt:%d: a crate before the first heading' % number)
            name, _, below = line.partition(':')
            found[-1].crates.append((name, below.split()))
    return found


def crates():
    """each crate with what it stands on, in the order of crates.txt"""
    return [crate for layer in layers() for crate in layer.crates]


def head(path, mark):
    """the comment that a file begins with, up to an empty or an indented line of it"""
    said = []
    for line in read(path).split('\n'):
        if not line.startswith(mark) or not line[len(mark):].strip() or line[len(mark):].startswith('  '):
            break
        said.append(line[len(mark):].strip())
    return ' '.join(said)


def root_of(crate):
    """the first source file of a crate"""
    for name in ('lib.rt', 'main.rt'):
        if os.path.exists(os.path.join(ROOT, 'crates', crate, 'src', name)):
            return 'crates/%s/src/%s' % (crate, name)
    raise ValueError('crates/%s/src has neither lib.rt nor main.rt' % crate)


def crate_head(crate):
    path = root_of(crate)
    return head(path, '//!') or head(path, '//')


@functools.lru_cache(maxsize=None)
def modules(crate):
    """the modules of definitions of a crate, each behind those of the crate that it cites, and else in the order of its list of them"""
    there = {os.path.basename(path)[:-5] for path in glob.glob(os.path.join(ROOT, 'crates', crate, 'specs', '*.antt'))} - {'Lib'}
    listed = re.findall(r'^(?:pub )?mod (\w+)', read('crates', crate, 'specs', 'Lib.antt'), re.M) if there else []
    ordered = []

    def put(module, above):
        if module not in ordered and module not in above:
            cited = re.findall(r'^use Rattle\.%s\.specs\.(\w+)' % crate, read('crates', crate, 'specs', module + '.antt'), re.M)
            for other in [name for name in listed if name in cited and name in there]:
                put(other, above | {module})
            ordered.append(module)

    for module in [name for name in listed if name in there] + sorted(there - set(listed)):
        put(module, frozenset())
    return tuple(ordered)


def module_head(crate, module):
    return head('crates/%s/specs/%s.antt' % (crate, module), '--')


class Function:
    """a function of a crate: `owner` is the type or trait that it belongs to, `seen` how far it is public"""

    def __init__(self, **fields):
        self.__dict__.update(fields)

    @property
    def call(self):
        return '%s::%s' % (self.owner, self.name) if self.owner else self.name

    @property
    def is_law(self):
        """it gives nothing and changes nothing, so that its clauses are all that it is for"""
        return '->' not in self.signature and '&mut' not in self.signature and any(kind == 'ensures' for kind, _, _ in self.clauses)


@functools.lru_cache(maxsize=None)
def exports(crate):
    """what a crate hands on: its public modules, single names with their modules, and the types of both"""
    text = re.sub(r'//.*', '', read(root_of(crate)))
    public = set(re.findall(r'^pub mod (\w+)', text, re.M))
    names = set()
    for use in re.findall(r'^pub use ([^;]+);', text, re.M):
        stem, _, rest = use.partition('::')
        for name in re.findall(r'\w+(?: as \w+)?', rest):
            names.add((stem.strip(), name.split(' ')[0]))
    types = {name for _, name in names}
    for path in [root_of(crate)] + ['crates/%s/src/%s.rt' % (crate, module) for module in public]:
        types.update(re.findall(r'^pub (?:struct|enum|trait) (\w+)', read(path), re.M))
    return public, names, types


def end_of_braces(text, at):
    """the place behind the brace that closes the one at a place"""
    depth = 0
    while at < len(text):
        if text[at] == '{':
            depth += 1
        elif text[at] == '}':
            depth -= 1
            if depth == 0:
                return at + 1
        at += 1
    return at


def signature(text, at):
    """where the signature that begins at a place ends: before its clauses, its body or its semicolon"""
    depth = 0
    while at < len(text):
        sign = text[at]
        if sign in '([':
            depth += 1
        elif sign in ')]':
            depth -= 1
        elif depth == 0 and (sign in '{;' or (sign == '\n' and CLAUSE.match(text, at))):
            return at
        at += 1
    return at


def doc_before(lines, number):
    """the comment above a line, attributes and comments that are no documentation passed over"""
    said, at = [], number - 1
    while at >= 0 and re.match(r'\s*(#\[|//[^/]|.*\)\]$)', lines[at]):
        at -= 1
    while at >= 0 and lines[at].strip().startswith('///'):
        said.insert(0, lines[at].strip()[3:].strip())
        at -= 1
    return said


def owner_of(line):
    """the type of an `impl` or the name of a trait"""
    trait = re.match(r'pub trait (\w+)', line)
    if trait:
        return trait.group(1), True
    line = re.sub(r"^impl\s*(<(?:[^<>]|<[^<>]*>)*>)?\s*", '', line)
    of_trait = ' for ' in line
    line = line.split(' for ')[-1]
    name = re.search(r'(\w+)\s*(?:<|\{|$)', re.sub(r"^&?(?:'\w+ )?(?:mut )?", '', line))
    return (name.group(1) if name else ''), of_trait


def functions_of(crate, path):
    """the functions of one source file"""
    text = read(path)
    lines = text.split('\n')
    module = os.path.basename(path)[:-3]
    public, names, types = exports(crate)
    starts, at = [], 0
    for line in lines:
        starts.append(at)
        at += len(line) + 1
    owner, is_trait, of_trait, found = '', False, False, []
    for number, line in enumerate(lines):
        if re.match(r'(impl|pub trait|trait)\b', line):
            owner, of_trait = owner_of(line)
            is_trait = 'trait ' in line.split('{')[0] and not line.startswith('impl')
            if line.rstrip().endswith('{}'):
                owner, is_trait, of_trait = '', False, False
        elif line.startswith('}'):
            owner, is_trait, of_trait = '', False, False
        match = OPENING.match(line.strip())
        if not match or len(line) - len(line.lstrip()) not in (0, 4):
            continue
        begin = starts[number] + len(line) - len(line.lstrip())
        end = signature(text, begin)
        clauses, behind = [], end
        while True:
            clause = CLAUSE.match(text, behind)
            if not clause:
                break
            closed = end_of_braces(text, clause.end() - 1)
            clauses.append((clause.group(1), clause.group(2), ' '.join(text[clause.end():closed - 1].split())))
            behind = closed
        if not BEHIND.match(text, behind):
            raise ValueError('%s:%d: a clause that is not read as one' % (path, number + 1))
        seen = 'pub' if line.strip().startswith('pub ') or (is_trait and not line.strip().startswith('pub')) else 'crate' if line.strip().startswith('pub(crate)') else ''
        exported = owner in types if owner else module in public or module == 'lib' or (module, match.group(1)) in names
        found.append(Function(crate=crate, path=path, line=number + 1, module=module, name=match.group(1), owner=owner, seen=seen,
                              exported=exported, of_trait=of_trait and not is_trait, is_trait=is_trait,
                              signature=re.sub(r',? \)', ')', ' '.join(text[begin:end].split()).replace('( ', '(')), clauses=clauses,
                              doc=doc_before(lines, number)))
    return found


def source_files(crate):
    folder = 'crates/%s/src' % crate
    return ['%s/%s' % (folder, name) for name in sorted(os.listdir(os.path.join(ROOT, folder))) if name.endswith('.rt')]


def functions(crate):
    return [function for path in source_files(crate) for function in functions_of(crate, path)]
