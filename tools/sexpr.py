"""S-expressions as trees with places, and lengths: what the tools read boards, rule files and scripts with.

It reads more than `drc` does and refuses nothing: what is wrong in a text is for `drc` to say. A list is taken apart when its parts
are asked for, so that of a large board only that is read which is looked at.
"""
import bisect
import re
from decimal import Decimal

STRING = rb'"(?:\\.|[^"\\])*"?'
TOKEN = re.compile(STRING + rb'|[()]|[^\s()"]+', re.S)
# Between several forms a line that begins with # is a comment.
COMMENT = re.compile(rb'(?P<comment>^[ \t]*#[^\n]*)|' + STRING, re.S | re.M)
CLOSED = rb'"(?:\\.|[^"\\])*"'
LEAF = rb'\([^()"]*(?:' + CLOSED + rb'[^()"]*)*\)'
# Words and then a row of lists without lists in them, a bracket or a string: one step.
STEP = re.compile(rb'[^()"]*(?:((?:' + LEAF + rb'\s*)+)|(\()|(\))|(' + STRING + rb')|\Z)', re.S)
LEAVES = re.compile(LEAF, re.S)
WORD = re.compile(rb'[^\s]+')
HEAD = re.compile(rb'\(\s*(?:"([^"\\]*)"|([^\s()"]+)(?=[\s()"]))')
LENGTH = re.compile(r'([+-]?)(?:([0-9]+)(?:\.([0-9]*))?|\.([0-9]+))(?:[eE]([+-]?[0-9]{1,3}))?')
ESCAPED = re.compile(r'\\(.)', re.S)
# What a terminal would take for a command, or end a line with, in a name that a board may have.
CONTROL = {code: ' ' for code in [*range(32), *range(127, 160), 0x2028, 0x2029]}


def unescaped(text):
    """the content of a string or a name in quotes"""
    return ESCAPED.sub(lambda m: {'n': '\n', 'r': '\r'}.get(m.group(1), m.group(1)), text) if '\\' in text else text


class Atom(str):
    """the value of a word or a string, and the byte where it begins"""
    __slots__ = ('at',)


def atom_of(token, at):
    """the atom of a word or a string as it stands in a text"""
    word = token.decode('utf-8', 'replace')
    if word.startswith('"'):
        body = word[1:]
        word = unescaped(body[:-1] if body.endswith('"') else body)
    atom = Atom(word)
    atom.at = at
    return atom


class Node:
    """a list: its parts, the byte where it begins, and the byte behind it"""
    __slots__ = ('text', 'at', 'end', 'leaf', 'taken', 'named', 'index')

    def __init__(self, at, text=b'', end=None, leaf=False):
        self.text, self.at, self.end, self.leaf = text, at, at if end is None else end, leaf
        self.taken = self.named = self.index = None

    @property
    def parts(self):
        """the atoms and the lists in it, in their order"""
        if self.taken is None and self.leaf:
            self.taken = atoms_of(self.text, self.at + 1, self.end - 1)
        elif self.taken is None:
            closed = self.end - 1 if self.end - 1 > self.at and self.text[self.end - 1:self.end] == b')' else self.end
            self.taken = parts_of(self.text, self.at + 1, closed) if self.text else []
        return self.taken

    @property
    def head(self):
        if self.named is None:
            found = HEAD.match(self.text, self.at, self.end)
            if found:
                self.named = (found.group(1) or found.group(2) or b'').decode('utf-8', 'replace')
            else:
                first = self.parts[0] if self.parts else None
                self.named = first if isinstance(first, Atom) else ''
        return self.named

    def forget(self):
        """lets go of its parts, which are taken apart again when they are asked for"""
        self.taken = self.index = None

    def lists(self):
        """the lists in it, in their order"""
        return [part for part in self.parts if isinstance(part, Node)]

    def first(self, *heads):
        """the first list in it with one of these heads, or None"""
        if self.index is None:
            self.index = {}
            for part in self.parts:
                if isinstance(part, Node):
                    self.index.setdefault(part.head, part)
        if len(heads) == 1:
            return self.index.get(heads[0])
        found = [self.index[head] for head in heads if head in self.index]
        return min(found, key=lambda part: part.at) if found else None

    def atoms(self):
        """the atoms behind its head"""
        return [part for part in self.parts[1:] if isinstance(part, Atom)]

    def value(self, *heads):
        """the first atom of its first list with one of these heads, or None"""
        found = self.first(*heads)
        return found.parts[1] if found and len(found.parts) > 1 and isinstance(found.parts[1], Atom) else None

    def lengths(self, *heads):
        """the nanometres behind the head of its first list with one of these heads; an empty list where there is none"""
        found = self.first(*heads)
        return [n for n in (nanometres(atom) for atom in found.atoms()) if n is not None] if found else []


def atoms_of(text, start, end):
    """the atoms of a stretch of a text without lists"""
    inner, atoms = text[start:end], []
    if b'"' in inner:
        return [atom_of(match.group(), match.start()) for match in TOKEN.finditer(text, start, end)]
    for word in inner.split():
        start = text.index(word, start)
        atom = Atom(word.decode('utf-8', 'replace'))
        atom.at = start
        atoms.append(atom)
        start += len(word)
    return atoms


def parts_of(text, start, end):
    """the atoms and lists of a stretch of a text; a list that does not end goes on to the end of the stretch"""
    parts, depth, begun, behind = [], 0, start, start
    for match in STEP.finditer(text, start, end):
        kind = match.lastindex
        if kind is None:
            break
        if depth:
            if kind == 2:
                depth += 1
            elif kind == 3:
                depth -= 1
                if not depth:
                    behind = match.end()
                    parts.append(Node(begun, text, behind))
            continue
        at, behind = match.span(kind)
        if at > match.start():
            parts += [atom_of(word.group(), word.start()) for word in WORD.finditer(text, match.start(), at)]
        if kind == 1:
            parts += [Node(leaf.start(), text, leaf.end(), True) for leaf in LEAVES.finditer(text, at, behind)]
        elif kind == 2:
            begun, depth = at, 1
        elif kind == 4:
            parts.append(atom_of(match.group(4), at))
    if depth:
        parts.append(Node(begun, text, end))
    elif behind < end:
        parts += [atom_of(word.group(), word.start()) for word in WORD.finditer(text, behind, end)]
    return parts


def forms(text, comments=False):
    """the lists at the top of a text of bytes; a list that does not end goes on to the end of the text"""
    if comments:
        text = COMMENT.sub(lambda m: b' ' * len(m.group()) if m.lastgroup else m.group(), text)
    return [part for part in parts_of(text, 0, len(text)) if isinstance(part, Node)]


def root_of(text, head):
    """the first list at the top of a text with this head, or an empty one; a text that is one list is not gone through for its end"""
    begin, end = text.find(b'('), text.rfind(b')') + 1
    if begin >= 0 and end > begin and not text[:begin].strip() and not text[end:].strip():
        root = Node(begin, text, end)
        if root.head == head:
            return root
    return next((form for form in forms(text) if form.head == head), Node(0))


def nanometres(text):
    """the whole nanometres of a length in millimetres, cut toward zero; None where it is no number"""
    match = LENGTH.fullmatch(text) if len(text) <= 64 else None
    if not match:
        return None
    sign, whole, part, bare, exponent = match.groups()
    if exponent:
        return int(Decimal(text) * 10**6)
    size = int(whole or 0) * 10**6 + int(((part or bare or '') + '000000')[:6])
    return -size if sign == '-' else size


class Lines:
    """the lines and columns of a text of bytes: both from 1, a column in characters"""

    def __init__(self, text):
        self.text = text
        self.ends = [match.start() for match in re.finditer(b'\n', text)]

    def place(self, at):
        """the line and the column of a byte"""
        line = bisect.bisect_left(self.ends, at)
        begin = self.ends[line - 1] + 1 if line else 0
        return line + 1, len(self.text[begin:at].decode('utf-8', 'replace')) + 1
