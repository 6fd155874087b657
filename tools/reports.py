"""Reports of `drc` as data: their states, rows, notes and open nets, and the items that they name found again in the board.

Nothing is decided here: what is told is the report's, and where it stands is the board's or the script's.
"""
import re
from boards import Board
from sexpr import Lines, Node, forms, nanometres, unescaped

NAME = r'"(?:\\.|[^"\\])*"'
LENGTH = r'-?\d+\.\d{6}'
ITEM = re.compile(r'(track|via|graphic|zone|edge|area|footprint|pad) (' + NAME + ')(?: of (' + NAME + '))? at (' + LENGTH + ') (' + LENGTH + ')')
ROW = re.compile(r'(error|warning) (\w+) (\S+): ')
VALUE = re.compile(r'(needs|least|most|has) (' + LENGTH + ')')
NOTE = re.compile(r'not checked: (text|dimension|courtyard|zone|constraint)(.*)', re.S)
CONSTRAINT = re.compile(r'not checked: constraint (.*) of rule ' + NAME, re.S)
REFUSED = re.compile(r'refused (board|project|rules|script): (\S+ \(\S+\)) at (\d+)(?: \+ (\d+))?')
COMMAND = re.compile(r'command (\d+) refused: (\S+ \(\S+\))(?: at (\d+)(?: \+ (\d+))?)?')
NET = re.compile(r'net (' + NAME + r'): (\d+) groups')
COUNT = re.compile(r'(rows|not checked|open nets) (\d+)')


def bare(name):
    """a name without its quotes"""
    return unescaped(name[1:-1]) if name is not None else None


class Named:
    """an item as a report names it"""
    __slots__ = ('text', 'word', 'name', 'reference', 'position')

    def __init__(self, match):
        self.text = match.group()
        self.word, name, reference, x, y = match.groups()
        self.name, self.reference = bare(name), bare(reference)
        # A report has six digits, so whole nanometres.
        self.position = int(x[:-7] + x[-6:]), int(y[:-7] + y[-6:])


class Row:
    """a row: what is broken, the one item or the two, and what is asked for"""

    def __init__(self, line, match):
        self.line, self.severity, self.kind, self.layer = line, match.group(1), match.group(2), match.group(3)
        self.items, self.values, self.source = [], {}, ''
        at = match.end()
        while at < len(line):
            item, value = ITEM.match(line, at), VALUE.match(line, at)
            if item:
                self.items.append(Named(item))
            elif value:
                self.values[value.group(1)] = value.group(2)
            else:
                self.source = line[at:]
            at = (item or value).end() + 3 if item or value else len(line)

    @property
    def message(self):
        where = '' if self.layer == '-' else ' on ' + self.layer
        return self.kind + where + ': ' + self.line.split(': ', 1)[1]


class Note:
    """what was read and is not checked: the sort, the layer, and the item's name, reference or rule"""

    def __init__(self, line, match):
        self.line, self.sort = line, match.group(1)
        names = re.findall(NAME, match.group(2))
        self.name = bare(names[-1]) if names else ''
        self.layer = (re.match(r' on (\S+)', match.group(2)) or re.match(r' (\S+) of', match.group(2)) or [None, ''])[1]


class OpenNet:
    """a net in several pieces, with the first item of each and the links that would join them"""

    def __init__(self, match):
        self.name, self.line, self.groups, self.links = bare(match.group(1)), match.group(), [], []


class State:
    """a report: of the board as its file has it, or behind a command of the script; or a command that was refused"""

    def __init__(self, number):
        self.number, self.rows, self.notes, self.nets, self.counts = number, [], [], [], {}
        self.tiles, self.refused, self.place, self.whole = '', None, None, False

    def read(self, line):
        """takes a line of a report; False where it is none"""
        row, note, net, count = ROW.match(line), NOTE.match(line), NET.match(line), COUNT.fullmatch(line)
        if row:
            self.rows.append(Row(line, row))
        elif note:
            self.notes.append(Note(line, note))
        elif net:
            self.nets.append(OpenNet(net))
        elif count:
            self.counts[count.group(1)] = int(count.group(2))
        elif line.startswith('group of ') and self.nets:
            self.nets[-1].groups.append((int(line.split()[2][:-1]), Named(ITEM.search(line))))
        elif line.startswith('link ') and self.nets:
            square = int(line.split()[1][:-1])
            self.nets[-1].links.append((square, [Named(m) for m in ITEM.finditer(line)]))
        elif line.startswith('rechecked '):
            self.tiles, self.whole = line, True
        else:
            return False
        return True


def joined(lines):
    """the lines of a report; the kind of a constraint stands in it as it is, and may have line ends in it"""
    begun = None
    for line in lines:
        line = line if begun is None else begun + '\n' + line
        begun = line if line.startswith('not checked: constraint ') and not CONSTRAINT.fullmatch(line) else None
        if begun is None:
            yield line
    if begun is not None:
        yield begun


class Report:
    """all that a run wrote. `states` are its reports and refused commands; or there is one line, in `refusal` or `fault`"""

    def __init__(self, text):
        self.states, self.refusal, self.fault = [], None, None
        lines = text.split('\n')
        self.whole = lines.pop() == ''
        for line in joined(lines):
            command = COMMAND.fullmatch(line)
            if line.startswith('report ') and line[7:].isdigit():
                self.states.append(State(int(line[7:])))
            elif command:
                state = State(int(command.group(1)))
                state.refused, state.place, state.whole = command.group(2), command.group(3) and int(command.group(3)), True
                self.states.append(state)
            elif not self.states and REFUSED.fullmatch(line):
                self.refusal = REFUSED.fullmatch(line)
            elif not self.states or not self.states[-1].read(line):
                self.fault = self.fault or line
        self.whole = self.whole and all(state.whole for state in self.states)

    def last(self):
        """the last report, which is that of the board as it is at the end"""
        return next((state for state in reversed(self.states) if state.refused is None), None)


class Placed:
    """the units of a board and how far each was moved, by the commands of a script that the report says were taken"""

    def __init__(self, board_text, script_text=None):
        self.board = Board(board_text)
        self.script = script_text
        self.commands = forms(script_text, comments=True) if script_text is not None else []
        self.moved, self.gone, self.spoken, self.spots = {}, set(), {}, {}

    def shift(self, unit):
        """how far a unit was moved, in nanometres"""
        return self.moved.get(id(unit), (0, 0))

    def alive(self):
        """the units that were not taken out"""
        return [unit for unit in self.board.units if id(unit) not in self.gone]

    def take(self, number):
        """carries out the command of this number, from 1: the units that it touched"""
        command = self.commands[number - 1] if 0 < number <= len(self.commands) else None
        words = command.parts if command else []
        touched, self.spoken, self.spots = [], {}, {}
        if words and words[0] == 'add' and len(words) > 1 and isinstance(words[1], Node):
            count = len(self.board.units)
            self.board.read(words[1], 'script')
            touched = self.board.units[count:]
        elif words and words[0] in ('delete', 'move') and len(words) > 1:
            touched = [unit for unit in self.board.named(words[1]) if unit.name == words[1] and id(unit) not in self.gone]
            if words[0] == 'delete':
                self.gone.update(map(id, touched))
            else:
                dx, dy = ([nanometres(word) or 0 for word in command.atoms()[1:3]] + [0, 0])[:2]
                for unit in touched:
                    x, y = self.shift(unit)
                    self.moved[id(unit)] = (x + dx, y + dy)
        return touched

    def same(self, word, name, reference=None):
        """the items of these names that are on the board"""
        key = (word, name, reference)
        if key not in self.spoken:
            self.spoken[key] = [item for item in self.board.items(word, name, reference) if id(item.unit) not in self.gone]
        return self.spoken[key]

    def at_place(self, named):
        """the item that a report names, by its names and its position, or None"""
        key = (named.word, named.name, named.reference)
        if key not in self.spots:
            self.spots[key] = {}
            for point in ('position', 'end'):
                for item in self.same(*key):
                    (dx, dy), there = self.shift(item.unit), getattr(item, point)
                    if there:
                        self.spots[key].setdefault((round(there[0] + dx), round(there[1] + dy)), item)
        return self.spots[key].get(named.position)

    def find(self, named):
        """the item that a report names, or None: by its names and its position, or else by its names alone"""
        return self.at_place(named) or next(iter(self.same(named.word, named.name, named.reference)), None)

    def strange(self, state):
        """of the items that a state names those that are not where it says, and how many it names"""
        named = {item.text: item for row in state.rows for item in row.items}
        for net in state.nets:
            named.update((item.text, item) for item in [first for _, first in net.groups] + [end for _, ends in net.links for end in ends])
        return [item for item in named.values() if self.at_place(item) is None], len(named)


SPOKEN = {'text': 'text', 'dimension': 'dimension', 'courtyard': 'footprint', 'zone': 'footprint-zone'}


class Notes:
    """the items that the notes of one state speak of; of several of one name the notes have them one after the other"""

    def __init__(self, placed):
        self.placed, self.told = placed, {}

    def item(self, note):
        """the item of the next note, and how many there are of that name, of which it may be another; None where it is on the board no more"""
        if note.sort not in SPOKEN:
            return None, 0
        word = SPOKEN[note.sort]
        same = self.placed.same(word, note.name)
        if word in ('text', 'dimension'):
            same = [item for item in same if note.layer in item.layers]
        if not same:
            return None, 0
        # Not each footprint of a name has a note, so it may be any of them.
        if word == 'footprint':
            return same[0], len(same)
        key = (note.sort, note.name, note.layer)
        number = self.told.get(key, 0)
        self.told[key] = number + 1
        return same[min(number, len(same) - 1)], 1


class Places:
    """lines and columns in the files that a report speaks of"""

    def __init__(self, files):
        self.files, self.texts, self.lines = files, {}, {}

    def text(self, which):
        if which not in self.texts:
            with open(self.files[which], 'rb') as file:
                self.texts[which] = file.read()
        return self.texts[which]

    def place(self, which, at):
        """the file, the line and the column of a byte of a text; line 1 where the words do not name its file"""
        name = self.files.get(which)
        if name is None:
            return which, 1, 1
        if which not in self.lines:
            self.lines[which] = Lines(self.text(which))
        return (name, *self.lines[which].place(at))
