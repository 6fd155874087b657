"""What is told of a report: its states as data, in the shape of docs/FORMATS.md ("Reports as JSON"), and the findings of a state in order.

Nothing is decided here: what is told is the report's, its place is that of a list in the board, the script or the rule file.
"""
import hashlib
import math
import re
from boards import plain
from kinds import nearest
from reports import CONSTRAINT, Notes
from sexpr import forms, nanometres

FORMAT = 'drc-report/1'
RULE = re.compile(r'rule ("(?:\\.|[^"\\])*")')
TILES = re.compile(r'rechecked (\d+) of (\d+) tiles')


def millimetres(nm):
    """a length for people: millimetres without needless digits, and below a micrometre whole nanometres"""
    return '%d nm' % nm if 0 < abs(nm) < 1000 else ('%.6f' % (nm / 1e6)).rstrip('0').rstrip('.') + ' mm'


def values(row, rounded=millimetres):
    """what is asked for and what is there, in words; row is that of the data"""
    if row['kind'] == 'courtyard_clearance' and row.get('needs_nm') == 0:
        return 'the courtyards overlap'
    words = []
    for key, before in (('needs_nm', 'needs '), ('least_nm', 'needs at least '), ('most_nm', 'may have at most '), ('has_nm', 'has ')):
        if key in row:
            words.append(before + rounded(row[key]))
    if row.get('short_by_nm'):
        words.append(('over by ' if 'most_nm' in row else 'short by ') + rounded(row['short_by_nm']))
    return ', '.join(words)


def source_said(row):
    if row['source'] == 'rule':
        return 'rule "%s"' % row['rule']
    return {'default': 'board setup', 'local': 'local clearance'}.get(row['source'], '')


def row_said(row):
    """a row in the words of KiCad, its names and values behind it"""
    where = ' on ' + row['layer'] if row['layer'] else ''
    told, source = values(row), source_said(row)
    items = ' | '.join(item['said'] for item in row['items'])
    return '%s%s: %s%s%s' % (row['kind'], where, items, ': ' + told if told else '', ' (%s)' % source if source else '')


def count_of(number, one, many=None):
    return '%d %s' % (number, one if number == 1 else many or one + 's')


class Teller:
    """what is told of each state: its rows, open nets and notes, or that a command was refused, with the places of all items"""

    def __init__(self, report, placed, places, wishes=None):
        self.report, self.placed, self.places, self.wishes = report, placed, places, wishes
        self.prints, self.rule_lists, self.known, self.noted = {}, None, {}, []

    def put(self, told, source, at):
        told['file'], told['line'], told['column'] = self.places.place(source, at)
        return told

    def item(self, named):
        """an item with the place of its list; without a place where the board has no such item"""
        found = self.placed.find(named)
        key = (named.text, id(found))
        if key not in self.known:
            told = {'item': named.word, 'name': named.name}
            if named.reference is not None:
                told['reference'] = named.reference
            told['x_nm'], told['y_nm'] = named.position
            told['text'] = told['said'] = named.text
            if found:
                told['said'], told['net'], told['uuid'], told['layers'] = found.said(layers=False), found.net, found.uuid, list(found.layers)
                self.put(told, found.unit.source, found.at)
            self.known[key] = told
        return self.known[key]

    def print_of(self, rule, items, extra=''):
        """what stays the same of a finding while the rest of the board is edited: its kind and its items by their names, and no place"""
        names = sorted(str((item.get('uuid') or item['name'], item.get('reference'))) for item in items)
        mark = hashlib.sha256(repr((rule, items[0].get('net') if items else '', names, extra)).encode()).hexdigest()[:32]
        self.prints[mark] = self.prints.get(mark, 0) + 1
        return '%s:%d' % (mark, self.prints[mark])

    def row(self, row):
        items = [self.item(named) for named in row.items]
        told = {'severity': row.severity, 'kind': row.kind, 'layer': None if row.layer == '-' else row.layer}
        told.update((word + '_nm', nanometres(text)) for word, text in row.values.items())
        least, most = told.get('needs_nm', told.get('least_nm')), told.get('most_nm')
        if 'has_nm' in told and (least is not None or most is not None):
            told['short_by_nm'] = least - told['has_nm'] if least is not None else told['has_nm'] - most
        rule = RULE.fullmatch(row.source)
        told['source'] = 'rule' if rule else row.source or None
        if rule:
            told['rule'] = re.sub(r'\\(.)', r'\1', rule.group(1)[1:-1])
        told['items'], told['text'] = items, row.line
        told['message'] = row_said(told)
        told['fingerprint'] = self.print_of(row.kind, items, row.layer)
        if self.wishes:
            told['project'] = self.wishes.of(row.kind, items)
        return told

    def net(self, net):
        groups = [{'count': count, 'first': self.item(named)} for count, named in net.groups]
        links = []
        for square, ends in net.links:
            items = [self.item(named) for named in ends]
            link = {'length_nm': math.isqrt(square), 'square': str(square), 'ends': items}
            link['message'] = 'unconnected: %s | %s: %s apart' % (*(item['said'] for item in items), millimetres(round(math.isqrt(square), -3)))
            if self.wishes:
                link['project'] = self.wishes.of('open-net', items)
            links.append(link)
        told = {'net': net.name, 'groups': groups, 'links': links, 'text': net.line, 'fingerprint': self.print_of('open-net', [], net.name)}
        told['message'] = 'unconnected: net [%s] is in %s, %s to be routed' % (plain(net.name), count_of(len(groups), 'piece'), count_of(len(links), 'connection'))
        if self.wishes:
            told['project'] = self.wishes.of('open-net', [])
            # A net is left aside where each of its links is.
            if links and all(link['project']['off'] for link in links):
                told['project'] = links[0]['project']
        return told

    def note(self, note, notes):
        told = {'severity': 'note', 'sort': note.sort, 'text': note.line, 'message': note.line}
        found, many = notes.item(note)
        self.noted.append(found)
        if note.sort == 'constraint':
            self.constraint(note, told)
        elif many > 1:
            told['message'] = '%s (one of %d footprints with this reference)' % (note.line, many)
        elif found:
            told['uuid'] = found.uuid
            if found.word in ('text', 'dimension') and found.reference:
                told['message'] = 'not checked: %s "%s" on %s' % (found.word, found.reference, note.layer)
        if found and many == 1:
            self.put(told, found.unit.source, found.at)
        told['fingerprint'] = self.print_of('not-checked', [], (note.line, told.get('uuid')))
        return told

    def constraint(self, note, told):
        """a constraint that is not checked: one that KiCad does not have either is a mistake of the rule file"""
        name = CONSTRAINT.fullmatch(note.line)
        name = name.group(1) if name else ''
        meant = nearest(name)
        told['constraint'], told['rule'] = name, note.name
        if meant != '':
            told['severity'] = 'warning'
            asked = ' (is %s meant?)' % meant if meant else ''
            told['message'] = 'constraint %s of rule "%s" is none that KiCad has%s, so nothing of it is checked' % (name, note.name, asked)
        at = self.rule_place(note.name, name)
        if at is not None:
            self.put(told, 'rules', at)

    def rule_place(self, rule, constraint):
        """the byte of a constraint in the rule file, or None: rules that a script put in place are not looked at"""
        if self.places.files.get('rules') is None:
            return None
        if self.rule_lists is None:
            self.rule_lists = [form for form in forms(self.places.text('rules'), comments=True) if form.head == 'rule']
        for form in self.rule_lists:
            if form.parts[1:2] == [rule]:
                for part in form.lists():
                    if part.head == 'constraint' and part.parts[1:2] == [constraint]:
                        return part.at
        return None

    def state(self, state):
        told = {'report': state.number}
        if state.refused is not None:
            told['refused'] = {'text': 'command', 'name': state.refused.split(' (')[0], 'number': state.refused.split(' (')[1][:-1], 'at': state.place}
            told['message'] = 'command %d refused: %s' % (state.number, state.refused)
            commands = self.placed.commands
            at = state.place if state.place is not None else commands[state.number - 1].at if 0 < state.number <= len(commands) else None
            return self.put(told, 'script', at) if at is not None else told
        self.prints = {}
        told['rows'] = [self.row(row) for row in state.rows]
        told['open_nets'] = [self.net(net) for net in state.nets]
        notes = Notes(self.placed)
        self.noted = []
        told['not_checked'] = [self.note(note, notes) for note in state.notes]
        told['counts'] = {word.replace(' ', '_'): number for word, number in state.counts.items()}
        tiles = TILES.fullmatch(state.tiles)
        told['tiles'] = {'rechecked': int(tiles.group(1)), 'of': int(tiles.group(2))} if tiles else None
        return told

    def states(self, viewer=None):
        """each state as data, in turn; a viewer sees it while the board is as it then is"""
        for state in self.report.states:
            touched = self.placed.take(state.number) if state.refused is None and state.number > 0 else []
            if touched:
                self.known = {}
            told = self.state(state)
            if viewer:
                viewer.see(state, told, touched, self.noted)
            yield told


def refusal_of(report, places):
    """the refusal of a text as data, with its place"""
    found = report.refusal
    which, name, at = found.group(1), found.group(2), int(found.group(3))
    file, line, column = places.place(which, at)
    return {'text': which, 'name': name.split(' (')[0], 'number': name.split(' (')[1][:-1], 'at': at, 'file': file, 'line': line, 'column': column,
            'message': found.group()}


def strangers(report, placed):
    """what is to be said where a report is not that of this board, or None; only the first report is of the board as its file has it"""
    if not report.states or report.states[0].number != 0 or report.states[0].refused is not None:
        return None
    strange, named = placed.strange(report.states[0])
    if not strange:
        return None
    return '%d of %d items are not on this board where the report says: is this its report? (first: %s)' % (len(strange), named, strange[0].text)


class Finding:
    """a thing that is told: its severity (error, warning, open or note), its rule, its words, its place, the further items, its
    fingerprint, and what the project says of it"""
    __slots__ = ('severity', 'rule', 'message', 'first', 'others', 'mark', 'project')

    def __init__(self, severity, rule, message, first, others=(), mark='', project=None):
        self.severity, self.rule, self.message, self.first, self.others = severity, rule, message, first, list(others)
        self.mark, self.project = mark, project


def findings(state, by_link=False):
    """the findings of a state: a refused command, or the rows, the open nets, or each of their links, and the notes"""
    if 'refused' in state:
        yield Finding('error', 'refused-' + state['refused']['text'], state['message'], state)
        return
    for row in state['rows']:
        yield Finding(row['severity'], row['kind'], row['message'], row['items'][0], row['items'][1:], row['fingerprint'], row.get('project'))
    for net in state['open_nets']:
        for link in net['links'] if by_link else []:
            yield Finding('open', 'open-net', link['message'], link['ends'][0], link['ends'][1:], net['fingerprint'], link.get('project'))
        ends = [item for link in net['links'] for item in link['ends']] or [group['first'] for group in net['groups']]
        if not by_link or not net['links']:
            yield Finding('open', 'open-net', net['message'], ends[0] if ends else {}, ends[1:], net['fingerprint'], net.get('project'))
    for note in state['not_checked']:
        rule = 'unknown-constraint' if note['severity'] == 'warning' else 'not-checked'
        yield Finding(note['severity'], rule, note['message'], note, [], note['fingerprint'])
