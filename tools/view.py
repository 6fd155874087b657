#!/usr/bin/env python3
"""A report of drc as one page of HTML, complete in itself, with a picture of the board.

    tools/view.py BOARD [REPORT] [--script FILE] [--project FILE] [--rules FILE] [--out PAGE]

REPORT is a file that holds the report of that board; without it, or where it is -, the report is read from standard input. The page
goes to PAGE, or to standard output. A report of a script has one state after another; with --script the picture follows the moves,
and without it the board stays as its file has it. Of a board that was refused the page shows each thing that is in the way. With
--project rows that the project switched off are marked.

Nothing is decided here: rows, values, open nets and notes are the report's. The picture is drawn from the board's text for the eye;
what is measured is not measured on it. The status is 2 where there is no report, it is that of another board, or a file was not read
or written.
"""
import argparse
import bisect
import html
import json
import os
import sys
from boards import COPPER, DRAWINGS, Board
from ends import status_of, text_of
from project import Wishes
from results import Result
import fits
from shapes import number
from telling import count_of, source_said, values

HERE = os.path.dirname(os.path.abspath(__file__))
INNER = ['#7fc87f', '#ce7d2c', '#4fcbcb', '#db628b', '#a7a5c6', '#28ccd9', '#e8b2a7', '#f2eda1', '#8dcb81', '#ed7c33', '#5bc3eb', '#f76f8e']
COLORS = {'F.Cu': '#c83434', 'B.Cu': '#4d7fc4', 'Pads': '#e3b72e', 'Vias': '#ececec', 'Holes': '#e3b72e', 'Rule areas': '#ff8fd2',
          'F.CrtYd': '#ff26e2', 'B.CrtYd': '#26e9ff', 'Edge.Cuts': '#d0d2cd', 'F.SilkS': '#c9b568', 'B.SilkS': '#9f8fc4', 'F.Fab': '#8d8d8d', 'B.Fab': '#5f6b7d'}
COLORS.update({'In%d.Cu' % k: INNER[(k - 1) % len(INNER)] for k in range(1, 31)})
HOLES = {'hole': '#c2c200', 'bare-hole': '#1ac4d2', 'via-hole': '#e3b72e'}
SORTS = ['drawing', 'fill', 'area', 'courtyard', 'edge', 'graphic', 'track', 'pad', 'via', 'via-hole', 'hole', 'bare-hole']
# From the lowest to the highest.
ORDER = ['B.Fab', 'B.SilkS'] + COPPER[::-1] + ['Pads', 'Vias', 'Holes', 'Rule areas', 'F.SilkS', 'F.Fab', 'B.CrtYd', 'F.CrtYd', 'Edge.Cuts']
COUNTED = (('rows', 'violation'), ('open nets', 'unconnected net'), ('not checked', 'not checked', 'not checked'))
OFF_AT_FIRST = ('B.Fab', 'F.Fab', 'B.SilkS')


def read_words():
    words = argparse.ArgumentParser(description=__doc__, formatter_class=argparse.RawDescriptionHelpFormatter)
    words.add_argument('board')
    words.add_argument('report', nargs='?', default='-')
    for text in ('--script', '--project', '--rules', '--out'):
        words.add_argument(text)
    return words.parse_args()


def rounded(box):
    return [round(n, 4) for n in box]


def moved(box, shift):
    return [box[0] + shift[0], box[1] + shift[1], box[2] + shift[0], box[3] + shift[1]]


def joined(boxes):
    return min(b[0] for b in boxes), min(b[1] for b in boxes), max(b[2] for b in boxes), max(b[3] for b in boxes)


def inspected(item):
    """what the page says of copper that is clicked on"""
    return item.said() + (', %s mm %s' % (number(item.width), 'wide' if item.word == 'track' else 'across') if item.width else '')


class Picture:
    """the board as groups of SVG, a layer each; what looks alike on a layer is one path, so that a large board stays quick"""

    def __init__(self, board, touched):
        self.drawn, self.box, self.references, self.names, self.told = {}, None, [], {}, []
        # The fills of many layers over each other are told apart by what they cover.
        self.faint = '.4' if len(board.copper) < 3 else '.22'
        for unit in board.units:
            name = str(touched.get(id(unit), ''))
            for item in unit.items:
                if item.word == 'footprint' and item.name:
                    self.references.append((name, unit))
                said = None
                for shape in item.shapes:
                    if said is None:
                        said = self.names.setdefault(inspected(item), len(self.names))
                    self.take(shape, name, said)
                    self.grow(shape.box)
            for shape in board.drawings(unit):
                self.take(shape, name, None)

    def take(self, shape, name, said):
        key = (shape.layer, SORTS.index(shape.sort), shape.fill, shape.width, name)
        self.drawn.setdefault(key, []).append((shape.path, said))

    def grow(self, box):
        old = self.box or box
        self.box = (min(old[0], box[0]), min(old[1], box[1]), max(old[2], box[2]), max(old[3], box[3]))

    def seen(self):
        """the box that is seen first, as x, y, width and height"""
        left, top, right, bottom = self.box or (0, 0, 100, 100)
        edge = 0.04 * max(right - left, bottom - top, 1)
        return rounded((left - edge, top - edge, right - left + 2 * edge, bottom - top + 2 * edge))

    def layers(self):
        """the layers that something lies on, from the lowest"""
        there = {key[0] for key in self.drawn}
        return [layer for layer in ORDER if layer in there]

    def path(self, key):
        _, sort, fill, width, name = key
        sort = SORTS[sort]
        unit = ' class="unit%s"' % name if name else ''
        faint = ' opacity="%s"' % self.faint if sort == 'fill' else ' fill-opacity=".12" stroke="currentColor" stroke-width=".1"' if sort == 'area' else ''
        color = HOLES.get(sort, 'currentColor')
        # A courtyard stays a thin line, however near one looks, so that it hides no gap.
        faint += ' vector-effect="non-scaling-stroke"' if sort == 'courtyard' else ''
        paint = 'fill="%s"' % color if fill else 'fill="none" stroke="%s" stroke-width="%s"' % (color, 1 if sort == 'courtyard' else number(width))
        known = ''
        if sort not in ('drawing', 'courtyard'):
            known = ' data-k="%d"' % len(self.told)
            self.told.append([said for _, said in self.drawn[key]])
        return '<path%s%s %s%s d="%s"/>' % (unit, known, paint, faint, ''.join(path for path, _ in self.drawn[key]))

    def reference(self, name, unit):
        item = unit.items[0]
        x, y = (number(n / 1e6) for n in item.position)
        known = ' class="unit%s"' % name if name else ''
        # No larger than its footprint, so that small parts stay readable.
        box = joined([part.box() for part in unit.items if part.shapes] or [item.box()])
        size = max(0.2, min(1, 0.6 * (box[3] - box[1]), (box[2] - box[0]) / (0.62 * len(item.name))))
        return '<text%s x="%s" y="%s" font-size="%s">%s</text>' % (known, x, y, number(size), html.escape(item.name))

    def svg(self):
        groups = []
        for k, layer in enumerate(self.layers()):
            keys = sorted(key for key in self.drawn if key[0] == layer)
            groups.append('<g id="layer%d" style="color:%s">%s</g>' % (k, COLORS.get(layer, '#888'), ''.join(self.path(key) for key in keys)))
        groups.append('<g id="references">%s</g>' % ''.join(self.reference(*each) for each in self.references))
        groups += ['<g id="%s"></g>' % name for name in ('notes', 'picked', 'links', 'marks', 'picked-gap', 'measure')]
        return '<svg id="board" xmlns="http://www.w3.org/2000/svg">%s</svg>' % '\n'.join(groups)

    def switches(self, refused):
        """the layers as the page switches them, from the highest: id, name, color, and whether it is on at first; of a refused board nothing was checked"""
        layers = [('layer%d' % k, layer, COLORS.get(layer, '#888'), layer not in OFF_AT_FIRST) for k, layer in enumerate(self.layers())][::-1]
        told = [('links', 'ratsnest', '#00f8ff', True), ('marks', 'violations', '#ff5f6d', True), ('notes', 'not checked', '#9aa3b0', True)]
        if refused:
            told = [('marks', 'in the way', '#ff5f6d', True)]
        return [('references', 'references', '#f2eda1', True)] + layers + told


class Page:
    """what the page shows beside the picture, state by state, while the report is told"""

    def __init__(self, placed):
        self.placed, self.items, self.numbers, self.states, self.units, self.shown = placed, [], {}, [], {}, []

    def item(self, text, found, place=''):
        """the number of an item as it now stands; of one that the board has not, its words alone"""
        shift = self.placed.shift(found.unit) if found else (0, 0)
        key = (id(found), shift, text) if found else text
        if key not in self.numbers:
            self.numbers[key] = len(self.items)
            if found:
                by = [n / 1e6 for n in shift]
                told = {'text': text, 'said': found.said(), 'place': place, 'paths': [[int(s.fill), number(s.width), s.path] for s in found.shapes],
                        'box': rounded(moved(found.box(), by))}
                if shift != (0, 0):
                    told['shift'] = by
                if found.word in ('text', 'dimension'):
                    told.update(words=found.reference or found.word, at=rounded([n / 1e6 for n in found.position]))
            else:
                told = {'text': text, 'said': text, 'place': '', 'paths': [], 'box': [0, 0, 0, 0]}
            self.items.append(told)
        return self.numbers[key]

    def named(self, named, told):
        place = ', line %d%s' % (told['line'], ' of the script' if self.placed.find(named).unit.source == 'script' else '') if 'line' in told else ''
        number_ = self.item(named.text, self.placed.find(named), place)
        if 'line' not in told:
            x, y = (n / 1e6 for n in named.position)
            self.items[number_]['box'] = [x - 0.5, y - 0.5, x + 0.5, y + 0.5]
        return number_

    def row(self, row, told, came):
        items = [self.named(named, item) for named, item in zip(row.items, told['items'])]
        boxes = [self.items[k]['box'] for k in items]
        # A via beside a fill is what one wants to see, and not the whole fill.
        focus = min(boxes, key=lambda b: (b[2] - b[0]) * (b[3] - b[1]))
        return {'severity': row.severity, 'kind': row.kind, 'layer': told['layer'] or '-', 'values': values(told), 'source': source_said(told),
                'short': told.get('short_by_nm', 0), 'text': row.line, 'items': items, 'focus': focus, 'spot': spot_of(focus), 'came': came, 'off': (told.get('project') or {}).get('off') or ''}

    def net(self, net, told):
        links = [{'line': [n / 1e6 for end in ends for n in end.position], 'said': link['message']} for (_, ends), link in zip(net.links, told['links'])]
        return {'text': told['message'], 'groups': ['%d: %s' % (group['count'], group['first']['said']) for group in told['groups']], 'links': links}

    def note(self, told):
        found = told.get('found')
        return {'text': told['message'].replace('not checked: ', ''), 'item': self.item(told['text'], found) if found else None}

    def units_now(self, touched):
        for unit in touched:
            self.units.setdefault(id(unit), len(self.units))
        alive = {id(unit) for unit in self.placed.alive()}
        return {key: [int(key in alive), *(n / 1e6 for n in self.placed.moved.get(key, (0, 0)))] for key in self.units}

    def see(self, state, told, touched, notes):
        """takes a state; a refused command shows the report before it"""
        if state.refused is not None:
            shown = dict(self.states[-1]) if self.states else {'rows': [], 'nets': [], 'notes': [], 'moves': {}, 'sum': ''}
            shown['rows'] = [{**row, 'came': False} for row in shown['rows']]
            shown.update(went=[], name='command %d refused' % state.number, refused=told['message'], command=self.command(state.number))
            self.states.append(shown)
            return
        old = {row['text']: row for row in self.shown}
        moves = self.units_now(touched)
        rows = [self.row(row, data, row.line not in old) for row, data in zip(state.rows, told['rows'])]
        new = {row['text'] for row in rows}
        # What went is shown where it stood before the command.
        went = [{**row, 'came': False} for row in self.shown if row['text'] not in new]
        counts = [count_of(state.counts[what], *words) for what, *words in COUNTED if what in state.counts]
        self.states.append({'name': 'report %d' % state.number + (', +%d -%d' % (sum(row['came'] for row in rows), len(went)) if state.number else ''),
                            'command': self.command(state.number), 'rows': rows, 'went': went,
                            'nets': [self.net(net, data) for net, data in zip(state.nets, told['open_nets'])],
                            'notes': [self.note({**data, 'found': found}) for data, found in zip(told['not_checked'], notes)],
                            'sum': ', '.join(counts + ([state.tiles] if state.number and state.tiles else [])), 'moves': moves})
        self.shown = rows

    def command(self, number_):
        """the text of a command of the script, in one line"""
        commands = self.placed.commands
        if not 0 < number_ <= len(commands):
            return ''
        node = commands[number_ - 1]
        text = ' '.join(node.text[node.at:node.end].decode('utf-8', 'replace').split())
        return text if len(text) <= 160 else text[:157] + '..'

    def all_states(self):
        """the states, in each of which every unit that a command ever touched has its place"""
        first = {id(unit) for unit in self.placed.board.units if unit.source != 'script'}
        for told in self.states:
            moves = told.pop('moves', {})
            told['units'] = {name: moves.get(key, [int(key in first), 0, 0]) for key, name in self.units.items()}
        return self.states


def spot_of(box):
    return '%s %s' % (number((box[0] + box[2]) / 2), number((box[1] + box[3]) / 2))


class RefusedPage(Page):
    """a board that was refused, with each thing that is in the way as a row"""

    def __init__(self, result):
        self.board = Board(result.places.text('board'))
        self.gone = set()
        super().__init__(self)
        self.moved, self.commands = {}, []
        starts = [unit.at for unit in self.board.units]
        rows = [self.fault(fault, told, starts) for fault, told in zip(result.faults, result.fault_data())]
        self.states = [{'name': 'refused', 'command': '', 'rows': rows, 'went': [], 'nets': [], 'notes': [], 'units': {},
                        'sum': 'not read, so nothing was checked', 'refused': '{file}:{line}:{column}: {message}'.format(**result.refusal),
                        'advice': list(fits.sum_lines(result.faults))}]

    def shift(self, _):
        return 0, 0

    def fault(self, fault, told, starts):
        """what is in the way, at the item in whose list it stands"""
        at = bisect.bisect_right(starts, fault.at) - 1
        unit = self.board.units[at] if at >= 0 and fault.at < self.board.units[at].node.end else None
        found = next((item for item in reversed(unit.items) if item.at <= fault.at), None) if unit else None
        text = '%s (%s) at %d' % (fault.name, told['number'], fault.at)
        items, focus = [], [0, 0, 0, 0]
        if found:
            parts = [item.box() for item in (unit.items if found.word == 'footprint' else [found]) if item.shapes] or [found.box()]
            items, focus = [self.item(found.said() + text, found, ', line %d' % told['line'])], rounded(joined(parts))
        return {'severity': 'error', 'kind': fits.SORTS.get(fault.sort, (fault.sort,))[0], 'layer': '-', 'values': fits.said(fault), 'source': '',
                'short': 0, 'text': text, 'items': items, 'focus': focus, 'spot': spot_of(focus) if found else None, 'came': False, 'off': ''}


def page_of(name, result, page):
    """the page of a result; `page` is what saw its states, or None where it was refused"""
    page = page or RefusedPage(result)
    states = page.all_states() if result.states else page.states
    picture = Picture(page.placed.board, page.units)
    drawn = picture.svg()
    data = {'name': name, 'box': picture.seen(), 'layers': picture.switches(not result.states), 'units': list(page.units.values()), 'items': page.items, 'states': states,
            'copper': picture.told, 'names': list(picture.names)}
    with open(os.path.join(HERE, 'page.html'), encoding='utf-8') as file:
        head, _, rest = file.read().partition('<!--BOARD-->')
    middle, _, tail = rest.partition('<!--DATA-->')
    # A text of a board cannot end the script that holds it.
    told = json.dumps(data, separators=(',', ':')).replace('<', '\\u003c')
    return head + drawn + middle + told + tail


def main():
    words = read_words()
    files = {'board': words.board, 'project': words.project, 'rules': words.rules, 'script': words.script}
    result = Result(files, text_of(words.report), Wishes.read(words.project), viewer=Page)
    fault = result.strange or (None if result.states or result.refusal else 'no report: %s' % result.fault)
    if fault:
        print('view.py: %s' % fault, file=sys.stderr)
        return 2
    page = page_of(os.path.basename(words.board), result, result.page)
    if words.out:
        with open(words.out, 'w', encoding='utf-8') as out:
            out.write(page)
    else:
        print(page, end='')
    return 0


if __name__ == '__main__':
    sys.exit(status_of(main))
