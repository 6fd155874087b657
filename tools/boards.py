"""Boards as the tools need them: each item that a report may name, where its list begins, and what is drawn of it.

Names and positions are those that a report of `drc` has, so that a row can be led back to its items. A list is read when it is asked
for, by its name or as a whole, so that of a large board only that is read which a report names.
"""
import bisect
import re
from sexpr import CONTROL, Node, nanometres, root_of, unescaped
from shapes import FIRST_CORNER, Placement, arc, area, corners, figure, hole_shape, pad_shapes, plain_area, plain_strip, point, strip

COPPER = ['F.Cu'] + ['In%d.Cu' % k for k in range(1, 31)] + ['B.Cu']
COURTYARDS = ('F.CrtYd', 'B.CrtYd')
DRAWINGS = ('F.SilkS', 'B.SilkS', 'F.Fab', 'B.Fab')
TEXTS = ('gr_text', 'gr_text_box', 'fp_text', 'fp_text_box', 'property')
GRAPHICS = ('gr_line', 'gr_rect', 'gr_circle', 'gr_poly', 'gr_arc', 'gr_curve', 'bezier', 'gr_text', 'gr_text_box', 'dimension')
HEADS = {'track': ('segment', 'arc'), 'via': ('via',), 'zone': ('zone',), 'area': ('zone',), 'graphic': GRAPHICS + ('footprint',),
         'edge': GRAPHICS + ('footprint',), 'text': GRAPHICS + ('footprint',), 'dimension': GRAPHICS, 'pad': ('footprint',),
         'footprint': ('footprint',), 'footprint-zone': ('footprint',)}
NAMES = re.compile(rb'\(\s*"?(?:tstamp|uuid)(?:"?\s*"((?:\\.|[^"\\])*)"|"?\s+([^\s()"]+)|"([^\s()"]+))', re.S)
# A line on silk or fabrication layers, in the two forms that KiCad writes.
LINE = re.compile(rb'\(fp_line\s+\(start (\S+) (\S+)\)\s+\(end (\S+) (\S+)\)\s+(?:\(stroke\s+\(width (\S+)\)\s+\(type \w+\)\s*\)\s+\(layer "?([^\s()"]+)"?\)|'
                  rb'\(layer "?([^\s()"]+)"?\)\s+\(width (\S+)\))')
# A track as KiCad writes it, which is most of what a board has.
N = rb'(-?\d{1,4}(?:\.\d{1,6})?)'
SEGMENT = re.compile(rb'\(segment\s+\(start ' + N + rb' ' + N + rb'\)\s+\(end ' + N + rb' ' + N + rb'\)\s+\(width ' + N + rb'\)\s+\(layer "([^"\\]*)"\)\s+'
                     rb'\(net (\d+)\)\s+\((?:tstamp|uuid) "?([^\s()"\\]+)"?\)\s*\)')
VIA = re.compile(rb'\(via(?: blind| micro)?\s+\(at ' + N + rb' ' + N + rb'\)\s+\(size ' + N + rb'\)\s+\(drill ' + N + rb'\)\s+\(layers "([^"\\]*)" "([^"\\]*)"\)\s+'
                 rb'(?:\(free\)\s+)?\(net (\d+)\)\s+\((?:tstamp|uuid) "?([^\s()"\\]+)"?\)\s*\)')
SORTS = {'track': 'Track', 'via': 'Via', 'graphic': 'Graphic', 'zone': 'Zone', 'edge': 'Board edge', 'area': 'Rule area',
         'footprint': 'Footprint', 'pad': 'Pad', 'text': 'Text', 'dimension': 'Dimension', 'footprint-zone': 'Zone of footprint'}
SIGNS = (('slash', '/'), ('backslash', '\\'), ('lt', '<'), ('gt', '>'), ('colon', ':'), ('dblquote', '"'), ('quote', "'"), ('space', ' '),
         ('return', ' '), ('tab', ' '), ('brace', '{'))


def plain(name):
    """a name without the escapes that KiCad writes for signs of its own: {slash} and so on"""
    if '{' in name:
        for word, sign in SIGNS:
            name = name.replace('{%s}' % word, sign)
    return name


class Item:
    """an item that a report may name: its word, its name, where its list begins in which text, its position, and of a track its end"""
    __slots__ = ('word', 'name', 'reference', 'at', 'position', 'end', 'draw', 'drawn', 'unit', 'layers', 'net', 'uuid', 'width')

    def __init__(self, word, name, at, position, reference=None, layers=(), draw=None):
        self.word, self.name, self.reference, self.at, self.position = word, name, reference, at, position
        self.layers, self.draw, self.drawn, self.unit, self.end, self.net, self.uuid, self.width = layers, draw, None, None, None, '', '', None

    @property
    def shapes(self):
        """what is drawn of it"""
        if self.drawn is None:
            self.drawn = self.draw() if self.draw else []
        return self.drawn

    def said(self, layers=True):
        """the item in the words of KiCad: its sort, its net, its part and its layers"""
        name = ' ' + self.name if self.word in ('pad', 'footprint', 'area') and self.name else ''
        net = ' [%s]' % (plain(self.net) or '<no net>') if self.word in ('track', 'via', 'zone', 'pad') else ''
        part = ' of ' + (self.reference or '?') if self.word == 'pad' else ''
        where = '' if not layers or not self.layers or self.word == 'edge' else ' on ' + '..'.join((self.layers[0], self.layers[-1])[:len(self.layers)])
        return (SORTS.get(self.word, self.word) + name + net + part + where).translate(CONTROL)

    def box(self):
        boxes = [shape.box for shape in self.shapes]
        if not boxes:
            x, y = self.position[0] / 1e6, self.position[1] / 1e6
            return x - 0.5, y - 0.5, x + 0.5, y + 0.5
        return min(b[0] for b in boxes), min(b[1] for b in boxes), max(b[2] for b in boxes), max(b[3] for b in boxes)


class Unit:
    """the items of one list, which an edit moves or takes out together, by the name of that list"""
    __slots__ = ('board', 'node', 'source', 'at', 'read', 'known')

    def __init__(self, board, node, source):
        self.board, self.node, self.source, self.at, self.read, self.known = board, node, source, node.at, None, None

    @property
    def name(self):
        if self.known is None:
            self.known = name_of(self.node)
        return self.known

    @property
    def items(self):
        """its items, in the order of the text; none where the list is none of a board's items"""
        if self.read is None:
            self.read = []
            self.board.fill(self)
            # A large board is tracks, vias and fills: what is drawn of them later is taken apart again. Of footprints the page needs more.
            if self.node.head != 'footprint':
                self.node.forget()
        return self.read

    def take(self, item):
        item.unit = self
        self.read.append(item)
        return item


def name_of(node):
    return node.value('tstamp', 'uuid') or ''


def layers_of(node, copper):
    """the layers of a list, with *.Cu and F&B.Cu told one by one"""
    names = [atom for part in node.lists() if part.head in ('layer', 'layers') for atom in part.atoms()]
    told = []
    for name in names:
        told += copper if name == '*.Cu' else ['F.Cu', 'B.Cu'] if name == 'F&B.Cu' else [name]
    return told


def first_point(node, placement):
    """the point that a report gives of a graphic"""
    kind = node.head[3:]
    start, end = (point(node, head) for head in ('start', 'end'))
    if kind == 'circle':
        center = point(node, 'center')
        return placement.put(*center) if center and end else (placement.x, placement.y)
    if kind in ('line', 'rect') and start and end or kind == 'arc' and start and end and point(node, 'mid'):
        return placement.put(*start)
    ring = corners(node) if kind in ('poly', 'curve') else []
    return placement.put(*ring[0]) if len(ring) > 2 else (placement.x, placement.y)


class Board:
    """the units of a board's text, in its order"""

    def __init__(self, text, source='board'):
        self.text, self.source = text, source
        root = root_of(text, 'kicad_pcb')
        self.copper, self.nets, self.units, self.added = [], {}, [], []
        for node in root.lists():
            head = node.head
            if head == 'layers' and not self.copper:
                self.copper = [name for name in COPPER if name in [p.parts[1] for p in node.lists() if len(p.parts) > 1]]
            elif head == 'net':
                if len(node.parts) > 2:
                    self.nets.setdefault(node.parts[1], node.parts[2])
            elif head in ('segment', 'arc', 'via', 'zone', 'footprint') or head in GRAPHICS:
                self.units.append(Unit(self, node, source))
        self.names = self.references = None
        self.stacks = {}

    # ---- which units there are
    def read(self, node, source):
        """the unit of a list that is added, at the end of the board; a list that is none of a board's items has no items"""
        unit = Unit(self, node, source)
        if unit.items:
            self.units.append(unit)
            self.added.append(unit)
        return unit

    def named(self, name):
        """the units in which a list has this name, and all that were added"""
        if self.names is None:
            self.names, starts = {}, [unit.at for unit in self.units if unit.source == self.source]
            for match in NAMES.finditer(self.text):
                at = bisect.bisect_right(starts, match.start()) - 1
                if at >= 0:
                    quoted = match.group(1) is not None
                    word = (match.group(1) if quoted else match.group(2) or match.group(3)).decode('utf-8', 'replace')
                    known = self.names.setdefault(unescaped(word) if quoted else word, [])
                    if not known or known[-1] is not self.units[at]:
                        known.append(self.units[at])
        return self.names.get(name, []) + self.added

    def referenced(self, reference):
        """the footprints of a reference, and all that was added"""
        if self.references is None:
            self.references = {}
            for unit in self.units:
                if unit.node.head == 'footprint' and unit.source == self.source:
                    self.references.setdefault(reference_of(unit.node), []).append(unit)
        return self.references.get(reference, []) + self.added

    def items(self, word, name, reference=None):
        """the items that a report names so, in the order of the board"""
        if word in ('pad', 'footprint', 'footprint-zone'):
            units = self.referenced(reference if word == 'pad' else name)
        elif name and word != 'area':
            units = self.named(name)
        else:
            units = []
        found = self.of(units, word, name, reference)
        if not found and word not in ('pad', 'footprint', 'footprint-zone'):
            found = self.of([unit for unit in self.units if unit.node.head in HEADS.get(word, ())], word, name, reference)
        return found

    @staticmethod
    def of(units, word, name, reference):
        return [item for unit in units for item in unit.items
                if item.word == word and item.name == name and (word != 'pad' or item.reference == reference)]

    # ---- the items of a unit
    def fill(self, unit):
        """reads the items of a unit"""
        node = unit.node
        reader = {'segment': self.track, 'arc': self.track, 'via': self.via, 'zone': self.zone, 'footprint': self.footprint}.get(node.head)
        if reader:
            reader(node, unit)
        elif node.head in GRAPHICS:
            self.graphic(node, unit, Placement(), None)

    def net_of(self, node):
        """the name of the net of a list; none where it has none"""
        return self.nets.get(node.value('net'), '')

    def track(self, node, unit):
        plain_one = SEGMENT.fullmatch(node.text, node.at, node.end)
        if plain_one:
            x, y, u, v, width, layer, net, name = plain_one.groups()
            # Of so few digits a float has the whole nanometres.
            start, end, mid = (round(float(x) * 1e6), round(float(y) * 1e6)), (round(float(u) * 1e6), round(float(v) * 1e6)), None
            width, layer, net, unit.known = float(width), layer.decode('utf-8', 'replace'), self.nets.get(net.decode(), ''), name.decode('utf-8', 'replace')
        else:
            start, mid, end = point(node, 'start'), point(node, 'mid'), point(node, 'end')
            if not start or not end:
                return
            layer, width, net = node.value('layer') or '', (node.lengths('width') or [0])[0] / 1e6, self.net_of(node)
        item = unit.take(Item('track', unit.name, node.at, start, layers=[layer]))
        item.end, item.net, item.uuid, item.width = end, net, unit.name, width

        def draw():
            if plain_one:
                return [plain_strip(layer, 'track', width, plain_one.group(1, 2, 3, 4))]
            points = Placement().draw([start, mid, end] if mid else [start, end])
            return [strip(layer, 'track', width, arc(*points) if mid else points)]
        item.draw = draw

    def via(self, node, unit):
        plain_one = VIA.fullmatch(node.text, node.at, node.end)
        if plain_one:
            x, y, size, drill, first, last, net, name = plain_one.groups()
            at, size, drill = (round(float(x) * 1e6), round(float(y) * 1e6)), float(size), float(drill)
            ends = tuple(word.decode('utf-8', 'replace') for word in (first, last))
            net, unit.known = self.nets.get(net.decode(), ''), name.decode('utf-8', 'replace')
        else:
            at, ends, net = point(node, 'at'), (node.first('layers') or Node(0)).atoms(), self.net_of(node)
            size, drill = (node.lengths('size') or [0])[0] / 1e6, (node.lengths('drill') or [0])[0] / 1e6
        if not at:
            return
        layers = self.through(tuple(ends))

        def draw():
            place = Placement().draw([at])
            return [strip('Vias', 'via', size, place)] + ([strip('Holes', 'via-hole', drill, place)] if drill else [])
        item = unit.take(Item('via', unit.name, node.at, at, layers=layers, draw=draw))
        item.net, item.uuid, item.width = net, unit.name, size

    def through(self, ends):
        """the copper layers of the board from the first of these layers to the last"""
        if ends not in self.stacks:
            marks = sorted(COPPER.index(name) for name in ends if name in COPPER)
            self.stacks[ends] = [name for name in self.copper if marks and marks[0] <= COPPER.index(name) <= marks[-1]]
        return self.stacks[ends]

    def zone(self, node, unit):
        polygon = node.first('polygon')
        if node.first('keepout'):
            ring = corners(polygon) if polygon else []
            if len(ring) > 2:
                item = unit.take(Item('area', node.value('name') or '', node.at, ring[0], layers=layers_of(node, self.copper),
                                      draw=lambda: [area('Rule areas', 'area', Placement().draw(ring))]))
                item.uuid = unit.name
            return
        for part in node.lists():
            if part.head == 'filled_polygon' and part.value('layer') in COPPER:
                self.filled(node, part, part.value('layer'), unit)

    def filled(self, zone, node, layer, unit):
        """a fill of a zone; one of ten thousands of plain corners is drawn from its text"""
        points = node.first('pts')
        first = FIRST_CORNER.match(node.text, points.at, points.end) if points else None
        count = node.text.count(b'(xy ', points.at, points.end) if first else 0
        if count > 2 and count == node.text.count(b'(', points.at + 1, points.end):
            position = tuple(round(float(word) * 1e6) for word in first.groups())
        else:
            first, ring = None, corners(node)
            if len(ring) < 3:
                return
            position = ring[0]

        def draw():
            shape = plain_area(layer, 'fill', node.text[points.at + 4:points.end]) if first else None
            return [shape or area(layer, 'fill', Placement().draw(corners(node)))]
        item = unit.take(Item('zone', unit.name, node.at, position, layers=[layer], draw=draw))
        item.net, item.uuid = self.net_of(zone), unit.name

    def graphic(self, node, unit, placement, body):
        """a graphic or a text, of the board or of a footprint"""
        layer = node.value('layer') or ''
        if node.head in TEXTS or node.head == 'dimension':
            self.text_on(node, unit, layer, placement)
        elif layer in COPPER or layer == 'Edge.Cuts':
            word = 'edge' if layer == 'Edge.Cuts' else 'graphic'
            item = unit.take(Item(word, name_of(node), node.at, first_point(node, placement), layers=[layer],
                                  draw=lambda: figure(node, layer, word, placement, 0.05 if word == 'edge' else 0)[0]))
            item.net, item.uuid = self.net_of(node), item.name
        elif layer in COURTYARDS and body is not None:
            body.append((node, layer))

    def text_on(self, node, unit, layer, placement):
        """a text on copper, which is read and not checked; it is drawn by its words, so it has no shapes"""
        if layer in COPPER:
            at = point(node, 'at') or point(node, 'start') or (0, 0)
            word = 'dimension' if node.head == 'dimension' else 'text'
            item = unit.take(Item(word, name_of(node), node.at, placement.put(*at), layers=[layer]))
            words = node.parts[1 if node.head.startswith('gr_') else 2] if len(node.parts) > 2 else ''
            item.reference, item.uuid = words if not isinstance(words, Node) else '', item.name

    def footprint(self, node, unit):
        placement, reference, side = placement_of(node), reference_of(node), node.value('layer') or ''
        outlines = []

        def draw():
            return [shape for part, layer in outlines for shape in figure(part, layer, 'courtyard', placement, 0.05)[0] if not shape.fill]
        body = unit.take(Item('footprint', reference, node.at, (placement.x, placement.y), layers=[side], draw=draw))
        body.uuid = unit.name
        for part in node.lists():
            head = part.head
            if head == 'pad':
                self.pad(part, unit, placement, reference)
            elif head.startswith('fp_') or head == 'property':
                self.graphic(part, unit, placement, outlines)
            elif head == 'zone':
                unit.take(Item('footprint-zone', reference, part.at, (placement.x, placement.y)))

    def pad(self, node, unit, placement, reference):
        at = node.lengths('at')
        place = placement.put(*(at[:2] if len(at) > 1 else (0, 0)))
        kind = node.parts[2] if len(node.parts) > 2 else ''
        own = Placement(*place, turn_of(node))
        layers = [name for name in layers_of(node, self.copper) if name in COPPER]

        def draw():
            drill = node.first('drill')
            offset = (drill.lengths('offset') if drill else []) or [0, 0]
            moved = Placement(*own.put(offset[0], offset[-1]), own.angle)
            through = [('Pads', 'pad')] if kind == 'thru_hole' and len(layers) > 1 else [(name, 'pad') for name in layers]
            return [shape for layer, sort in through for shape in pad_shapes(node, layer, sort, moved)] + hole_shape(node, own, kind)
        item = unit.take(Item('pad', node.parts[1] if len(node.parts) > 1 else '', node.at, place, reference, layers, draw))
        item.net, item.uuid = self.net_of(node), name_of(node)

    def drawings(self, unit):
        """what is drawn of a unit on silk and fabrication layers, of which no report speaks"""
        node = unit.node
        if node.head == 'footprint':
            placement = placement_of(node)
            parts = [part for part in node.lists() if part.head in ('fp_line', 'fp_rect', 'fp_circle', 'fp_poly', 'fp_arc')]
        else:
            placement, parts = Placement(), [node] if node.head in GRAPHICS else []
        shapes = []
        for part in parts:
            line = LINE.match(part.text, part.at, part.end)
            layer = (line.group(6) or line.group(7)).decode('utf-8', 'replace') if line else part.value('layer')
            if layer not in DRAWINGS:
                continue
            try:
                x, y, u, v, width = [float(word) for word in line.group(1, 2, 3, 4, 5 if line.group(5) else 8)]
                shapes.append(strip(layer, 'drawing', max(width, 0.05), placement.draw([(x * 1e6, y * 1e6), (u * 1e6, v * 1e6)])))
            except (AttributeError, ValueError):
                shapes += figure(part, layer, 'drawing', placement, 0.05)[0]
        return shapes


def turn_of(node):
    """the degrees of the placement of a footprint or a pad"""
    found = node.first('at')
    angle = (found.atoms() + ['0', '0', '0'])[2] if found else '0'
    return (nanometres(angle) or 0) / 1e6


def placement_of(node):
    at = node.lengths('at')
    return Placement(*(at[:2] if len(at) > 1 else (0, 0)), turn_of(node))


def reference_of(node):
    """the reference of a footprint"""
    for head, name in (('fp_text', 'reference'), ('property', 'Reference')):
        for part in node.lists():
            if part.head == head and part.parts[1:2] == [name] and len(part.parts) > 2 and not isinstance(part.parts[2], Node):
                return part.parts[2]
    return ''
