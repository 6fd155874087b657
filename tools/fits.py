#!/usr/bin/env python3
"""All that stands in the way of reading a board, at once, where drc tells the first thing alone.

    tools/fits.py BOARD

Writes a line FILE:LINE:COLUMN: NAME (NUMBER): WHAT for each, in the order in which drc would come upon them, by the names of
docs/FORMATS.md; then the sum by sort, with what can be done about each; and last how many. The status is 0 where nothing was found, 1
where something was, and 2 where the file was not read.

It is a second reading, kept simple, and no part of what is proved: whether a board is read is for drc to say. Of a text that is no
list it tells the first fault alone, and it does not look whether the copper of a pad or the lines of a courtyard leave the board.
"""
import collections
import math
import re
import sys
from sexpr import CONTROL, LEAF, LEAVES, LENGTH, Lines, Node, nanometres
from boards import COPPER, SEGMENT, reference_of
from ends import status_of
from shapes import PLAIN_CORNERS, plain_numbers

NUMBERS = {'Text.NotUtf8': '1.1', 'Text.CloseWithoutOpen': '1.2', 'Text.EndInside': '1.3', 'Text.TooDeep': '1.4', 'Text.ExtraText': '1.5',
           'Text.EmptyText': '1.6', 'TooLong': '0', 'NotABoard': '2', 'Version': '3', 'Missing': '4', 'BadNumber': '5', 'OutOfBoard': '6', 'Arc': '7',
           'Turned': '8', 'PadShape': '9', 'Ring': '10', 'UnknownNet': '11', 'UnknownLayer': '12', 'ThickFill': '13', 'TooMany': '14'}
FAR = 500_000_000
MOST_ITEMS = 200_000
MOST_BYTES = 33_554_432
COUNT = re.compile(r'[0-9]{1,10}')
SPELLED = re.compile(rb'(?:' + LEAF + rb'\s*)+|[()]|"(?:\\.|[^"\\])*("?)', re.S)
# What is in the way, by sorts: how one and several are called, and what can be done.
SORTS = {
    'text': ('text that is no list', 'texts that are no list', 'the file is damaged or no board of KiCad'),
    'version': ('other version', 'other versions', 'drc reads what KiCad 7 and 8 save'),
    'missing': ('missing element', 'missing elements', 'KiCad writes them: open the board in KiCad 7 or 8 and save it'),
    'number': ('bad number', 'bad numbers', 'KiCad writes none: open the board in KiCad 7 or 8 and save it'),
    'far': ('item beyond 500 mm', 'items beyond 500 mm', 'move the board nearer to the origin of the page'),
    'arc-track': ('arc as a track', 'arcs as tracks', 'route them with straight tracks'),
    'arc-edge': ('arc on Edge.Cuts', 'arcs on Edge.Cuts', 'draw them with short lines, or with right corners'),
    'arc-copper': ('arc on copper', 'arcs on copper', 'draw them with short lines, or on a layer that is no copper'),
    'arc-corner': ('arc among corners', 'arcs among corners', 'draw the outline with straight sides'),
    'arc-pad': ('arc in a pad', 'arcs in pads', 'draw the pad with straight sides'),
    'turned-footprint': ('turned footprint', 'turned footprints', 'turn them by 0, 90, 180 or 270 degrees'),
    'turned-pad': ('turned pad', 'turned pads', 'pads that are not round have to stand at 0, 90, 180 or 270 degrees on the board'),
    'pad-shape': ('pad of another shape', 'pads of another shape', 'take circle, rectangle, oval, rounded rectangle, or custom'),
    'ring': ('ring on copper', 'rings on copper', 'fill the circle, or draw it with short lines'),
    'circle-edge': ('circle on Edge.Cuts', 'circles on Edge.Cuts', 'draw it with short lines'),
    'net': ('unknown net', 'unknown nets', 'open the board in KiCad, update it from the schematic and save it'),
    'layer': ('unknown layer', 'unknown layers', 'the item lies on a layer that the board does not have: Board Setup, Board Stackup'),
    'thick-fill': ('zone whose fill has a drawn outline', 'zones whose fills have a drawn outline', 'fill all zones anew (B) in KiCad 7 or 8 and save'),
    'many': ('item too many', 'items too many', 'a board may have %d items' % MOST_ITEMS),
}
Fault = collections.namedtuple('Fault', 'name at what sort part')


def text_fault(text):
    """the first fault of a text that is no list: its name and its place; None where it is one"""
    if len(text) > MOST_BYTES:
        return 'TooLong', MOST_BYTES
    try:
        text.decode('utf-8')
    except UnicodeDecodeError as error:
        return 'Text.NotUtf8', error.start
    depth = lists = behind = 0
    for match in SPELLED.finditer(text):
        at, to, sign = match.start(), match.end(), text[match.start()]
        if not depth:
            gap = text[behind:at]
            if gap.strip():
                return 'Text.ExtraText', behind + len(gap) - len(gap.lstrip())
            behind = to
        if sign == 41:
            if not depth:
                return 'Text.CloseWithoutOpen', at
            depth -= 1
            if not depth:
                lists, behind = 1, to
            continue
        if sign == 40 and depth == 64:
            return 'Text.TooDeep', at
        if not depth and (lists or sign != 40):
            return 'Text.ExtraText', at
        if sign == 34 and not match.group(1):
            return 'Text.EndInside', len(text)
        if sign == 40 and to - at == 1:
            depth += 1
        elif sign == 40 and not depth:
            leaves = [leaf.start() for leaf in LEAVES.finditer(text, at, to)]
            if len(leaves) > 1:
                return 'Text.ExtraText', leaves[1]
            lists = 1
    gap = text[behind:]
    if not depth and gap.strip():
        return 'Text.ExtraText', behind + len(gap) - len(gap.lstrip())
    return ('Text.EndInside', len(text)) if depth else None if lists else ('Text.EmptyText', 0)


def written_oddly(node, atom):
    """whether a number stands in quotes with a backslash in it: numbers are read as they stand"""
    return node.text[atom.at:atom.at + 1] == b'"' and b'\\' in node.text[atom.at:atom.at + len(atom) + 2]


class Item:
    """the list of an item while its elements are looked at"""

    def __init__(self, finder, node):
        self.finder, self.node, self.leaves = finder, node, False

    def tell(self, name, at, what, sort):
        self.finder.found.append(Fault(name, at, what, sort, self.finder.part))

    def element(self, head, node=None, demanded=True):
        """the first list with this head; a missing one is told where it is demanded"""
        node = node or self.node
        found = node.first(head)
        if found is None and demanded:
            self.tell('Missing', node.at, 'no (%s ..)' % head, 'missing')
        return found

    def atom(self, list_, number, what):
        """an atom of a list by its number; a missing one is told"""
        if len(list_.parts) > number and not isinstance(list_.parts[number], Node):
            return list_.parts[number]
        self.tell('Missing', list_.at, 'no %s' % what, 'missing')
        return None

    def length(self, list_, number, what, least=None):
        """the nanometres of an atom, or None"""
        atom = self.atom(list_, number, what)
        if atom is None:
            return None
        value = nanometres(atom)
        if value is None or written_oddly(list_, atom) or not LENGTH.fullmatch(atom) or abs(value) > 10**12 or least is not None and value < least:
            self.tell('BadNumber', atom.at, 'no %s: %s' % (what, atom), 'number')
            return None
        self.leaves = self.leaves or least is not None and value > FAR
        return value

    def point(self, head, placement=None, drawn=True):
        """the point behind a head; one that is not drawn may lie off the board"""
        found = self.element(head)
        return self.spot(found, placement, drawn) if found else None

    def spot(self, list_, placement=None, drawn=True):
        x, y = self.length(list_, 1, 'x'), self.length(list_, 2, 'y')
        if x is None or y is None:
            return None
        on_board = placement(x, y) if placement else (x, y)
        self.leaves = self.leaves or drawn and max(map(abs, on_board)) > FAR
        return x, y

    def size(self, head, what, demanded=True):
        found = self.element(head, demanded=demanded)
        return self.length(found, 1, what, 0) if found else None

    def net(self):
        found = self.element('net', demanded=False)
        atom = self.atom(found, 1, 'net') if found else None
        if atom is not None and (written_oddly(found, atom) or not (COUNT.fullmatch(atom) and int(atom) < 2**32)):
            self.tell('BadNumber', atom.at, 'no number of a net: %s' % atom, 'number')
        elif atom is not None and int(atom) not in self.finder.nets:
            self.tell('UnknownNet', atom.at, 'the list of nets has no net %s' % atom, 'net')

    def copper_layer(self, atom):
        """an atom that has to name a copper layer of the board"""
        if atom is not None and atom not in self.finder.copper:
            self.tell('UnknownLayer', atom.at, '%s is no copper layer of this board' % atom, 'layer')

    def named_layers(self, atoms):
        """the copper layers that atoms name, with the wildcards"""
        told = set()
        for atom in atoms:
            if atom == '*.Cu':
                told.update(self.finder.copper)
            elif atom == 'F&B.Cu':
                told.update({'F.Cu', 'B.Cu'} & set(self.finder.copper))
            elif atom in self.finder.copper:
                told.add(atom)
            elif atom.endswith('.Cu'):
                self.copper_layer(atom)
        return told

    def ground(self):
        """where a graphic or a text lies: copper, Edge.Cuts, a courtyard, or nowhere that counts"""
        found = self.element('layer', demanded=False)
        atom = self.atom(found, 1, 'layer') if found else None
        if atom is None or atom in ('*.Cu', 'F&B.Cu'):
            return ''
        if atom.endswith('.Cu'):
            self.copper_layer(atom)
            return 'copper' if atom in self.finder.copper else ''
        return atom if atom in ('Edge.Cuts', 'F.CrtYd', 'B.CrtYd') else ''

    def width(self):
        stroke = self.node.first('stroke')
        inner = stroke.first('width') if stroke else None
        found = inner or self.node.first('width')
        return self.length(found, 1, 'width', 0) if found else 0

    def corners(self, node=None, curved=False, placement=None):
        points = self.element('pts', node)
        plain = PLAIN_CORNERS.fullmatch(points.text, points.at, points.end) if points and not placement else None
        if plain and plain.group(1).count(b'(') > 2:
            # Fills have them by ten thousands.
            self.leaves = self.leaves or max(map(abs, map(float, plain_numbers(plain.group(1))))) > FAR / 1e6
            return
        parts = points.lists() if points else []
        count = arcs = 0
        for part in parts:
            if part.head == 'xy':
                self.spot(part, placement)
            elif part.head == 'arc' and not curved:
                self.tell('Arc', part.at, 'an arc among corners', 'arc-corner')
            count, arcs = count + (part.head == 'xy'), arcs + (part.head == 'arc')
        if points and count < 3 and not (arcs and curved):
            self.tell('Missing', points.at, 'fewer than three corners', 'missing')

    def figure(self, ground, placement=None):
        """the elements of a graphic; in a courtyard neither width nor fill is read"""
        kind, court = self.node.head[3:], ground in ('F.CrtYd', 'B.CrtYd')
        if kind == 'poly':
            self.corners(curved=court, placement=placement)
        elif kind == 'circle':
            center, end = self.point('center', placement), self.point('end', drawn=False)
            if center and end:
                self.leaves = self.leaves or 2 * math.isqrt((center[0] - end[0])**2 + (center[1] - end[1])**2) > FAR
        else:
            self.point('start', placement), self.point('end', placement)
        if court:
            return False
        width = self.width()
        fill = self.node.first('fill') if kind != 'line' else None
        filled = self.atom(fill, 1, 'word of the fill') if fill else None
        return kind == 'circle' and (ground == 'Edge.Cuts' or bool(width) and filled not in ('solid', 'yes'))

    def close(self, also=True):
        """what is said of the room on the board comes last"""
        if self.leaves and also:
            self.tell('OutOfBoard', self.node.at, 'more than 500 mm from the origin, or a size above 500 mm', 'far')


def quarter(angle):
    return angle % 90_000_000 == 0


def placement_of(at, angle):
    """what puts a point that is relative to a footprint onto the board"""
    turn = math.radians(angle / 1e6)
    cos, sin = round(math.cos(turn)), round(math.sin(turn))
    return lambda x, y: (at[0] + x * cos + y * sin, at[1] - x * sin + y * cos)


class Finder:
    """all faults of a board, in the order of drc's own reading"""

    def __init__(self, root):
        self.root, self.found, self.copper, self.nets, self.count, self.part = root, [], [], {0}, 0, ''

    def look(self):
        if self.root.head != 'kicad_pcb':
            self.found.append(Fault('NotABoard', self.root.at, 'the text is no board of KiCad', 'text', ''))
            return self.found
        lists, item = self.root.lists(), Item(self, self.root)
        if not lists or lists[0].head != 'version':
            item.tell('Missing', self.root.at, 'the first list is no version', 'version')
        else:
            atom = item.atom(lists[0], 1, 'version')
            if atom not in (None, '20221018', '20240108'):
                item.tell('Version', atom.at, version_said(atom), 'version')
        for node in lists:
            self.look_at(node)
        if self.root.first('layers') is None:
            item.tell('Missing', self.root.at, 'no list of layers', 'missing')
        return self.found

    def look_at(self, node):
        """a list of the root"""
        head, item = node.head, Item(self, node)
        readers = {'segment': self.track, 'via': self.via, 'zone': self.zone, 'footprint': self.footprint}
        before = len(self.found)
        if head == 'layers' and not self.copper:
            self.layers(node, item)
        elif head == 'net':
            self.net(item)
        elif head == 'arc':
            item.tell('Arc', node.at, 'a track that is an arc', 'arc-track')
        elif head in readers:
            readers[head](item)
        elif head in ('gr_line', 'gr_rect', 'gr_circle', 'gr_poly', 'gr_arc', 'gr_curve', 'bezier', 'gr_text', 'gr_text_box', 'dimension'):
            self.graphic(item, None)
        if self.count > MOST_ITEMS and len(self.found) == before:
            item.tell('TooMany', node.at, 'more than %d items' % MOST_ITEMS, 'many')
            self.count = -10**9

    def layers(self, node, item):
        for part in node.lists():
            atom = item.atom(part, 1, 'name of a layer')
            if atom in COPPER:
                self.copper.append(atom)

    def net(self, item):
        number = item.atom(item.node, 1, 'number of the net')
        if number is not None and (written_oddly(item.node, number) or not (COUNT.fullmatch(number) and int(number) < 2**32)):
            item.tell('BadNumber', number.at, 'no number of a net: %s' % number, 'number')
        elif number is not None:
            item.atom(item.node, 2, 'name of the net')
            self.nets.add(int(number))

    def track(self, item):
        plain = SEGMENT.fullmatch(item.node.text, item.node.at, item.node.end)
        # Of those that are as KiCad writes them nothing more has to be asked.
        if plain and self.is_fine(*plain.group(6, 7), plain.groups()[:4], plain.groups()[4:5]):
            self.count += 1
            return
        item.point('start'), item.point('end'), item.size('width', 'width')
        layer = item.element('layer')
        item.copper_layer(item.atom(layer, 1, 'layer') if layer else None)
        item.net()
        item.close()
        self.count += 1

    def is_fine(self, layer, net, points, sizes):
        """whether a layer, a net, numbers of points and sizes are such as are read"""
        return (layer.decode('utf-8', 'replace') in self.copper and len(net) <= 10 and int(net) in self.nets and
                all(abs(float(each)) <= FAR / 1e6 for each in points) and all(0 <= float(each) <= FAR / 1e6 and each[:1] != b'-' for each in sizes))

    def via(self, item):
        item.point('at'), item.size('size', 'size'), item.size('drill', 'drill', False)
        layers = item.element('layers')
        for number in (1, 2) if layers else ():
            item.copper_layer(item.atom(layers, number, 'layer'))
        item.net()
        item.close()
        self.count += 1

    def graphic(self, item, placement):
        """a graphic or a text, of the board or of a footprint"""
        head = item.node.head
        ground = item.ground()
        if ground in ('F.CrtYd', 'B.CrtYd') and not placement:
            return
        if head in ('gr_arc', 'gr_curve', 'bezier', 'fp_arc', 'fp_curve'):
            if ground in ('copper', 'Edge.Cuts'):
                item.tell('Arc', item.node.at, 'an arc or a curve on %s' % ground, 'arc-edge' if ground == 'Edge.Cuts' else 'arc-copper')
        elif head[3:] in ('line', 'rect', 'circle', 'poly') and ground:
            ring = item.figure(ground, placement)
            if ground == 'copper':
                item.net()
            if ring:
                copper = ground == 'copper'
                item.tell('Ring', item.node.at, 'a circle that is not filled, on copper' if copper else 'a circle on Edge.Cuts', 'ring' if copper else 'circle-edge')
            item.close(ground in ('copper', 'Edge.Cuts'))
            self.count += ground in ('copper', 'Edge.Cuts')
        elif ground == 'copper':
            self.count += 1

    def zone(self, item):
        item.net()
        layer, layers = item.node.first('layer'), item.node.first('layers')
        if layer is None and layers is None:
            item.tell('Missing', item.node.at, 'neither (layer ..) nor (layers ..)', 'missing')
        atoms = layers.parts[1:] if layer is None and layers else []
        if layer is not None:
            atoms = [item.atom(layer, 1, 'layer')]
        item.named_layers([atom for atom in atoms if atom is not None and not isinstance(atom, Node)])
        title = item.node.first('name')
        if title:
            item.atom(title, 1, 'name')
        keepout = item.node.first('keepout')
        if keepout:
            polygon = item.element('polygon')
            if polygon:
                item.corners(polygon)
            for ban in ('tracks', 'vias', 'pads', 'footprints'):
                part = keepout.first(ban)
                if part:
                    item.atom(part, 1, 'word')
            item.close()
            self.count += 1
            return
        self.fills(item)

    def fills(self, zone):
        """the filled polygons of a zone"""
        thickness = zone.node.first('filled_areas_thickness')
        thick = thickness is None or thickness.parts[1:2] != ['no']
        for part in zone.node.lists():
            if part.head != 'filled_polygon':
                continue
            item = Item(self, part)
            layer = item.element('layer')
            atom = item.atom(layer, 1, 'layer') if layer else None
            if atom is None or not atom.endswith('.Cu'):
                continue
            item.copper_layer(atom)
            if thick:
                zone.tell('ThickFill', zone.node.at, 'a fill without (filled_areas_thickness no)', 'thick-fill')
                thick = False
            item.corners()
            item.close()
            self.count += 1

    def footprint(self, item):
        self.part = reference_of(item.node)
        self.body(item)
        self.part = ''

    def body(self, item):
        """a footprint with all that is in it"""
        layer = item.element('layer')
        side = item.atom(layer, 1, 'layer') if layer else None
        if side is not None and side not in {'F.Cu', 'B.Cu'} & set(self.copper):
            item.tell('UnknownLayer', side.at, 'a footprint on %s' % side, 'layer')
        at, angle = self.position_and_angle(item)
        if angle is not None and not quarter(angle):
            item.tell('Turned', item.node.at, 'a footprint turned by %s degrees' % degrees(angle), 'turned-footprint')
        self.reference(item)
        clearance = self.clearance(item)
        placement = placement_of(at or (0, 0), angle or 0)
        self.count += 1
        for part in item.node.lists():
            inner = Item(self, part)
            if part.head == 'pad':
                self.pad(inner, placement, clearance)
            elif part.head in ('fp_line', 'fp_rect', 'fp_circle', 'fp_poly', 'fp_arc', 'fp_curve', 'fp_text', 'fp_text_box', 'property'):
                self.graphic(inner, placement)
                court = part.value('layer') in ('F.CrtYd', 'B.CrtYd') and part.head != 'fp_line'
                item.leaves = item.leaves or inner.leaves and court
            elif part.head == 'zone':
                self.count += 1
        item.leaves = item.leaves or at is not None and max(map(abs, at)) > FAR
        item.close()

    def position_and_angle(self, item):
        """the position and the angle of a footprint or a pad"""
        found = item.element('at')
        if not found:
            return None, None
        x, y = item.length(found, 1, 'x'), item.length(found, 2, 'y')
        angle = item.length(found, 3, 'angle') if len(found.parts) > 3 and not isinstance(found.parts[3], Node) else 0
        return (x, y) if x is not None and y is not None else None, angle

    def clearance(self, item):
        found = item.node.first('clearance')
        return item.length(found, 1, 'clearance') or 0 if found else 0

    def reference(self, item):
        """the reference of a footprint has to have its text"""
        for head, name in (('fp_text', 'reference'), ('property', 'Reference')):
            found = next((part for part in item.node.lists() if part.head == head and part.parts[1:2] == [name]), None)
            if found:
                item.atom(found, 2, 'text of the reference')
                return

    def drill(self, item):
        """the sizes of a drill, and whether it has an offset"""
        drill = item.node.first('drill')
        if not drill:
            return [], False
        at = 2 if drill.parts[1:2] == ['oval'] else 1
        sizes = []
        if len(drill.parts) > at and not isinstance(drill.parts[at], Node):
            sizes = [item.length(drill, at, 'drill', 0)]
            if at == 2 and len(drill.parts) > 3 and not isinstance(drill.parts[3], Node):
                sizes.append(item.length(drill, 3, 'drill', 0))
        elif at == 2:
            item.tell('Missing', drill.at, 'no drill', 'missing')
        offset = drill.first('offset')
        if offset:
            item.length(offset, 1, 'x'), item.length(offset, 2, 'y')
        return sizes, offset is not None

    def pad(self, item, placement, clearance):
        node = item.node
        item.atom(node, 1, 'number')
        kind, shape = item.atom(node, 2, 'type'), item.atom(node, 3, 'shape')
        if kind is not None and kind not in ('thru_hole', 'smd', 'connect', 'np_thru_hole'):
            item.tell('Missing', node.at, 'a pad of the type %s' % kind, 'missing')
        if shape is not None and shape not in ('circle', 'rect', 'oval', 'roundrect', 'custom'):
            item.tell('PadShape', node.at, 'a pad of the shape %s' % shape, 'pad-shape')
        if node.first('chamfer'):
            item.tell('PadShape', node.at, 'a pad with corners cut off', 'pad-shape')
        at, angle = self.position_and_angle(item)
        if at:
            item.leaves = item.leaves or max(map(abs, placement(*at))) > FAR
        size = item.element('size')
        for number in (1, 2) if size else ():
            item.length(size, number, 'size', 0)
        drill, offset = self.drill(item)
        hole = drill if kind in ('thru_hole', 'np_thru_hole') else []
        free = shape == 'circle' and not offset and (not hole or len(set(hole)) == 1)
        if angle is not None and not quarter(angle) and not free:
            item.tell('Turned', node.at, 'a pad turned by %s degrees' % degrees(angle), 'turned-pad')
        layers = item.element('layers')
        item.named_layers([atom for atom in layers.parts[1:] if not isinstance(atom, Node)] if layers else [])
        self.pad_form(item, shape)
        item.net()
        own = self.clearance(item)
        item.leaves = item.leaves or (own if own > 0 else clearance) > FAR
        item.close()
        self.count += 1

    def pad_form(self, item, shape):
        """what is asked of the shape of a pad"""
        ratio = item.node.first('roundrect_rratio') if shape == 'roundrect' else None
        if ratio:
            atom = item.atom(ratio, 1, 'ratio')
            if atom is not None and (written_oddly(ratio, atom) or not (LENGTH.fullmatch(atom) and 0 <= float(atom) <= 0.5)):
                item.tell('BadNumber', atom.at, 'no ratio from 0 to one half: %s' % atom, 'number')
        if shape != 'custom':
            return
        options, primitives = item.node.first('options'), item.node.first('primitives')
        anchor = options.first('anchor') if options else None
        word = item.atom(anchor, 1, 'word of the anchor') if anchor else 'circle'
        if word not in (None, 'circle', 'rect'):
            item.tell('PadShape', item.node.at, 'an anchor that is neither a circle nor a rectangle', 'pad-shape')
        for part in primitives.lists() if primitives else []:
            inner = Item(self, part)
            if part.head in ('gr_arc', 'gr_curve'):
                item.tell('Arc', part.at, 'an arc or a curve in a pad', 'arc-pad')
            elif part.head in ('gr_line', 'gr_rect', 'gr_circle', 'gr_poly') and inner.figure('copper'):
                item.tell('Ring', item.node.at, 'a circle in a pad that is not filled', 'ring')
            item.leaves = item.leaves or inner.leaves


def degrees(angle):
    return ('%.6f' % (angle / 1e6)).rstrip('0').rstrip('.')


def version_said(version):
    """what a version that is not read means"""
    told = 'version %s; 20221018 (KiCad 7) and 20240108 (KiCad 8) are read' % version
    if COUNT.fullmatch(version) and int(version) > 20240108:
        return told + '. It was saved by KiCad 9 or a later one, and KiCad has no way back'
    return told + ('. It was saved by an older KiCad: open it in KiCad 7 or 8 and save it' if COUNT.fullmatch(version) and int(version) < 20221018 else '')


def faults(text):
    """all that is found in a text of bytes, in the order in which drc would come upon it"""
    fault = text_fault(text)
    if fault:
        return [Fault(*fault, 'the text is not one list', 'text', '')]
    # It is one list, from the first bracket to the last.
    return Finder(Node(text.index(b'('), text, text.rindex(b')') + 1)).look()


def said(fault):
    """what is in the way, with the footprint in which it is"""
    return '%s, in %s' % (fault.what, fault.part) if fault.part else fault.what


def sums(found):
    """how often each sort was found, the most first: the number, how it is called, the parts with how many in each, and what can be done"""
    sorts = collections.Counter(fault.sort for fault in found)
    for sort, count in sorts.most_common():
        one, many, advice = SORTS.get(sort, (sort, sort, ''))
        parts = collections.Counter(fault.part for fault in found if fault.sort == sort and fault.part)
        yield count, one if count == 1 else many, parts, advice


def sum_lines(found):
    """the sums as lines"""
    for count, name, parts, advice in sums(found):
        # A turned pad most often is one of a turned footprint.
        most = ['%s%s' % (part, ' (%d)' % many if many > 1 else '') for part, many in parts.most_common(12)]
        rest = ['%d more' % (len(parts) - 12)] if len(parts) > 12 else []
        outside = count - sum(parts.values())
        where = ' in ' + ', '.join(most + rest + (['%d elsewhere' % outside] if outside else [])) if parts else ''
        yield '%d %s%s%s' % (count, name, where, ': ' + advice if advice else '')


def main():
    if len(sys.argv) != 2 or sys.argv[1] in ('-h', '--help'):
        print(__doc__)
        return 2
    with open(sys.argv[1], 'rb') as file:
        text = file.read()
    found, lines = faults(text), Lines(text)
    for fault in found:
        print('%s:%d:%d: %s (%s): %s' % (sys.argv[1], *lines.place(fault.at), fault.name, NUMBERS[fault.name], said(fault).translate(CONTROL)))
    for line in sum_lines(found):
        print(line.translate(CONTROL))
    print('in the way: %d' % len(found))
    return 1 if found else 0


if __name__ == '__main__':
    sys.exit(status_of(main))
