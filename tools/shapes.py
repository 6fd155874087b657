"""What is drawn of the items of a board: paths of SVG in millimetres, for the eye and not to measure on.

Pads and footprints are drawn at any angle, and arcs too, also of boards that `drc` refuses.
"""
import math
import operator
import re
from sexpr import nanometres

PLAIN_XY = rb'\(xy -?\d{1,4}(?:\.\d{1,6})? -?\d{1,4}(?:\.\d{1,6})?\)\s*'
PLAIN_CORNERS = re.compile(rb'\(pts\s+((?:' + PLAIN_XY + rb')+)\)')
FIRST_CORNER = re.compile(rb'\(pts\s+\(xy (-?\d{1,4}(?:\.\d{1,6})?) (-?\d{1,4}(?:\.\d{1,6})?)\)')


def number(text):
    """millimetres to draw with"""
    return ('%.4f' % text).rstrip('0').rstrip('.') if text else '0'


def pair(point):
    return number(point[0]) + ' ' + number(point[1])


class Placement:
    """a place on the board, in nanometres, and a turn in degrees against the clock, as seen with y downward"""

    def __init__(self, x=0, y=0, angle=0.0):
        self.x, self.y, self.angle = x, y, angle % 360

    def put(self, x, y):
        """the nanometres of a point that is relative to this place: exact for quarter turns"""
        quarter = self.angle / 90
        if quarter == int(quarter):
            for _ in range(int(quarter)):
                x, y = y, -x
            return self.x + x, self.y + y
        turn = math.radians(self.angle)
        return (self.x + x * math.cos(turn) + y * math.sin(turn), self.y - x * math.sin(turn) + y * math.cos(turn))

    def draw(self, points):
        """points in millimetres on the board of nanometres relative to this place"""
        return [(x / 1e6, y / 1e6) for x, y in (self.put(*point) for point in points)]


class Shape:
    """what is drawn of an item on a layer: a path of SVG that is filled, or stroked with round ends in a width"""
    __slots__ = ('layer', 'sort', 'fill', 'width', 'path', 'box')

    def __init__(self, layer, sort, fill, width, path, points):
        self.layer, self.sort, self.fill, self.width, self.path = layer, sort, fill, width, path
        half = width / 2
        across, down = [p[0] for p in points], [p[1] for p in points]
        self.box = (min(across) - half, min(down) - half, max(across) + half, max(down) + half)


def strip(layer, sort, width, points):
    """a line through points, of this width in millimetres; of one point a disc"""
    if len(points) == 1 or points[0] == points[-1] and len(points) == 2:
        return Shape(layer, sort, False, width, 'M%sh0' % pair(points[0]), points[:1])
    return Shape(layer, sort, False, width, 'M' + 'L'.join(map(pair, points)), points)


def area(layer, sort, points):
    """a polygon, always the same way round, so that two in one path do not put each other out"""
    twice = sum(a[0] * b[1] - b[0] * a[1] for a, b in zip(points, points[1:] + points[:1]))
    corners = points if twice >= 0 else points[::-1]
    return Shape(layer, sort, True, 0, 'M' + 'L'.join(map(pair, corners)) + 'Z', points)


def plain_numbers(body):
    """the numbers of a text of plain corners, as words"""
    return body.replace(b'(xy ', b' ').replace(b')', b' ').split()


def shortened(words):
    """numbers with four digits behind the point, which are enough for the eye"""
    return [word[:word.index(b'.') + 5] if b'.' in word else word for word in words]


def plain_area(layer, sort, body):
    """the polygon of a text of corners that are all plain, as fills have them by ten thousands; None where they are not"""
    words = plain_numbers(body)
    try:
        numbers = list(map(float, words))
    except ValueError:
        return None
    across, down = numbers[0::2], numbers[1::2]
    if len(across) != len(down) or len(across) < 3:
        return None
    twice = sum(map(operator.mul, across, down[1:] + down[:1])) - sum(map(operator.mul, across[1:] + across[:1], down))
    words = shortened(words)
    corners = list(map(b' '.join, zip(words[0::2], words[1::2])))
    if twice < 0:
        corners.reverse()
    shape = Shape(layer, sort, True, 0, 'M' + b'L'.join(corners).decode() + 'Z', [(0, 0)])
    shape.box = (min(across), min(down), max(across), max(down))
    return shape


def plain_strip(layer, sort, width, words):
    """a line of two points by the words of their numbers"""
    x, y, u, v = map(float, words)
    if (x, y) == (u, v):
        return strip(layer, sort, width, [(x, y)])
    path = b'M%s %sL%s %s' % tuple(shortened(words))
    return Shape(layer, sort, False, width, path.decode(), [(x, y), (u, v)])


def circle(layer, sort, middle, radius, width):
    """the line of a circle"""
    x, y = middle
    path = 'M%s %sa%s %s 0 1 0 %s 0a%s %s 0 1 0 %s 0' % tuple(map(number, (x - radius, y, radius, radius, 2 * radius, radius, radius, -2 * radius)))
    return Shape(layer, sort, False, width, path, [(x - radius, y - radius), (x + radius, y + radius)])


def arc(start, middle, end):
    """points along the arc through three points"""
    (ax, ay), (bx, by), (cx, cy) = start, middle, end
    twice = 2 * (ax * (by - cy) + bx * (cy - ay) + cx * (ay - by))
    if abs(twice) < 1e-9:
        return [start, middle, end]
    a, b, c = ax * ax + ay * ay, bx * bx + by * by, cx * cx + cy * cy
    x, y = (a * (by - cy) + b * (cy - ay) + c * (ay - by)) / twice, (a * (cx - bx) + b * (ax - cx) + c * (bx - ax)) / twice
    radius = math.hypot(ax - x, ay - y)
    first, mid, last = (math.atan2(p[1] - y, p[0] - x) for p in (start, middle, end))
    sweep = (last - first) % (2 * math.pi)
    if (mid - first) % (2 * math.pi) > sweep:
        sweep -= 2 * math.pi
    steps = max(8, int(abs(sweep) * 8))
    return [(x + radius * math.cos(first + sweep * k / steps), y + radius * math.sin(first + sweep * k / steps)) for k in range(steps + 1)]


def point(node, head):
    """the two nanometres behind a head, or None"""
    found = node.lengths(head)
    return (found[0], found[1]) if len(found) > 1 else None


def corners(node):
    """the corners of its list `pts`; arcs are left out"""
    points = node.first('pts')
    pairs = [[nanometres(a) for a in xy.atoms()[:2]] for xy in points.lists() if xy.head == 'xy'] if points else []
    return [(p[0], p[1]) for p in pairs if len(p) == 2 and None not in p]


def width_of(node):
    stroke = node.first('stroke')
    found = stroke.lengths('width') if stroke else node.lengths('width')
    return found[0] / 1e6 if found else 0


def figure(node, layer, sort, placement, least=0.0):
    """the shapes of a graphic, and its first point; least is the width of a line that has none"""
    kind = node.head[3:]
    filled = node.value('fill') in ('solid', 'yes')
    width = max(width_of(node), least)
    start, end, mid, center = (point(node, head) for head in ('start', 'end', 'mid', 'center'))
    if kind == 'line' and start and end:
        points = placement.draw([start, end])
        return [strip(layer, sort, width, points)], placement.put(*start)
    if kind == 'rect' and start and end:
        ring = placement.draw([start, (end[0], start[1]), end, (start[0], end[1])])
        shapes = [strip(layer, sort, width, ring + ring[:1])] if width else []
        return shapes + ([area(layer, sort, ring)] if filled else []), placement.put(*start)
    if kind == 'circle' and center and end:
        middle = placement.draw([center])[0]
        radius = math.hypot(end[0] - center[0], end[1] - center[1]) / 1e6
        shape = strip(layer, sort, 2 * radius + width, [middle]) if filled or not width else circle(layer, sort, middle, radius, width)
        return [shape], placement.put(*center)
    if kind == 'arc' and start and end and mid:
        return [strip(layer, sort, width, arc(*placement.draw([start, mid, end])))], placement.put(*start)
    ring = corners(node)
    if kind in ('poly', 'curve') and len(ring) > 2:
        drawn = placement.draw(ring)
        shapes = [strip(layer, sort, width, drawn + (drawn[:1] if kind == 'poly' else []))] if width or kind == 'curve' else []
        solid = kind == 'poly' and node.value('fill') not in ('none', 'no')
        return shapes + ([area(layer, sort, drawn)] if solid else []), placement.put(*ring[0])
    return [], (placement.x, placement.y)


def pad_outline(shape, wide, high, node):
    """corners of a pad around its middle, in nanometres; a rounded one by points on its round corners"""
    x, y = wide / 2, high / 2
    if shape == 'trapezoid':
        delta = node.lengths('rect_delta') or [0, 0]
        dy, dx = delta[0] / 2, delta[-1] / 2
        return [(-x - dx, -y + dy), (x + dx, -y - dy), (x - dx, y + dy), (-x + dx, y - dy)]
    ratio = nanometres(node.value('roundrect_rratio') or '0') or 0
    r = min(ratio / 1e6, 0.5) * min(wide, high) if shape == 'roundrect' else 0
    if not r:
        return [(-x, -y), (x, -y), (x, y), (-x, y)]
    ring = []
    for k, (cx, cy) in enumerate([(x - r, y - r), (r - x, y - r), (r - x, r - y), (x - r, r - y)]):
        ring += [(cx + r * math.cos(math.pi / 2 * (k + s / 6)), cy + r * math.sin(math.pi / 2 * (k + s / 6))) for s in range(7)]
    return ring


def pad_shapes(node, layer, sort, placement):
    """what is drawn of a pad on a layer"""
    shape = node.parts[3] if len(node.parts) > 3 else ''
    size = node.lengths('size') or [0]
    wide, high = size[0], size[-1]
    if shape == 'circle':
        return [strip(layer, sort, wide / 1e6, placement.draw([(0, 0)]))]
    if shape == 'oval':
        thin = min(wide, high)
        x, y = (wide - thin) / 2, (high - thin) / 2
        return [strip(layer, sort, thin / 1e6, placement.draw([(-x, -y), (x, y)]))]
    if shape == 'custom':
        options, primitives = node.first('options'), node.first('primitives')
        rect = options is not None and options.value('anchor') == 'rect'
        shapes = [area(layer, sort, placement.draw(pad_outline('rect', wide, high, node)))] if rect else [strip(layer, sort, wide / 1e6, placement.draw([(0, 0)]))]
        for part in primitives.lists() if primitives else []:
            shapes += figure(part, layer, sort, placement)[0]
        return shapes
    return [area(layer, sort, placement.draw(pad_outline(shape, wide, high, node)))]


def hole_shape(node, placement, kind):
    """the hole of a pad"""
    drill = node.first('drill')
    sizes = [n for n in (nanometres(atom) for atom in drill.atoms()) if n] if drill else []
    if not sizes or kind not in ('thru_hole', 'np_thru_hole'):
        return []
    wide, high = sizes[0], sizes[1] if len(sizes) > 1 else sizes[0]
    thin = min(wide, high)
    x, y = (wide - thin) / 2, (high - thin) / 2
    sort = 'hole' if kind == 'thru_hole' else 'bare-hole'
    return [strip('Holes', sort, thin / 1e6, placement.draw([(-x, -y), (x, y)] if x or y else [(0, 0)]))]
