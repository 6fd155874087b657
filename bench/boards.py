#!/usr/bin/env python3
"""Writes boards, rule files and scripts to time the program with: boards.py KIND NUMBER [FILE] > FILE.

made N       N vias on a grid, each with a short track; every seventh track comes near its neighbour
crowd N      N short tracks of as many nets within 8 mm by 8 mm
fill N       a comb of N corners, with three micro vias for each four of them between its teeth, which they do not touch
combs N      two combs of N corners each that interlock
parts N      N footprints with courtyards, and tracks under them, for rules of `rules 50`
routes N     N nets of 200 vias each without a track
piece N      one net of N vias in a row, each touching the next
loose N      one net of N vias, none touching another
areas N      N rule areas of 920 mm by 920 mm that forbid footprints alone, and one track
ground N     N footprints with courtyards, on no net, under a rule area and a fill that each cover the whole board
beside N     N equal tracks in one tile, and a via alone in another
rules N      a rule file of N rules with conditions; of none it asks for a clearance of a thousandth of a millimetre

Scripts, each of N commands:
edits N      for `made 90000`: of each twenty commands twelve moves, three deletions and five additions of single tracks and vias
edits N FILE the same for the board of a file
places N     for `ground 10000`: footprints that are moved
steps N      for `beside N`: the lone via, to and fro
turns N      for any board: rules that replace the rules, with one reach and then with another
"""
import random
import re
import sys

HEAD = '(kicad_pcb (version 20221018) (generator pcbnew)\n(layers (0 "F.Cu" signal) (31 "B.Cu" signal))\n(net 0 "")\n'


def nets(count):
    return "".join('(net %d "N%d")\n' % (m, m) for m in range(1, count + 1))


def mm(nm):
    return "%s%d.%06d" % ("-" if nm < 0 else "", abs(nm) // 10**6, abs(nm) % 10**6)


def via(x, y, net, name, size="0.8"):
    return '(via (at %s %s) (size %s) (drill 0.4) (layers "F.Cu" "B.Cu") (net %d) (tstamp %s))\n' % (x, y, size, net, name)


def track(x, y, end_x, end_y, net, name, width="0.25"):
    return '(segment (start %s %s) (end %s %s) (width %s) (layer "F.Cu") (net %d) (tstamp %s))\n' % (x, y, end_x, end_y, width, net, name)


def made(count):
    yield nets(1000)
    for k in range(count):
        x, y, net = -450 + 3 * (k % 300), -450 + 3 * (k // 300), 1 + k % 1000
        yield via(x, y, net, "v%d" % k)
        yield track(x, y, mm(x * 10**6 + (2300000 if k % 7 == 3 else 1200000)), y, net, "s%d" % k)


def crowd(count):
    yield nets(count)
    side = int(count**0.5) + 1
    for k in range(count):
        x, y = 1000000 + 6000000 * (k % side) // side, 1000000 + 6000000 * (k // side) // side
        yield track(mm(x), mm(y), mm(x + 20000), mm(y), k + 1, "t%d" % k, "0.01")


def comb(corners, foot, root, tip, start, end, step):
    """a comb of teeth along x: corners in nanometres"""
    points = []
    for k in range((corners - 2) // 4):
        points += [(step * k + start, root), (step * k + start, tip), (step * k + end, tip), (step * k + end, root)]
    return points + [(points[-1][0], foot), (start, foot)]


def zone(points, net, name):
    corners = " ".join("(xy %s %s)" % (mm(x), mm(y)) for x, y in points)
    return '(zone (net %d) (layer "F.Cu") (tstamp %s) (filled_areas_thickness no) (filled_polygon (layer "F.Cu") (pts %s)))\n' % (net, name, corners)


def fill(corners):
    yield nets(2)
    step = 40000
    yield zone(comb(corners, -401000000, -400000000, 400000000, -400000000, -400000000 + step // 4, step), 1, "z")
    for k in range(3 * corners // 4):
        x, y = -400000000 + step * (k % (corners // 4)) + 25000, -390000000 + 260000000 * (k // (corners // 4))
        yield '(via micro (at %s %s) (size 0.01) (layers "F.Cu" "B.Cu") (tstamp v%d))\n' % (mm(x), mm(y), k)


def combs(corners):
    yield nets(2)
    step = 40000
    yield zone(comb(corners, -401000000, -400000000, 400000000, -400000000, -400000000 + step // 4, step), 1, "a")
    yield zone(comb(corners, 411000000, 410000000, -390000000, -400000000 + step // 2, -400000000 + 3 * step // 4, step), 2, "b")


def parts(count):
    yield nets(1000)
    for k in range(count):
        x, y = -450 + 12 * (k % 75), -450 + 12 * (k // 75)
        pads = " ".join('(pad "%d" smd rect (at %s 0) (size 0.6 0.6) (layers "F.Cu") (net %d "N%d") (tstamp p%d_%d))' % (n + 1, -3 + 2 * n, 1 + (4 * k + n) % 1000, 1 + (4 * k + n) % 1000, k, n) for n in range(4))
        yield '(footprint "L:F" (layer "F.Cu") (tstamp f%d) (at %d %d) (fp_text reference "U%d" (at 0 0) (layer "F.SilkS")) (fp_rect (start -4 -2) (end 4 2) (width 0.05) (layer "F.CrtYd")) %s)\n' % (k, x, y, k, pads)
    for k in range(50000):
        x, y = -455 + 9 * (k % 100), -455 + 1.8 * (k // 100)
        yield track(x, "%.1f" % y, x + 6, "%.1f" % y, 1 + k % 1000, "t%d" % k, "0.2")


def routes(count):
    yield nets(count)
    for k in range(200 * count):
        yield via(-450 + 2 * (k % 450), -450 + 2 * (k // 450), 1 + k * 7919 % count, "v%d" % k)


def row(count, step):
    yield nets(1)
    for k in range(count):
        yield via(mm(-450000000 + step * (k % 450)), mm(-450000000 + step * (k // 450)), 1, "v%d" % k)


def areas(count):
    yield nets(1)
    allowed = " ".join("(%s allowed)" % what for what in ("tracks", "vias", "pads", "copperpour")) + " (footprints not_allowed)"
    corners = " ".join("(xy %d %d)" % corner for corner in ((-460, -460), (460, -460), (460, 460), (-460, 460)))
    for k in range(count):
        yield '(zone (net 0) (net_name "") (layer "F.Cu") (tstamp a%d) (name "A%d") (keepout %s) (polygon (pts %s)))\n' % (k, k, allowed, corners)
    yield track(0, 0, 1, 0, 1, "t")


def footprint(k, x, y):
    return '(footprint "L:F" (layer "F.Cu") (tstamp f%d) (at %d %d) (fp_text reference "U%d" (at 0 0) (layer "F.SilkS")) (fp_rect (start -2 -2) (end 2 2) (width 0.05) (layer "F.CrtYd")) (pad "1" smd rect (at 0 0) (size 0.6 0.6) (layers "F.Cu") (tstamp p%d)))\n' % (k, x, y, k, k)


def ground(count):
    yield nets(1)
    corners = [(-460, -460), (460, -460), (460, 460), (-460, 460)]
    spots = " ".join("(xy %d %d)" % corner for corner in corners)
    yield '(zone (net 0) (net_name "") (layer "F.Cu") (tstamp area) (name "all") (keepout (tracks allowed) (vias allowed) (pads allowed) (copperpour allowed) (footprints allowed)) (polygon (pts %s)))\n' % spots
    yield '(zone (net 1) (layer "B.Cu") (tstamp pour) (filled_areas_thickness no) (filled_polygon (layer "B.Cu") (pts %s)))\n' % spots
    for k in range(count):
        yield footprint(k, -450 + 9 * (k % 100), -450 + 9 * (k // 100))


def beside(count):
    yield nets(2)
    for k in range(count):
        yield track(104, 104, 105, 104, 1, "s", "0.2")
    yield via(304, 304, 2, "a")


def tracks_of(path):
    """of the tracks and vias in the file of a board their names, the numbers of their nets, and the least and the greatest of their whole millimetres"""
    with open(path) as file:
        lists = re.findall(r"\((?:segment|via)\b.*?\(tstamp [^()]*\)", file.read(), re.S)
    places = [[int(float(word)) for word in re.search(r"\((?:start|at) (\S+) (\S+?)\)", text).groups()] for text in lists]
    names = [re.search(r"\(tstamp ([^()]*)\)", text).group(1) for text in lists]
    nets = sorted({int(re.search(r"\(net (\d+)", text).group(1)) for text in lists})
    return names, nets, [(min(column), max(column) + 1) for column in zip(*places)]


def edits(count, path=None):
    """the names that stand on the board, `made 90000` or that of the file, less those that were deleted, with those that were added"""
    dice = random.Random(7)
    if path:
        names, numbers, sides = tracks_of(path)
    else:
        names, numbers, sides = ["%s%d" % (word, k) for k in range(90000) for word in ("v", "s")], range(1, 1001), [(-450, 450)] * 2
    for k in range(count):
        place = dice.randrange(len(names))
        if k % 20 < 12:
            print('(move "%s" %s %s)' % (names[place], mm(dice.randrange(-2000000, 2000001)), mm(dice.randrange(-2000000, 2000001))))
        elif k % 20 < 15:
            print('(delete "%s")' % names[place])
            names[place] = names[-1]
            names.pop()
        else:
            x, y = (dice.randrange(*side) for side in sides)
            net, name = numbers[dice.randrange(len(numbers))], "e%d" % k
            names.append(name)
            item = via(x, y, net, name) if k % 2 else track(x, y, x + 2, y, net, name)
            print("(add %s)" % item.strip())


def places(count):
    dice = random.Random(7)
    for k in range(count):
        print('(move "f%d" %s %s)' % (dice.randrange(10000), mm(dice.randrange(-3000000, 3000001)), mm(dice.randrange(-3000000, 3000001))))


def steps(count):
    for k in range(count):
        print('(move "a" %d 0)' % (1 - 2 * (k % 2)))


def turns(count):
    for k in range(count):
        print('(rules (version 1) (rule r (constraint clearance (min 0.%dmm))))' % (1 + k % 2))


def rules(count):
    print("(version 1)")
    if count == 0:
        print("(rule r (constraint clearance (min 0.001mm)))")
    for k in range(count):
        print("(rule r%d (condition \"(A.Type == 'Track' && A.Width > 0.%03dmm) || B.NetName == 'N%d?' && !A.insideArea('X%d')\") (constraint clearance (min 0.%03dmm)))" % (k, 900 + k % 100, k, k, 150 + k % 50))


def main():
    kind, number = sys.argv[1], int(sys.argv[2])
    printed = {"rules": rules, "edits": edits, "places": places, "steps": steps, "turns": turns}
    if kind in printed:
        printed[kind](number, *sys.argv[3:])
        return
    makers = {"made": made, "crowd": crowd, "fill": fill, "combs": combs, "parts": parts, "routes": routes, "areas": areas, "ground": ground, "beside": beside,
              "piece": lambda n: row(n, 700000), "loose": lambda n: row(n, 2000000)}
    sys.stdout.write(HEAD)
    for line in makers[kind](number):
        sys.stdout.write(line)
    sys.stdout.write(")\n")


main()
