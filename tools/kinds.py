"""The fifteen kinds of rows in the words of KiCad, and what `tools/check --explain` says of each; docs/FORMATS.md has them exactly."""
import difflib


class Kind:
    """a kind: its title, the type that KiCad's own check writes for it, the keys of its severity in a project, and what it is about"""

    def __init__(self, title, kicad, about, not_compared='', number=None, without=None, keys=()):
        self.title, self.kicad, self.about, self.not_compared, self.number, self.without = title, kicad, about, not_compared, number, without
        self.keys = keys or (kicad,)


COPPER = 'Copper of one net, of two items without a net, and of two graphics is not compared; nor, of one footprint, a pad with a graphic, or pads that share their number.'
KINDS = {
    'short': Kind('Items of two nets short', 'shorting_items', 'Copper of two different nets meets on a layer. Touching is meeting.',
                  'A short needs two items that both have a net.', keys=('shorting_items', 'tracks_crossing')),
    'clearance': Kind('Clearance violation', 'clearance', 'Copper of two nets is nearer on a layer than the clearance.', COPPER + ' Items that short have no second row here.',
                      'min_clearance', '0.2 mm'),
    'hole_clearance': Kind('Hole clearance violation', 'hole_clearance', 'A hole is nearer to the copper of another net than the hole clearance.', COPPER,
                           'min_hole_clearance', '0.25 mm'),
    'hole_to_hole': Kind('Drilled holes too close together', 'hole_to_hole', 'Two round holes that go through a layer together are nearer than allowed, whatever their nets.',
                         'Micro vias and slots are not compared.', 'min_hole_to_hole', '0.25 mm', ('hole_to_hole', 'hole_near_hole')),
    'edge_clearance': Kind('Board edge clearance violation', 'copper_edge_clearance', 'Copper, or a hole of what has none, is too near to a line on Edge.Cuts.',
                           'Copper and edge of one footprint are not compared.', 'min_copper_edge_clearance', '0.5 mm'),
    'courtyard_clearance': Kind('Courtyards overlap', 'courtyards_overlap', 'The courtyards of two footprints on one side meet, or are nearer than a rule asks.',
                                'Courtyards with arcs or open lines are noted as not checked.'),
    'keepout': Kind('Item in a rule area that bans it', 'items_not_allowed', 'A track, via, pad or footprint meets a rule area (keepout) that does not allow it.',
                    'A footprint is not compared with its own areas.'),
    'track_width': Kind('Track width out of range', 'track_width', 'A track is narrower than the least width, or wider than a rule allows.', '', 'min_track_width', '0'),
    'via_diameter': Kind('Via diameter out of range', 'via_diameter', 'A via is smaller than the least diameter, or larger than a rule allows.', 'Of micro vias the number is not asked.',
                         'min_via_diameter', '0.5 mm'),
    'hole_size': Kind('Hole size out of range', 'drill_out_of_range', 'A hole, by its smaller size, is smaller than the least one, or larger than a rule allows.',
                      'Of micro vias the number is not asked.', 'min_through_hole_diameter', '0.3 mm', ('drill_out_of_range', 'microvia_drill_out_of_range')),
    'annular_width': Kind('Annular width out of range', 'annular_width', 'The copper ring around the hole of a via is narrower than the least one, or wider than a rule allows.',
                          'Pads are not looked at.', 'min_via_annular_width', '0.1 mm'),
    'disallow': Kind('Items not allowed', 'items_not_allowed', 'A custom rule with (constraint disallow ..) bans the item.'),
    'physical_clearance': Kind('Physical clearance violation', 'clearance', 'Copper of two items is nearer than a custom rule asks, whatever their nets.',
                               'Items of one footprint are not compared.'),
    'physical_hole_clearance': Kind('Physical hole clearance violation', 'hole_clearance', 'A hole is nearer to copper than a custom rule asks, whatever their nets.',
                                    'Items of one footprint are not compared.'),
    'assertion': Kind('Assertion of a custom rule does not hold', 'assertion_failure', 'What a custom rule with (constraint assertion ..) claims of an item does not hold.'),
}
OTHERS = {
    'open-net': ('Missing connection', 'A net is not routed in one piece. Each piece is a group, and the links are the shortest connections that join them (the ratsnest).'),
    'not-checked': ('Not checked', 'Something was read and is not checked: a text or a dimension on copper, a courtyard with arcs or open lines, a zone of a footprint, or a constraint of another kind.'),
    'unknown-constraint': ('Unknown constraint', 'A custom rule has a constraint that KiCad does not have, so nothing of it is checked.'),
    'refused-board': ('Board not read', 'The board is not understood whole, and nothing of it was checked.'),
    'refused-project': ('Project not read', 'The project is not understood, and nothing was checked.'),
    'refused-rules': ('Rule file not read', 'The rule file is not understood, and nothing was checked.'),
    'refused-script': ('Script not read', 'The script is not understood, and nothing was checked.'),
    'refused-command': ('Command not carried out', 'A command of the script cannot be carried out; the board stays as it was.'),
}
# The constraints that a rule file of KiCad may have.
CONSTRAINTS = ('annular_width', 'assertion', 'bridged_mask', 'clearance', 'connection_width', 'courtyard_clearance', 'creepage', 'diff_pair_gap', 'diff_pair_uncoupled', 'disallow',
               'edge_clearance', 'hole_clearance', 'hole_size', 'hole_to_hole', 'length', 'min_resolved_spokes', 'physical_clearance', 'physical_hole_clearance', 'silk_clearance', 'skew',
               'solder_mask_expansion', 'solder_mask_sliver', 'solder_paste_abs_margin', 'solder_paste_rel_margin', 'text_height', 'text_thickness', 'thermal_relief_gap',
               'thermal_spoke_width', 'track_angle', 'track_segment_length', 'track_width', 'via_count', 'via_dangling', 'via_diameter', 'zone_connection')


def nearest(name):
    """the constraint that a misspelt name may mean, or None; an empty text where KiCad has a constraint of that name"""
    if name in CONSTRAINTS:
        return ''
    return next(iter(difflib.get_close_matches(name, CONSTRAINTS, 1, 0.6)), None)


def title(rule):
    """what a kind or another finding is called"""
    return KINDS[rule].title if rule in KINDS else OTHERS.get(rule, (rule, ''))[0]


def about(rule):
    return KINDS[rule].about if rule in KINDS else OTHERS.get(rule, ('', rule))[1]


def explained(name):
    """some lines on a kind or another finding; None where there is none of that name"""
    if name in OTHERS:
        return '%s: %s\n%s\n' % (name, *OTHERS[name])
    kind = KINDS.get(name) or next((one for one in KINDS.values() if name in one.keys), None)
    if not kind:
        return None
    own = next(word for word, one in KINDS.items() if one is kind)
    lines = ['%s: %s' % (own, kind.title), kind.about]
    lines += [kind.not_compared] if kind.not_compared else []
    if own == 'clearance':
        lines.append("Asked for: the clearance of a pad or its footprint, where one of the two has one; else the last custom rule with a constraint clearance that holds;\n"
                     "else the greatest of min_clearance (Board Setup, Design Rules, Constraints) and the clearances of both nets' classes, 0.2 mm without a project.")
    elif kind.number:
        lines.append('Asked for: by the last custom rule with a constraint %s that holds; else %s (Board Setup, Design Rules, Constraints), without a project %s.' % (own, kind.number, kind.without))
    elif own == 'short':
        lines.append('Asked for: always; no rule and no setting can allow it.')
    elif own == 'keepout':
        lines.append('Asked for: by the rule area itself.')
    else:
        lines.append('Asked for: by custom rules alone%s.' % ('; without one courtyards may not meet' if own == 'courtyard_clearance' else ''))
    lines.append("KiCad's name in reports and in severities: %s. In a custom rule: %s." % (', '.join(kind.keys), own if own not in ('short', 'keepout') else 'none'))
    return '\n'.join(lines) + '\n'
