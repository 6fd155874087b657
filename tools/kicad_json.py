"""Results in the shape of KiCad's own `kicad-cli pcb drc --format json`, for what reads that: one document for each board.

The types and words are those of KiCad as far as there are any. It was not written by KiCad, and the values are drc's.
"""
import datetime
import os
from kinds import KINDS
from telling import source_said, values


def item_of(told):
    return {'description': told['said'], 'pos': {'x': told['x_nm'] / 1e6, 'y': told['y_nm'] / 1e6}, 'uuid': told.get('uuid', '')}


def violation(kind, severity, description, items, project):
    told = {'description': description, 'items': items, 'severity': severity, 'type': kind}
    if project and project['off'] == 'excluded':
        told['excluded'] = True
    return told


def in_kicad_json(result):
    """the document of a result; what was refused is one violation, so that nobody takes it for a clean board"""
    violations, unconnected, last = [], [], result.last()
    if result.outcome != 'reported' or not last:
        message = result.refusal['message'] if result.refusal else result.fault or 'no report'
        violations.append(violation('drc_not_checked', 'error', 'Nothing was checked: %s' % message, [], None))
    for row in last['rows'] if last else []:
        kind = KINDS[row['kind']]
        words = ', '.join(word for word in (values(row), source_said(row)) if word)
        description = kind.title + (' (%s)' % words if words else '')
        violations.append(violation(kind.kicad, row['severity'], description, [item_of(item) for item in row['items']], row.get('project')))
    for net in last['open_nets'] if last else []:
        for link in net['links']:
            ends = [item_of(item) for item in link['ends']]
            unconnected.append(violation('unconnected_items', 'error', 'Missing connection between items', ends, link.get('project')))
    return {'$schema': 'https://schemas.kicad.org/drc.v1.json', 'source': os.path.basename(result.board),
            'date': datetime.datetime.now().astimezone().isoformat(timespec='seconds'), 'kicad_version': 'none: written by drc', 'coordinate_units': 'mm',
            'violations': violations, 'unconnected_items': unconnected, 'schematic_parity': []}
