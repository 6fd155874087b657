"""Findings as lines FILE:LINE:COLUMN: SEVERITY: MESSAGE, which editors jump to."""
from sexpr import CONTROL
from telling import findings


def place_of(told, board):
    """the file, the line and the column; the head of the board's file for what has none"""
    return told.get('file') or board, told.get('line', 1), told.get('column', 1)


def line_of(file, line, column, severity, message):
    """one line, whatever signs the names in it have"""
    return '%s:%d:%d: %s: %s' % (file.translate(CONTROL), line, column, severity, message.translate(CONTROL))


def in_lines(states, board):
    """a line for each finding, and for the second item of a row a note"""
    for state in states:
        before = 'report %d: ' % state['report'] if len(states) > 1 and 'refused' not in state else ''
        for found in findings(state, by_link=True):
            severity = 'note' if found.severity == 'open' else found.severity
            yield line_of(*place_of(found.first, board), severity, before + found.message)
            for other in found.others if found.severity in ('error', 'warning') else []:
                yield line_of(*place_of(other, board), 'note', '%sthe other: %s' % (before, other['said']))
