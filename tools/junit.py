"""Results as JUnit XML, which most CI hosts show: a suite for each board, a case for each kind, and one for whether the board was read."""
import xml.sax.saxutils
from kinds import KINDS, title
from lines import place_of

# XML has no others.
NO_XML = {code: ' ' for code in [*range(9), 11, 12, *range(14, 32), *range(0xd800, 0xe000), 0xfffe, 0xffff]}


def escaped(text):
    return xml.sax.saxutils.escape(text.translate(NO_XML), {'"': '&quot;', '\n': '&#10;'})


def case(board, name, failures):
    head = '  <testcase classname="%s" name="%s"' % (escaped(board), escaped(name))
    if not failures:
        return head + '/>'
    message, text = '%d: %s' % (len(failures), failures[0]), '\n'.join(failures[:1000])
    return '%s>\n    <failure message="%s">%s</failure>\n  </testcase>' % (head, escaped(message), escaped(text))


def in_junit(verdicts):
    """a document of verdicts"""
    suites, total, failed = [], 0, 0
    for verdict in verdicts:
        result = verdict.result
        if result.outcome != 'reported':
            told = [fault['message'] for fault in result.fault_data()] or [result.refusal['message'] if result.refusal else result.fault]
            cases = [('read', told)]
        else:
            cases = [('read', [])]
            rules = list(KINDS) + ['open-net', 'not-checked', 'unknown-constraint', 'refused-command']
            for rule in rules:
                told = ['%s:%d:%d: %s' % (*place_of(found.first, result.board), found.message) for found in verdict.failing if found.rule == rule]
                cases.append(('%s (%s)' % (title(rule), rule), told))
        bad = sum(bool(failures) for _, failures in cases)
        total, failed = total + len(cases), failed + bad
        suites.append('<testsuite name="%s" tests="%d" failures="%d" errors="0">\n%s\n</testsuite>' % (
            escaped(result.board), len(cases), bad, '\n'.join(case(result.board, name, failures) for name, failures in cases)))
    return '<?xml version="1.0" encoding="UTF-8"?>\n<testsuites name="drc" tests="%d" failures="%d">\n%s\n</testsuites>\n' % (total, failed, '\n'.join(suites))
