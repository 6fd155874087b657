"""Findings as SARIF 2.1.0, which code hosts show beside the files: a run for each board.

A row is a result, and so is an open net with all its ends. What was not checked is told as a notification, as it asks for nothing. A
code host takes 25,000 results of a run at most: no more are written, and a notification says how many were left out.
"""
import urllib.parse

import kinds
import program
from lines import place_of
from telling import findings

MOST_RESULTS = 25_000
# A result with some hundred further places is turned away as too large.
MOST_RELATED = 100


def plain_text(text):
    """a text as SARIF has it, where brackets and braces are signs"""
    return text.replace('\\', '\\\\').replace('[', '\\[').replace(']', '\\]').replace('{', '{{').replace('}', '}}')


def location(told, board, number=None):
    file, line, column = place_of(told, board)
    uri = urllib.parse.quote(file.replace('\\', '/'))
    there = {'uri': 'file://' + uri} if uri.startswith('/') else {'uri': uri, 'uriBaseId': '%SRCROOT%'}
    where = {'physicalLocation': {'artifactLocation': there, 'region': {'startLine': line, 'startColumn': column}}}
    return {'id': number, **where, 'message': {'text': plain_text(told.get('said') or told.get('text', ''))}} if number else where


def result_of(found, state, board, rules, levels):
    if found.rule not in rules:
        rules.append(found.rule)
    told = {'ruleId': found.rule, 'ruleIndex': rules.index(found.rule), 'level': levels.get(found.severity, found.severity),
            'message': {'text': plain_text(found.message)}, 'locations': [location(found.first, board)],
            'relatedLocations': [location(other, board, k + 1) for k, other in enumerate(found.others[:MOST_RELATED])],
            'properties': {'report': state['report']}}
    if found.mark:
        told['partialFingerprints'] = {'drc/v1': found.mark}
    if found.project and found.project['off']:
        told['properties']['project'] = found.project['off']
    return told


def run_of(result, states, levels):
    """the run of one board"""
    board, results, notes, rules = result.board, [], [], []
    if result.refusal:
        faults = result.fault_data() or [result.refusal]
        for fault in faults[:MOST_RESULTS]:
            rule = 'refused-' + result.refusal['text']
            rules += [rule] if rule not in rules else []
            results.append({'ruleId': rule, 'ruleIndex': 0, 'level': 'error', 'message': {'text': plain_text(fault['message'])},
                            'locations': [location(fault, board)]})
        left = len(faults) - len(results)
    else:
        left = 0
        for state in states:
            for found in findings(state):
                if found.severity == 'note':
                    notes.append({'level': 'note', 'message': {'text': found.message}, 'locations': [location(found.first, board)]})
                elif len(results) < MOST_RESULTS:
                    results.append(result_of(found, state, board, rules, levels))
                else:
                    left += 1
    notes = notes[:1000]
    if left:
        notes.insert(0, {'level': 'warning', 'message': {'text': '%d results more are left out, as a run may have %d' % (left, MOST_RESULTS)}})
    if result.fault:
        notes.insert(0, {'level': 'error', 'message': {'text': result.fault}})
    told = [{'id': rule, 'shortDescription': {'text': kinds.title(rule)}, 'fullDescription': {'text': kinds.about(rule) or kinds.title(rule)},
             'help': {'text': kinds.explained(rule) or kinds.title(rule)}} for rule in rules]
    version = program.described()
    driver = {'name': 'drc', **({'version': version} if version else {}), 'rules': told}
    return {'tool': {'driver': driver}, 'columnKind': 'unicodeCodePoints',
            'automationDetails': {'id': 'drc/%s/' % urllib.parse.quote(board.strip('/'))},
            'invocations': [{'executionSuccessful': result.outcome == 'reported', 'toolExecutionNotifications': notes}], 'results': results}


def in_sarif(results, levels=None):
    """a document of results; levels say which level an open net has, which is a note without them"""
    levels = {'open': 'note', **(levels or {})}
    return {'$schema': 'https://json.schemastore.org/sarif-2.1.0.json', 'version': '2.1.0',
            'runs': [run_of(result, states, levels) for result, states in results]}
