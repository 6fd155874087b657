"""Results as a GitLab code quality report."""
from lines import place_of


def entry(description, check, mark, severity, file, line):
    return {'description': description, 'check_name': check, 'fingerprint': mark, 'severity': severity, 'location': {'path': file, 'lines': {'begin': line}}}


def in_gitlab(verdicts):
    """the entries of all verdicts"""
    told = []
    for verdict in verdicts:
        result = verdict.result
        for number, fault in enumerate(result.fault_data() or ([result.refusal] if result.refusal else [])):
            told.append(entry(fault['message'], 'refused-' + result.refusal['text'], '%s:%s:%d' % (result.board, fault['name'], number), 'blocker', fault['file'], fault['line']))
        for found in verdict.findings:
            file, line, _ = place_of(found.first, result.board)
            severity = {'error': 'major', 'warning': 'minor', 'note': 'info'}[verdict.word(found)]
            told.append(entry(found.message, found.rule, '%s:%s' % (result.board, found.mark or found.message), severity, file, line))
    return told
