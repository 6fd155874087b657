"""Results as Markdown, for the summary of a CI job or a comment."""
import fits
from lines import place_of
from sexpr import CONTROL

MOST = 50


def cell(text):
    return text.translate(CONTROL).replace('\\', '\\\\').replace('|', '\\|').replace('<', '&lt;').replace('`', "'")


def in_markdown(verdicts):
    """a section for each verdict"""
    parts = []
    for verdict in verdicts:
        result = verdict.result
        parts.append('### %s `%s`\n\n%s.\n' % ('❌' if verdict.status() else '✅', cell(result.board), cell(verdict.sum())))
        if result.refusal:
            parts.append('`%s`\n' % cell(result.refusal['message']))
            parts += ['- %s' % cell(line) for line in fits.sum_lines(result.faults)]
            continue
        rows = [found for found in verdict.findings if found.severity != 'note']
        if rows:
            parts.append('| | where | what |\n|---|---|---|')
        for found in rows[:MOST]:
            file, line, _ = place_of(found.first, result.board)
            parts.append('| %s | %s:%d | %s%s |' % (verdict.word(found), cell(file), line, cell(found.message), cell(verdict.remark(found))))
        if len(rows) > MOST:
            parts.append('\n%d more.' % (len(rows) - MOST))
    return '\n'.join(parts) + '\n'
