"""What a run says to GitHub Actions: annotations for the first findings that fail, and the sum in the summary of the step."""
import os
from lines import place_of
from markdown import in_markdown
from sexpr import CONTROL

MOST = 10


def escaped(text, also=''):
    text = text.replace('%', '%25').replace('\r', '%0D').replace('\n', '%0A')
    for sign in also:
        text = text.replace(sign, '%%%02X' % ord(sign))
    return text


def annotation(word, file, line, column, title, message):
    message = message.translate(CONTROL)
    return '::%s file=%s,line=%d,col=%d,title=%s::%s' % (word, escaped(file, ':,'), line, column, escaped(title, ':,'), escaped(message))


def annotations(verdicts, troubles=()):
    """the lines of annotations, ten at most; troubles are what kept a board from being checked"""
    told = ['::error title=drc::%s' % escaped(trouble.translate(CONTROL)) for trouble in troubles]
    for verdict in verdicts:
        result = verdict.result
        for fault in result.fault_data() or ([result.refusal] if result.refusal else []):
            told.append(annotation('error', fault['file'], fault['line'], fault['column'], 'refused-' + result.refusal['text'], fault['message']))
        told += [annotation('error', *place_of(found.first, result.board), found.rule, found.message) for found in verdict.failing]
    return told[:MOST]


def summarised(verdicts):
    """adds the sum to the summary of the step, where there is one"""
    name = os.environ.get('GITHUB_STEP_SUMMARY')
    if name:
        with open(name, 'a', encoding='utf-8') as file:
            file.write(in_markdown(verdicts))
