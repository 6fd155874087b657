#!/usr/bin/env python3
"""A report of drc as lines that editors jump to, as JSON, or as SARIF.

    ./drc BOARD .. | tools/report.py BOARD [REPORT] [--json | --sarif] [--all | --state N]
                                           [--project FILE] [--rules FILE] [--script FILE]

REPORT is a file that holds the report; without it, or where it is -, the report is read from standard input. Without --json or
--sarif there is a line FILE:LINE:COLUMN: SEVERITY: MESSAGE for each row, by the list of its first item, then for each row the
second item as a note, the links of open nets, what was not checked, and refused commands. A refusal has the place of its byte; that
of a project, a rule file or a script is found where the option names the file, and so is a constraint that is misspelt in the rules.
Lines and columns count from 1, columns in characters. For SARIF give the board by its path from the top of the repository.

A report of a script has several states. Told is the last one, that of --state N, or with --all each one (not in SARIF, which is one
list), and JSON has all. Nothing is decided here: what is told is the report's, and its place the board's. The status is 0 where the
last report has no row, 1 where it has one, 2 where there is no whole report, it is that of another board, or a file was not read,
and 3 where a text was refused. tools/check does all of this with one command.
"""
import argparse
import json
import sys
from ends import status_of, text_of
from lines import in_lines
from results import Result
from sarif import in_sarif


def read_words():
    words = argparse.ArgumentParser(description=__doc__, formatter_class=argparse.RawDescriptionHelpFormatter)
    words.add_argument('board')
    words.add_argument('report', nargs='?', default='-')
    how = words.add_mutually_exclusive_group()
    how.add_argument('--json', action='store_true')
    how.add_argument('--sarif', action='store_true')
    which = words.add_mutually_exclusive_group()
    which.add_argument('--all', action='store_true')
    which.add_argument('--state', type=int)
    for text in ('--project', '--rules', '--script'):
        words.add_argument(text)
    told = words.parse_args()
    if told.sarif and told.all:
        words.error('--all with --sarif: SARIF has one list of results, so name one state by --state N')
    return told


def main():
    words = read_words()
    result = Result({'board': words.board, 'project': words.project, 'rules': words.rules, 'script': words.script}, text_of(words.report))
    if words.state is not None:
        told = [state for state in result.states if state['report'] == words.state]
    else:
        told = result.states if words.all else result.told()
    fault = result.strange or (None if result.states or result.refusal else 'no report: %s' % result.fault)
    if fault:
        print('report.py: %s' % fault, file=sys.stderr)
        return 2
    if words.json:
        print(json.dumps(result.document(), indent=1))
    elif words.sarif:
        print(json.dumps(in_sarif([(result, told)]), indent=1))
    elif result.refusal:
        refusal = result.refusal
        print('%s:%d:%d: error: %s' % (refusal['file'], refusal['line'], refusal['column'], refusal['message']))
    else:
        print(''.join(line + '\n' for line in in_lines(told, words.board)), end='')
    if result.refusal:
        return 3
    if result.fault:
        print('report.py: %s' % result.fault, file=sys.stderr)
        return 2
    return 1 if result.last()['rows'] else 0


if __name__ == '__main__':
    sys.exit(status_of(main))
