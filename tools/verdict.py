"""What a result comes to: its findings counted, those that fail it, the sum in one line, and the status.

`off` are findings that the project has switched off. They are counted apart, and with `as_project` they fail nothing; of all else
that is told and written they are never left out.
"""
import collections
from kinds import KINDS
from telling import count_of, findings

FAIL_ON = ('error', 'warning', 'open', 'unchecked-rule', 'misspelt', 'unchecked')
USUAL = ('error', 'open', 'unchecked-rule')


class Verdict:
    """the findings of a result and which of them fail it; `known` are the fingerprints of a baseline, or None"""

    def __init__(self, result, fail_on=USUAL, as_project=False, known=None):
        self.result, self.fail_on, self.as_project, self.known = result, fail_on, as_project, known
        self.findings, self.by_link = [], []
        for state in result.told():
            self.findings += list(findings(state))
            self.by_link += list(findings(state, by_link=True))
        self.failing = [found for found in self.findings if self.fails(found)]

    def severity(self, found):
        """error, warning, open or note: with as_project the project's severity counts, and what it switched off is a note"""
        if self.as_project and found.project:
            if found.project['off']:
                return 'note'
            if found.severity == 'error' and found.project['severity'] == 'warning':
                return 'warning'
        return found.severity

    def is_known(self, found):
        return self.known is not None and found.mark in self.known

    def fails(self, found):
        if self.is_known(found) or self.as_project and found.project and found.project['off']:
            return False
        if found.rule.startswith('refused-'):
            return True
        if found.rule == 'unknown-constraint':
            return bool({'unchecked-rule', 'misspelt', 'unchecked'} & set(self.fail_on))
        if found.severity == 'note':
            return 'unchecked' in self.fail_on or 'unchecked-rule' in self.fail_on and found.first.get('sort') == 'constraint'
        return self.severity(found) in self.fail_on

    def word(self, found):
        """the severity of a line: what fails is an error"""
        severity = self.severity(found)
        if severity == 'open':
            return 'error' if self.fails(found) else 'note'
        return 'error' if severity == 'note' and self.fails(found) else severity

    def remark(self, found):
        """what is said behind a line"""
        told = []
        if found.project and found.project['off']:
            told.append('switched off in the project' if found.project['off'] == 'ignored' else 'excluded in the project')
        elif found.project and found.project['severity'] == 'warning' and found.severity == 'error':
            told.append('a warning in the project')
        if self.is_known(found):
            told.append('known')
        return ' [%s]' % ', '.join(told) if told else ''

    def sum(self):
        """all in one line"""
        if self.result.refusal:
            faults = len(self.result.faults)
            return 'not read, so nothing was checked' + (': %s in the way' % count_of(faults, 'thing is', 'things are') if faults else '')
        rows = [found for found in self.findings if found.rule in KINDS]
        told = []
        for severity in ('error', 'warning'):
            kinds = collections.Counter(found.rule for found in rows if self.severity(found) == severity)
            each = ', '.join('%d %s' % (count, kind) for kind, count in kinds.most_common())
            told.append(count_of(sum(kinds.values()), severity) + (' (%s)' % each if each else ''))
        last = self.result.last()
        nets = [net for net in last['open_nets'] if not (self.as_project and net.get('project') and net['project']['off'])] if last else []
        links = [link['length_nm'] for net in nets for link in net['links']]
        told.append(count_of(len(nets), 'open net') + (' (%s, %.1f mm)' % (count_of(len(links), 'link'), sum(links) / 1e6) if links else ''))
        notes = last['not_checked'] if last else []
        told.append('%s not checked' % count_of(len(notes), 'thing'))
        misspelt = sum(found.rule == 'unknown-constraint' for found in self.findings)
        if misspelt:
            told.append('%s of a rule unknown to KiCad' % count_of(misspelt, 'constraint'))
        refused = sum(found.rule.startswith('refused-') for found in self.findings)
        if refused:
            told.append('%s of the script refused' % count_of(refused, 'command'))
        for word, said in (('ignored', 'switched off'), ('excluded', 'excluded')):
            off = sum(bool(found.project) and found.project['off'] == word for found in self.findings)
            if off:
                told.append('%d %s%s in the project' % (off, '' if self.as_project else 'of these ', said))
        if self.known is not None:
            told.append('%d new' % sum(not self.is_known(found) for found in self.findings if found.severity != 'note' or self.fails(found)))
        return ', '.join(told)

    def status(self):
        if self.result.refusal:
            return 3
        return 1 if self.failing else 0
