"""What tools/check tells people: lines, colours on a terminal, at most twenty of a kind, and the sum."""
import collections
import os
import sys
import files
import fits
from lines import place_of
from sexpr import CONTROL

MOST = 20
COLORS = {'error': '31;1', 'warning': '33;1', 'note': '36', 'place': '1', 'good': '32;1'}


class Teller:
    """tells the boards that were checked"""

    def __init__(self, color, whole, out):
        plain = color == 'never' or color == 'auto' and ('NO_COLOR' in os.environ or not out.isatty() or os.environ.get('TERM') == 'dumb')
        self.colored, self.most, self.out = not plain, None if whole else MOST, out

    def say(self, text):
        print(text, file=self.out, flush=True)

    def paint(self, text, color):
        return '\033[%sm%s\033[0m' % (COLORS[color], text) if self.colored else text

    def line(self, file, line, column, word, text):
        return '%s: %s: %s' % (self.paint('%s:%d:%d' % (file.translate(CONTROL), line, column), 'place'), self.paint(word, word), text.translate(CONTROL))

    def board(self, one, words):
        """the lines of a board, and its sum"""
        if one.trouble:
            print('check: %s' % one.trouble, file=sys.stderr)
        if not one.verdict:
            return
        self.say(files.said(one.files, words))
        counts = collections.Counter()
        for key, line in self.refused(one) if one.result.refusal else self.found(one):
            counts[key] += 1
            if self.most is None or counts[key] <= self.most:
                print(line, file=self.out)
        for key, count in counts.items():
            if self.most is not None and count > self.most:
                self.say('%d more of %s; --all shows them' % (count - self.most, key))
        for line in fits.sum_lines(one.result.faults):
            self.say('  ' + line.translate(CONTROL))
        told = '%s: %s%s. %.2f s' % (one.files['board'], {0: 'passes: ', 1: 'fails: '}.get(one.status, ''), one.verdict.sum(), one.seconds)
        self.say(self.paint(told, 'error' if one.status else 'good'))

    def found(self, one):
        verdict = one.verdict
        for found in verdict.by_link:
            yield found.rule, self.line(*place_of(found.first, one.files['board']), verdict.word(found), found.message + verdict.remark(found))

    def refused(self, one):
        result = one.result
        told = result.fault_data()
        if not told:
            refusal = result.refusal
            yield refusal['name'], self.line(refusal['file'], refusal['line'], refusal['column'], 'error', refusal['message'])
        for fault in told:
            part = ', in ' + fault['part'] if fault['part'] else ''
            yield fits.SORTS.get(fault['sort'], (fault['sort'], fault['sort']))[1], self.line(
                fault['file'], fault['line'], fault['column'], 'error', '%s%s (%s, %s)' % (fault['message'], part, fault['name'], fault['number']))

    def changes(self, old, new):
        """what came and what went between two runs of a board"""
        before, now = ({line for _, line in self.keyed(one)} for one in (old, new))
        for line in sorted(before - now):
            self.say(self.paint('- ' + line.translate(CONTROL), 'good'))
        for line in sorted(now - before):
            self.say(self.paint('+ ' + line.translate(CONTROL), 'error'))
        if before == now:
            self.say('nothing came and nothing went')

    @staticmethod
    def keyed(one):
        """the findings of a board without their places, which move with each line that is added above"""
        if not one.verdict:
            return [('', one.trouble)] if one.trouble else []
        if one.result.refusal:
            return [(fault.sort, fits.said(fault)) for fault in one.result.faults] or [('', one.result.refusal['message'])]
        counts, told = collections.Counter(), []
        for found in one.verdict.by_link:
            counts[found.message] += 1
            told.append((found.rule, found.message + (' (%d)' % counts[found.message] if counts[found.message] > 1 else '')))
        return told
