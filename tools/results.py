"""What a run of drc on one board said, read once, for all that is written of it.

A result has the names of the files, how the run ended, the states of the report as data, and of a refused board all that is in the
way of reading it. Nothing is decided here.
"""
import fits
from reports import Placed, Places, Report
from telling import FORMAT, Teller, refusal_of, strangers


class Result:
    """a run on one board. `outcome` is reported, refused or fault; `fault` is a line for people where there is no whole report, and
    `strange` where the report is not that of this board. A viewer sees each state while it is told, and is then its `page`"""

    def __init__(self, files, report_text, wishes=None, viewer=None):
        self.files = files
        self.board, self.places, self.report = files['board'], Places(files), Report(report_text)
        self.placed, self.refusal, self.faults, self.fault, self.strange = None, None, [], None, None
        self.states, self.page = [], None
        if self.report.states:
            self.placed = Placed(self.places.text('board'), self.places.text('script') if files.get('script') else None)
            self.strange = strangers(self.report, self.placed)
            self.page = viewer(self.placed) if viewer else None
            self.states = list(Teller(self.report, self.placed, self.places, wishes).states(self.page))
        elif self.report.refusal:
            self.refusal = refusal_of(self.report, self.places)
        if self.report.refusal and self.report.refusal.group(1) == 'board' and files.get('board'):
            self.faults = self.in_the_way()
        if not self.report.refusal and not self.report.states:
            self.fault = self.report.fault or 'nothing was written'
        elif self.report.states and (self.report.fault or not self.report.whole or not self.last()):
            self.fault = 'the report is not whole'

    @property
    def outcome(self):
        return 'refused' if self.refusal else 'fault' if self.fault else 'reported'

    def last(self):
        """the state of the board as it is at the end, or None"""
        return next((state for state in reversed(self.states) if 'refused' not in state), None)

    def told(self):
        """the refused commands, and the last state"""
        last = self.last()
        return [state for state in self.states if 'refused' in state or state is last]

    def in_the_way(self):
        """all that is in the way of reading the board, drc's own refusal first"""
        found = fits.faults(self.places.text('board'))
        name, at = self.refusal['name'], self.refusal['at']
        # drc decides: where the second reading does not see the same first, drc's line goes before.
        if not found or (found[0].name, found[0].at) != (name, at):
            first = fits.Fault(name, at, self.refusal['message'], 'what drc refused first', '')
            found = [first] + [fault for fault in found if (fault.name, fault.at) != (name, at)]
        return found

    def fault_data(self):
        told = []
        for fault in self.faults:
            file, line, column = self.places.place('board', fault.at)
            number = fits.NUMBERS.get(fault.name, self.refusal['number'])
            told.append({'name': fault.name, 'number': number, 'at': fault.at, 'sort': fault.sort, 'part': fault.part, 'file': file, 'line': line, 'column': column, 'message': fault.what})
        return told

    def document(self):
        """the result in the shape of docs/FORMATS.md, "Reports as JSON\""""
        told = {'format': FORMAT, **{which: self.files.get(which) for which in ('board', 'project', 'rules', 'script')}, 'outcome': self.outcome}
        if self.refusal:
            told['refusal'] = self.refusal
            told['in_the_way'] = self.fault_data()
        if self.fault:
            told['fault'] = self.fault
        told['states'] = self.states
        return told
