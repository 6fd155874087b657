"""Tries tools/check by a table of calls, with a program that says what a file has: no built program is needed."""
import json
import os
import re
import shutil
import signal
import subprocess
import sys
import tempfile
import time
import urllib.error
import urllib.request
import xml.dom.minidom

import kinds
import program
from tries import ROOT, TOOLS, run

CHECK = os.path.join(TOOLS, 'check')
# It says what stands in `said` beside the board, and ends with the status in it; its words are kept.
PROGRAM = '''#!/bin/sh
for word in "$@"; do board=$word; done
printf '%s\\n' "$@" >"$board.words"
cat "$board.said"
exit "$(cat "$board.status")"
'''
PROJECT = {'board': {'design_settings': {'drc_exclusions': ['clearance|1|2|p2|v2'], 'rule_severities': {'shorting_items': 'ignore'}}}}
RULES = '(version 1)\n(rule "HV" (constraint clearance (min 0.2mm)))\n  (rule x (constraint clearence (min 1mm)) (constraint length (max 1mm)))\n'
NOTES = 'not checked: constraint clearence of rule "x"\nnot checked: constraint length of rule "x"\nnot checked 3\n'


class Folder:
    """a folder with a board, its project, and the program"""

    def __init__(self, path):
        self.path = path
        self.program = self.file('drc', PROGRAM)
        os.chmod(self.program, 0o755)
        with open(os.path.join(ROOT, 'docs/example.report'), encoding='utf-8') as file:
            self.report = file.read()
        with open(os.path.join(ROOT, 'docs/example.kicad_pcb'), encoding='utf-8') as file:
            self.board = file.read()
        self.put('amp', self.report, 1)

    def file(self, name, text):
        path = os.path.join(self.path, name)
        os.makedirs(os.path.dirname(path), exist_ok=True)
        with open(path, 'w', encoding='utf-8') as file:
            file.write(text)
        return path

    def put(self, name, said, status, board=None):
        """a board of which the program says this"""
        self.file(name + '.kicad_pcb', self.board if board is None else board)
        self.file(name + '.kicad_pcb.said', said)
        self.file(name + '.kicad_pcb.status', str(status))

    def text(self, name):
        with open(os.path.join(self.path, name), encoding='utf-8') as file:
            return file.read()

    def check(self, *words, env=None):
        return run(CHECK, *words, cwd=self.path, env={'DRC': self.program, 'GITHUB_ACTIONS': '', 'NO_COLOR': '1', **(env or {})})


CLEAN = 'report 0\nrows 0\nnot checked 0\nopen nets 0\nrechecked 15 of 15 tiles\n'
WARNING = 'report 0\nwarning track_width F.Cu: track "s1" at 110.912500 105.000000 | least 0.500000 | has 0.300000 | rule "w"\nrows 1\nnot checked 0\nopen nets 0\nrechecked 15 of 15 tiles\n'
OVERLAP = 'report 0\nerror courtyard_clearance F.CrtYd: footprint "R1" at 110.000000 105.000000 | footprint "R1" at 110.000000 105.000000 | needs 0.000000 | has 0.000000 | default\n' \
          'rows 1\nnot checked 0\nopen nets 0\nrechecked 15 of 15 tiles\n'


def table(folder):
    """the calls: their words, the status, and what stands in the output or the errors"""
    said = folder.check
    return [
        ('a board', said('amp.kicad_pcb'), 1, [
            'amp.kicad_pcb, no project (.kicad_pro) beside it, no rules (.kicad_dru) beside it\n',
            'amp.kicad_pcb:19:5: error: clearance on F.Cu: Pad 2 [/LED] of R1 | Via [GND]: needs 0.2 mm, has 0.15 mm, short by 0.05 mm (board setup)\n',
            'amp.kicad_pcb:25:3: error: short on F.Cu: Track [/LED] | Track [GND]\n', 'amp.kicad_pcb:17:5: error: unconnected: Pad 1 [GND] of R1 | Via [GND]: 2.212 mm apart\n',
            'amp.kicad_pcb:23:3: note: not checked: text "REV A" on F.Cu\n',
            'amp.kicad_pcb: fails: 3 errors (2 clearance, 1 short), 0 warnings, 1 open net (2 links, 5.8 mm), 1 thing not checked. ']),
        ('errors alone', said('amp.kicad_pcb', '--fail-on', 'warning'), 0, [': note: unconnected: ']),
        ('open nets alone', said('amp.kicad_pcb', '--fail-on=open'), 1, []),
        ('what is not checked alone', said('amp.kicad_pcb', '--fail-on', 'unchecked'), 1, [':23:3: error: not checked']),
        ('nothing', said('amp.kicad_pcb', '--fail-on='), 0, []),
        ('a clean board', said('clean.kicad_pcb'), 0, ['clean.kicad_pcb: passes: 0 errors, 0 warnings, 0 open nets, 0 things not checked. ']),
        ('a warning', said('warning.kicad_pcb'), 0, [': warning: track_width on F.Cu: Track [/LED]: needs at least 0.5 mm, has 0.3 mm, short by 0.2 mm (rule "w")']),
        ('a warning that fails', said('warning.kicad_pcb', '--fail-on', 'warning'), 1, []),
        ('signs of a terminal in a name', said('signs.kicad_pcb'), 1, ['error: short on F.Cu: Track [/L [31mE D] | Track [GND]\n']),
        ('courtyards', said('overlap.kicad_pcb'), 1, ['courtyard_clearance on F.CrtYd: Footprint R1 | Footprint R1: the courtyards overlap (board setup)']),
        ('several boards', said('clean.kicad_pcb', 'amp.kicad_pcb', 'turned.kicad_pcb'), 3, ['clean.kicad_pcb: passes: 0 errors', 'amp.kicad_pcb: fails: 3 errors', 'turned.kicad_pcb: not read']),
        ('a refused board', said('turned.kicad_pcb'), 3, [
            'turned.kicad_pcb:12:3: error: a footprint turned by 30 degrees, in R1 (Turned, 8)\n', 'turned.kicad_pcb:23:3: error: an arc or a curve on copper (Arc, 7)\n',
            '  1 turned footprint in R1: turn them by 0, 90, 180 or 270 degrees\n', 'turned.kicad_pcb: not read, so nothing was checked: 2 things are in the way. ']),
        ('KiCad 9', said('nine.kicad_pcb'), 3, ['nine.kicad_pcb:1:21: error: version 20241229; ', 'KiCad 9']),
        ('refused rules', said('rules.kicad_pcb', '--rules', 'bad.kicad_dru'), 3, ['bad.kicad_dru:2:1: error: refused rules: Bad (3) at 12']),
        ('a folder', said('one'), 1, ['one/b.kicad_pcb:19:5: error', 'b.kicad_pcb, with b.kicad_pro, with b.kicad_dru\n',
                                      '[excluded in the project]', '[switched off in the project]', '1 of these switched off in the project, 1 of these excluded in the project',
                                      'one/b.kicad_dru:3:11: warning: constraint clearence of rule "x" is none that KiCad has (is clearance meant?), so nothing of it is checked\n',
                                      'one/b.kicad_dru:3:44: error: not checked: constraint length of rule "x"\n']),
        ('as the project has it', said('one', '--as-project'), 1, ['1 error (1 clearance), ', '1 switched off in the project, 1 excluded in the project', ': note: short on F.Cu']),
        ('a misspelt constraint alone', said('one', '--fail-on', 'misspelt'), 1, []),
        ('without a project', said('one', '--no-project', '--no-rules'), 1, ['b.kicad_pcb, without a project (as asked), without rules (as asked)\n']),
        ('no board in a folder', said('none'), 4, ['none: no .kicad_pcb in this folder']),
        ('two boards in a folder', said('.'), 4, ['several boards in this folder, name one: amp.kicad_pcb, ']),
        ('a file that is not there', said('nope.kicad_pcb'), 4, ['check: nope.kicad_pcb: No such file or directory\n']),
        ('rules that are a folder', said('amp.kicad_pcb', '--rules', 'one'), 4, ['check: one: is a folder\n']),
        ('a board and one that is not there', said('clean.kicad_pcb', 'nope.kicad_pcb'), 4, ['clean.kicad_pcb: passes: 0 errors', 'nope.kicad_pcb: No such file']),
        ('memory', said('memory.kicad_pcb'), 6, ['check: memory.kicad_pcb: memory ran out']),
        ('a run that fell', said('fell.kicad_pcb'), 5, ['check: fell.kicad_pcb: drc ended with status 139']),
        ('half a report', said('half.kicad_pcb'), 5, ['check: half.kicad_pcb: the report is not whole']),
        ('the report of another board', said('strange.kicad_pcb'), 5, ['5 of 8 items are not on this board where the report says: is this its report?']),
        ('no board', said(), 2, ['check: no board is named']), ('an option that is none', said('amp.kicad_pcb', '--frob'), 2, ['check: unrecognized arguments: --frob']),
        ('no worker', said('amp.kicad_pcb', '--workers', '0'), 2, ['--workers is a number from 1 to 64']),
        ('a word of --fail-on', said('amp.kicad_pcb', '--fail-on', 'errors'), 2, ['errors is none of error, warning, open, unchecked-rule, misspelt, unchecked']),
        ('two of a pair', said('amp.kicad_pcb', '--project', 'x', '--no-project'), 2, []), ('rules of two boards', said('amp.kicad_pcb', 'clean.kicad_pcb', '--rules', 'x'), 2, []),
        ('no program', said('amp.kicad_pcb', '--program', 'nope'), 125, ['--program names no program: nope']),
        ('no program by $DRC', said('amp.kicad_pcb', env={'DRC': 'nope'}), 125, ['$DRC names no program: nope']),
        ('help', said('--help'), 0, ['tools/check BOARD|FOLDER ..', 'nothing of it is proved']),
        ('a kind', said('--explain', 'hole_to_hole'), 0, ['hole_to_hole: Drilled holes too close together\n', 'min_hole_to_hole', '0.25 mm']),
        ("KiCad's name of a kind", said('--explain', 'drill_out_of_range'), 0, ['hole_size: Hole size out of range']), ('no kind', said('--explain', 'foo'), 2, ['foo is none of short, ']),
        ('a version', said('--version'), 0, ['not known to be proved: no checksum of ./drc stands beside it', 'program ' + folder.program]),
        ('a baseline that is none', said('amp.kicad_pcb', '--baseline', 'amp.kicad_pcb'), 4, ['check: amp.kicad_pcb: ']),
        ('a baseline that is not there', said('amp.kicad_pcb', '--baseline', 'nope'), 4, ['check: nope: No such file or directory']),
        ('a file that cannot be written', said('amp.kicad_pcb', '--json', 'nope/x.json'), 5, ['check: nope/x.json: No such file or directory']),
        ('JSON on standard output', said('amp.kicad_pcb', '--json', '-'), 1, ['{\n "format": "drc-report/1",', 'amp.kicad_pcb: fails: 3 errors']),
        ('colours', said('amp.kicad_pcb', '--color', 'always'), 1, ['\033[31;1merror\033[0m: clearance']),
        ('many of a kind', said('many.kicad_pcb'), 1, ['5 more of short; --all shows them\n']),
        ('an environment of GitHub', said('amp.kicad_pcb', env={'GITHUB_ACTIONS': 'true', 'GITHUB_STEP_SUMMARY': os.path.join(folder.path, 'summary.md')}), 1, [
            '::error file=amp.kicad_pcb,line=19,col=5,title=clearance::clearance on F.Cu: Pad 2 [/LED] of R1 | Via [GND]: needs 0.2 mm, has 0.15 mm']),
        ('a file that is not there, on GitHub', said('nope.kicad_pcb', env={'GITHUB_ACTIONS': 'true', 'GITHUB_STEP_SUMMARY': ''}), 4, ['::error title=drc::nope.kicad_pcb: No such file or directory\n']),
    ]


def prepare(folder):
    """the boards of the table"""
    folder.put('clean', CLEAN, 0)
    folder.put('warning', WARNING, 1)
    folder.put('overlap', OVERLAP, 1)
    folder.put('signs', folder.report, 1, folder.board.replace('"/LED"', '"/L\033[31mE\\nD"'))
    turned = folder.board.replace('(at 110 105)', '(at 110 105 30)').replace('(gr_text', '(gr_arc (start 1 1) (mid 2 2) (end 3 1) (layer "F.Cu")) (gr_text')
    folder.put('turned', 'refused board: Turned (8) at %d\n' % turned.index('(footprint'), 3, turned)
    folder.put('nine', 'refused board: Version (3) at 20\n', 3, folder.board.replace('20221018', '20241229'))
    folder.put('rules', 'refused rules: Bad (3) at 12\n', 3)
    folder.file('bad.kicad_dru', '(version 1)\n(frob)\n')
    folder.put('memory', '', 6)
    folder.put('fell', '', 139)
    folder.put('half', 'report 0\nrows 0\n', 0)
    folder.put('strange', folder.report, 1, folder.board.replace('105', '106').replace('(at ', '(at 1'))
    lines = folder.report.split('\n')
    folder.put('many', '\n'.join(lines[:1] + [lines[2]] * 25 + ['rows 25', 'not checked 0', 'open nets 0', 'rechecked 15 of 15 tiles', '']), 1)
    os.makedirs(os.path.join(folder.path, 'none'))
    folder.put('one/b', folder.report.replace('not checked 1\n', NOTES), 1)
    folder.file('one/b.kicad_pro', json.dumps(PROJECT))
    folder.file('one/b.kicad_dru', RULES)


def calls(tries, folder):
    for what, (status, out, err), wanted, parts in table(folder):
        tries.same(what + ': status', status, wanted)
        for part in parts:
            tries.holds(what, out + err, part)
        tries.true(what + ': no trace', 'Traceback' not in err)
    tries.same('words of the program', folder.text('one/b.kicad_pcb.words').split('\n')[-3:], ['--', 'one/b.kicad_pcb', ''])
    _, out, _ = folder.check('amp.kicad_pcb')
    tries.true('no colours in a pipe', '\033' not in out)
    tries.true('the summary of a step', '| error | amp.kicad_pcb:19 |' in folder.text('summary.md'))
    tries.true('help of one screen', len(folder.check('--help')[1].split('\n')) <= 30)


def written(tries, folder):
    """all files from one reading"""
    words = ['--raw', 'o.raw', '--html', 'o.html', '--json', 'o.json', '--sarif', 'o.sarif', '--junit', 'o.xml', '--markdown', 'o.md', '--gitlab', 'o.gl', '--kicad-json', 'o.kicad']
    tries.same('all files', folder.check('one', *words)[0], 1)
    tries.same('raw', folder.text('o.raw'), folder.text('one/b.kicad_pcb.said'))
    told = json.loads(folder.text('o.json'))
    tries.same('the head of JSON', [told[key] for key in ('format', 'board', 'project', 'rules', 'script', 'outcome')],
               ['drc-report/1', 'one/b.kicad_pcb', 'one/b.kicad_pro', 'one/b.kicad_dru', None, 'reported'])
    rows = told['states'][0]['rows']
    tries.same('the project in JSON', [row['project'] for row in rows], [{'severity': None, 'off': 'excluded'}, {'severity': 'ignore', 'off': 'ignored'}, {'severity': None, 'off': None}])
    tries.same('a link in JSON', [(link['length_nm'], link['square']) for net in told['states'][0]['open_nets'] for link in net['links']][0], (2212040, '4893125000000'))
    run_ = json.loads(folder.text('o.sarif'))['runs'][0]
    tries.same('the driver in SARIF', [run_['tool']['driver'].get(key) for key in ('name', 'version')], ['drc', program.described()])
    tries.same('rules in SARIF', [result['ruleId'] for result in run_['results']], ['clearance', 'short', 'clearance', 'open-net', 'unknown-constraint'])
    tries.same('the place of a rule in SARIF', run_['results'][-1]['locations'][0]['physicalLocation']['artifactLocation']['uri'], 'one/b.kicad_dru')
    tries.true('prints in SARIF', len({result['partialFingerprints']['drc/v1'] for result in run_['results']}) == 5)
    suite = xml.dom.minidom.parseString(folder.text('o.xml')).getElementsByTagName('testsuite')[0]
    tries.same('JUnit', (suite.getAttribute('failures'), len(suite.getElementsByTagName('testcase'))), ('5', 20))
    tries.holds('Markdown', folder.text('o.md'), '| warning | one/b.kicad_dru:3 | constraint clearence of rule')
    tries.same('GitLab', [entry['severity'] for entry in json.loads(folder.text('o.gl'))], ['major'] * 4 + ['info', 'minor', 'major'])
    kicad = json.loads(folder.text('o.kicad'))
    tries.same("KiCad's shape", sorted(kicad), ['$schema', 'coordinate_units', 'date', 'kicad_version', 'schematic_parity', 'source', 'unconnected_items', 'violations'])
    tries.same("KiCad's types", [(one['type'], one.get('excluded')) for one in kicad['violations']], [('clearance', True), ('shorting_items', None), ('clearance', None)])
    tries.same("KiCad's places", kicad['violations'][0]['items'][1], {'description': 'Via [GND]', 'pos': {'x': 110.9125, 'y': 106.25}, 'uuid': 'v2'})
    tries.same("KiCad's links", len(kicad['unconnected_items']), 2)
    tries.true('a page', '<svg id="board"' in folder.text('o.html'))
    tries.same('a baseline', folder.check('one', '--baseline', 'o.json')[0], 0)
    folder.put('one/b', folder.report.replace('error short', WARNING.split('\n')[1].replace('warning', 'error') + '\nerror short').replace('rows 3', 'rows 4'), 1)
    status, out, _ = folder.check('one', '--baseline', 'o.json')
    tries.same('a new row', (status, ', 1 new. ' in out, out.count('[known]')), (1, True, 3 - 2 + 2 + 1))
    tries.same('refused files', folder.check('turned.kicad_pcb', '--sarif', 'o.sarif', '--json', 'o.json', '--html', 'o.html', '--junit', 'o.xml', '--kicad-json', 'o.kicad', '--gitlab', 'o.gl', '--markdown', 'o.md')[0], 3)
    run_ = json.loads(folder.text('o.sarif'))['runs'][0]
    tries.same('refused in SARIF', (run_['invocations'][0]['executionSuccessful'], [result['ruleId'] for result in run_['results']]), (False, ['refused-board'] * 2))
    told = json.loads(folder.text('o.json'))
    tries.same('refused in JSON', (told['outcome'], told['refusal']['name'], [fault['part'] for fault in told['in_the_way']], told['states']), ('refused', 'Turned', ['R1', ''], []))
    tries.same('refused in the shape of KiCad', [one['type'] for one in json.loads(folder.text('o.kicad'))['violations']], ['drc_not_checked'])
    tries.same('refused in JUnit', xml.dom.minidom.parseString(folder.text('o.xml')).getElementsByTagName('testsuite')[0].getAttribute('failures'), '1')
    tries.same('several in one file', folder.check('clean.kicad_pcb', 'amp.kicad_pcb', '--json', 'o.json', '--sarif', 'o.sarif', '--html', 'o.html')[0], 1)
    tries.same('several in JSON', [one['board'] for one in json.loads(folder.text('o.json'))], ['clean.kicad_pcb', 'amp.kicad_pcb'])
    tries.same('several in SARIF', len(json.loads(folder.text('o.sarif'))['runs']), 2)
    tries.true('several pages', os.path.exists(os.path.join(folder.path, 'o-clean.html')) and os.path.exists(os.path.join(folder.path, 'o-amp.html')))
    links = 'link 4893125000000: pad "1" of "R1" at 109.087500 105.000000 | via "v2" at 110.912500 106.250000\n'
    folder.put('wide', folder.report.replace(links, links * 30_000), 1)
    tries.same('a wide net', folder.check('wide.kicad_pcb', '--sarif', 'o.sarif', '--fail-on', 'error')[0], 1)
    tries.same('results of a wide net', len(json.loads(folder.text('o.sarif'))['runs'][0]['results']), 4)
    short = folder.report.split('\n')[2] + '\n'
    folder.put('wide', folder.report.replace(short, short * 30_000).replace('rows 3', 'rows 30002'), 1)
    tries.same('a wide report', folder.check('wide.kicad_pcb', '--sarif', 'o.sarif')[0], 1)
    run_ = json.loads(folder.text('o.sarif'))['runs'][0]
    tries.same('results of a wide report', len(run_['results']), 25_000)
    tries.holds('what is left out', run_['invocations'][0]['toolExecutionNotifications'][0]['message']['text'], '5003 results more are left out')


def line_of(process, part, seconds=120):
    """waits for a line with a part in it"""
    until = time.monotonic() + seconds
    while time.monotonic() < until:
        line = process.stdout.readline()
        if not line or part in line:
            return line
    return ''


def watched(tries, folder):
    """a board that is saved is checked again, what went is said, and the page of this machine alone is a new one"""
    folder.put('seen', folder.report, 1)
    env = {**os.environ, 'DRC': folder.program, 'GITHUB_ACTIONS': '', 'NO_COLOR': '1'}
    process = subprocess.Popen([sys.executable, '-B', CHECK, 'seen.kicad_pcb', '--serve', '--html', 'seen.html'], cwd=folder.path, env=env, stdout=subprocess.PIPE, stderr=subprocess.STDOUT, text=True,
                               # What runs in the background of a shell does not hear this signal.
                               preexec_fn=lambda: signal.signal(signal.SIGINT, signal.SIG_DFL))
    try:
        address = line_of(process, 'the page: ').strip().replace('the page: ', '')
        tries.true('an address', address.startswith('http://127.0.0.1:'))
        line_of(process, 'waiting')
        first, page = (urllib.request.urlopen(address + name, timeout=60).read().decode() for name in ('stamp', ''))
        tries.holds('a page that reloads', page, "fetch('/stamp')")
        try:
            urllib.request.urlopen(urllib.request.Request(address, headers={'Host': 'elsewhere.example'}), timeout=60)
            tries.true('a page for elsewhere', False)
        except urllib.error.HTTPError as error:
            tries.same('a page for elsewhere', error.code, 404)
        # As KiCad saves: another file takes its name.
        folder.file('seen.kicad_pcb.said', CLEAN)
        folder.file('seen.kicad_pcb.status', '0')
        shutil.copy(os.path.join(folder.path, 'seen.kicad_pcb'), os.path.join(folder.path, 'other'))
        os.replace(os.path.join(folder.path, 'other'), os.path.join(folder.path, 'seen.kicad_pcb'))
        tries.holds('what went', line_of(process, '- short on F.Cu: '), 'Track [/LED] | Track [GND]')
        line_of(process, '- unconnected')
        until = time.monotonic() + 60
        while urllib.request.urlopen(address + 'stamp', timeout=60).read().decode() == first and time.monotonic() < until:
            time.sleep(0.05)
        tries.true('another page', urllib.request.urlopen(address + 'stamp', timeout=60).read().decode() != first)
        tries.true('the page as a file', '"sum":"0 violations' in folder.text('seen.html'))
    finally:
        process.send_signal(signal.SIGINT)
        process.wait(60)
    tries.same('the status behind it', process.returncode, 0)


def proved(tries, folder):
    """a program is called proved where the checksums beside it are those of the program and the sources"""
    fake = folder.file('drc_cli', PROGRAM)
    os.chmod(fake, 0o755)
    sums = {'program': program.checksum(fake), 'sources': program.sources()}
    for what, made, wanted in (('of both', sums, 'proved: proved and built by ./drc from these sources'), ('of another program', {**sums, 'program': '0'}, 'not known to be proved: the checksum beside it is'),
                               ('of other sources', {**sums, 'sources': '0'}, 'not known to be proved: the sources have changed since')):
        folder.file('drc_cli.made', ''.join('%s %s\n' % pair for pair in made.items()))
        tries.holds('checksums ' + what, folder.check('--version', '--program', fake)[1], wanted)
    done = subprocess.run(['sh', '-c', 'here=$1; eval "$(sed -n "/^sum_of_sources() {/,/^}/p" "$here/drc")"; sum_of_sources', 'sh', ROOT], capture_output=True, text=True, check=False)
    tries.same('the checksum of the sources by ./drc', done.stdout.strip(), sums['sources'])


def installed(tries, folder):
    """what is installed runs from elsewhere, and says of which state it is"""
    prefix = os.path.join(folder.path, 'prefix')
    done = subprocess.run([os.path.join(TOOLS, 'install'), prefix], capture_output=True, text=True, check=False)
    tries.same('install', done.returncode, 0)
    command, env = os.path.join(prefix, 'bin/drc-check'), {**os.environ, 'DRC': folder.program, 'GITHUB_ACTIONS': ''}
    done = subprocess.run([command, 'amp.kicad_pcb', '--html', 'installed.html', '--sarif', 'installed.sarif'], cwd=folder.path, env=env, capture_output=True, text=True, check=False)
    tries.same('what is installed', (done.returncode, done.stderr), (1, ''))
    tries.holds('its page', folder.text('installed.html'), '<svg id="board"')
    tries.same('its version in SARIF', json.loads(folder.text('installed.sarif'))['runs'][0]['tool']['driver'].get('version'), program.described())
    done = subprocess.run([command, '--version'], cwd=folder.path, env=env, capture_output=True, text=True, check=False)
    tries.same('its version', done.stdout.split('\n')[0], 'drc tools %s' % (program.described() or 'of an unknown state'))
    share = os.path.join(prefix, 'share')
    for name in ('man/man1/drc.1', 'man/man1/drc_cli.1', 'man/man1/drc-check.1', 'bash-completion/completions/drc-check', 'bash-completion/completions/drc', 'zsh/site-functions/_drc'):
        tries.true('installed ' + name, os.path.isfile(os.path.join(share, name)))
    completed(tries, folder, os.path.join(share, 'bash-completion/completions/drc-check'))


def completed(tries, folder, file):
    """the words that bash goes on with; the last word of each line is the one that is being written"""
    ask = '. "$1"; shift; COMP_WORDS=("$@"); COMP_CWORD=$(($# - 1)); case $1 in drc-check) _drc_check;; *) _drc;; esac; printf "%s\\n" "${COMPREPLY[@]}"'
    for words, wanted in (('drc wa', ['warning.kicad_pcb']), ('drc un', ['undo']), ('drc --p', ['--project']), ('drc --project one/', ['one/b.kicad_pro']), ('drc --rules = one/', ['one/b.kicad_dru']),
                          ('drc undo amp.kicad_pcb am', ['amp.kicad_pcb', 'amp.kicad_pcb.said', 'amp.kicad_pcb.status', 'amp.kicad_pcb.words']), ('drc_cli steal amp.kicad_pcb 6', ['64']),
                          ('drc-check wa', ['warning.kicad_pcb']), ('drc-check --fail', ['--fail-on']), ('drc-check --explain hole_t', ['hole_to_hole']), ('drc-check --color =', ['always', 'never', 'auto'])):
        done = subprocess.run(['bash', '-c', ask, 'bash', file, *words.split(' ')], cwd=folder.path, capture_output=True, text=True, check=False)
        tries.same('completion of ' + words, (sorted(done.stdout.split()), done.stderr), (sorted(wanted), ''))


def pages_and_completion(tries, folder):
    """each option has its place in the page for man and in both completions, and these have no others"""
    texts = {name: open(os.path.join(ROOT, name), encoding='utf-8').read() for name in ('docs/drc.1', 'docs/drc-check.1', 'tools/completion/drc.bash', 'tools/completion/_drc')}
    told = set(re.findall(r'--[a-z]+(?:-[a-z]+)*', folder.check('--help')[1])) | {'--help'}
    wanted = {'docs/drc-check.1': told - {'--help'} | {'--help'}, 'docs/drc.1': {'--project', '--rules', '--script', '--workers', '--make'}}
    both = wanted['docs/drc-check.1'] | wanted['docs/drc.1']
    for name, text in texts.items():
        found = set(re.findall(r'(?<![\w-])--[a-z]+(?:-[a-z]+)*', text.replace('\\-', '-')))
        tries.same('options in ' + name, sorted(found), sorted(wanted.get(name, both)))
    for name in kinds.KINDS | kinds.OTHERS:
        for file in ('tools/completion/drc.bash', 'tools/completion/_drc'):
            tries.true('%s in %s' % (name, file), re.search(r'(?<![\w-])%s(?![\w-])' % name, texts[file]))
    for words in (['mandoc', '-T', 'lint', '-W', 'warning'], ['groff', '-ww', '-man', '-z'], ['zsh', '-n'], ['bash', '-n']):
        if shutil.which(words[0]):
            for name in ('docs/drc.1', 'docs/drc-check.1') if 'man' in str(words) else ('tools/completion/_drc',) if words[0] == 'zsh' else ('tools/completion/drc.bash',):
                done = subprocess.run([*words, name], cwd=ROOT, capture_output=True, text=True, check=False)
                tries.same('%s of %s' % (words[0], name), (done.returncode, done.stdout + done.stderr), (0, ''))


def contained(tries, folder):
    """what is sent to an engine for containers; none is asked to run anything here"""
    copy = os.path.join(folder.path, 'copy')
    for name in ('tools', 'docs'):
        shutil.copytree(os.path.join(ROOT, name), os.path.join(copy, name), ignore=shutil.ignore_patterns('__pycache__'))
    engine = folder.file('engine', '#!/bin/sh\necho "$1 $2 $4 $5"\ncd "$6" && find . -name Containerfile -o -path "*/bin/*" | sort\n')
    os.chmod(engine, 0o755)
    build = os.path.join(copy, 'tools/container/build')
    done = subprocess.run([build, engine], capture_output=True, text=True, check=False)
    tries.same('an image without a program', (done.returncode, done.stdout, done.stderr), (1, '', 'build: drc_cli is not built yet (./drc BOARD does that)\n'))
    os.chmod(folder.file('copy/crates/drc_cli/out/drc_cli', PROGRAM), 0o755)
    done = subprocess.run([build, engine], capture_output=True, text=True, check=False)
    tries.same('an image', (done.returncode, done.stdout, done.stderr), (0, 'build --file --tag drc\n./Containerfile\n./prefix/bin/drc-check\n./prefix/bin/drc_cli\n', ''))
    # A user of the image's own could write no file into the folder of boards.
    with open(os.path.join(copy, 'tools/container/Containerfile'), encoding='utf-8') as file:
        steps = [line.split(' ')[0] for line in file if line.strip() and not line.startswith('#')]
    tries.same('the steps of the image', steps, ['FROM', 'COPY', 'WORKDIR', 'ENTRYPOINT'])


def all_of(tries):
    with tempfile.TemporaryDirectory() as path:
        folder = Folder(os.path.realpath(path))
        prepare(folder)
        for each in (calls, written, watched, proved, installed, pages_and_completion, contained):
            each(tries, folder)
