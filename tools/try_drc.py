"""Tries how ./drc makes the program, with an rt that proves nothing: what it is called with, what is said meanwhile, and how it ends."""
import os
import shutil
import signal
import subprocess
import tempfile
import time

from tries import ROOT

CRATES = '# == Ground: all\nlow:\nother: low\nmiddle: low itoa\n# == Top: it\ndrc_cli: middle\nabove: drc_cli\n'
PROGRAM = '#!/bin/sh\necho report 0\n'
# It notes its words and its folder, and does what the variable HOW says.
RT = '''#!/bin/sh
echo "$(basename "$PWD") $*" >>"$CALLS"
make() {
    mkdir -p "../$1/out/rlib"
    sleep 2
    touch "../$1/out/rlib/stamp"
    echo "== $1"
}
case $HOW in
    well)
        echo 'rt: as the sources say'
        make low
        make middle
        mkdir -p out
        cp "$PROGRAM" out/drc_cli
        echo '== drc_cli'
        echo '== summary'
        exit 1 ;;
    badly)
        make low
        mkdir -p ../middle/out/rlib
        printf '== middle\\nfn f: not proved\\n== summary\\nmiddle: failed (1)\\n'
        exit 1 ;;
    not) echo 'rt: no such word'; exit 2 ;;
    forever)
        trap 'echo ended >>"$CALLS"; exit 1' TERM
        while :; do sleep 0.1; done ;;
esac
'''


class Clone:
    """a repository of some crates with ./drc, and an rt"""

    def __init__(self, path):
        self.path = path
        shutil.copy(os.path.join(ROOT, 'drc'), os.path.join(path, 'drc'))
        self.file('crates.txt', CRATES)
        for crate in ('low', 'other', 'middle', 'drc_cli', 'above'):
            self.file('crates/%s/src/lib.rt' % crate, '')
        self.program, self.calls = self.file('program', PROGRAM, 0o755), self.file('calls', '')
        self.file('bin/rt', RT, 0o755)
        self.file('amp.kicad_pcb', '')

    def file(self, name, text, mode=0o644):
        path = os.path.join(self.path, name)
        os.makedirs(os.path.dirname(path), exist_ok=True)
        with open(path, 'w', encoding='utf-8') as file:
            file.write(text)
        os.chmod(path, mode)
        return path

    def begin(self, how, jobs='2', path=None):
        env = {**os.environ, 'HOW': how, 'CALLS': self.calls, 'PROGRAM': self.program, 'PATH': path or os.path.join(self.path, 'bin') + ':' + os.environ['PATH']}
        env.pop('DRC_JOBS', None)
        if jobs:
            env['DRC_JOBS'] = jobs
        return subprocess.Popen([os.path.join(self.path, 'drc'), 'amp.kicad_pcb'], cwd=self.path, env=env, stdout=subprocess.PIPE, stderr=subprocess.PIPE, text=True)

    def run(self, *words, **how):
        """the status, the output and the lines on standard error of ./drc, and how rt was called"""
        process = self.begin(*words, **how)
        out, errors = process.communicate(timeout=60)
        return process.returncode, out, errors.split('\n'), self.called()

    def called(self):
        with open(self.calls, encoding='utf-8') as file:
            lines = file.read().split('\n')[:-1]
        self.file('calls', '')
        return lines

    def without_rt(self):
        """a path of folders in which the usual programs are, and no rt"""
        folder = os.path.join(self.path, 'usual')
        os.makedirs(folder, exist_ok=True)
        for name in ('sh', 'dirname', 'find', 'readlink', 'cat', 'awk', 'sed', 'head', 'wc'):
            if not os.path.exists(os.path.join(folder, name)):
                os.symlink(shutil.which(name), os.path.join(folder, name))
        return folder


def made(tries, clone):
    status, out, errors, calls = clone.run('well')
    tries.same('a program that is made', (status, out), (0, 'report 0\n'))
    tries.same('the call of rt', calls, ['drc_cli all test --jobs 2'])
    tries.same('what is said meanwhile', errors, [
        'drc: the program is proved and built first, once, which takes an hour or more: 3 crates, 2 at once; all sources are read before the first proof', 'drc: proving low', 'drc: proved low, 2 left',
        'drc: proving middle', 'drc: proved middle, 1 left', 'drc: proved drc_cli, 0 left', ''])
    folder = os.path.join(clone.path, 'crates/drc_cli/out')
    tries.same('what stands beside it', sorted(os.listdir(folder)), ['drc.log', 'drc_cli', 'drc_cli.made'])
    tries.same('a second call', clone.run('well'), (0, 'report 0\n', [''], []))
    # Kept libraries are told of, too, and only a source that is newer has the program made anew.
    os.utime(os.path.join(clone.path, 'crates/low/src/lib.rt'), (time.time() + 60, time.time() + 60))
    status, out, errors, calls = clone.run('not')
    tries.same('a source that is newer', (status, out, calls), (125, '', ['drc_cli all test --jobs 2']))
    tries.same('what rt said', errors[1:3], ['rt: no such word', 'drc: the program was not made:; all that rt said is in %s/drc.log' % folder])
    tries.same('nothing of the old program', os.listdir(folder), ['drc.log'])


def not_made(tries, clone):
    status, out, errors, _ = clone.run('badly')
    tries.same('a crate that is not proved', (status, out), (125, ''))
    tries.same('which it is', [line for line in errors[1:] if not line.startswith('drc: proving')][:4], ['drc: proved low, 2 left', 'drc: not proved: middle', '== middle', 'fn f: not proved'])
    tries.true('where the rest is', errors[-2].startswith('drc: the program was not made: middle; all that rt said is in '))
    status, out, errors, calls = clone.run('well', path=clone.without_rt())
    tries.same('no rt', (status, out, calls), (125, '', []))
    tries.same('what is said of it', errors, ['drc: rt, the tool of Rattle that proves and builds the program, is not on the PATH (README.md, "Building"); tools/fits.py needs nothing built', ''])

def broken_off(tries, clone):
    process = clone.begin('forever', jobs=None)
    until = time.monotonic() + 120
    calls = []
    while not calls and time.monotonic() < until:
        time.sleep(0.1)
        calls = clone.called()
    jobs = int(calls[0].split(' ')[-1]) if calls else 0
    tries.true('as many crates at once as there are processors at most', 1 <= jobs <= os.cpu_count())
    process.send_signal(signal.SIGTERM)
    process.communicate(timeout=120)
    tries.same('a call that is ended', (process.returncode, clone.called()), (125, ['ended']))
    tries.true('nothing that is left', not os.path.exists(os.path.join(clone.path, 'crates/drc_cli/out/drc.log.begun')))


def all_of(tries):
    for each in (made, not_made, broken_off):
        with tempfile.TemporaryDirectory() as path:
            each(tries, Clone(os.path.realpath(path)))
