"""Tries tools/quick on a repository of four crates, with an rt that proves nothing."""
import os
import shutil
import subprocess
import tempfile

from tries import TOOLS, run

CRATES = '# == Ground: all\nlow:\nmiddle: low\n# == Top: it\nhigh: middle\nother:\n'
RT = '#!/bin/sh\necho "$(basename "$PWD") $*" >>"$CALLS"\ncase "$(basename "$PWD") $*" in "$BAD check") echo "fn f: not proved"; exit 1 ;; esac\n'
STYLE = 'print("style")\n'


class Copy:
    """a repository with all committed"""

    def __init__(self, path):
        self.path = path
        self.file('crates.txt', CRATES)
        for crate in ('low', 'middle', 'high', 'other'):
            self.file('crates/%s/src/lib.rt' % crate, '')
        for tool in ('quick', 'sources.py'):
            self.file('tools/' + tool, '')
            shutil.copy(os.path.join(TOOLS, tool), os.path.join(path, 'tools', tool))
        self.file('tools/style.py', STYLE)
        self.file('tools/test', STYLE)
        self.file('.gitignore', '*.log\nbin/\ncalls\n')
        os.chmod(self.file('bin/rt', RT), 0o755)
        for words in (['init', '-q'], ['add', '-A'], ['-c', 'user.name=t', '-c', 'user.email=t@localhost', 'commit', '-qm', 'all']):
            subprocess.run(['git', *words], cwd=path, check=True, capture_output=True)

    def file(self, name, text):
        path = os.path.join(self.path, name)
        os.makedirs(os.path.dirname(path), exist_ok=True)
        with open(path, 'w', encoding='utf-8') as file:
            file.write(text)
        return path

    def quick(self, *words, bad=''):
        """the status, the output, and how rt was called"""
        calls = self.file('calls', '')
        env = {'PATH': os.path.join(self.path, 'bin') + ':' + os.environ['PATH'], 'CALLS': calls, 'BAD': bad}
        status, out, errors = run(os.path.join(self.path, 'tools/quick'), *words, cwd=self.path, env=env)
        with open(calls, encoding='utf-8') as file:
            return status, out + errors, file.read().split('\n')[:-1]


def all_of(tries):
    with tempfile.TemporaryDirectory() as path:
        copy = Copy(os.path.realpath(path))
        status, out, calls = copy.quick()
        tries.same('nothing changed', (status, calls), (0, []))
        tries.holds('nothing wrong', out, '0 crates changed, 0 to prove\nstyle ..\ntools ..\n\nnothing is wrong\n')
        copy.file('crates/middle/proofs/New.antt', '')
        copy.file('crates/other/must-fail/a.edit', '')
        status, out, calls = copy.quick()
        tries.same('a crate that changed', (status, calls), (0, ['middle fmt', 'middle check', 'high check']))
        tries.holds('edits that changed', out, 'edits changed: rt must-fail other tries them\n')
        tries.same('no proofs', copy.quick('--no-proofs')[2], ['middle fmt'])
        tries.same('since a commit', copy.quick('HEAD')[2], ['middle fmt', 'middle check', 'high check'])
        tries.same('a commit that is none', copy.quick('nowhere')[::2], (2, []))
        status, out, calls = copy.quick(bad='middle')
        tries.same('a proof that fails', (status, calls), (1, ['middle fmt', 'middle check']))
        tries.holds('what is said of it', out, '1 wrong: proof of middle\nproof of middle:\nfn f: not proved\nall of it is in quick.log\nnot proved, as they stand on what is not: high\n')
        copy.file('crates.txt', CRATES.replace('other:', 'other: low'))
        tries.same('a crate that stands on another one', copy.quick()[2], ['middle fmt', 'other fmt', 'middle check', 'high check', 'other check'])
        copy.file('tools/test', 'import sys\nprint("\\n".join("line %d" % k for k in range(99)))\nsys.exit(1)\n')
        status, out, _ = copy.quick('--no-proofs')
        tries.same('a screen', (status, len(out.split('\n')) < 25, 'line 98\n' in out), (1, True, True))
