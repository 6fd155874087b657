"""The built program: where it is, what it is, and what a run of it says.

A program is called proved only where the file `drc_cli.made` beside it, which `./drc` writes when it has proved and built it, has the
checksum of that program and of the sources as they now are. Nothing is proved or built here.
"""
import hashlib
import os
import shutil
import signal
import subprocess

ROOT = os.path.dirname(os.path.dirname(os.path.abspath(__file__)))
BUILT = os.path.join(ROOT, 'crates', 'drc_cli', 'out', 'drc_cli')
KEPT = 'glibc.malloc.mmap_threshold=4294967296:glibc.malloc.trim_threshold=4294967296:glibc.malloc.arena_max=1'


class Missing(Exception):
    """there is no program; its words say what to do"""


def found(asked=None):
    """the program: the one that is asked for, that of $DRC, the one that ./drc built here, or drc_cli of the PATH"""
    for name, where in ((asked, '--program'), (os.environ.get('DRC'), '$DRC')):
        if name:
            if os.path.isfile(name) and os.access(name, os.X_OK):
                return os.path.abspath(name)
            raise Missing('%s names no program: %s' % (where, name))
    if os.path.isfile(BUILT) and os.access(BUILT, os.X_OK):
        return BUILT
    on_path = shutil.which('drc_cli')
    if on_path:
        return on_path
    raise Missing('drc_cli is not built: ./drc BOARD proves and builds it once, which takes an hour or more; or name one by --program FILE or $DRC')


def checksum(name):
    """the SHA-256 of a file"""
    with open(name, 'rb') as file:
        return hashlib.sha256(file.read()).hexdigest()


def sources():
    """the SHA-256 of the list of all sources with theirs, as `./drc` makes it: lines `SHA-256  NAME`, by the bytes of the names"""
    names = ['crates.txt']
    for folder, inner, files in os.walk(os.path.join(ROOT, 'crates')):
        inner[:] = [name for name in inner if name not in ('out', 'must-fail')]
        names += [os.path.relpath(os.path.join(folder, name), ROOT) for name in files if name.endswith(('.rt', '.antt')) or name == 'crates.txt']
    lines = ''.join('%s  %s\n' % (checksum(os.path.join(ROOT, name)), name) for name in sorted(names, key=os.fsencode))
    return hashlib.sha256(lines.encode()).hexdigest()


def proved(program):
    """whether ./drc proved and built this program from the sources as they are, and why not"""
    try:
        with open(program + '.made', encoding='utf-8') as file:
            made = dict(line.split()[:2] for line in file if len(line.split()) >= 2)
    except OSError:
        return False, 'no checksum of ./drc stands beside it'
    if made.get('program') != checksum(program):
        return False, 'the checksum beside it is that of another program'
    if not os.path.isfile(os.path.join(ROOT, 'crates.txt')):
        return False, 'the sources are not here'
    if made.get('sources') != sources():
        return False, 'the sources have changed since'
    return True, 'proved and built by ./drc from these sources'


def described():
    """which state of the repository the tools are of: what tools/install wrote, or what git says; None where nobody knows"""
    try:
        with open(os.path.join(ROOT, 'version'), encoding='utf-8') as file:
            return file.read().strip() or None
    except OSError:
        pass
    # Another repository may stand around what is installed.
    if not os.path.isfile(os.path.join(ROOT, 'crates.txt')):
        return None
    try:
        done = subprocess.run(['git', '-C', ROOT, 'describe', '--always', '--dirty', '--tags'], capture_output=True, text=True, check=False)
    except OSError:
        return None
    return done.stdout.strip() or None


def version(program):
    """lines that say what the program is"""
    whole, why = proved(program)
    said = '%s: %s' % ('proved' if whole else 'not known to be proved', why)
    return ['drc tools %s' % (described() or 'of an unknown state'), 'program %s' % program, 'sha256 %s' % checksum(program), said]


class Run:
    """a run: its status as drc's, and the bytes that it wrote"""

    def __init__(self, program, files, workers=None):
        words = [program] + ['--%s=%s' % (which, files[which]) for which in ('project', 'rules', 'script') if files.get(which)]
        words += ['--workers', str(workers)] if workers else []
        words += ['--', files['board']]
        env = dict(os.environ)
        env.setdefault('GLIBC_TUNABLES', 'glibc.malloc.hugetlb=1:' + KEPT)
        done = subprocess.run(words, stdout=subprocess.PIPE, stderr=subprocess.PIPE, env=env, check=False)
        self.bytes, self.errors, self.status = done.stdout, done.stderr.decode('utf-8', 'replace'), done.returncode
        if self.status < 0:
            # What ended it is told in words; 128 and the signal is what a shell says.
            try:
                self.errors += '%s ended it\n' % signal.Signals(-self.status).name
            except ValueError:
                pass
            self.status = 128 - self.status

    @property
    def text(self):
        return self.bytes.decode('utf-8', 'replace')
