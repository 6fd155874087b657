"""What the programs of bench/ share: runs of the program, with faults where they are told, and how they are counted."""
import atexit
import os
import shutil
import subprocess
import sys
import tempfile

HERE = os.path.dirname(os.path.abspath(__file__))
LIMIT = 33_554_432
HEAD = b'(kicad_pcb (version 20221018) (generator pcbnew) (layers (0 "F.Cu" signal) (31 "B.Cu" signal)) (net 0 "") (net 1 "N1") (net 2 "N2") '


def program_at(path):
    """where the program is; what can't be run is told in one line"""
    if not (os.path.isfile(path) and os.access(path, os.X_OK)):
        print('%s: %s is no program' % (os.path.basename(sys.argv[0]), path), file=sys.stderr)
        sys.exit(2)
    return os.path.abspath(path)


def via(name, x, y, net):
    return b'(via (at %s %s) (size 0.8) (drill 0.4) (layers "F.Cu" "B.Cu") (net %d) (tstamp %s))' % (x, y, net, name)


def track(name, x, y, end_x, end_y, net):
    return b'(segment (start %s %s) (end %s %s) (width 0.2) (layer "F.Cu") (net %d) (tstamp %s))' % (x, y, end_x, end_y, net, name)


def board(*items):
    return HEAD + b' '.join(items) + b')'


def report(number, tiles, of, rows=(), nets=(), notes=()):
    """a report with these lines"""
    lines = [b'report %d' % number, *rows, b'rows %d' % len(rows), *notes, b'not checked %d' % len(notes), *nets]
    lines += [b'open nets %d' % sum(line.startswith(b'net ') for line in nets), b'rechecked %d of %d tiles' % (tiles, of)]
    return b''.join(line + b'\n' for line in lines)


# Two vias that are far enough from each other.
APART = board(via(b'a', b'100', b'100', 1), via(b'b', b'101', b'100', 2))
# Two vias that a track joins, and a script that takes it out and puts it back.
JOINED = board(via(b'a', b'100', b'100', 1), via(b'b', b'110', b'100', 1), track(b'c', b'100', b'100', b'110', b'100', 1), via(b'd', b'300', b'300', 2))
REJOINED = b'(delete "c") (add ' + track(b'c', b'100', b'100', b'110', b'100', 1) + b')'
PARTED = [b'net "N1": 2 groups', b'group of 1: via "a" at 100.000000 100.000000', b'group of 1: via "b" at 110.000000 100.000000',
          b'link 100000000000000: via "a" at 100.000000 100.000000 | via "b" at 110.000000 100.000000']
JOINED_TEXT = report(0, 10, 10) + report(1, 6, 10, nets=PARTED) + report(2, 6, 10)


class Run:
    """how a run ended: the status, what was written, the processor time in seconds, the most memory in MB, and the number of faults that it met"""

    def __init__(self, status, out, seconds, most, faults):
        self.status, self.out, self.seconds, self.most, self.faults = status, out, seconds, most, faults


class Tries:
    """tries a program in a folder of its own, and counts what was tried and what was not as it should be"""

    def __init__(self, program):
        self.program, self.tried, self.wrong, self.loaded = program_at(program), 0, 0, None
        self.folder = tempfile.mkdtemp()
        atexit.register(shutil.rmtree, self.folder, ignore_errors=True)

    def file(self, name, pieces):
        """writes a file, of a text or of pieces, and gives its path"""
        path = os.path.join(self.folder, name)
        with open(path, 'wb') as file:
            for piece in [pieces] if isinstance(pieces, bytes) else pieces:
                file.write(piece)
        return path

    def run(self, words, faults=None, before=(), keep=True):
        """runs the program on these words, behind those before it; what was written stays in the file `out`, too"""
        heard, told = os.pipe()
        settings = dict(os.environ)
        if faults is not None:
            settings.update({name: str(number) for name, number in faults.items()}, LD_PRELOAD=self.loaded, TELL=str(told))
        out = os.path.join(self.folder, 'out')
        with open(out, 'wb') as file, open(os.path.join(self.folder, 'err'), 'wb') as err:
            child = subprocess.Popen([*before, self.program, *words], stdout=file, stderr=err, stdin=subprocess.DEVNULL, env=settings, pass_fds=[told])
            os.close(told)
            met = sum(len(bytes_met) for bytes_met in iter(lambda: os.read(heard, 65536), b''))
            _, status, used = os.wait4(child.pid, 0)
        os.close(heard)
        child.returncode = os.waitstatus_to_exitcode(status)
        text = None
        if keep:
            with open(out, 'rb') as file:
                text = file.read()
        return Run(child.returncode, text, used.ru_utime + used.ru_stime, used.ru_maxrss / 1024, met)

    def tell(self, name, fault, note=''):
        """prints whether a test is as it should be; a fault says what is not"""
        self.tried += 1
        self.wrong += bool(fault)
        print(f"{'differs' if fault else 'ok':8} {name}{': ' + fault if fault else ''}{'; ' + note if note else ''}", flush=True)

    def load(self):
        """makes the library of faults, and says whether it could be made"""
        made = os.path.join(self.folder, 'faults.so')
        if shutil.which('cc') and subprocess.run(['cc', '-O2', '-shared', '-fPIC', '-o', made, os.path.join(HERE, 'faults.c')], check=False).returncode == 0:
            self.loaded = made
        return self.loaded is not None

    def end(self):
        print(f'{self.tried} tried, {self.wrong} not as they should be')
        sys.exit(1 if self.wrong else 0)


def difference(done, status, text):
    """what is not as it should be of a run, or nothing"""
    if done.status != status:
        return 'status %d for %d, %.200r' % (done.status, status, done.out)
    if done.out != text:
        at = next((k for k, (one, other) in enumerate(zip(done.out, text)) if one != other), min(len(done.out), len(text)))
        return 'byte %d: %.100r for %.100r' % (at, done.out[at:], text[at:])
    return ''
