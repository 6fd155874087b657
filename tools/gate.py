#!/usr/bin/env python3
"""Measures what the gate costs, and writes docs/GATE.md's table from it.

  tools/gate.py run LOG [COMMAND ..]   runs the command (rt ci, if none is given) and notes in LOG what each process of the prover took;
                                       the status is the command's
  tools/gate.py watch LOG              notes the same of whatever runs on this machine, until it is stopped
  tools/gate.py write LOG [LOG ..]     writes the table and the sums in docs/GATE.md from such logs; a task that several of them have
                                       counts as in the last one
  tools/gate.py tell LOG [LOG ..]      prints them

What a check reckons with is the memory that rt ci keeps free for it before it starts: the first part follows from the lines of the crate
and of those below it, the second from the libraries of the kit that these use. Seconds are those of the processor, user and system. They are read from /proc every quarter of a second, so a process loses at most
that at its end. Memory is the most that a process held. A task is what the prover was called for: the proof of a crate, of its
tests, a program's building, or one edit that must fail. Tasks that the kit kept from an earlier run are not in the log, and have a
dash in the table: what is measured is what ran.
"""
import collections
import json
import os
import re
import subprocess
import sys
import time

sys.path.insert(0, os.path.dirname(os.path.abspath(__file__)))

import sources

PAGE = 'docs/GATE.md'
BEGIN, END = '<!-- Written by tools/gate.py: -->', '<!-- Up to here. -->'
EVERY = 0.25
# How the names of the prover's processes begin: a check by several jobs has copies of itself, named by their thread.
PROVER = ('rattle', 'antt', 'clang')
# What rt ci reckons with for a check, in GB: for each, for a line of code, of definitions or proofs, and of code below; then a byte of
# the kit's libraries, and the most for all of these.
START, CODE, PROOF, BELOW = 1, 1e-3, 2e-4, 8e-5
KIT_BYTE, KIT_MOST = 5e-9, 2.5
LIBRARY = 'rlibs/%s.rlib/toolchain/checked.a'
ALWAYS = ('core', 'std', 'std_alloc', 'std_collections', 'std_heap', 'std_io', 'io', 'libc', 'os')
TICK = os.sysconf('SC_CLK_TCK')
PARTS = ('src', 'specs', 'proofs')


def words_of(process):
    with open('/proc/%s/cmdline' % process, 'rb') as file:
        return file.read().decode(errors='replace').split('\0')


def task_of(words, folder):
    """the crate and the kind of task that a call of the prover is for, or None"""
    if len(words) < 4 or os.path.basename(words[0]) != 'rattle' or words[1] not in ('check', 'build') or '--crate-name' not in words:
        return None
    crate = words[words.index('--crate-name') + 1]
    if '/rt-edit' in folder:
        return crate, 'edits'
    if '--test' in words:
        return crate, 'tests'
    if '--backend' in words or '--crate-checked' in words:
        return crate, 'building'
    return crate, 'proof'


def is_below(process, top):
    """whether a process was begun by another, or by what that began"""
    while process not in ('0', '1', top):
        with open('/proc/%s/stat' % process) as file:
            process = file.read().rpartition(')')[2].split()[1]
    return process == top


def seen_now(top):
    """of each process of the prover, below that of this number if there is one: its number and start, its task, its seconds and its memory in MB"""
    for process in filter(str.isdigit, os.listdir('/proc')):
        try:
            with open('/proc/%s/comm' % process) as file:
                if not file.read().startswith(PROVER):
                    continue
            words, folder = words_of(process), os.readlink('/proc/%s/cwd' % process)
            task = task_of(words, folder)
            with open('/proc/%s/stat' % process) as file:
                fields = file.read().rpartition(')')[2].split()
            with open('/proc/%s/status' % process) as file:
                most = re.search(r'VmHWM:\s+(\d+)', file.read())
            is_ours = task and (not top or is_below(process, top))
        except (OSError, ValueError, IndexError):
            continue
        if is_ours:
            yield (process, fields[19]), task, (int(fields[11]) + int(fields[12])) / TICK, int(most[1]) / 1024 if most else 0


def note(seen, top):
    for key, task, seconds, memory in seen_now(top):
        before = seen.get(key, (task, 0, 0))
        seen[key] = task, max(seconds, before[1]), max(memory, before[2])


def machine():
    """the processors, the memory in GB, and the kit"""
    model = re.search(r'model name\s*: (.+)', open('/proc/cpuinfo').read())
    memory = int(re.search(r'MemTotal:\s+(\d+)', open('/proc/meminfo').read())[1]) / 1024 / 1024
    kit = subprocess.run(['rt', 'version'], capture_output=True, text=True).stdout.split()
    return {'processors': len(os.sched_getaffinity(0)), 'model': model[1].strip() if model else '', 'memory': round(memory), 'kit': kit[0] if kit else ''}


def save(log, seen, wall, ended):
    tasks = [[*task, round(seconds, 2), round(memory)] for task, seconds, memory in seen.values()]
    with open(log, 'w', encoding='utf-8') as file:
        json.dump({'machine': machine(), 'wall': round(wall), 'last': ended, 'tasks': sorted(tasks)}, file, indent=0)


def watch(log, command):
    seen, begun, ran, status, saved = {}, time.time(), None, 0, 0
    said = ''
    if command:
        ran = subprocess.Popen(command, stdout=subprocess.PIPE, stderr=subprocess.STDOUT, text=True, cwd=sources.ROOT)
        os.set_blocking(ran.stdout.fileno(), False)
    try:
        while ran is None or ran.poll() is None:
            note(seen, str(ran.pid) if ran else '')
            if ran:
                said = tail(ran, said)
            if time.time() - saved > 10:
                saved = time.time()
                save(log, seen, saved - begun, '')
            time.sleep(EVERY)
        said = tail(ran, said)
        status = ran.returncode
    except KeyboardInterrupt:
        pass
    save(log, seen, time.time() - begun, said.strip().split('\n')[-1])
    return status


def tail(ran, said):
    """hands on what the command wrote, and keeps the end of it"""
    try:
        text = ran.stdout.read() or ''
    except TypeError:
        text = ''
    sys.stdout.write(text)
    sys.stdout.flush()
    return (said + text)[-4000:]


def lines_of(crate, folder, ending):
    found = 0
    for at, _, names in os.walk(os.path.join(sources.ROOT, 'crates', crate, folder)):
        found += sum(sources.read(at, name).count('\n') for name in names if name.endswith(ending))
    return found


def reckoned():
    """of each crate, what rt ci reckons with for a check: in GB, by its lines and those below it, and by the kit's libraries"""
    own, kit, code, found = set(), {}, {}, {}
    # Where the kit stands: its first page lies at its top.
    top = os.path.dirname(subprocess.run(['rt', 'doc'], capture_output=True, text=True, check=True).stdout.strip())
    below = {}
    for crate, stands_on in sources.crates():
        own.add(crate)
        below[crate] = set().union(*({other} | below[other] for other in stands_on if other in own))
        kit[crate] = {other for other in stands_on if other not in own}
        code[crate] = sum(lines_of(crate, folder, '.rt') for folder in PARTS)
        proof = sum(lines_of(crate, folder, '.antt') for folder in PARTS)
        named = set().union(kit[crate], *(kit[other] for other in below[crate])) - set(ALWAYS)
        files = [os.path.join(top, LIBRARY % name) for name in named]
        loaded = sum(os.path.getsize(file) for file in files if os.path.isfile(file))
        lines = START + CODE * code[crate] + PROOF * proof + BELOW * sum(code[other] for other in below[crate])
        found[crate] = lines, min(KIT_BYTE * loaded, KIT_MOST)
    return found


def edits_of(crate):
    folder = os.path.join(sources.ROOT, 'crates', crate, 'must-fail')
    return sum(name.endswith('.edit') for name in os.listdir(folder)) if os.path.isdir(folder) else 0


def longest_chain(seconds):
    """the crates, each of which stands on the one before it, whose proofs take longest in all"""
    best = {}
    for crate, below in sources.crates():
        before = max((best[other] for other in below if other in best), default=(0, []))
        best[crate] = before[0] + seconds.get((crate, 'proof'), 0) + seconds.get((crate, 'building'), 0), before[1] + [crate]
    return max(best.values())


def joined(logs):
    """of several runs, in their order: the machine of the last, the time of all, its last line, and of each task the seconds and the
    memory of the last run that has it"""
    seconds, memory, wall = collections.Counter(), collections.Counter(), 0
    for log in logs:
        with open(log, encoding='utf-8') as file:
            run = json.load(file)
        wall += run['wall']
        for task in {tuple(task[:2]) for task in run['tasks']}:
            seconds[task] = memory[task] = 0
        for crate, kind, took, most in run['tasks']:
            seconds[crate, kind] += took
            memory[crate, kind] = max(memory[crate, kind], most)
    return run['machine'], wall, run['last'], seconds, memory


def table(logs):
    on, wall, last, seconds, memory = joined(logs)
    most_of = lambda crate: max((most for (other, _), most in memory.items() if other == crate), default=0)
    cell = lambda crate, *kinds: '%.0f' % sum(seconds[crate, kind] for kind in kinds) if any(seconds[crate, kind] >= 0.5 for kind in kinds) else '-'
    memory_for = reckoned()
    rows = [
        '| crate | code | definitions | proofs | edits | proof s | building s | edits s | most MB | reckoned GB |',
        '|---|---|---|---|---|---|---|---|---|---|']
    for crate, _ in sources.crates():
        rows.append('| ' + ' | '.join(str(it) for it in (
            crate, lines_of(crate, 'src', '.rt'), lines_of(crate, 'specs', '.antt'), lines_of(crate, 'proofs', '.antt'), edits_of(crate),
            cell(crate, 'proof', 'tests'), cell(crate, 'building'), cell(crate, 'edits'), most_of(crate) or '-',
            '%.1f + %.1f' % memory_for[crate])) + ' |')
    of = lambda *kinds: sum(took for (_, kind), took in seconds.items() if kind in kinds) / 60
    chain, names = longest_chain(seconds)
    text = [
        'Measured with `%s` on %d processors (%s) with %d GB%s%s.' % (
            on['kit'], on['processors'], on['model'], on['memory'],
            ', in %d minutes by the clock' % (wall / 60) if wall else '',
            '; the last line was `%s`' % last if last else ''),
        '',
        *rows,
        '',
        'In minutes of a processor: proofs and tests %.0f, building of programs %.0f, edits %.0f; together %.0f.' % (
            of('proof', 'tests'), of('building'), of('edits'), of('proof', 'tests', 'building', 'edits')),
        'The longest chain of crates, each of which stands on the one before it, takes %.0f minutes: %s.' % (chain / 60, ', '.join('`%s`' % name for name in names)),
    ]
    return '\n'.join(text)


def write(logs):
    page = sources.read(PAGE)
    if BEGIN not in page or END not in page:
        sys.exit('gate.py: %s lacks the lines between which the table stands' % PAGE)
    before, _, rest = page.partition(BEGIN)
    _, _, after = rest.partition(END)
    with open(os.path.join(sources.ROOT, PAGE), 'w', encoding='utf-8') as file:
        file.write(before + BEGIN + '\n' + table(logs) + '\n' + END + after)


def main(words):
    if len(words) < 2 or words[0] not in ('run', 'watch', 'write', 'tell'):
        sys.exit(__doc__)
    if words[0] in ('run', 'watch'):
        return watch(words[1], (words[2:] or ['rt', 'ci']) if words[0] == 'run' else None)
    if words[0] == 'write':
        return write(words[1:])
    print(table(words[1:]))
    return 0


if __name__ == '__main__':
    sys.exit(main(sys.argv[1:]))
