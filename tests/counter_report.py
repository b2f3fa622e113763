#!/usr/bin/env python3
"""counter_report, the program for the counter terminal, on inputs of every kind.

    counter_report.py EXAMPLES PROGRAM    runs PROGRAM on the reports of EXAMPLES and compares with
                                          the end of their pages, and as docs/REPORT.md does; then
                                          on about a thousand inputs, and compares with what
                                          tests/oracle says, and the words of lines, for plans of
                                          few states, with Table 1; then looks how far it reads

A program that reads no further than it has to leaves a file at the byte behind the last that it
read, and ends though its input goes on or is still open.
"""
import os
import random
import re
import subprocess
import sys
import tempfile
from collections import Counter
from pathlib import Path

from inputs.chance import random_queries
from inputs.contents import headings
from inputs.parts import K, K8, LEAST, LEAST_LOOP, LONG, deepest, refusals
from native import HERE
from oracle.program import lines_of
from oracle.reports import MOST
from oracle.rows import Sheet
from oracle.sheet import sheet_of
from oracle.table1 import meaning
from sheets import further

LONGEST = 6455                          # bytes of a sheet


def given(states, sheet, count=None):
    """an input; its count may be another than the number of states"""
    return bytes([len(states) if count is None else count, *states]) + sheet


def cut_short():
    """nothing, a count alone, an end among the states or right behind them"""
    yield b''
    for count in (0, 1, 2, 3, 63, 64, 65, 66, 127, 128, 254, 255):
        yield bytes([count])
        for n in sorted({1, 2, count // 2, count - 1, count}):
            if 0 < n <= count:
                yield given(bytes(n), b'', count)
    for n in range(len(K) + 5):
        yield given([0, 1, 2, 3], K)[:n]


def counts():
    """up to 64 states and more, with a sheet, whole and not; a count that is not theirs"""
    for count in (0, 1, 2, 4, 63, 64, 65, 66, 80, 128, 255):
        for sheet in (K, K[:40], K + b'\0', b'\7' * 7000):
            yield given([k % 4 for k in range(count)], sheet)
    for count in (3, 5, 64, 65, 255):
        yield given([0, 1, 2, 3], K, count)
    # states of every number, and a sheet alone
    for first in (0, 64, 128, 192):
        yield given(range(first, first + 64), K)
    yield K


def sheets():
    """refused ones of every kind, ones at the limits, and ones that are too long"""
    for s in (*refusals(), *headings(), *further()):
        for states in ([], [0, 3, 1]):
            yield given(states, s)
    long = sheet_of(*LONG)
    for s in (long, long + b'\0', long + bytes(100), K + bytes(LONGEST - len(K)),
              b'\1\3' + bytes(9000)):
        for states in ([], [0], range(64, 128), range(65)):
            yield given(states, s)
    for s in (deepest(), sheet_of(*LEAST), K8, LEAST_LOOP):
        yield given(range(64), s)
        yield given(range(129, 65, -1), s)


def at_random(rng):
    for _ in range(400):
        s, states, _ = random_queries(rng, (3, 8, 16, 40, 64))
        whole = given(states, s)
        yield whole
        if rng.random() < 0.2:
            yield whole[:rng.randrange(len(whole))]
        if rng.random() < 0.1:
            yield whole + rng.randbytes(rng.choice((1, 5, 7000)))


def by_table1(start):
    """the words of the lines of an accepted input, from Table 1 and the plan's loops"""
    states, s = start[1:1 + start[0]], Sheet(start[1 + start[0]:])
    holds = meaning(s, 0, {})
    return ['refused' if q >= s.states or s.loop_reachable(q) else 'true' if q in holds else 'false'
            for q in states]


class Trial:
    def __init__(self, program):
        self.program, self.wrong = program, 0
        self.met, self.refusals = Counter(), Counter()

    def tell(self, what, found, wanted):
        if found != wanted:
            self.wrong += 1
            print(what, 'gives', found, 'and not', wanted)

    def run(self, **stdin):
        """what it prints; it ends well and says nothing else"""
        done = subprocess.run([self.program], capture_output=True, timeout=60, **stdin)
        self.tell('the end of a run', (done.returncode, done.stderr), (0, b''))
        return done.stdout.decode()

    def compare(self, start):
        wanted = lines_of(start) + '\n'
        what = 'input %s of %d bytes' % ([*start[:90]], len(start))
        self.tell(what, self.run(input=start), wanted)
        *lines, last = [line.split() for line in wanted.splitlines()]
        if last[0] == 'refused':
            self.refusals[int(last[1])] += 1
            return
        self.met['reports'] += 1
        words = [word for _, word, _ in lines]
        if start[1 + start[0] + 17] < 9:        # of few states
            self.tell('Table 1 of ' + what, by_table1(start), words)
            self.met.update(words)

    def examples(self, folder):
        for file in sorted(Path(folder).glob('*.report')):
            wanted = file.with_suffix('.txt').read_text().split(' prints\n')[1]
            found = self.run(input=file.read_bytes())
            self.tell(str(file), found, wanted)
            print('%s:' % file, ', '.join(found.splitlines()))

    def page(self, file):
        """the commands of a page, each with the lines that stand behind it"""
        blocks = re.findall(r'(?:^    .*\n)+', file.read_text(), re.M)
        for command, lines in zip(blocks[::2], blocks[1::2], strict=True):
            name = 'target/bin/counter_report'
            assert name in command
            command = command.strip().replace(name, str(Path(self.program).resolve()))
            found = subprocess.run(command, shell=True, cwd=HERE, capture_output=True).stdout
            self.tell(command, found.decode(), lines.replace('    ', ''))

    def read_from_file(self, start):
        """where the file stands after the run: behind the count, the states and one byte more than
        the longest sheet; behind a count over 64; or at its end"""
        with tempfile.TemporaryFile() as file:
            file.write(start)
            file.flush()
            os.lseek(file.fileno(), 0, os.SEEK_SET)
            found = self.run(stdin=file)
            at = os.lseek(file.fileno(), 0, os.SEEK_CUR)
        most = 1 if start[:1] > bytes([MOST]) else 1 + sum(start[:1]) + LONGEST + 1
        what = 'file %s of %d bytes' % ([*start[:20]], len(start))
        self.tell(what, (found, at), (lines_of(start) + '\n', min(most, len(start))))
        self.met['files'] += 1

    def read_from_pipe(self, pieces, closed):
        """the input in pieces; it may stay open"""
        start, pipe = b''.join(pieces), subprocess.PIPE
        with subprocess.Popen([self.program], bufsize=0, stdin=pipe, stdout=pipe) as run:
            try:
                for piece in pieces:
                    run.stdin.write(piece)
                if closed:
                    run.stdin.close()
                run.wait(timeout=20)
            except (BrokenPipeError, subprocess.TimeoutExpired):
                run.kill()
            found = run.stdout.read().decode()
        what = 'pipe %s of %d pieces' % ([*start[:20]], len(pieces))
        self.tell(what, found, lines_of(start) + '\n')
        self.met['pipes'] += 1


def files():
    """as long as is read and longer, shorter, and empty"""
    yield b''
    for count in (0, 1, 3, 63, 64, 65, 66, 128, 255):
        states = [k % 4 for k in range(count)]
        for sheet in (K, K + bytes(20000), sheet_of(*LONG) + b'\5' * 9000, b'\3' * LONGEST,
                      b'\3' * (LONGEST + 1), b'\3' * (LONGEST + 2), b'\3' * 70000):
            yield given(states, sheet)
        yield bytes([count])
        yield given(states[:2], b'', count)


def pipes():
    """byte by byte and in a few pieces; as much as is read, with the input left open"""
    for whole in (given([0, 1, 2, 3], K), given([], K), given(range(64), K)):
        yield [whole[k:k + 1] for k in range(len(whole))], True
        yield [whole[:1], whole[1:9], whole[9:]], True
    for count in (0, 3, 64):
        yield [given(bytes(count), b'\3' * (LONGEST + 1))], False
    for count in (65, 255):
        yield [bytes([count])], False


def main(folder, program):
    trial = Trial(program)
    trial.examples(folder)
    trial.page(HERE / 'docs/REPORT.md')
    for inputs in (cut_short(), counts(), sheets(), at_random(random.Random(10))):
        for start in inputs:
            trial.compare(start)
    for start in files():
        trial.read_from_file(start)
    for pieces, closed in pipes():
        trial.read_from_pipe(pieces, closed)
    with open('/dev/zero', 'rb') as endless:
        trial.tell('an input without end', trial.run(stdin=endless), 'refused 2 0\n')
    refused = ', '.join('%d with %d' % (n, number) for number, n in sorted(trial.refusals.items()))
    print('%d reports; refused: %s' % (trial.met['reports'], refused))
    print('lines that agree with Table 1: %d true, %d false, %d refused' % tuple(
        trial.met[word] for word in ('true', 'false', 'refused')))
    print('%d files and %d pipes, for how far they are read' % (
        trial.met['files'], trial.met['pipes']))
    print('all as expected' if trial.wrong == 0 else '%d wrong' % trial.wrong)
    return min(trial.wrong, 1)


if __name__ == '__main__':
    if len(sys.argv) != 3:
        sys.exit(__doc__)
    sys.exit(main(*sys.argv[1:]))
