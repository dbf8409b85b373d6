"""Runs a program on inputs and holds what it writes, what it tells on standard error, and its exit status, against what is wanted."""
import argparse
import re
import subprocess
import sys
import tempfile
import threading
import time

LIMIT = 900                                       # seconds for a run; an emulator is slow
TOLD = 5                                          # of the runs that go wrong so many are told, the others counted


def run(command, given, piece=None):
    """Output, what is told, and status. With a piece, the input is handed over in pieces of so many bytes, so that the program reads short."""
    if piece is None:
        done = subprocess.run(command, input=given, stdout=subprocess.PIPE, stderr=subprocess.PIPE, timeout=LIMIT)
        return done.stdout, done.stderr, done.returncode
    with subprocess.Popen(command, stdin=subprocess.PIPE, stdout=subprocess.PIPE, stderr=subprocess.PIPE) as program:
        feeder = threading.Thread(target=feed, args=(program.stdin, given, piece))
        feeder.start()
        output, told = program.stdout.read(), program.stderr.read()
        feeder.join()
        return output, told, program.wait()


def feed(pipe, given, piece):
    try:
        for at in range(0, len(given), piece):
            pipe.write(given[at:at + piece])
            pipe.flush()
            time.sleep(0.002)
        pipe.close()
    except BrokenPipeError:
        pass                                      # the program may end before its input does


def difference(output, wanted):
    """The first line that differs, and the question or record that it answers, if they are numbered."""
    got, right = output.split(b'\n'), wanted.split(b'\n')
    line = next((i for i, (a, b) in enumerate(zip(got, right)) if a != b), min(len(got), len(right)))
    asked = [text for text in right[:line + 1] if text.startswith((b'question ', b'record '))]
    return '%s, line %d: %r, not %r' % (asked[-1].decode() if asked else 'answer', line + 1, got[line:line + 1], right[line:line + 1])


class Trial:
    def __init__(self, command):
        self.command, self.runs, self.wrong = command, 0, 0

    def check(self, label, given, wanted, piece=None, more=(), telling=None):
        """Whether a run with these further arguments prints what is wanted, and tells what the pattern has; no pattern: it tells nothing."""
        self.runs += 1
        output, told, status = run(self.command + list(more), given, piece)
        if (output, status) == (wanted, 0) and re.fullmatch(telling or b'', told):
            return True
        self.wrong += 1
        if self.wrong <= TOLD:
            with tempfile.NamedTemporaryFile(delete=False, prefix='wrong-') as kept:
                kept.write(given)
            said = difference(output, wanted) if output != wanted else 'status %d, told %r' % (status, told)
            print('%s: %s (input kept in %s)' % (label, said, kept.name))
        return False

    def finish(self, count, what='questions'):
        print('%d runs, %d %s: %s' % (self.runs, count, what, '%d runs go wrong' % self.wrong if self.wrong else 'all answered right'))
        sys.exit(1 if self.wrong else 0)


def arguments(description, runs):
    parser = argparse.ArgumentParser(description=description)
    parser.add_argument('--seed', type=int, default=1, help='another seed, other inputs')
    parser.add_argument('--runs', type=int, default=runs, help='how many runs with drawn inputs (%d)' % runs)
    parser.add_argument('program', nargs=argparse.REMAINDER, help='the command line to run')
    given = parser.parse_args()
    return given if given.program else parser.error('which program?')
