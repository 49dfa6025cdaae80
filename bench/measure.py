"""What the benches share: they build a program and the C program beside it, run the two in turns
on one processor, and tell whether the bounds are kept.

A bench ends with status 0 where all bounds are kept. It ends with 1 where one is passed, where
two that are compared don't come to the same, and where one of them can't be built; a line says
which. Called with --halved, as bench/flat --halved, it asks half of each bound: it has to end with
1, and so shows that it can.
"""
import os
import pathlib
import subprocess
import sys
import tempfile
import time
from typing import NamedTuple

TOP = pathlib.Path(__file__).resolve().parent.parent
CRATES = TOP / 'crates'
WORK = tempfile.TemporaryDirectory()
SHARE = 0.5 if '--halved' in sys.argv[1:] else 1
PASSED = []


def stands_on():
    """What each crate of the repository stands on, by its name."""
    lines = (TOP / 'crates.txt').read_text().splitlines()
    told = [line.partition(':') for line in lines if line and not line.startswith('#')]
    return {name: below.split() for name, _, below in told}


def crates_of(name):
    """The crate, and all of the repository that it stands on."""
    below, found, left = stands_on(), set(), [name]
    while left:
        crate = left.pop()
        if crate in below and crate not in found:
            found.add(crate)
            left += below[crate]
    return found


def is_fresh(program, name):
    """Whether there is a program, and no source of its crates is newer."""
    if not os.access(program, os.X_OK):
        return False
    built = program.stat().st_mtime_ns
    folders = [CRATES / crate / 'src' for crate in crates_of(name)]
    sources = [path for folder in folders for path in (folder, *folder.rglob('*'))]
    return all(path.stat().st_mtime_ns <= built for path in sources)


def succeeds(words, **options):
    """Whether a command is there and ends with 0. What it writes to its output is lost."""
    try:
        return subprocess.run(words, stdout=subprocess.DEVNULL, **options).returncode == 0
    except OSError:
        return False


def program(name):
    """The path of a program. Where it isn't fresh it is proved, built, and run on its own words."""
    folder = CRATES / name
    path = folder / 'out' / name
    if not is_fresh(path, name):
        words = (folder / 'args').read_text().splitlines()
        with open(folder / 'stdin', 'rb') as given:
            if not succeeds(['rt', 'run', '--', *words], cwd=folder, stdin=given):
                sys.exit('%s is wanting: it could not be built' % name)
    return path


def server():
    """The path of app_server, which its own script builds where a source is newer."""
    if not succeeds([TOP / 'bin/app_server', 'serial', '0'], input=b'screen 1 1\n'):
        sys.exit('app_server is wanting: it could not be built')
    return CRATES / 'app_server/out/app_server'


def peer(name, source, *options):
    """The path of a C program of this source, compiled with -O2."""
    path = pathlib.Path(WORK.name, name)
    path.with_suffix('.c').write_text(source)
    if not succeeds(['cc', '-O2', '-o', path, path.with_suffix('.c'), *options]):
        sys.exit('the C program %s is wanting: it could not be compiled' % name)
    return path


class Ran(NamedTuple):
    """What a run wrote, its status, its seconds of processors and of wall, and its peak of MB."""
    out: bytes
    status: int
    used: float
    wall: float
    peak: float


def memory(held=b''):
    """A file in memory that holds these bytes."""
    file = os.fdopen(os.memfd_create('bench'), 'w+b', 0)
    file.write(held)
    file.seek(0)
    return file


def timed_on(words, source, target):
    """Runs a program from a file into another, to its end. What it wrote isn't read.

    Its time and its memory are its own alone. The peak may be told too high: it's never less than
    what the process that starts the program has had.
    """
    start = time.perf_counter()
    child = subprocess.Popen([str(word) for word in words], stdin=source, stdout=target)
    _, status, used = os.wait4(child.pid, 0)
    wall = time.perf_counter() - start
    child.returncode = os.waitstatus_to_exitcode(status)
    seconds = used.ru_utime + used.ru_stime
    return Ran(b'', child.returncode, seconds, wall, used.ru_maxrss / 1024)


def tried_on(words, source):
    """Runs a program on a file, to its end. It writes into memory, and so waits for nobody."""
    with memory() as target:
        ran = timed_on(words, source, target)
        target.seek(0)
        return ran._replace(out=target.read())


def tried(words, given=b''):
    """Runs a program on these bytes, to its end."""
    with memory(given) as source:
        return tried_on(words, source)


def run(words, given=b''):
    """The same, of a program that has to end with 0."""
    ran = tried(words, given)
    if ran.status != 0:
        name = pathlib.Path(words[0]).name
        sys.exit('%s ended with %d' % (' '.join([name, *map(str, words[1:])]), ran.status))
    return ran


def beyond(longer, shorter):
    """What is longer, less what is shorter."""
    if longer <= shorter:
        sys.exit('more work took no longer than less: too much else runs')
    return longer - shorter


class Rounds:
    """Work in rounds, and the least times of its runs of many rounds and of few."""

    def __init__(self, taken, many, few):
        """`taken` does so many rounds, and gives the time that they took."""
        self.taken, self.counts = taken, (many, few)
        self.least = [float('inf')] * 2

    def take_turn(self):
        for place, count in enumerate(self.counts):
            self.least[place] = min(self.least[place], self.taken(count))

    def each(self):
        """What one more round takes."""
        many, few = self.counts
        return beyond(*self.least) / (many - few)


def in_turns(turns, *works):
    """What a round of each work takes, of so many turns of all."""
    for _ in range(turns):
        for work in works:
            work.take_turn()
    return [work.each() for work in works]


def counting():
    """The processor time of some adding up."""
    start = time.process_time()
    sum(range(1_000_000))
    return time.process_time() - start


def stay_on_the_fastest():
    """Runs all that follows on one processor. Where others share them, some are slower at times."""
    times = {}
    for processor in os.sched_getaffinity(0):
        os.sched_setaffinity(0, {processor})
        times[processor] = min(counting() for _ in range(5))
    os.sched_setaffinity(0, {min(times, key=times.get)})


def processors():
    """On how many processors this process may run."""
    return len(os.sched_getaffinity(0))


def screen_of(report):
    """The screen at the end of a report."""
    return report[report.rindex(b'\nscreen '):]


def black_pixels(report):
    """How many pixels of its screen are black."""
    runs = [word.split(b'x') for word in screen_of(report).split() if word.endswith(b'x000000')]
    return sum(int(count) for count, _ in runs)


def ask(what, taken, bound):
    """Asks whether a bound is kept. Where it's passed a line says so, and the bench ends with 1."""
    if not 0 < taken <= bound * SHARE:
        PASSED.append(what)
        print('  OUT: %s: %.4g, of %.4g' % (what, taken, bound * SHARE), flush=True)


def end(wanting=None):
    """Says whether the bounds are kept, and what was wanting to ask them all. Ends the bench."""
    print('OUT OF BOUNDS' if PASSED else 'within the bounds')
    if wanting:
        print(wanting)
    sys.exit(1 if PASSED or wanting else 0)
