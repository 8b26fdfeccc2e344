"""Runs of the program of which one call fails, how many such calls there are, and streams that follow a script."""
import concurrent.futures
import functools
import hashlib
import itertools
import mmap
import multiprocessing
import os
import pathlib
import pickle
import shutil
import struct
import subprocess
import tempfile
import typing

from support import ROOT

# The calls that tests/shim.c counts
KINDS = ("ALLOCATION", "WRITE", "READ", "STREAM_WRITE", "STREAM_READ")
ENVIRONMENT = dict(os.environ)
# A page of zeros
ZEROS = bytes(4096)
# The status of a run that the shim ends
ENDED = 99
WORKERS = os.cpu_count() or 1


@functools.cache
def compiled():
    """The bytes of the library that tests/shim.c makes."""
    compiler = shutil.which("cc")
    if not compiler:
        raise FileNotFoundError("the tests of faults need a C compiler, and there is no cc")
    with tempfile.TemporaryDirectory() as name:
        made = pathlib.Path(name) / "shim.so"
        subprocess.run([compiler, "-shared", "-fPIC", "-O2", "-o", made, ROOT / "tests/shim.c"], check=True)
        return made.read_bytes()


def build_shim(folder):
    shim = folder / "shim.so"
    shim.write_bytes(compiled())
    return shim


class Shim:
    """A run with the shim, which is given these words."""

    def __init__(self, shim, folder, words):
        handle, name = tempfile.mkstemp(dir=folder, prefix="counts-")
        os.ftruncate(handle, 8 * len(KINDS))
        # The counts, which are shared with the run
        self.counts = mmap.mmap(handle, 8 * len(KINDS))
        os.close(handle)
        # The options of the run
        self.options = {"env": ENVIRONMENT | words | {"FAULT_COUNTS": name, "LD_PRELOAD": str(shim)}}

    def count_of(self, kind):
        """How many calls of a kind there were."""
        return struct.unpack(f"{len(KINDS)}Q", self.counts)[KINDS.index(kind)]


class Number:
    """A run that shares a number with the test, by this variable of tests/shim.c."""

    def __init__(self, shim, folder, word):
        handle, name = tempfile.mkstemp(dir=folder, prefix="number-")
        os.ftruncate(handle, 8)
        self.bytes = mmap.mmap(handle, 8)
        os.close(handle)
        self.options = {"env": ENVIRONMENT | {word: name, "LD_PRELOAD": str(shim)}}

    @property
    def value(self):
        return struct.unpack("q", self.bytes)[0]

    @value.setter
    def value(self, number):
        self.bytes[:] = struct.pack("q", number)


class Clock(Number):
    """A run whose steady clock can be set ahead. If it sleeps, the clock is set ahead in place of that."""

    def __init__(self, shim, folder):
        super().__init__(shim, folder, "CLOCK")

    def set_ahead(self, seconds):
        self.value = seconds * 10**9


class Script(typing.NamedTuple):
    """How bytes pass a stream: at most `step` by a call. Each event is after how many bytes it comes, at how many
    calls, and the error number with which these fail; or 0, and they pass no byte."""

    step: int
    events: tuple = ()

    def __str__(self):
        return " ".join([str(self.step), *(":".join(map(str, event)) for event in self.events)])


def scripted(shim, folder, socket=0, **scripts):
    """A run of which the N-th socket that is read or written follows scripts, of its `reads` and its `writes`; if N
    is 0, standard input and output do."""
    words = {f"STREAM_{way.upper()}": str(script) for way, script in scripts.items()}
    return Shim(shim, folder, words | {"STREAM": str(socket)})


class Fault(Shim):
    """The call of a kind that fails in a run, by its place from 1, and how, in the words of tests/shim.c. `left` is a
    folder for the states that faults of this kind leave in the same story."""

    def __init__(self, shim, folder, kind, place, how="", left=None):
        super().__init__(shim, folder, {f"FAULT_{kind}": str(place), "FAULT_HOW": how})
        self.kind, self.place, self.how, self.left = kind, place, how, left
        # The options of another run beside it, which has no fault
        self.others = {"env": ENVIRONMENT | {"LD_PRELOAD": str(shim)}}

    def count(self):
        """How many calls of the kind there were."""
        return self.count_of(self.kind)

    @property
    def has_come(self):
        return self.count() >= self.place

    def left_before(self, contents, printed=None):
        """Whether another fault left files with these contents, and a run that printed this, so that what follows from
        it is asserted there. Another process may have told the story with that one."""
        state = [content and (len(content), without_zeros(content)) for content in contents], printed
        try:
            (self.left / hashlib.blake2b(pickle.dumps(state)).hexdigest()).touch(exist_ok=False)
        except FileExistsError:
            return True
        return False

    @property
    def ends_run(self):
        """Whether the run ends there."""
        return self.how in ("torn", "cut")

    def __str__(self):
        return f"{self.kind.lower()} {self.place} {self.how}".rstrip()


def without_zeros(content):
    """These bytes but for the zeros at their end, which are many. `rstrip` looks for each, which takes milliseconds."""
    end = len(content)
    while content.endswith(ZEROS, 0, end):
        end -= len(ZEROS)
    return content[:end].rstrip(b"\0")


def tell(story, folder, fault):
    """Tells a story with this fault, in an empty folder: whether the fault came, and what was wrong then."""
    try:
        story(folder, fault)
    except Exception as error:
        return True, f"{fault}: {type(error).__name__}: {error}"
    return fault.has_come, None


def places(opening, step):
    """The places of the calls that fail. Of the first calls, which open files, these are one in so many; if `opening`
    is None, all calls do that."""
    if opening is None:
        return itertools.count(step, step)
    return itertools.chain(range(step, opening, step), itertools.count(opening + 1))


def tell_share(story, shim, kind, how, left, opening, step, worker):
    """Tells a story for a worker's share of the places, until one that no fault disturbs: how many failed, and what
    was wrong."""
    failed, wrong = 0, []
    with tempfile.TemporaryDirectory(dir=shim.parent) as name:
        folder = pathlib.Path(name)
        for place in itertools.islice(places(opening, step), worker, None, WORKERS):
            has_come, what = tell(story, folder, Fault(shim, folder, kind, place, how, left))
            for file in os.scandir(folder):
                os.unlink(file)
            failed += has_come
            wrong += [what] if what else []
            if not has_come or len(wrong) > 100:
                return failed, wrong


def workers():
    """The processes among which the places of a story are shared."""
    return concurrent.futures.ProcessPoolExecutor(WORKERS, multiprocessing.get_context("fork"))


def tell_all(pool, story, shim, kind, how, left, opening=0, step=1):
    """Tells a story with each call of a kind failing in turn, until there are no more: how many failed, and what was
    wrong. For `opening` and `step` see `places`."""
    shares = [pool.submit(tell_share, story, shim, kind, how, left, opening, step, worker) for worker in range(WORKERS)]
    told = [share.result() for share in shares]
    return sum(failed for failed, _ in told), [what for _, wrong in told for what in wrong]
