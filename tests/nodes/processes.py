"""A process of the program rexnode that is called over its pipes."""
import mmap
import os
import random
import select
import signal
import struct
import subprocess

from . import journals
from .spelling import frames_in, shown
from .twins import Twin

PIPE = 30000  # fewer bytes than a pipe takes while nobody reads
LATE = 20  # seconds
KILLED_BEFORE, KILLED_AFTER, FAILS = 1, 2, 3  # what may befall a call of the journal's file


class Difference(Exception):
    """A process did what its twin doesn't."""


class Process:
    """A process, the twins of which it may be one, and what it was asked and hasn't answered yet."""

    def __init__(self, test, number):
        self.test, self.number, self.path = test, number, "%s/journal%d" % (test.folder, number)
        self.twins, self.running = [Twin(test.room, number)], None
        self.asked, self.size, self.due, self.expected = [], 0, 0, []
        # where what is written is split: drawn apart from the steps, of which a part may be done again
        self.splits = random.Random("%s splits %d" % (test.draws, number))
        with open(self.path + ".fate", "wb") as file:
            file.write(bytes(8))
        self.file = open(self.path + ".fate", "r+b")
        self.fate = mmap.mmap(self.file.fileno(), 8)

    @property
    def twin(self):
        return self.twins[0]

    def words(self):
        return self.test.words_of(self.number, self.path)

    def start(self):
        plant = self.test.plant
        plant.before_start(self.path)
        variables = journals.variables_of(self.test.library, self.path, plant.left_out)
        pipes = {"stdin": subprocess.PIPE, "stdout": subprocess.PIPE, "stderr": subprocess.DEVNULL, "bufsize": 0}
        self.running = subprocess.Popen(self.words(), env=variables, **pipes)
        self.into, self.out = self.running.stdin.fileno(), self.running.stdout.fileno()

    def befall(self, calls, what):
        """Has this befall the last of so many writes and syncs of the journal from now on."""
        self.fate[:] = struct.pack("=II", calls, what)

    def fate_is_over(self):
        return struct.unpack_from("=I", self.fate, 0)[0] == 0

    # -- asking

    def put(self, what, frame, expected):
        """Asks, without waiting for the answer."""
        self.asked.append(frame)
        self.expected.append((self.test.steps, what, expected))
        self.size += len(frame)
        self.due += len(expected)
        if self.size > PIPE or self.due > PIPE or self.test.plant.is_one_by_one:
            self.flush()

    def flush(self):
        """Waits for the answers, and compares them."""
        if not self.asked:
            return
        all_, expected = self.expected, b"".join(one[2] for one in self.expected)
        got = self.answers_to(b"".join(self.asked), len(self.asked), len(expected))
        self.asked, self.size, self.due, self.expected = [], 0, 0, []
        at = 0
        for step, what, one in all_:
            if got[at:at + len(one)] != one:
                raise Difference("step %d, node %d, %s: it answers [%s]%s and has to answer [%s]" % (
                    step, self.number, what, shown(first_answer(got[at:])), self.end_in_words(), shown(one)))
            at += len(one)
        if at < len(got):
            raise Difference("step %d, node %d: more than all answers: [%s]" % (self.test.steps, self.number, shown(got[at:])))

    def answers_to(self, bytes_, count, length=None):
        """The same by way of the bug that is planted, if there is one."""
        return self.test.plant.answers_to(self, bytes_, count, length)

    def exchange(self, bytes_, count, length=None):
        """Writes frames, and reads until as many are answered, or so many bytes are there, or the process ends."""
        try:
            if self.splits.random() < 0.2:
                # a read may end anywhere. Where the process may end by this, all of it has to be one piece: no frame is whole until all are there
                at = self.splits.randrange(len(bytes_) if length is not None else 4 + int.from_bytes(bytes_[:4], "big"))
                os.write(self.into, bytes_[:at])
                bytes_ = bytes_[at:]
            if len(bytes_) < PIPE:
                os.write(self.into, bytes_)
            else:
                self.running.stdin.write(bytes_)
        except BrokenPipeError:
            pass
        got = b""
        while True:
            if not select.select([self.out], [], [], LATE)[0]:
                raise Difference("step %d, node %d doesn't answer" % (self.test.steps, self.number))
            piece = os.read(self.out, 1 << 20)
            got += piece
            if not piece:
                self.running.wait()
                return got
            if length == len(got) or sum(frame[:1] == b"z" for frame in frames_in(got)[0]) >= count:
                return got

    # -- the end

    def end_in_words(self):
        status = self.running.poll()
        return "" if status is None else " and ends with %d" % status

    def end(self):
        """Reads what is left, and waits for the end."""
        got = b""
        while True:
            piece = os.read(self.out, 1 << 20)
            if not piece:
                break
            got += piece
        status = self.running.wait()
        self.running.stdin.close()
        self.running.stdout.close()
        self.running = None
        self.befall(0, 0)
        return got, status

    def kill(self):
        self.running.send_signal(signal.SIGKILL)
        return self.end()

    def close(self):
        if self.running:
            self.kill()
        self.fate.close()
        self.file.close()


def first_answer(bytes_):
    """The front of answers up to the first status."""
    at = 0
    for frame in frames_in(bytes_)[0]:
        at += 4 + len(frame)
        if frame[:1] == b"z":
            break
    return bytes_[:at]
