"""Journals, and what stops of the machine leave of them. tests/lose-writes.c, preloaded beside a program, notes what isn't synced."""
import mmap
import os
import re
import struct
import subprocess

from .spelling import frames_in, joined

TESTS = os.path.dirname(os.path.dirname(os.path.abspath(__file__)))
SECTOR = 512
HEAD, END = b"rexnode\n", b"\xff\1"
LATER = re.compile(END + b"[^\\0]")  # where no whole record stands before it a later one does
PROMISED, ACCEPTED, KNOWN, IDENTITY, GROUP = 1, 2, 3, 7, 8

# the numbers of a machine, as tests/lose-writes.c has them
FULL, UNSYNCED, SLOWER, AHEAD, WERE_FULL, WERE_UNSYNCED, WERE_SLOWER, NUMBERS = range(8)


class BadJournal(Exception):
    """What no journal of a node is, whatever a stop left of it."""


def library_in(folder):
    """Builds the library, and answers its path."""
    path = os.path.join(folder, "lose-writes.so")
    subprocess.run(["cc", "-O2", "-Wall", "-shared", "-fPIC", "-o", path, os.path.join(TESTS, "lose-writes.c"), "-ldl"], check=True)
    return path


def variables_of(library, path, left_out=None):
    """The environment of a program beside which the library is, for the file at this path."""
    variables = {**os.environ, "LD_PRELOAD": library, "LOSE_WRITES": path}
    return {**variables, "LEFT_OUT": left_out} if left_out else variables


class Machine:
    """The disk and the clock of the machine of the node that has the journal at this path."""

    def __init__(self, path, slower):
        """A sync takes so many microseconds longer while nothing is wrong."""
        with open(path + ".machine", "w+b") as file:
            file.write(bytes(8 * NUMBERS))
            file.flush()
            self.numbers = memoryview(mmap.mmap(file.fileno(), 8 * NUMBERS)).cast("q")
        self.slower = slower
        self.mend()

    def mend(self):
        self.numbers[FULL:WERE_FULL] = memoryview(struct.pack("=4q", 0, 0, self.slower, 0)).cast("q")


# ---- records

def spelled(record):
    """A record as it stands in a journal: no byte of it is 0."""
    marks = (bytes([byte + 1]) if byte < 254 else bytes([255, byte - 252]) for byte in record)
    return b"".join(marks) + END


def group(records):
    """The record that holds these, each behind its length, as frames are: a stop leaves all of them or none."""
    return bytes([GROUP]) + joined(records)


def held_in(records):
    """Whose a journal is, and what a node wrote down, by the journal's records: those that each group holds, and each other one itself."""
    return records[:1] + [it for record in records[1:] for it in members(record)]


def members(record):
    held, end = frames_in(record[1:])
    return held if record[:1] == bytes([GROUP]) and end == len(record) - 1 else [record]


def records_and_end(bytes_):
    """The records of a journal, groups as they stand, and where the next one goes."""
    if not bytes_.startswith(HEAD):
        if any(byte not in (0, *HEAD[at:at + 1]) for at, byte in enumerate(bytes_)):
            raise BadJournal("a journal begins with %s" % bytes_[:len(HEAD)].hex())
        return [], len(HEAD)
    records, record, end, at = [], bytearray(), len(HEAD), len(HEAD)
    while at < len(bytes_) and bytes_[at]:
        if bytes_[at] < 255:
            record.append(bytes_[at] - 1)
            at += 1
            continue
        second = bytes_[at + 1] if at + 1 < len(bytes_) else 0
        at += 2
        if second == 1:
            records.append(bytes(record))
            record, end = bytearray(), at
        elif second in (2, 3):
            record.append(second + 252)
        else:
            break
    if LATER.search(bytes_, end):
        raise BadJournal("a journal has a gap at %d" % end)
    return records, end


def read(path):
    """The bytes of a journal; none where there is no file."""
    if not os.path.exists(path):
        return b""
    with open(path, "rb") as file:
        return file.read()


def records_at(path):
    """Whose a journal is, and what a node wrote down there."""
    return held_in(records_and_end(read(path))[0])


def write_records(path, records):
    with open(path, "wb") as file:
        file.write(HEAD + b"".join(map(spelled, records)))


def known_in(records):
    """The values that records say are known, in their order."""
    known = []
    for record in records:
        if record[0] == KNOWN:
            (instance,) = struct.unpack_from(">I", record, 1)
            if instance != len(known) + 1:
                raise BadJournal("value %d is known behind value %d" % (instance, len(known)))
            known.append(record[9:])
    return known


# ---- stops

def entries_at(path):
    """The writes that the library noted: offset, length of the file before, and the bytes that stood there."""
    bytes_, entries, at = read(path), [], 0
    while at + 24 <= len(bytes_):
        offset, count, length = struct.unpack_from("=QQQ", bytes_, at)
        entries.append((offset, length, bytes_[at + 24:at + 24 + count]))
        at += 24 + count
    return entries


def forget_stale(path):
    for suffix in ".undo", ".stale":
        if os.path.exists(path + suffix):
            os.remove(path + suffix)


def lose(path, dice, part):
    """Stops the machine: of what was written and not synced this part is left old, 0 past the old end, sector by sector or byte by byte, and maybe a front of
    what was added. Answers whether that changed the journal."""
    entries = entries_at(path + ".stale") + entries_at(path + ".undo")
    forget_stale(path)
    if not entries:
        return False
    new = read(path)
    old = bytearray(new)
    for offset, length, bytes_ in reversed(entries):
        if offset < len(old):
            old[offset:offset + len(bytes_)] = bytes_[:max(0, len(old) - offset)]
        del old[max(length, 0):]
    end = len(old)
    old += bytes(len(new) - end)
    image, piece = bytearray(new), dice.choice([1, SECTOR])
    for sector in range(0, len(new), SECTOR):
        if old[sector:sector + SECTOR] == new[sector:sector + SECTOR]:
            continue
        for at in range(sector, min(sector + SECTOR, len(new)), piece):
            if dice.random() < part:
                image[at:at + piece] = old[at:at + piece]
    if end < len(new) and dice.random() < 0.5:
        del image[dice.randrange(end, len(new) + 1):]
    with open(path, "r+b") as file:
        file.write(image)
        file.truncate(len(image))
    return image != new


def tear(path, dice):
    """Leaves a part of a record behind the last one of a journal: some of its bytes, and 0 in place of the others, or a front. Answers whether there is a
    journal to leave it in."""
    bytes_ = read(path)
    records, end = records_and_end(bytes_)
    if not records:
        return False
    left = bytearray(spelled(dice.choice(records)))
    for at in range(len(left)):
        if dice.random() < 0.3:
            left[at] = 0
    left[dice.randrange(len(left))] = 0
    with open(path, "r+b") as file:
        # what an earlier stop left there is gone: no stop leaves parts of two
        file.truncate(end)
        file.seek(end)
        file.write(left[:dice.choice([len(left), dice.randrange(len(left) + 1)])])
        file.truncate(max(file.tell(), dice.choice([end, len(bytes_)])))
    return True
