"""Planted bugs. Each is what a wrong rexnode would show: it stands between a test and the program, in the journal when the program comes up, or in the
library beside the program. So no wrong program has to be built."""
import struct

from . import journals
from .spelling import MESSAGES, framed, frames_in, joined


class Plant:
    """No bug."""
    left_out = None
    is_one_by_one = False

    def before_start(self, path):
        """What becomes of a journal before the program comes up with it."""

    def taken(self, path):
        """The acceptances that became of no effect so, though the program had written them."""
        return []

    def claimed(self, path, identity):
        """What becomes of one before the program comes up with it, which has another identity."""

    def second(self, path):
        """The journal with which a second process comes up while the first one has that at the path."""
        return path

    def answers_to(self, process, bytes_, count, length):
        return process.exchange(bytes_, count, length)


class BetweenPlant(Plant):
    """A bug between the test and the program: frames and answers are altered, one after another."""
    is_one_by_one = True

    def answers_to(self, process, bytes_, count, length):
        frame = self.asked(bytes_)
        got = process.exchange(frame, 1)
        frames = frames_in(got)[0]
        # who ended tells nothing more
        return joined(self.told(process, frame, frames)) if frames and frames[-1][:1] == b"z" else got

    def asked(self, frame):
        """What the program is asked in place of a frame."""
        return frame

    def told(self, process, frame, frames):
        """The frames that are told in place of those by which the program answers a frame."""
        return frames

    def ask(self, process, letter, content):
        """The frames by which the program answers another frame."""
        return frames_in(process.exchange(framed(letter, content), 1))[0]


class JournalPlant(Plant):
    """A bug in what is written: some records are others, or aren't there, where the program comes up again."""

    def __init__(self):
        self.out = {}

    def before_start(self, path):
        records = journals.records_at(path)
        if records:
            left = self.left(records)
            self.out.setdefault(path, []).extend(record for record in set(records) - set(left) if record[0] == journals.ACCEPTED)
            journals.write_records(path, left)
            # what wasn't synced, and may have been lost later, stood at other places
            journals.forget_stale(path)

    def taken(self, path):
        return self.out.get(path, [])

    def left(self, records):
        """The records that are there."""
        return records


# ---- what is written

class Unaccepted(JournalPlant):
    """An acceptance isn't written, but for the promise that it makes."""

    def left(self, records):
        left, promised = [], b""
        for record in records:
            if record[0] == journals.ACCEPTED:
                record = bytes([journals.PROMISED]) + record[1:9]
            if record[0] != journals.PROMISED or record[1:9] > promised:
                left.append(record)
            if record[0] == journals.PROMISED:
                promised = max(promised, record[1:9])
        return left


class Unpromised(JournalPlant):
    """A promise isn't written."""

    def left(self, records):
        return [record for record in records if record[0] != journals.PROMISED]


class Unknown(JournalPlant):
    """The last known value isn't written."""

    def left(self, records):
        known = [place for place, record in enumerate(records) if record[0] == journals.KNOWN]
        return records[:known[-1]] + records[known[-1] + 1:] if known else records


class Unsynced(Plant):
    """An answer is given before its record is synced: no sync is made."""
    left_out = "syncs"


class Early(Plant):
    """Answers are told before the records are written that they rest on."""
    left_out = "wait"


class Unfailed(Plant):
    """A write or a sync that fails is taken for done."""
    left_out = "failures"


class Unrefreshed(Plant):
    """What is read of a journal isn't written once more as it is opened. So a record may be lost later on that an earlier process failed to sync."""
    left_out = "rewrite"


# ---- whose a journal is

class Foreign(Plant):
    """The journal of another node, number of nodes, seed, cluster or service is taken."""

    def claimed(self, path, identity):
        journals.write_records(path, [identity, *journals.records_at(path)[1:]])


class Disowned(Plant):
    """No bug: where one with another identity comes up, the journal is that of a third one, which has to be refused, too. Then it is put back."""

    def __init__(self):
        self.kept = {}

    def claimed(self, path, identity):
        self.kept.setdefault(path, journals.read(path))
        # the digest of another service stands at the end
        journals.write_records(path, [identity[:-1] + bytes([identity[-1] ^ 1]), *journals.records_at(path)[1:]])

    def before_start(self, path):
        if path in self.kept:
            with open(path, "wb") as file:
                file.write(self.kept.pop(path))


class Unlocked(Plant):
    """A journal is taken that another process has."""

    def second(self, path):
        with open(path + ".second", "wb") as file:
            file.write(journals.read(path))
        return path + ".second"


# ---- what is heard

class Nack(BetweenPlant):
    """A refusal isn't heard."""

    def asked(self, frame):
        is_nack = frame[4:5] == b"M" and len(frame) > 6 and frame[6] == MESSAGES["nack"]
        return framed(b"T") if is_nack else frame


class Ballots(BetweenPlant):
    """A prepare or an accept of another node's ballot is heard."""

    def told(self, process, frame, frames):
        if frames[0] != b"f" or frame[4:5] != b"M" or len(frame) < 17 or frame[6] not in (MESSAGES["prepare"], MESSAGES["accept"]):
            return frames
        sender, owner = frame[7], frame[16] & 15
        if not 1 <= sender <= process.test.nodes or frame[8] != process.number or owner in (sender, process.number):
            return frames
        # the program hears it of the ballot's owner, and its answer goes to the sender
        heard = self.ask(process, b"M", frame[5:7] + bytes([owner]) + frame[8:])
        return [it[:1] + bytes([sender]) + it[2:5] + bytes([sender]) + it[6:] if it[:1] == b"t" else it for it in heard]


class Untested(BetweenPlant):
    """A value that doesn't fit is taken as known."""

    def told(self, process, frame, frames):
        if frames[0] != b"v":
            return frames
        role, promised, known, live = struct.unpack(">BQII", frames[1][1:])
        text = "node %d known %d" % (process.number, known + 1)
        return [b"e" + text.encode(), b"z" + struct.pack(">BQII", role, promised, known + 1, live)]


class Minority(BetweenPlant):
    """A leader counts its own acceptance twice: of three nodes it is a majority by itself."""

    def told(self, process, frame, frames):
        for it in frames:
            if it[:1] == b"t" and it[3] == MESSAGES["accept"]:
                accepted = bytes([1, MESSAGES["accepted"], it[1], process.number]) + it[6:18]
                return frames[:-1] + self.ask(process, b"M", accepted)
        return frames


# ---- what is asked for and told

class Again(BetweenPlant):
    """A request that was replied to is executed again."""

    def told(self, process, frame, frames):
        words = frame[5:].split(b" ")
        if frame[4:5] != b"S" or not frames[0].startswith((b"ereleased", b"eold")):
            return frames
        last = int(words[1]) if frames[0].startswith(b"ereleased") else int(frames[0].split(b" ")[1])
        return self.ask(process, b"S", b" ".join([words[0], b"%d" % (last + 1), *words[2:]]))


class Clock(BetweenPlant):
    """A lane reads the clock that is handed in, also where it is earlier than one that was read before."""

    def told(self, process, frame, frames):
        words = frames[0].split(b" ")
        if frame[4:5] != b"L" or len(frame) != 14 or words[3:4] != [b"clock"]:
            return frames
        return [b" ".join([*words[:4], b"%d" % struct.unpack(">q", frame[6:])]), *frames[1:]]


class Unasked(BetweenPlant):
    """Who accepts a value says so of the next instance, too."""

    def told(self, process, frame, frames):
        accepted = [it for it in frames if it[:1] == b"t" and it[3] == MESSAGES["accepted"]]
        more = [it[:14] + struct.pack(">I", struct.unpack(">I", it[14:])[0] + 1) for it in accepted]
        return [*frames[:-1], *more, frames[-1]]


# which are no bugs: to see that it is the bugs that are found
CONTROLS = {"no bug between": BetweenPlant, "no bug in the journal": JournalPlant, "no bug in whose it is": Disowned}

PLANTS = {
    "unaccepted": Unaccepted, "unpromised": Unpromised, "unknown": Unknown, "unsynced": Unsynced, "early": Early, "unfailed": Unfailed,
    "unrefreshed": Unrefreshed, "foreign": Foreign, "unlocked": Unlocked, "nack": Nack, "ballots": Ballots, "untested": Untested, "minority": Minority,
    "again": Again, "clock": Clock, "unasked": Unasked,
}
