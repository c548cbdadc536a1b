"""Frames, as docs/PROCESSES.md has them, and the codes of what rexnode is and does."""
import struct

MOST_FRAME = 1 << 28
ROLES = ("follower", "candidate", "adopting", "active")
FOLLOWER, CANDIDATE, ADOPTING, ACTIVE = range(4)
PREPARE, ACCEPT, CHOSEN = 1, 3, 5  # kinds of messages
STATUS = struct.Struct(">BQII")
LENGTH = struct.Struct(">I")


class TooLong(Exception):
    """A frame is longer than any may be. Its arguments are the bytes from there on, and the frames before it."""


def framed(bytes_):
    return LENGTH.pack(len(bytes_)) + bytes_


class Frames:
    """Cuts what comes into frames, each of at most so many bytes, and the first of so many."""

    def __init__(self, first=MOST_FRAME, most=MOST_FRAME):
        # what has come of a frame, and how many bytes have to be there until more can be told of it
        self.most, self.others, self.held, self.due = first, most, bytearray(), 0

    def take(self, data):
        """The frames that are whole now, in their order."""
        if self.held:
            self.held += data
            if len(self.held) < self.due:
                return []
            data = bytes(self.held)
            self.held.clear()
        frames, at, end, due = [], 0, len(data), 4
        while end - at >= due:
            due = 4 + LENGTH.unpack_from(data, at)[0]
            if due - 4 > self.most:
                raise TooLong(data[at:], frames)
            if end - at >= due:
                frames.append(data[at + 4:at + due])
                self.most, at, due = self.others, at + due, 4
        self.held += data[at:]
        self.due = due
        return frames
