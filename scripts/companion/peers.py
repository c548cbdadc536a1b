"""The ways to and from the other nodes' rexd."""
import asyncio
import math
import os
import random
import struct
import time

from companion.frames import FOLLOWER, Frames, TooLong, framed
from companion.links import Link
from companion.plain import Taking
from companion.seals import MAC, MOST_PIECE, NONCE, Altered, Seal
from waiting import within

CONNECTS, FIRST_PAUSE, MOST_PAUSE = 2.0, 0.05, 0.3  # seconds: for a connection, and until the next try
MOST_WAITING = 1 << 23  # bytes that wait for a peer which doesn't read them; messages beyond that are lost
MOST_HELLO = 1000
STUCK = 3.0  # seconds
REORDERED = 0.05  # a message that tests have repeated comes again within so many seconds
BEAT = struct.Struct(">BQI")


def hello(from_, to, digest):
    """What a connection begins with: who comes, to whom, and the digest of what all nodes have to have in common."""
    return framed(b"N" + bytes([from_, to]) + digest)


class Way(Link):
    """A connection to another node's rexd, by which nothing comes back. A single message may be a long one."""

    MOST_OUT = math.inf

    def __init__(self, turns):
        super().__init__(turns)
        self.seal, self.is_lost = None, asyncio.get_running_loop().create_future()

    def begin(self, hello, seal, nonce):
        """Says hello; where there is a key the nonce goes before, and all is sealed from there on."""
        if seal is not None:
            self.transport.write(framed(nonce))
            self.seal = seal
        self.write(hello)
        self.flush()

    def sealed(self, data):
        return b"".join(map(framed, self.seal.sealed(data))) if self.seal is not None else data

    def pause_writing(self):
        pass

    def resume_writing(self):
        pass

    def connection_lost(self, _):
        if not self.is_lost.done():
            self.is_lost.set_result(None)


class Peer:
    """Another node: the way to its rexd, and what was heard of it. What is sent while there is no way is lost."""

    def __init__(self, number, where, companion):
        self.number, self.where, self.companion, self.options = number, where, companion, companion.options
        self.way, self.hearing, self.is_parted = None, None, False
        self.heard, self.role, self.promised, self.known = None, FOLLOWER, 0, 0

    def is_heard(self, seconds):
        return self.heard is not None and time.monotonic() - self.heard < seconds

    def send(self, letter, content=b""):
        if self.way is not None and self.way.is_open() and not self.is_parted and self.way.transport.get_write_buffer_size() <= MOST_WAITING:
            self.way.write(framed(letter + content))

    def send_message(self, message, is_lost=False):
        """Sends a message. Tests have some of them lost, late, or sent once more."""
        o = self.options
        if is_lost or random.random() < o.lose:
            return
        if random.random() < o.repeat:
            self.send_later(random.random() * REORDERED, message)
        if o.delay:
            self.send_later(random.random() * o.delay / 1000, message)
        else:
            self.send(b"M", message)

    def send_later(self, seconds, message):
        asyncio.get_running_loop().call_later(seconds, self.send, b"M", message)

    def send_beat(self, role, promised, known):
        self.send(b"H", BEAT.pack(role, promised, known))

    async def run(self):
        pause = FIRST_PAUSE
        while True:
            try:
                way = await within(CONNECTS, self.connected())
            except (OSError, asyncio.TimeoutError):
                await asyncio.sleep(pause)
                pause = min(MOST_PAUSE, pause * 2)
                continue
            # where nobody listens the system may connect the port with itself
            if way.transport.get_extra_info("sockname") == way.transport.get_extra_info("peername"):
                way.transport.abort()
            else:
                own, secret, nonce, digest = self.options.id, self.options.secret, os.urandom(NONCE), self.companion.digest
                seal = Seal(secret, digest, own, self.number, nonce) if secret else None
                way.begin(hello(own, self.number, digest), seal, bytes([own]) + nonce)
                self.way, pause = way, FIRST_PAUSE
            await way.is_lost
            self.way = None
            await asyncio.sleep(pause)

    async def connected(self):
        """A connection that was made."""
        loop, tls, way = asyncio.get_running_loop(), self.options.tls.told, Way(self.companion.turns)
        await loop.create_connection(lambda: way if tls else Taking(self.companion.selector, way), *self.where, ssl=tls)
        if way.transport is None:
            raise OSError("it can't be taken")
        return way


class Hearing(Link):
    """A connection from another node's rexd. Nothing is heard by it before its hello, which says whose it is."""

    def __init__(self, companion):
        super().__init__(companion.turns)
        self.companion, self.frames, self.peer = companion, Frames(MOST_HELLO), None
        self.pieces, self.seal, self.heard = Frames(MOST_HELLO, MAC + MOST_PIECE), None, time.monotonic()

    def connection_made(self, transport):
        super().connection_made(transport)
        self.companion.on_link(self)

    def data_received(self, data):
        try:
            frames = self.frames_in(data)
            if frames and self.peer is None:
                self.peer = self.companion.peer_of(frames.pop(0), self)
            for it in frames:
                self.on_frame(it[:1], it[1:])
        except (TooLong, Altered, LookupError, ValueError, struct.error):
            self.companion.on_stranger(self.transport.get_extra_info("peername"), self.peer)
            self.transport.abort()

    def frames_in(self, data):
        """The frames that are whole now. Where there is a key they come in pieces, behind a nonce."""
        options, frames = self.companion.options, []
        if not options.secret:
            return self.frames.take(data)
        for piece in self.pieces.take(data):
            if self.seal is None:
                self.seal = Seal(options.secret, self.companion.digest, piece[0] if piece else 0, options.id, piece[1:])
            else:
                frames += self.frames.take(self.seal.opened(piece))
                self.heard = time.monotonic()
        return frames

    def is_stuck(self):
        """Whether no piece was whole for long. One whose length was altered would be waited for."""
        return self.companion.options.secret and not self.holds and time.monotonic() - self.heard > STUCK

    def on_frame(self, letter, content):
        if self.peer.is_parted:
            return
        if letter == b"M":
            self.companion.messages.hear(content)
        elif letter == b"H":
            self.companion.on_beat(self.peer, *BEAT.unpack(content))
        elif letter == b"V":
            self.companion.elections.on_question(self.peer, content)
        elif letter == b"W":
            self.companion.elections.on_support(self.peer, content)
        elif letter == b"F":
            self.companion.calls.on_forwarded(self.peer, content)
        elif letter == b"G":
            self.companion.calls.on_told(content)

    def connection_lost(self, _):
        self.companion.on_link_lost(self)
        if self.peer is not None and self.peer.hearing is self:
            self.peer.hearing = None
            self.companion.elections.lost(self.peer.number)
