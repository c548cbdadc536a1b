"""Clients that send lines."""
import struct

from companion.links import Link
from companion.looking import in_json

MOST_LINE = 1 << 16


class Lines(Link):
    """A client's connection. All lines that come together are handed on together."""

    def __init__(self, companion):
        super().__init__(companion.turns)
        self.companion, self.held = companion, b""

    def connection_made(self, transport):
        super().connection_made(transport)
        self.companion.on_link(self)

    def connection_lost(self, _):
        self.companion.on_link_lost(self)
        self.companion.requests.forget(self)

    def data_received(self, data):
        lines = (self.held + data).split(b"\n")
        self.held = lines.pop()
        for line in lines:
            self.on_line(line.strip())
        if len(self.held) > MOST_LINE:
            self.transport.abort()

    def on_line(self, line):
        companion = self.companion
        if line[:1].isdigit():
            companion.requests.submit(line, self, self.tell)
            return
        words = line.split()
        if not words:
            return
        if words == [b"status"]:
            self.tell(companion.status().encode())
        elif words == [b"status", b"json"]:
            self.tell(companion.told(in_json).encode())
        elif words[0] == b"read":
            self.on_read(words)
        elif words[0] in (b"part", b"join") and companion.options.parting:
            self.on_part(words)
        else:
            companion.requests.submit(line, self, self.tell)

    def tell(self, answer):
        self.write(answer + b"\n")

    def on_read(self, words):
        try:
            _, client, seen, name = words
            self.companion.requests.read(int(client), int(seen), name, self.tell)
        except (ValueError, struct.error):
            self.tell(b"bad")

    def on_part(self, words):
        """Parts this node from another one, or joins it with that one again: nothing passes between them meanwhile."""
        peer = self.companion.peers.get(int(words[1])) if len(words) == 2 and words[1].isdigit() else None
        if peer is not None:
            peer.is_parted = words[0] == b"part"
        self.tell(b"bad" if peer is None else b"done")
