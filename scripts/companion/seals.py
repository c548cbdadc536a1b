"""Bytes between two nodes that nobody can alter or make up who doesn't have their key.

A connection begins with a nonce in the clear. Its bytes go in pieces, each behind its MAC, which is taken over the key's holders' cluster, the two nodes, the
nonce, the piece's number in the connection and the piece. So a piece counts in its own place alone, and a connection at most as one that came again:
which messages may. HMAC with SHA-256 (RFC 2104), cut to 128 bits."""
import hashlib
import hmac
import struct

MAC, NONCE, MOST_PIECE = 16, 16, 1 << 16


class Altered(Exception):
    """A piece isn't what the node sent from which it seems to be."""


class Seal:
    """The MACs of one connection's pieces, in their order."""

    def __init__(self, key, digest, from_, to, nonce):
        self.hmac, self.count = hmac.new(key, digest + bytes([from_, to]) + nonce, hashlib.sha256), 0

    def mac(self, piece):
        it = self.hmac.copy()
        it.update(struct.pack(">Q", self.count) + piece)
        self.count += 1
        return it.digest()[:MAC]

    def sealed(self, data):
        """Bytes in pieces, each with its MAC."""
        pieces = (data[at:at + MOST_PIECE] for at in range(0, len(data), MOST_PIECE))
        return [self.mac(piece) + piece for piece in pieces]

    def opened(self, piece):
        if not hmac.compare_digest(piece[:MAC], self.mac(piece[MAC:])):
            raise Altered
        return piece[MAC:]
