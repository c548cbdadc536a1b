"""Clients of RESP, the protocol of Redis (its version 2), so that redis-cli and its libraries can ask."""
import collections

from companion.links import Link
from companion.looking import in_text

MOST_COMMAND, MOST_WORDS, MOST_WAITING = 1 << 16, 64, 10000
COMMANDS = "CALL handler arg.., GET variable, PING, ECHO, INFO, QUIT"


def command_in(data):
    """The words of the command with which these bytes begin, and how many bytes it has; no words where more has to come. ValueError where they are none."""
    line, end, _ = data.partition(b"\r\n")
    if data[:1] != b"*":
        # a line, as people type it
        line, end, _ = data.partition(b"\n")
        return (line.split(), len(line) + 1) if end else (None, 0)
    if not end:
        return None, 0
    count, at, words = int(line[1:]), len(line) + 2, []
    if not 0 <= count <= MOST_WORDS:
        raise ValueError
    for _ in range(count):
        line, end, _ = data[at:].partition(b"\r\n")
        if not end:
            return None, 0
        if line[:1] != b"$" or not 0 <= int(line[1:]) <= MOST_COMMAND:
            raise ValueError
        begin = at + len(line) + 2
        at = begin + int(line[1:]) + 2
        if len(data) < at:
            return None, 0
        words.append(data[begin:at - 2])
    return words, at


class Resp(Link):
    """A connection. Its commands are done one after another; a read sees the calls before it."""

    def __init__(self, companion):
        super().__init__(companion.turns)
        self.companion, self.held, self.commands, self.is_busy, self.is_wrong, self.seen = companion, b"", collections.deque(), False, False, 0

    def connection_made(self, transport):
        super().connection_made(transport)
        self.companion.on_link(self)

    def connection_lost(self, _):
        self.companion.on_link_lost(self)
        self.commands.clear()

    def data_received(self, data):
        self.held += data
        try:
            while self.held and not self.is_wrong:
                words, length = command_in(self.held)
                if words is None:
                    break
                self.held = self.held[length:]
                if words:
                    self.commands.append(words)
        except ValueError:
            self.is_wrong = True
        if len(self.held) > 2 * MOST_COMMAND or len(self.commands) > MOST_WAITING:
            self.transport.abort()
        self.go_through()

    def go_through(self):
        while self.commands and not self.is_busy and self.is_open():
            words = self.commands.popleft()
            self.do(words[0].upper(), words)
        if self.is_wrong and not self.is_busy and self.is_open():
            self.write(b"-ERR Protocol error\r\n")
            self.close()

    def done(self, value, rest):
        if value is None:
            self.write(b"-ERR %s\r\n" % rest.encode())
        else:
            self.seen = max(self.seen, rest)
            self.write(b":%d\r\n" % value)
        self.is_busy = False
        if self.commands or self.is_wrong:
            # not from here: an answer may come within the call of whoever asked
            self.companion.soon(self.go_through)

    def do(self, what, words):
        if what == b"CALL" and len(words) > 1:
            self.is_busy = True
            self.companion.calls.call(b" ".join(words[1:]), self.done)
        elif what == b"GET" and len(words) == 2:
            self.is_busy = True
            self.companion.calls.get(words[1], self.seen, self.done)
        elif what == b"PING" and len(words) == 1:
            self.write(b"+PONG\r\n")
        elif what in (b"PING", b"ECHO") and len(words) == 2:
            self.write_bulk(words[1])
        elif what == b"INFO":
            self.write_bulk(self.companion.told(in_text).replace("\n", "\r\n").encode())
        elif what == b"COMMAND":
            # redis-cli asks for what there is
            self.write(b"*0\r\n")
        elif what == b"QUIT":
            self.write(b"+OK\r\n")
            self.close()
        else:
            self.write(b"-ERR unknown command, or a wrong number of words: %s\r\n" % COMMANDS.encode())

    def write_bulk(self, bytes_):
        self.write(b"$%d\r\n%s\r\n" % (len(bytes_), bytes_))
