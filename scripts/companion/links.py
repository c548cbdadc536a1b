"""Connections whose writes go out together."""
import asyncio


class Turns:
    """What is done once after all that came in together, where something made it due."""

    def __init__(self, do, selector):
        self.do, self.is_due, self.links = do, False, []
        selector.end_turn = self.end

    def due(self):
        self.is_due = True

    def end(self):
        """Does it where it is due, and answers whether it was."""
        if not self.is_due:
            return False
        self.is_due = False
        try:
            self.do()
            links, self.links = self.links, []
            for link in links:
                link.flush()
        except Exception as error:
            asyncio.get_running_loop().call_exception_handler({"message": "a turn fails", "exception": error})
        return True


class Link(asyncio.Protocol):
    """A connection. One who doesn't read what it is told isn't heard meanwhile, and where nobody reads for long the connection is closed."""

    MOST_OUT = 1 << 20

    def __init__(self, turns):
        self.turns, self.unsent, self.transport, self.holds = turns, [], None, set()

    def connection_made(self, transport):
        self.transport = transport

    def is_open(self):
        it = self.transport
        # Python 3.10 and earlier ones never say of one by TLS that it is closing where it was lost, but have its socket no more
        return it is not None and not it.is_closing() and it.get_extra_info("socket") is not None

    def write(self, bytes_):
        if not self.unsent:
            self.turns.links.append(self)
            self.turns.due()
        self.unsent.append(bytes_)

    def flush(self):
        data, self.unsent = b"".join(self.unsent), []
        if self.is_open():
            self.transport.write(self.sealed(data))
            if self.holds and self.transport.get_write_buffer_size() > self.MOST_OUT:
                self.transport.abort()

    def sealed(self, data):
        return data

    def is_stuck(self):
        return False

    def hold(self, why):
        """Isn't read until nothing holds it any more."""
        if not self.holds and self.is_open():
            self.transport.pause_reading()
        self.holds.add(why)

    def go_on(self, why):
        self.holds.discard(why)
        if not self.holds and self.is_open():
            self.transport.resume_reading()

    def pause_writing(self):
        self.hold("unread")

    def resume_writing(self):
        self.go_on("unread")

    def close(self):
        if self.unsent:
            self.flush()
        if self.transport is not None:
            self.transport.close()
