"""Connections without TLS."""
import asyncio
import socket
from select import EPOLLIN, EPOLLOUT

MOST_READ = 1 << 16
FULL = 1 << 16  # unsent bytes from which on who writes is told to pause; he is told to resume where it is a quarter of that


def peername_of(sock):
    try:
        return sock.getpeername()
    except OSError:
        # it is lost by now
        return None


class Plain:
    """A connection, as a transport of asyncio: of what that has, what protocols here use. The selector itself tells it what there is to do."""

    def __init__(self, selector, sock, protocol, full=FULL):
        self.selector, self.sock, self.protocol, self.full, self.loop = selector, sock, protocol, full, asyncio.get_running_loop()
        self.fd, self.events, self.unsent = sock.fileno(), 0, bytearray()
        self.is_reading, self.is_full, self.ends, self.closes, self.is_broken, self.is_lost = True, False, False, False, False, False
        self.names = {"sockname": sock.getsockname(), "peername": peername_of(sock)}
        protocol.connection_made(self)
        self.watch()

    def watch(self):
        """Has the selector tell what is waited for now, and where that is nothing not even that the connection is lost."""
        events = 0 if self.is_lost else EPOLLIN * (self.is_reading and not self.closes) | EPOLLOUT * bool(self.unsent)
        if events == self.events:
            return
        if not self.events:
            self.selector.watch(self.fd, events, self.on_events)
        elif events:
            self.selector.watch_for(self.fd, events)
        else:
            self.selector.forget(self.fd)
        self.events = events

    def on_events(self, events):
        try:
            # an error is told beside what is waited for, and found by that
            if events & ~EPOLLOUT and self.events & EPOLLIN:
                self.read()
            if events & ~EPOLLIN and self.events & EPOLLOUT:
                self.write_rest()
        except Exception as error:
            self.loop.call_exception_handler({"message": "a connection's protocol fails", "exception": error, "protocol": self.protocol})
            self.lose(error)

    def read(self):
        """Hands on what has come. Answers whether there may be more."""
        try:
            data = self.sock.recv(MOST_READ)
        except (BlockingIOError, InterruptedError):
            return False
        except OSError as error:
            self.lose(error)
            return False
        if data:
            self.protocol.data_received(data)
        else:
            self.close()
        return not self.closes

    def write(self, data):
        if self.closes or self.is_broken:
            return
        sent = 0 if self.unsent else self.send(data)
        if sent < len(data) and not self.is_broken:
            self.unsent += data[sent:]
            self.watch()
            if not self.is_full and len(self.unsent) > self.full:
                self.is_full = True
                self.protocol.pause_writing()

    def send(self, data):
        """Sends what can be sent at once, and answers how much that was."""
        try:
            return self.sock.send(data)
        except (BlockingIOError, InterruptedError):
            return 0
        except OSError as error:
            self.break_off(error)
            return 0

    def break_off(self, error):
        """Writes no more. What the other end wrote before it broke off is still read, and then the connection ends."""
        self.is_broken = True
        self.unsent.clear()
        if self.closes:
            self.lose(error)

    def write_rest(self):
        sent = self.send(self.unsent)
        del self.unsent[:sent]
        self.watch()
        if self.is_full and len(self.unsent) <= self.full // 4:
            self.is_full = False
            self.protocol.resume_writing()
        self.end_writing()

    def end_writing(self):
        """Ends what has to end once all is sent."""
        if self.closes and not self.unsent:
            self.lose(None)
        elif self.ends and not self.unsent:
            try:
                self.sock.shutdown(socket.SHUT_WR)
            except OSError as error:
                self.break_off(error)

    def get_write_buffer_size(self):
        return len(self.unsent)

    def get_extra_info(self, name):
        if name == "socket":
            return None if self.is_lost else self.sock
        return self.names[name]

    def pause_reading(self):
        self.is_reading = False
        self.watch()

    def resume_reading(self):
        self.is_reading = True
        self.watch()

    def is_closing(self):
        return self.closes

    def write_eof(self):
        self.ends = True
        self.end_writing()

    def close(self):
        """Reads no more, and ends once all is sent."""
        self.closes = True
        self.watch()
        self.end_writing()

    def abort(self):
        self.lose(None)

    def lose(self, error):
        if not self.is_lost:
            self.closes = self.is_lost = True
            self.unsent.clear()
            self.watch()
            self.loop.call_soon(self.end, error)

    def end(self, error):
        self.sock.close()
        self.protocol.connection_lost(error)


class Taking(asyncio.Protocol):
    """Takes a connection from asyncio as soon as that has made it, before it reads."""

    def __init__(self, selector, protocol):
        self.selector, self.protocol = selector, protocol

    def connection_made(self, transport):
        try:
            sock = transport.get_extra_info("socket").dup()
        except OSError:
            # there can't be more files now
            sock = None
        transport.abort()
        if sock is not None:
            Plain(self.selector, sock, self.protocol)
