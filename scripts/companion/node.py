"""The process rexnode."""
import asyncio
import collections
import socket
import time

from companion.frames import FOLLOWER, ROLES, STATUS, Frames, TooLong, framed
from companion.looking import Times
from companion.plain import Plain

ENDS = {
    0: "its input ended", 1: "the service's text is refused", 2: "the words are no command line", 3: "the service isn't checked", 4: "reading failed",
    5: "writing failed", 6: "want of memory", 7: "the journal is bad, or belongs to another node, cluster, seed or service",
    8: "the journal's file failed", 9: "another process has the journal", 10: "a frame is too long",
}
TO_MEND = (1, 2, 3, 7, 9)  # statuses that say what somebody has to mend
FIRST_PAUSE, MOST_PAUSE, LASTING = 0.05, 5.0, 10.0  # seconds: before the program is started again, and after which it counts as one that lasts
WRITING = (b"E", b"M", b"C")  # calls that may write to the journal
WORDS, MESSAGE, STATE = b"etz"  # letters of answers
QUEUED = b"queued"  # what is answered to a request, as a rule
BAD = {b"f": b"faulty", b"v": b"unfit"}  # those of answers that say that what was asked for wasn't done
MOST_UNREAD = 1 << 20  # bytes that the program hasn't read: no more is read of clients and peers until it has


class Program(asyncio.SubprocessProtocol):
    """A process of the program. It reads and writes by one end of a socket, and the node has the other one."""

    def __init__(self, node, sock):
        self.node, self.sock, self.transport = node, sock, None

    def connection_made(self, transport):
        self.transport = transport
        Plain(self.node.companion.selector, self.sock, self.node, MOST_UNREAD)

    def connection_lost(self, _):
        self.node.on_end(self.transport.get_returncode())


class Node:
    """The program. It is called by frames, and answers them in their order. Where it ends it is started again, later each time that it doesn't last."""

    def __init__(self, words, companion):
        """`words` are the program's command line."""
        self.words, self.companion, self.fails, self.starts, self.times = words, companion, 0, 0, Times()
        self.is_starting, self.is_ending, self.has_come_up = False, False, False
        self.clear()

    def clear(self):
        self.pipe, self.is_up, self.role, self.promised, self.known, self.live, self.state = None, False, FOLLOWER, 0, 0, 0, b""
        self.calls, self.unsent, self.frames, self.line = collections.deque(), [], Frames(), b""
        self.reports, self.sends, self.is_left = [], [], False

    def role_word(self):
        return ROLES[self.role] if self.is_up else "down"

    async def start(self):
        self.began, self.starts, self.is_starting = time.monotonic(), self.starts + 1, True
        here, there = socket.socketpair()
        here.setblocking(False)
        try:
            # a signal from the terminal is for rexd, which ends rexnode
            await asyncio.get_running_loop().subprocess_exec(lambda: Program(self, here), *self.words, stdin=there, stdout=there, stderr=None,
                                                             start_new_session=True)
        except OSError:
            here.close()
            raise
        finally:
            there.close()
            self.is_starting = False

    async def start_again(self, pause):
        await asyncio.sleep(pause)
        try:
            if not self.is_ending:
                await self.start()
        except OSError as error:
            self.companion.say("%s can't be started: %s" % (self.words[0], error))
            if self.is_ending:
                self.companion.on_last_end(0)
            else:
                self.again()

    def again(self):
        self.fails = 0 if time.monotonic() - self.began > LASTING else self.fails + 1
        self.companion.later(self.start_again(min(MOST_PAUSE, FIRST_PAUSE * 2 ** min(self.fails, 10))))

    def end(self):
        """Ends the program once it has answered what it was asked, and does not start it again."""
        self.is_ending = True
        if self.pipe is not None:
            self.flush()
            self.pipe.write_eof()
        elif not self.is_starting:
            self.companion.on_last_end(0)

    # ---- calls

    def call(self, letter, content=b"", then=None, can_wait=False, is_asked=False):
        """Calls the node. What it reports is handed to `then` once it has answered, or None where it went down before, or is about to end; what is only asked
        of it is handed to nobody else. An answer that can wait is left until the next one is read, or for a tick: it doesn't wake this process alone."""
        if self.pipe is None or self.is_ending:
            if then:
                then(None)
            return
        if can_wait and not self.calls:
            self.leave()
        else:
            self.look()
        self.calls.append((then, time.monotonic() if letter in WRITING and not self.is_left else None, is_asked))
        self.unsent.append(framed(letter + content))
        self.companion.turns.due()

    def leave(self):
        """Leaves what it answers unread."""
        self.is_left = True
        self.pipe.pause_reading()

    def look(self):
        if self.is_left:
            self.is_left = False
            self.pipe.resume_reading()

    def flush(self):
        if self.unsent and self.pipe is not None:
            self.pipe.write(b"".join(self.unsent))
        self.unsent = []

    # ---- what is told of its socket and its process

    def connection_made(self, pipe):
        self.pipe = pipe
        self.call(b"T")
        if self.is_ending:
            self.end()

    def pause_writing(self):
        self.companion.hold_links()

    def resume_writing(self):
        self.companion.links_go_on()

    def data_received(self, data):
        if self.line:
            self.line += data
            return
        if not self.frames.held and not self.reports and not self.sends:
            data = self.behind_queued(data)
        try:
            frames = self.frames.take(data)
        except TooLong as error:
            # a line, which it writes where it doesn't come up
            self.line = error.args[0]
            return
        for frame in frames:
            letter = frame[0]
            if letter == WORDS:
                self.reports.append(frame[1:])
            elif letter == STATE:
                self.on_state(frame)
            elif letter == MESSAGE:
                self.sends.append((frame[1], frame[2:]))
            elif frame in BAD:
                self.reports.append(BAD[frame])
        # there may be something to cut now
        self.companion.turns.due()

    def behind_queued(self, data):
        """Takes the answers with which these bytes begin that say no more than that a request was queued, as most do. What is behind them is left."""
        queued, at = framed(b"e" + QUEUED) + framed(self.state), 0
        while data.startswith(queued, at):
            at += len(queued)
            self.calls.popleft()[0]([QUEUED])
        return data[at:]

    def on_state(self, frame):
        """An answer is whole. Mostly the state is the last one."""
        if frame != self.state:
            self.is_up = self.has_come_up = True
            self.state, (self.role, self.promised, self.known, self.live) = frame, STATUS.unpack(frame[1:])
        reports, sends, self.reports, self.sends = self.reports, self.sends, [], []
        then, asked_at, is_asked = self.calls.popleft()
        if asked_at is not None:
            self.times.add(time.monotonic() - asked_at)
        if not is_asked:
            self.companion.on_answer(reports, sends)
        if then:
            then(reports)

    def connection_lost(self, _):
        """It closed its end: it is about to end."""

    def on_end(self, status):
        """It has ended. What it wrote before is read first."""
        while self.pipe.read():
            pass
        line, calls = self.line.decode("latin-1").strip(), self.calls
        self.pipe.abort()
        self.clear()
        means = ENDS.get(status, "a signal" if status < 0 else "another program?")
        self.companion.say("rexnode ended with status %d: %s%s" % (status, means, ": " + line if line else ""))
        self.companion.links_go_on()
        self.companion.on_down()
        for then, _, _ in calls:
            if then:
                then(None)
        # one that was killed is started again, also where it hadn't come up yet
        if self.is_ending or status in TO_MEND or (status >= 0 and not self.has_come_up):
            self.companion.on_last_end(status if status >= 0 else 128 - status)
        else:
            self.again()
