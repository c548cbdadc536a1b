"""Clients' requests and reads, until they are answered."""
import asyncio
import struct
import time

from companion.looking import Times

GATHERING = 0.005  # seconds for which a cut waits at most


class Requests:
    """Who waits for which reply. Answers are handed to what was given with the request or the read, as a line."""

    def __init__(self, companion):
        self.companion, self.node = companion, companion.node
        self.waiting = {}  # of each client and sequence who waits for the reply, and how it is told
        # whether a proposal is open, a cut is on its way to the node, and there is something that wasn't cut yet
        self.is_open, self.is_cutting, self.is_new, self.is_told_end = False, False, False, False
        # requests since the last cut, how many are expected before the next one, until when it waits for them, and the timer for that
        self.uncut, self.expected, self.gathers_until, self.timer = 0, 0, 0.0, None
        # a message by which the open proposal is known once the node hears it, and who is told when it has; the replies that were told before that
        self.closing, self.early = None, set()
        # for who looks: replies, and how long it took from cuts until they were agreed on
        self.replies, self.cut_at, self.times = 0, None, Times()

    # ---- requests

    def submit(self, line, who, tell, is_new=False):
        """Hands a request to the node. `who` waits for a reply once, however often it asks. Where a request has to be new, it is told to be `begun`
        before its reply, or `taken` where the node has had one of its sequence before."""
        try:
            client, sequence = map(int, line.split(None, 2)[:2])
        except ValueError:
            tell(b"bad")
            return
        # as the node spells them
        key = b"%d %d" % (client, sequence)
        if not self.companion.leads:
            tell(self.elsewhere(key))
            return
        self.is_new = True
        self.uncut += 1

        def then(reports):
            # what is wrong with this line is told to who sent it alone: others may wait for a good request of these numbers
            what, _, rest = (reports[0] if reports else b"down").partition(b" ")
            if is_new and what in (b"waiting", b"released"):
                tell(b"taken " + key)
            elif what in (b"queued", b"waiting"):
                if is_new:
                    tell(b"begun " + key)
                self.wait(key, who, tell)
            elif what == b"released":
                tell(self.reply(rest))
            elif what in (b"old", b"gap"):
                tell(b"%b %b %b" % (what, key, rest))
            elif what == b"not":
                tell(b"leader %b 0" % key)
            elif what == b"faulty":
                tell(b"bad")
            else:
                tell(self.elsewhere(key))

        self.node.call(b"S", line, then)

    def wait(self, key, who, tell):
        if self.companion.leads:
            self.waiting.setdefault(key, {})[who] = tell
        else:
            tell(self.elsewhere(key))

    def forget(self, who):
        """Has one that is gone wait for nothing any more."""
        for key in [key for key, waiting in self.waiting.items() if who in waiting]:
            del self.waiting[key][who]
            if not self.waiting[key]:
                del self.waiting[key]

    def elsewhere(self, key):
        leader = self.companion.elections.leader
        return b"leader %b %d" % (key, leader if leader != self.companion.options.id else 0)

    def reply(self, released, number=None):
        """How it is told what was released, by the value of this number or one that is known: the words CLIENT SEQUENCE VALUE of the node."""
        return b"ok %b %d" % (released, number or self.node.known)

    def answer(self, key, answer):
        """Tells all who wait for a reply."""
        for tell in self.waiting.pop(key, {}).values():
            tell(answer)

    def on_agreed(self):
        """A proposal is agreed on. Who is answered by that asks again soon, as a rule: for a moment the next cut waits for as many requests as there are
        answers, since one proposal for all of them is done sooner than two."""
        if self.is_open and self.cut_at is not None:
            now = time.monotonic()
            took = now - self.cut_at
            self.times.add(took)
            self.cut_at = None
            self.expected, self.gathers_until = self.uncut, now + min(took / 2, GATHERING)

    def on_early(self, early, message, then):
        """So it is of the open proposal, by a message that the node hears together with the next cut, or once nothing is waited for. These are its replies."""
        self.closing = message, then
        self.on_agreed()
        for released in early:
            self.on_released(released, self.node.known + 1)
        self.early.update(early)

    def on_known(self):
        self.on_agreed()
        # what was cut along with the message by which this is known leaves nothing
        self.is_open, self.is_new = False, self.is_new or not self.is_cutting

    def on_released(self, released, number=None):
        if released in self.early:
            self.early.remove(released)
        else:
            self.replies, self.expected = self.replies + 1, self.expected + 1
        key = released.rpartition(b" ")[0]
        if key in self.waiting:
            self.answer(key, self.reply(released, number))

    def send_away(self):
        """This node leads no more: who waits has to ask another."""
        for key in list(self.waiting):
            self.answer(key, self.elsewhere(key))

    # ---- cuts

    def cut(self):
        """Lets the lanes go on, and has what they did proposed, one proposal after another; what comes meanwhile is in the next one."""
        if self.is_cutting or self.is_open and not self.closing or not (self.is_new or self.closing):
            return
        now = time.monotonic()
        if self.uncut < self.expected and now < self.gathers_until:
            if self.timer is None:
                self.timer = asyncio.get_running_loop().call_later(self.gathers_until - now, self.on_timer)
            return
        self.stop_timer()
        if self.closing:
            self.node.call(b"M", *self.closing)
            self.closing, self.is_open = None, False
        if not self.is_new:
            return
        self.is_new, self.is_cutting, self.cut_at, self.uncut, self.expected = False, True, now, 0, 0
        self.node.call(b"R", struct.pack(">q", time.time_ns() // 1000000))
        self.node.call(b"C", then=self.on_cut)

    def stop_timer(self):
        if self.timer is not None:
            self.timer.cancel()
            self.timer = None

    def on_timer(self):
        self.timer = None
        self.companion.turns.due()

    def on_cut(self, reports):
        self.is_cutting = False
        if reports and b"ended" in reports:
            if not self.is_told_end:
                self.companion.say("the cluster has agreed on as many log entries as there can be")
                self.is_told_end = True
            for key in list(self.waiting):
                self.answer(key, b"ended " + key)

    def nothing_is_open(self):
        closing, self.closing = self.closing, None
        self.is_open, self.is_cutting, self.cut_at = False, False, None
        self.early.clear()
        if closing:
            # its node leads no more
            closing[1](None)

    # ---- reads

    def read(self, client, seen, name, tell):
        """Tells a variable's value. Raises struct.error where the numbers are none."""
        content = struct.pack(">HI", client, seen) + name

        def then(reports):
            # a value is told by `read CLIENT VARIABLE VALUE at COUNT`
            report = reports[0] if reports else b"behind 0 %d" % seen
            words = report.split(b" ")
            tell(b"value %b %b" % (words[3], words[5]) if words[0] == b"read" else b"bad" if words[0] == b"faulty" else report)

        self.node.call(b"Q", content, then)
