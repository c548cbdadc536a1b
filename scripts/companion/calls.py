"""Calls and reads for those who have no client's number: this node is the client, at whichever node leads.

Each node has numbers of its own for that. A number's next sequence is what a request that can't be the next one is answered by. An earlier life of this process
may have left a request of that sequence behind. So the first one of a number is told to be begun only where whoever leads hadn't one yet."""
import asyncio
import collections
import itertools
import os
import random
import struct
import time

from companion.frames import ACTIVE

LAST_CLIENT, LAST_SEQUENCE, OWN = 256, 1000000, 16
PAUSE, AGAIN, CALL_SECONDS, READ_SECONDS, MOST_QUEUED = 0.05, 3.0, 30.0, 3.0, 10000
PLAIN, NEW, READ = b"\0", b"\1", b"\2"


class Number:
    """A client's number of this node. Where it is new, its next sequence may have been used by an earlier life of this process."""

    def __init__(self, number):
        self.number, self.sequence, self.is_new = number, None, True


class Call:
    def __init__(self, what, done):
        self.what, self.done, self.until = what, done, time.monotonic() + CALL_SECONDS
        # where it was sent to, 0 where it has to be sent; whether nothing was heard of that yet, and whether a reply may be to an earlier life's request
        self.number, self.tag, self.node, self.sent_at, self.is_unheard, self.is_in_doubt = None, 0, 0, 0.0, False, False


class Calls:
    def __init__(self, companion):
        first = LAST_CLIENT - OWN * companion.options.id + 1
        self.companion, self.free, self.queue = companion, collections.deque(map(Number, range(first, first + OWN))), collections.deque()
        # an answer to an earlier life of this process has none of these tags
        self.calls, self.reads, self.tags, self.reader = {}, {}, itertools.count(int.from_bytes(os.urandom(7), "big")), first

    # ---- calls

    def call(self, what, done):
        """Calls a handler by its words. `done` is called by the reply and how many log entries have it, or by None and what went wrong."""
        if len(self.queue) >= MOST_QUEUED:
            done(None, "too many calls wait")
            return
        self.queue.append(Call(what, done))
        self.start()

    def start(self):
        while self.queue and self.free:
            call = self.queue.popleft()
            call.number = self.free.popleft()
            self.send(call)

    def send(self, call):
        leader, number = self.companion.elections.leader, call.number
        self.calls.pop(call.tag, None)
        call.tag, call.node, call.sent_at, call.is_unheard = next(self.tags), leader, time.monotonic(), True
        self.calls[call.tag] = call
        line = b"%d %d %s" % (number.number, number.sequence or LAST_SEQUENCE, call.what)
        kind = NEW if number.sequence and number.is_new else PLAIN
        if leader == self.companion.options.id:
            tag = call.tag
            self.companion.requests.submit(line, self, lambda answer: self.on_answer(tag, answer), kind == NEW)
        elif leader in self.companion.peers:
            self.companion.peers[leader].send(b"F", struct.pack(">Q", call.tag) + kind + line)

    def on_answer(self, tag, answer):
        call, words = self.calls.get(tag), answer.split()
        if call is None:
            return
        number, call.is_unheard = call.number, False
        if words[0] == b"begun":
            number.is_new = False
        elif words[0] == b"ok":
            # the last sequence of all can be next, and then the question for the next one is a request
            call.is_in_doubt = call.is_in_doubt or number.sequence is None
            number.sequence, number.is_new = (number.sequence or LAST_SEQUENCE) + 1, False
            if call.is_in_doubt:
                self.end(call, None, "it may have been done or not")
            else:
                self.end(call, int(words[3]), int(words[4]))
        elif words[0] == b"gap" and number.sequence is None:
            number.sequence, number.is_new = int(words[3]), True
            self.send(call)
        elif words[0] in (b"gap", b"old", b"taken"):
            number.sequence, call.node = None, 0
        elif words[0] == b"leader":
            call.node = 0
        else:
            self.end(call, None, "no handler of this name takes these arguments" if words[0] == b"bad" else "the cluster is at its end")

    def end(self, call, value, rest):
        del self.calls[call.tag]
        if (call.number.sequence or 0) <= LAST_SEQUENCE:
            self.free.append(call.number)
        self.tell(call, value, rest)
        self.start()

    def tell(self, call, value, rest):
        done, call.done = call.done, None
        if done:
            done(value, rest)

    def tick(self):
        """Sends again what has to be, and tells who has waited for long. A call whose reply isn't known keeps its number until it is."""
        now, leader = time.monotonic(), self.companion.elections.leader
        for call in list(self.calls.values()):
            if now > call.until:
                self.tell(call, None, "no answer: it may have been done or not")
            if now - call.sent_at > (PAUSE if leader and call.node != leader else AGAIN):
                if call.is_unheard and call.node and call.number.sequence and call.number.is_new:
                    call.is_in_doubt, call.number.is_new = True, False
                self.send(call)
        while self.queue and now > self.queue[0].until:
            self.tell(self.queue.popleft(), None, "no answer: it wasn't done")

    # ---- reads

    def get(self, name, seen, done, until=None):
        """Reads a variable at a follower: here, or where this node is active at another one. `done` as for a call."""
        loop, until, tag = asyncio.get_running_loop(), until or time.monotonic() + READ_SECONDS, next(self.tags)

        def tell(answer):
            if not self.reads.pop(tag, None):
                return
            words = answer.split()
            if words[0] == b"value":
                done(int(words[1]), int(words[2]))
            elif words[0] == b"bad":
                done(None, "there is no such variable")
            elif time.monotonic() > until:
                done(None, "no follower has seen so much")
            else:
                loop.call_later(PAUSE, self.get, name, seen, done, until)

        self.reads[tag] = tell
        loop.call_later(1.0, tell, b"behind")
        heard = [peer for peer in self.companion.peers.values() if peer.is_heard(1.0)]
        if self.companion.node.role != ACTIVE:
            self.companion.requests.read(self.reader, seen, name, tell)
        elif heard:
            random.choice(heard).send(b"F", struct.pack(">Q", tag) + READ + b"%d %d %s" % (self.reader, seen, name))

    # ---- between nodes

    def on_forwarded(self, peer, content):
        """A peer sends a request or a read on, with its tag."""
        tag, kind, line = content[:8], content[8:9], content[9:]

        def tell(answer):
            peer.send(b"G", tag + answer)

        if kind == READ:
            client, seen, name = line.split(b" ", 2)
            self.companion.requests.read(int(client), int(seen), name, tell)
        else:
            self.companion.requests.submit(line, peer, tell, kind == NEW)

    def on_told(self, content):
        tag, answer = struct.unpack(">Q", content[:8])[0], content[8:]
        if tag in self.reads:
            self.reads[tag](answer)
        else:
            self.on_answer(tag, answer)
