"""What stands between a node, its peers and its clients."""
import asyncio
import hashlib
import random
import signal
import sys
import time

from companion.calls import Calls
from companion.elections import Elections
from companion.frames import ACCEPT, ACTIVE, ADOPTING, CANDIDATE, CHOSEN, FOLLOWER, PREPARE, framed
from companion.lines import Lines
from companion.links import Turns
from companion.looking import Looking
from companion.messages import RELEASED, Messages
from companion.node import Node
from companion.options import node_words
from companion.peers import Hearing, Peer, hello
from companion.plain import Taking
from companion.requests import Requests
from companion.resp import Resp
from companion.tls import serving, tell_faults

HEARTBEAT, TICK, RESENDS, ASKS = 0.05, 0.02, 0.15, 0.05  # seconds
CUT_OFF = 1.0  # a leader that has heard no majority for so long sends its clients away


class Companion:
    def __init__(self, options, selector):
        self.options, self.selector, self.turns = options, selector, Turns(self.turn_ends, selector)
        self.node = Node(node_words(options, options.journal), self)
        with open(options.service, "rb") as file:
            service = file.read()
        told = "\n".join([options.cluster, str(len(options.peers)), str(options.seed), ""]).encode()
        self.digest = hashlib.sha256(told + service).digest()
        self.peers = {number: Peer(number, where, self)
                      for number, where in enumerate(options.peers, 1) if number != options.id}
        self.leads, self.is_cut_off, self.last_role, self.began = False, False, FOLLOWER, time.monotonic()
        self.elections, self.requests, self.calls = Elections(self), Requests(self), Calls(self)
        self.messages = Messages(self.node, self.requests, len(options.peers) // 2)
        # the last prepare or accept to each peer, for as long as it may have to be sent again
        self.last_sent, self.sent_at, self.asked_at, self.beaten_at = {}, 0.0, 0.0, 0.0
        tell_faults(options.tls, self.on_bad_handshake)
        self.refused, self.strangers, self.links, self.are_held, self.tasks = 0, set(), set(), False, set()
        self.texts = {}  # what was told in this turn, by its form

    def say(self, text):
        print("%.3f node %d %s" % (time.time(), self.options.id, text), file=sys.stderr, flush=True)

    def later(self, work):
        task = asyncio.ensure_future(work)
        self.tasks.add(task)
        task.add_done_callback(self.tasks.discard)

    def soon(self, what):
        asyncio.get_running_loop().call_soon(what)

    # ---- what the node answers

    def on_answer(self, reports, sends):
        has_learned = False
        for report in reports:
            if report.startswith(RELEASED):
                self.requests.on_released(report[len(RELEASED):])
            elif report.startswith(b"node "):
                what = report.split(b" ")[2]
                self.on_step(what)
                has_learned = has_learned or what == b"known"
            elif report == b"unfit":
                self.say("refuses a value that doesn't fit after those that it knows")
        for to, message in sends:
            if message[1] in (PREPARE, ACCEPT):
                self.last_sent[to], self.sent_at = message, time.monotonic()
            if to in self.peers:
                self.peers[to].send_message(message, has_learned and message[1] == CHOSEN and random.random() < self.options.forget)
        if self.node.role != self.last_role:
            self.on_role(self.last_role)
        if has_learned and self.node.role == ADOPTING:
            self.elections.wait()

    def on_step(self, what):
        """The node took a step of the protocol."""
        if what in (b"proposes", b"adopts"):
            self.requests.is_open = True
        elif what == b"known":
            self.requests.on_known()
        elif what == b"candidate":
            self.requests.nothing_is_open()

    def on_role(self, was):
        role = self.last_role = self.node.role
        if role == ACTIVE or was == ACTIVE:
            self.last_sent.clear()
            self.requests.nothing_is_open()
            self.requests.is_new = role == ACTIVE
        self.notice()

    def notice(self):
        """Says so, to clients and peers, too, where this node begins to lead, or leads no more. It leads where rexnode is active, no other node was heard to
        lead by a later ballot, and a majority is heard."""
        leads = self.node.role == ACTIVE and self.elections.rival <= self.node.promised and not self.is_cut_off
        if leads == self.leads:
            return
        self.leads = leads
        self.say("leads with ballot %d" % self.node.promised if leads else "leads no more")
        if leads:
            self.elections.leader = self.options.id
        else:
            if self.elections.leader == self.options.id:
                self.elections.leader = 0
            self.elections.wait()
            self.requests.send_away()
        self.beat()

    def on_down(self):
        """The program has ended."""
        if self.last_role != FOLLOWER:
            self.on_role(self.last_role)
        self.requests.nothing_is_open()

    def on_last_end(self, status):
        """The program has ended, and isn't started again."""
        if not self.ended.done():
            self.ended.set_result(status)

    def turn_ends(self):
        """After all that came in together: what is new is cut, and everything is written."""
        self.texts.clear()
        if self.node.role == ACTIVE:
            self.requests.cut()
        self.node.flush()

    # ---- peers and clients

    def peer_of(self, frame, hearing):
        """The peer whose hello this frame is. Of two connections of one peer the later one is heard. LookupError where it is none."""
        from_ = frame[1] if len(frame) > 1 else 0
        if framed(frame) != hello(from_, self.options.id, self.digest):
            raise LookupError
        peer = self.peers[from_]
        older, peer.hearing = peer.hearing, hearing
        if older is not None:
            older.close()
        return peer

    def on_stranger(self, where, peer):
        """What came from there is none of a peer's bytes, or no more."""
        host = where[0] if where else "?"
        self.refused += 1
        if (host, peer) not in self.strangers:
            self.strangers.add((host, peer))
            self.say("refuses what node %d seems to have sent: it was altered" % peer.number if peer else
                     "doesn't hear one at %s, of another cluster, number of nodes, seed, service or key, or none that this node is to hear" % host)

    def on_bad_handshake(self, host, error):
        self.refused += 1
        if (host, str(error)) not in self.strangers:
            self.strangers.add((host, str(error)))
            self.say("can't speak by TLS with %s: %s" % ("the one at " + host if host else "one who connects", error))

    def on_beat(self, peer, role, promised, known):
        self.elections.on_beat(peer, role, promised, known)
        peer.heard, peer.role, peer.promised, peer.known = time.monotonic(), role, promised, known
        self.notice()

    def beat(self):
        n = self.node
        # one that is active, and doesn't lead any more, keeps nobody from leading
        role = FOLLOWER if n.role == ACTIVE and not self.leads else n.role
        for peer in self.peers.values():
            peer.send_beat(role, n.promised, n.known)

    def on_link(self, link):
        self.links.add(link)
        if self.are_held:
            link.hold("node")

    def on_link_lost(self, link):
        self.links.discard(link)

    def hold_links(self):
        """The node has more than it has read: nothing is read of anyone meanwhile."""
        self.are_held = True
        for link in self.links:
            link.hold("node")

    def links_go_on(self):
        self.are_held = False
        for link in self.links:
            link.go_on("node")

    def status(self):
        n = self.node
        return "node %d %s promised %d known %d live %d leader %d" % (self.options.id, n.role_word(), n.promised, n.known, n.live, self.elections.leader)

    def told(self, form):
        """What there is to say, in a form of looking.py. It is made once a turn: who asks over and over doesn't keep the node from its work."""
        if form not in self.texts:
            self.texts[form] = form(self)
            self.turns.due()
        return self.texts[form]

    # ---- time

    def tick(self):
        now, n = time.monotonic(), self.node
        n.look()
        if now - self.beaten_at >= HEARTBEAT:
            self.beaten_at = now
            self.beat()
        for link in self.links:
            if link.is_stuck():
                link.transport.abort()
        heard = 1 + sum(peer.is_heard(CUT_OFF) for peer in self.peers.values())
        self.is_cut_off = heard <= len(self.options.peers) // 2
        self.notice()
        self.elections.tick()
        self.calls.tick()
        if (n.role in (CANDIDATE, ADOPTING) or self.requests.is_open) and now - self.sent_at > RESENDS:
            self.sent_at = now
            for to, message in self.last_sent.items():
                self.peers[to].send_message(message)
        if n.is_up and (n.role == FOLLOWER or n.role == ACTIVE and not self.leads) and now - self.asked_at > ASKS:
            best = max(self.peers.values(), key=lambda peer: peer.known, default=None)
            if best is not None and best.known > n.known and best.is_heard(CUT_OFF):
                self.asked_at = now
                n.call(b"A", bytes([best.number]))

    async def ticks(self):
        while True:
            await asyncio.sleep(TICK)
            self.tick()

    # ---- from its start to its end

    def server(self, kind, host, port, tls=None):
        """A server of connections of a kind, which doesn't serve yet."""
        def made():
            return kind(self) if tls else Taking(self.selector, kind(self))

        return asyncio.get_running_loop().create_server(made, host, port, start_serving=False, **serving(tls))

    async def run(self):
        loop, o = asyncio.get_running_loop(), self.options
        self.ended, is_over = loop.create_future(), asyncio.Event()
        # what may fail without a node comes first
        servers = [await self.server(Hearing, o.bind, o.peers[o.id - 1][1], o.tls.heard), await self.server(Lines, o.bind, o.clients, o.tls.clients)]
        if o.resp:
            servers.append(await self.server(Resp, *o.resp, o.tls.clients))
        if o.http:
            servers.append(await self.server(Looking, *o.http))
        await self.node.start()
        for number in signal.SIGTERM, signal.SIGINT:
            loop.add_signal_handler(number, is_over.set)
        for server in servers:
            await server.start_serving()
        works = [asyncio.ensure_future(it) for it in (is_over.wait(), self.ticks(), *(peer.run() for peer in self.peers.values()))]
        await asyncio.wait([self.ended, *works], return_when=asyncio.FIRST_COMPLETED)
        # nobody connects any more, and the ports are free before rexd has ended
        for server in servers:
            server.close()
        if not self.ended.done():
            self.node.end()
        for it in works:
            if it.done():
                it.result()
            it.cancel()
        return await self.ended
