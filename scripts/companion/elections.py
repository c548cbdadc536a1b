"""When a node asks to lead."""
import os
import random
import time

from companion.frames import ACTIVE, ADOPTING, CANDIDATE

PATIENCE = 0.5, 1.0  # so many seconds without a leader make a node ask to lead
HASTE = 0.01, 0.15  # the same where the leader's connection is gone
QUIET = 0.2  # who has heard a leader so short ago supports nobody else


class Elections:
    """Who leads, as far as this node has heard, and its wish to lead itself.

    A node that has heard no leader for long asks the others first whether they miss one, too, and asks to lead once a majority does, itself among them. So
    one that was cut off, and comes back, deposes nobody. Only progress depends on this: rexnode keeps the cluster safe whoever asks to lead, and when."""

    def __init__(self, companion):
        self.companion, self.scale = companion, companion.options.patience
        self.leader, self.rival, self.count = 0, 0, 0  # a node, or 0; the greatest ballot by which another node was heard to lead; for who looks
        self.question, self.supporters = b"", set()
        self.supported, self.supported_at = 0, 0.0
        self.wait()

    def wait(self, patience=PATIENCE):
        self.heard, self.patience = time.monotonic(), random.uniform(*patience) * self.scale

    def is_quiet(self, since):
        return time.monotonic() - since > QUIET * self.scale

    # ---- what is heard

    def on_beat(self, peer, role, promised, known):
        """A peer says what it is; `peer` has what it said before."""
        node = self.companion.node
        if role == ACTIVE:
            self.rival = max(self.rival, promised)
            if promised >= node.promised:
                self.leader, self.question = peer.number, b""
                self.wait()
                return
        elif role == ADOPTING and promised >= node.promised and known > peer.known:
            # an election that gets on isn't disturbed
            self.wait()
        if role != ACTIVE:
            self.lost(peer.number)

    def lost(self, number):
        """A node leads no more, or is gone. If it led, someone has to ask to lead soon."""
        if self.leader == number:
            self.leader = 0
            self.wait(HASTE)

    # ---- support

    def tick(self):
        """Asks for support where it is time."""
        node = self.companion.node
        if self.companion.leads or not node.is_up:
            # one that reads its journal is asked nothing yet
            self.wait()
        elif time.monotonic() - self.heard > self.patience:
            self.leader = 0
            self.wait()
            own = self.companion.options.id
            self.question, self.supporters, self.supported, self.supported_at = os.urandom(8), {own}, own, self.heard
            for peer in self.companion.peers.values():
                peer.send(b"V", self.question)
            self.ask_to_lead()

    def on_question(self, peer, question):
        """A peer asks whether this node misses a leader, too. One peer at a time is supported: two that ask together would be in each other's way."""
        node, companion = self.companion.node, self.companion
        hears_leader = companion.leads or (self.leader and not self.is_quiet(self.heard))
        is_electing = node.role in (CANDIDATE, ADOPTING) and not self.is_quiet(self.heard)
        if node.is_up and not hears_leader and not is_electing and (self.supported in (0, peer.number) or self.is_quiet(self.supported_at)):
            self.supported, self.supported_at = peer.number, time.monotonic()
            self.wait()
            peer.send(b"W", question)

    def on_support(self, peer, question):
        if self.question and question == self.question:
            self.supporters.add(peer.number)
            self.ask_to_lead()

    def ask_to_lead(self):
        if len(self.supporters) > len(self.companion.options.peers) // 2:
            self.question = b""
            self.wait()
            self.count += 1
            self.companion.node.call(b"E")
