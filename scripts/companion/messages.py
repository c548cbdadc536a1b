"""What peers' nodes send, on its way to the node."""

ACCEPTED, CHOSEN = b"\4", b"\5"  # kinds of messages, by which a node says that it accepted a value, and that one is agreed on
KIND, INSTANCE = slice(1, 2), slice(12, 16)  # where a message has its kind, and an accepted its instance
RELEASED = b"released "
READING = 1e-5  # seconds for which reading a reply once more keeps others waiting, about


class Messages:
    """Hands messages to the node. Of those that say that a value was accepted some tell nothing new, and would only wake the node."""

    def __init__(self, node, requests, needed):
        """Besides the node that proposed a value so many have to accept it."""
        self.node, self.requests, self.needed, self.count, self.held = node, requests, needed, 0, []

    def hear(self, message):
        if message[KIND] == ACCEPTED:
            self.hear_accepted(message)
        else:
            # who tells what is agreed on waits for no answer
            self.node.call(b"M", message, can_wait=message[KIND] == CHOSEN)

    def hear_accepted(self, message):
        """While the node has as many as are needed the others wait for what it makes of these. What it knows to be agreed on by then it isn't told again."""
        if int.from_bytes(message[INSTANCE], "big") <= self.node.known:
            return
        if self.count >= self.needed:
            self.held.append(message)
            return
        self.count += 1
        if self.requests.is_open and self.is_slower():
            self.node.call(b"W", message, lambda reports: self.on_foretold(message, reports), is_asked=True)
        else:
            self.node.call(b"M", message, self.on_answer)

    def is_slower(self):
        """Whether the node takes longer to keep a record than it takes to read all replies once more, which comes of telling them before."""
        last = self.node.times.last
        return not last or last[-1] > READING * len(self.requests.waiting)

    def on_foretold(self, message, reports):
        """Where the node would release replies if it heard the message these are told now, and it hears that together with the next cut: what it writes down
        then takes one sync."""
        early = [it for it in reports or () if it.startswith(RELEASED)]
        if early and self.requests.is_open:
            self.requests.on_early([it[len(RELEASED):] for it in early], message, self.on_answer)
        else:
            self.node.call(b"M", message, self.on_answer)

    def on_answer(self, _):
        self.count -= 1
        held, self.held = self.held, []
        for message in held:
            self.hear_accepted(message)
