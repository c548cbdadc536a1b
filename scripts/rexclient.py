"""A client of a cluster of scripts/rexd, as a library in one file, which needs nothing else:

    from rexclient import Client

    with Client("10.0.0.1:7100,10.0.0.2:7100,10.0.0.3:7100", 7) as client:
        token = client.call("take", 7)
        owner = client.get("owner")

The addresses are the nodes' for clients, in the order of their numbers; where they speak TLS a client is handed a tls_context. A client's number, 1 to
256, is for one program at a time, and for one thread of it.

A call is sent again, to whoever leads, until it is answered, always with the same number and sequence: so it is done once, however often it is sent. What a
client reads is never older than what it has seen: its own calls, and what it read before. It may be older than what others have done."""
import socket
import ssl
import time

ONE_TRY, PAUSE = 3.0, 0.05  # seconds
LAST_SEQUENCE = 1000000


class Refused(Exception):
    """The call was not done: no handler of this name takes so many arguments, another program uses the client's number, or the cluster is at its end."""


class Unknown(Exception):
    """No node has answered in time. A call may have been done, and may still be: see Client.again."""


def tls_context(ca, cert=None, key=None):
    """What `tls` is for nodes that speak TLS. `ca` is a file in PEM of certificates, one of which has to have signed the nodes', and these have to name the
    hosts of the addresses; `cert` and `key` are files of the client's own, which nodes may ask for."""
    context = ssl.create_default_context(cafile=ca)
    if cert:
        context.load_cert_chain(cert, key)
    return context


class Nodes:
    """Connections to the nodes of a cluster, which are made when they are needed."""

    def __init__(self, addresses, tls=None):
        self.addresses, self.tls = [self.address(it) for it in addresses.split(",")], tls
        self.connections, self.at = {}, 0  # the node that is asked first, from 0
        self.fault = None  # the last error of a connection

    @staticmethod
    def address(text):
        host, _, port = text.strip().rpartition(":")
        return host.strip("[]") or "127.0.0.1", int(port)

    def close(self):
        for node in list(self.connections):
            self.drop(node)

    def drop(self, node):
        for it in self.connections.pop(node, ()):
            it.close()

    def ask(self, node, line, seconds):
        """The words that a node answers to a line; none where it doesn't in time. The connection is dropped then, and a late answer with it."""
        try:
            if node not in self.connections:
                connection = socket.create_connection(self.addresses[node], seconds)
                connection.setsockopt(socket.IPPROTO_TCP, socket.TCP_NODELAY, 1)
                if self.tls:
                    connection = self.tls.wrap_socket(connection, server_hostname=self.addresses[node][0])
                self.connections[node] = connection.makefile("r", encoding="latin-1"), connection
            reader, connection = self.connections[node]
            connection.settimeout(seconds)
            connection.sendall(line.encode() + b"\n")
            answer = reader.readline()
            if answer.endswith("\n"):
                return answer[:-1].split(" ")
        except OSError as fault:
            self.fault = fault
        self.drop(node)
        return []

    def ask_until(self, line, end):
        """Asks one node after another, and whom they take for the leader, until one answers by more than whom to ask. No words where none does."""
        while time.monotonic() < end:
            words = self.ask(self.at, line, max(0.01, min(ONE_TRY, end - time.monotonic())))
            if words and words[0] not in ("leader", "primary", "behind"):
                return words
            named = int(words[3]) if words[:1] == ["leader"] else 0
            self.at = named - 1 if 1 <= named <= len(self.addresses) else (self.at + 1) % len(self.addresses)
            time.sleep(PAUSE)
        return []


class Client:
    def __init__(self, addresses, number, sequence=None, seconds=30.0, tls=None):
        """`sequence` is that of the next call, 1 for a client that has called nothing. Without it the nodes are asked: that is good where no call of the same
        number is still on its way. A call or a read takes at most so many seconds. `tls` is a tls_context where the nodes speak TLS."""
        self.nodes, self.number, self.sequence, self.seconds = Nodes(addresses, tls), number, sequence, seconds
        self.seen, self.open = 0, None  # log entries; the line of a call whose reply isn't known
        self.is_next = False  # whether the sequence comes after a reply, so that no node which leads can miss one before it

    def __enter__(self):
        return self

    def __exit__(self, *_):
        self.nodes.close()

    def call(self, handler, *arguments):
        """Calls a handler: its reply, a number. Raises Refused, or Unknown."""
        if self.open is not None:
            raise RuntimeError("the reply to `%s` isn't known: it has to be asked for by again()" % self.open)
        what = " ".join([handler, *map(str, arguments)])
        if self.sequence is None:
            self.sequence = self.next_sequence(what)
        self.open = "%d %d %s" % (self.number, self.sequence, what)
        return self.again()

    def again(self):
        """Asks once more for the reply to a call that ended in Unknown."""
        end = time.monotonic() + self.seconds
        words = self.nodes.ask_until(self.open, end)
        while words[:1] == ["gap"] and self.is_next:
            # one that leads no more, and hasn't heard so yet, doesn't know of the last reply
            self.nodes.at = (self.nodes.at + 1) % len(self.nodes.addresses)
            time.sleep(PAUSE)
            words = self.nodes.ask_until(self.open, end)
        if not words:
            raise Unknown(self.open)
        self.open = None
        if words[0] != "ok":
            if words[0] in ("gap", "old"):
                self.sequence, self.is_next = None, False
            raise Refused(" ".join(words))
        self.sequence, self.seen, self.is_next = self.sequence + 1, max(self.seen, int(words[4])), True
        return int(words[3])

    def next_sequence(self, what):
        """The next sequence: a request with one that can't be next is answered by it."""
        words = self.nodes.ask_until("%d %d %s" % (self.number, LAST_SEQUENCE, what), time.monotonic() + self.seconds)
        if words[:1] == ["ok"] or not words:
            # where the last sequence of all was the next one that request was done
            raise Unknown("the next sequence of client %d" % self.number)
        if words[0] != "gap":
            raise Refused(" ".join(words))
        return int(words[3])

    def get(self, variable):
        """A variable's value, as a follower has it. Raises Refused where there is no such variable, or Unknown."""
        end, node = time.monotonic() + self.seconds, self.nodes.at
        while time.monotonic() < end:
            # who leads tells no values
            node = (node + 1) % len(self.nodes.addresses)
            words = self.nodes.ask(node, "read %d %d %s" % (self.number, self.seen, variable), max(0.01, min(ONE_TRY, end - time.monotonic())))
            if words[:1] == ["value"]:
                self.seen = max(self.seen, int(words[2]))
                return int(words[1])
            if words[:1] == ["bad"]:
                raise Refused("there is no variable %s" % variable)
            if words[:1] != ["primary"]:
                time.sleep(PAUSE)
        raise Unknown("the value of %s" % variable)
