"""What a node says of itself and the others over HTTP: a page, a text, JSON, and metrics."""
import collections
import json
import os
import time

from companion.frames import ROLES
from companion.links import Link

MOST_HEAD = 1 << 14
LAST_ENTRY = 65535
HERE = os.path.dirname(os.path.realpath(__file__))

# name in the JSON, kind, and what it is
METRICS = (
    ("ballot", "gauge", "The greatest ballot that the node has promised."),
    ("known", "gauge", "Log entries that the node knows to be agreed on."),
    ("entries_left", "gauge", "Log entries that the cluster can still agree on."),
    ("live", "gauge", "Events of the node that aren't agreed on yet."),
    ("waiting", "gauge", "Requests of clients that wait for a reply here."),
    ("connections", "gauge", "Connections of clients and peers to this node."),
    ("replies", "counter", "Replies that were released here."),
    ("elections", "counter", "How often the node asked to lead."),
    ("starts", "counter", "How often the program was started."),
    ("refused", "counter", "Connections that were refused or ended since what came was none of a peer's bytes."),
    ("journal_bytes", "gauge", "Bytes of the journal."),
    ("uptime_seconds", "gauge", "Seconds since the companion was started."),
    ("leads", "gauge", "Whether the node leads, as far as it has heard."),
)
# the same of what was timed
TIMED = (
    ("agreement_seconds", "Seconds from a cut until it was agreed on."),
    ("answer_seconds", "Seconds from a call of the program that may write to the journal until its answer, where that is awaited."),
)
OF_PEERS = (
    ("connected", "Whether there is a way to the peer."),
    ("heard_seconds", "Seconds since the peer was heard."),
    ("known", "Log entries that the peer said it knows."),
)


class Times:
    """How long something took: each of the last thousand times, and all of them in sum."""

    def __init__(self):
        self.last, self.sum, self.count = collections.deque(maxlen=1000), 0.0, 0

    def add(self, seconds):
        self.last.append(seconds)
        self.sum, self.count = self.sum + seconds, self.count + 1

    def parts(self):
        """The median and the 99th percentile in seconds, each None where there is none."""
        last = sorted(self.last)
        return {name: last[int(len(last) * part)] if last else None for name, part in (("median", 0.5), ("p99", 0.99))}


def facts_of(companion):
    """What there is to say, by names."""
    c, n, o, now = companion, companion.node, companion.options, time.monotonic()
    return {
        "node": o.id, "nodes": len(o.peers), "cluster": o.cluster, "role": n.role_word(), "leads": c.leads, "leader": c.elections.leader,
        "ballot": n.promised, "known": n.known, "entries_left": LAST_ENTRY - n.known, "live": n.live, "waiting": len(c.requests.waiting),
        "connections": len(c.links), "replies": c.requests.replies, "elections": c.elections.count, "starts": n.starts, "refused": c.refused,
        "journal_bytes": os.path.getsize(o.journal) if os.path.exists(o.journal) else 0, "uptime_seconds": round(now - c.began, 1),
        "agreement_seconds": c.requests.times.parts(), "answer_seconds": n.times.parts(),
        "peers": {peer.number: facts_of_peer(peer, now) for peer in c.peers.values()},
    }


def facts_of_peer(peer, now):
    return {
        "address": "%s:%d" % peer.where, "connected": peer.way is not None, "heard_seconds": round(now - peer.heard, 3) if peer.heard else None,
        "role": ROLES[peer.role], "ballot": peer.promised, "known": peer.known,
    }


def in_json(companion):
    return json.dumps(facts_of(companion))


def in_text(companion):
    facts = facts_of(companion)
    lines = ["%-18s %s" % (name.replace("_", " "), value) for name, value in facts.items() if not isinstance(value, dict)]
    for timed, _ in TIMED:
        named = ((timed.replace("seconds", name).replace("_", " "), value) for name, value in facts[timed].items())
        lines += ["%-18s %.1f ms" % (name, 1000 * value) for name, value in named if value is not None]
    for number, peer in facts["peers"].items():
        lines.append("%-18s %s" % ("peer %d" % number, ", ".join("%s %s" % (name.replace("_", " "), value) for name, value in peer.items())))
    return "\n".join(lines) + "\n"


def in_metrics(companion):
    """The text form of Prometheus."""
    facts, times, lines = facts_of(companion), {"agreement_seconds": companion.requests.times, "answer_seconds": companion.node.times}, []

    def metric(name, kind, text, values):
        lines.extend(["# HELP rex_%s %s" % (name, text), "# TYPE rex_%s %s" % (name, kind)])
        lines.extend("rex_%s%s{%s} %s" % (name, suffix, ",".join('%s="%s"' % it for it in {"node": facts["node"], **labels}.items()), value)
                     for suffix, labels, value in values)

    for name, kind, text in METRICS:
        metric(name + "_total" * (kind == "counter"), kind, text, [("", {}, float(facts[name]))])
    metric("role", "gauge", "What the node is: 1 at one of the roles.", [("", {"role": it}, float(it == facts["role"])) for it in (*ROLES, "down")])
    for timed, text in TIMED:
        parts = [("", {"quantile": part}, facts[timed][name]) for name, part in (("median", "0.5"), ("p99", "0.99"))]
        sums = [("_sum", {}, times[timed].sum), ("_count", {}, times[timed].count)]
        metric(timed, "summary", text, [it for it in parts if it[2] is not None] + sums)
    for name, text in OF_PEERS:
        values = [("", {"peer": number}, float(peer[name])) for number, peer in facts["peers"].items() if peer[name] is not None]
        metric("peer_" + name, "gauge", text, values)
    return "\n".join(lines) + "\n"


def page(_):
    with open(os.path.join(HERE, "page.html")) as file:
        return file.read()


KINDS = {
    b"/": ("text/html", page), b"/status": ("text/plain", in_text), b"/status.json": ("application/json", in_json),
    b"/metrics": ("text/plain; version=0.0.4", in_metrics),
}


class Looking(Link):
    """A connection of one who looks."""

    def __init__(self, companion):
        super().__init__(companion.turns)
        self.companion, self.held = companion, b""

    def data_received(self, data):
        self.held += data
        # also where these are many short ones, of which each is answered by a long text
        if len(self.held) > MOST_HEAD:
            self.transport.abort()
            return
        while b"\r\n\r\n" in self.held:
            head, _, self.held = self.held.partition(b"\r\n\r\n")
            self.on_request(head.split(b"\r\n")[0].split())

    def on_request(self, words):
        path = words[1].split(b"?")[0] if len(words) == 3 else b""
        if words[:1] not in ([b"GET"], [b"HEAD"]):
            self.answer("405 Method Not Allowed", "text/plain", "there is nothing but GET and HEAD here\n")
        elif path not in KINDS:
            self.answer("404 Not Found", "text/plain", "here are /, /status, /status.json and /metrics\n")
        else:
            kind, form = KINDS[path]
            self.answer("200 OK", kind, self.companion.told(form), words[0] == b"HEAD")

    def answer(self, status, kind, text, is_head=False):
        body = text.encode()
        # what a page of another place asks for isn't shown to it, and the page loads nothing from elsewhere
        head = ("HTTP/1.1 %s\r\nContent-Type: %s; charset=utf-8\r\nContent-Length: %d\r\nCache-Control: no-store\r\nX-Content-Type-Options: nosniff\r\n"
                "Content-Security-Policy: default-src 'none'; connect-src 'self'; style-src 'unsafe-inline'; script-src 'unsafe-inline'\r\n\r\n")
        self.write((head % (status, kind, len(body))).encode() + body * (not is_head))
