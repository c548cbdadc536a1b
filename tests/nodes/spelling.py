"""Bytes: of deltas, messages, frames and identities, written and read."""
import hashlib
import struct

from model.cluster import Message
from model.states import Event, causes_of

KINDS = {
    "begin": 1, "acquire": 2, "share": 3, "release": 4, "release shared": 5, "ok": 6, "busy": 7, "wait": 8, "wake": 9, "signal": 10, "broadcast": 11,
    "clock": 12, "random": 13, "reply": 14, "down": 15, "up": 16,
}
NAMES = {number: name for name, number in KINDS.items()}
MESSAGES = {"prepare": 1, "promise": 2, "accept": 3, "accepted": 4, "chosen": 5, "nack": 6, "ask": 7, "snapshot": 8}
ROLES = {"follower": 0, "candidate": 1, "adopting": 2, "active": 3}


# ---- deltas

class Value(list):
    """The events of a delta, with its bytes."""

    def __init__(self, events, bytes_):
        super().__init__(events)
        self.bytes = bytes_


def delta_bytes(events, service, bases):
    """The bytes of events, before which the lanes have made so many."""
    version = 2 if any(event.semaphore for event in events) else 1
    parts = [struct.pack(">BB", version, len(bases))] + [struct.pack(">I", base) for base in bases] + [struct.pack(">H", len(events))]
    for event, causes in zip(events, causes_of(events)):
        parts.append(struct.pack(">BB", event.lane, KINDS[event.kind]) + parts_of(event, service))
        parts.append(struct.pack(">B", len(causes)) + b"".join(struct.pack(">BI", *cause) for cause in causes))
    return b"".join(parts)


def parts_of(event, service):
    """The bytes of what an event has."""
    kind = KINDS[event.kind]
    if kind == 1:
        handler = list(service.handlers).index(event.handler) + 1
        return struct.pack(">HIBB%dq" % len(event.arguments), event.client, event.sequence, handler, len(event.arguments), *event.arguments)
    if kind <= 7:
        return struct.pack(">B", service.locks.index(event.lock) + 1)
    if kind <= 11:
        condition = list(service.lock_of).index(event.condition) + 1
        if kind <= 9:
            return struct.pack(">BB", condition, service.locks.index(event.lock) + 1)
        if kind == 10:
            return struct.pack(">BB", condition, event.woken[0] if event.woken else 0)
        return struct.pack(">BQ", condition, sum(1 << lane - 1 for lane in event.woken))
    if kind == 12:
        return struct.pack(">q", event.value)
    if kind == 13:
        return struct.pack(">I", event.value)
    if kind == 14:
        return struct.pack(">Hq", event.client, event.value)
    return struct.pack(">B", list(service.semaphores).index(event.semaphore) + 1)


class Reader:
    """Numbers at the front of bytes, one after another."""

    def __init__(self, bytes_):
        self.bytes, self.at = bytes_, 0

    def take(self, form):
        (value,) = struct.unpack_from(">" + form, self.bytes, self.at)
        self.at += struct.calcsize(">" + form)
        return value


def events_of(value, service):
    """The events of a delta's bytes."""
    reader, events = Reader(value), []
    locks, conditions, semaphores, handlers = service.locks, list(service.lock_of), list(service.semaphores), list(service.handlers)
    assert reader.take("B") in (1, 2), "a delta of another version"
    counts = [reader.take("I") for _ in range(reader.take("B"))]
    for _ in range(reader.take("H")):
        lane, kind = reader.take("B"), reader.take("B")
        parts = {}
        if kind == 1:
            parts = {"client": reader.take("H"), "sequence": reader.take("I"), "handler": handlers[reader.take("B") - 1]}
            parts["arguments"] = [reader.take("q") for _ in range(reader.take("B"))]
        elif kind <= 7:
            parts = {"lock": locks[reader.take("B") - 1]}
        elif kind <= 9:
            parts = {"condition": conditions[reader.take("B") - 1], "lock": locks[reader.take("B") - 1]}
        elif kind <= 11:
            parts = {"condition": conditions[reader.take("B") - 1]}
            woken = reader.take("B" if kind == 10 else "Q")
            parts["woken"] = ([woken] if woken else []) if kind == 10 else [lane for lane in range(1, 65) if woken >> lane - 1 & 1]
        elif kind <= 13:
            parts = {"value": reader.take("q" if kind == 12 else "I")}
        elif kind == 14:
            parts = {"client": reader.take("H"), "value": reader.take("q")}
        else:
            parts = {"semaphore": semaphores[reader.take("B") - 1]}
        events.append(Event(lane, counts[lane - 1], NAMES[kind], **parts))
        counts[lane - 1] += 1
        for _ in range(reader.take("B")):
            reader.take("B"), reader.take("I")
    assert reader.at == len(value), "bytes behind a delta"
    return events


# ---- messages

def message_bytes(m):
    head = struct.pack(">BBBB", 1, MESSAGES[m.kind], m.sender, m.receiver)
    if m.kind == "prepare":
        return head + struct.pack(">QI", m.ballot, m.first)
    if m.kind == "promise":
        proposals = [struct.pack(">IQI", instance, ballot, len(value.bytes)) + value.bytes for instance, ballot, value in m.proposals]
        return head + struct.pack(">QH", m.ballot, len(proposals)) + b"".join(proposals)
    if m.kind == "accept":
        return head + struct.pack(">QII", m.ballot, m.instance, len(m.value.bytes)) + m.value.bytes
    if m.kind == "accepted":
        return head + struct.pack(">QI", m.ballot, m.instance)
    if m.kind == "chosen":
        return head + struct.pack(">II", m.instance, len(m.value.bytes)) + m.value.bytes
    if m.kind == "nack":
        return head + struct.pack(">QQ", m.ballot, m.promised)
    return head + struct.pack(">I", m.first)


def message_of(bytes_, service):
    """The message that these bytes are. struct.error, LookupError or AssertionError where they are none."""
    reader = Reader(bytes_)

    def value():
        delta = reader.take("%ds" % reader.take("I"))
        return Value(events_of(delta, service), delta)

    assert reader.take("B") == 1, "a message of another version"
    kind, sender, receiver, parts = {number: name for name, number in MESSAGES.items()}[reader.take("B")], reader.take("B"), reader.take("B"), {}
    if kind not in ("chosen", "ask", "snapshot"):
        parts["ballot"] = reader.take("Q")
    if kind == "promise":
        parts["proposals"] = [(reader.take("I"), reader.take("Q"), value()) for _ in range(reader.take("H"))]
    elif kind == "nack":
        parts["promised"] = reader.take("Q")
    else:
        parts["first" if kind in ("prepare", "ask") else "instance"] = reader.take("I")
    if kind in ("accept", "chosen"):
        parts["value"] = value()
    assert kind != "snapshot" and reader.at == len(bytes_), "no message of a process"
    return Message(kind, sender, receiver, **parts)


def chosen_bytes(sender, receiver, instance, value):
    """The message that these bytes are the value of an instance."""
    return struct.pack(">BBBBII", 1, MESSAGES["chosen"], sender, receiver, instance, len(value)) + value


# ---- frames

def framed(letter, content=b""):
    return struct.pack(">I", len(letter) + len(content)) + letter + content


def frames_in(bytes_):
    """The whole frames at the front of bytes, and where they end."""
    frames, at = [], 0
    while at + 4 <= len(bytes_):
        (length,) = struct.unpack_from(">I", bytes_, at)
        if at + 4 + length > len(bytes_):
            break
        frames.append(bytes_[at + 4:at + 4 + length])
        at += 4 + length
    return frames, at


def joined(frames):
    return b"".join(framed(frame) for frame in frames)


def shown(bytes_):
    """Answers in words."""
    return "; ".join(map(frame_shown, frames_in(bytes_)[0]))


def frame_shown(frame):
    letter, content = frame[:1], frame[1:]
    if letter == b"e":
        return content.decode("latin-1")
    if letter == b"z" and len(content) == 17:
        role, promised, known, live = struct.unpack(">BQII", content)
        return "%s promised %d known %d live %d" % (list(ROLES)[role] if role < 4 else role, promised, known, live)
    if letter == b"t" and len(content) > 4:
        return "to %d: %s" % (content[0], message_shown(content[1:]))
    return "%s %s" % (letter.decode("latin-1"), content[:40].hex())


def message_shown(bytes_):
    names = {number: name for name, number in MESSAGES.items()}
    return "%s of %d, %d bytes, %s" % (names.get(bytes_[1], bytes_[1]), bytes_[2], len(bytes_), bytes_[4:30].hex())


# ---- identities

def identity_bytes(number, nodes, seed, cluster, service):
    """The record that says whose a journal is."""
    return struct.pack(">BBBBI", 7, 1, number, nodes, seed) + hashlib.sha256(service).digest() + bytes([len(cluster)]) + cluster.encode()
