"""The services that tests/cluster runs: what their clients ask for, what has to come of that in the order in which requests took the lock, by a few plain lines
that know nothing of the service's text, and bugs that are planted in these texts."""
import asyncio
import collections
import math
import os

from .agreement import Wrong, demand

TOP = os.path.dirname(os.path.dirname(os.path.dirname(os.path.abspath(__file__))))

LOCKS = """lanes 4
lock A
var owner on A = 0
var token on A = 0
lock B
var total on B = 0
handler take who
acquire A
let r = 0
if owner == 0
set owner = who
set token = token + 1
let r = token
endif
release A
reply r
handler give who
acquire A
let r = 0
if owner == who
set owner = 0
let r = 1
endif
release A
reply r
handler add x
acquire B
set total = total + x
let r = total
clock t
random d
release B
reply r
"""


class WrongReply(Wrong):
    """A reply isn't what the service promises."""


def promised(is_so, text, *parts):
    if not is_so:
        raise WrongReply(text % parts)


class Service:
    """A service. `step` takes one operation after another, and says in a word what it did; each of `outcomes` has to happen in some run."""
    outcomes = ()

    def text(self):
        with open(f"{TOP}/examples/services/{self.name}.service", encoding="ascii") as file:
            return file.read()

    async def turn(self, client):
        """What a client does, again and again."""

    def step(self, it):
        raise NotImplementedError


class Locks(Service):
    """A lock, and a sum."""
    name = "locks"

    def text(self):
        return LOCKS

    async def turn(self, client):
        if client.number % 2:
            await client.request(f"add {client.dice.randrange(1, 100)}")
            return
        token = await client.request(f"take {client.number}")
        if token:
            await client.hold(token)
            demand(await client.request(f"give {client.number}") == 1, "client %d took the lock, and doesn't hold it", client.number)

    def step(self, it):
        """By the times at which clients hold the lock it is checked, and by the rules alone."""


class Leases(Service):
    """One lease at a time, by the clock that requests read; each with a greater token than all before."""
    name, outcomes = "leases", ("lent", "kept from", "renewed", "given", "ended")
    most = 60000

    def __init__(self):
        self.tokens, self.ends = [0], -math.inf  # of all leases; when the last one ends

    async def turn(self, client):
        dice = client.dice
        # a long one can be renewed and given back on a slow machine, too; now and then that is tried with the token before
        token = await client.request("take %d %d" % (client.number, dice.choice([50, 200, 500, 1000, self.most + 1])))
        if not token:
            await asyncio.sleep(0.05 * dice.random())
            return
        for _ in range(dice.choice([0, 1, 2, 2])):
            await asyncio.sleep(0.1 * dice.random())
            await client.request("renew %d %d" % (token - dice.choice([0, 0, 1]), dice.choice([50, 200, 1000, self.most + 1])))
        # some never give it back
        if dice.random() < 0.7:
            await client.request("give %d" % (token - dice.choice([0, 0, 0, 1])))

    def step(self, it):
        first, millis = it.arguments[0], it.arguments[-1]
        if it.handler == "take":
            is_free = it.clock >= self.ends
            if it.reply == 0:
                promised(not is_free or millis > self.most, "nobody has the lease, and %s", it)
                return "kept from"
            promised(is_free, "a lease ends at %s, and %s", self.ends, it)
            promised(it.reply > self.tokens[-1] and millis <= self.most, "the last token is %d, and %s", self.tokens[-1], it)
            self.tokens.append(it.reply)
            self.ends = it.clock + millis
            return "lent"
        has_it = first == self.tokens[-1] and it.clock < self.ends
        is_due = has_it and (it.handler == "give" or millis <= self.most)
        promised(it.reply == is_due, "the lease of token %d ends at %s, and %s", self.tokens[-1], self.ends, it)
        if not is_due:
            return "ended"
        self.ends = it.clock if it.handler == "give" else it.clock + millis
        return {"give": "given", "renew": "renewed"}[it.handler]


class Queue(Service):
    """First in, first out, and never more than so many."""
    name, outcomes = "queue", ("put", "full", "taken", "empty")
    most = 4

    def __init__(self):
        self.items = collections.deque()

    async def turn(self, client):
        # sometimes one side is faster
        is_putting = client.dice.random() < (0.9 if client.number % 2 else 0.1)
        item = client.number * 1000000 + client.sequence if client.dice.random() < 0.95 else -1
        reply = await client.request("put %d" % item if is_putting else "take")
        if reply == (0 if is_putting else -1):
            await asyncio.sleep(0.1 * client.dice.random())

    def step(self, it):
        items = self.items
        if it.handler == "take":
            promised(it.reply == (items[0] if items else -1), "the queue is %s, and %s", list(items), it)
            return "taken" if items and items.popleft() >= 0 else "empty"
        is_due = len(items) < self.most and it.arguments[0] >= 0
        promised(it.reply == (len(items) + 1 if is_due else 0), "the queue is %s, and %s", list(items), it)
        if not is_due:
            return "full"
        items.append(it.arguments[0])
        return "put"


class Bank(Service):
    """What all accounts have stays, and none is below 0."""
    name, outcomes = "bank", ("moved", "refused", "balance", "total")

    def __init__(self):
        self.accounts = {1: 100, 2: 100, 3: 100}

    async def turn(self, client):
        dice = client.dice
        transfer = "transfer %d %d %d" % (dice.choice([1, 1, 2, 2, 3, 3, 0]), dice.choice([1, 1, 2, 2, 3, 3, 4]), dice.choice([1, 10, 60, 150, 0, -5]))
        await client.request(dice.choice([transfer, transfer, transfer, "balance %d" % dice.randrange(5), "total"]))

    def step(self, it):
        accounts = self.accounts
        if it.handler != "transfer":
            promised(it.reply == (300 if it.handler == "total" else accounts.get(it.arguments[0], 0)), "the accounts have %s, and %s", accounts, it)
            return it.handler
        from_, to, amount = it.arguments
        is_due = from_ in accounts and to in accounts and 0 < amount <= accounts[from_]
        promised(it.reply == is_due, "the accounts have %s, and %s", accounts, it)
        if is_due:
            accounts[from_] -= amount
            accounts[to] += amount
        return "moved" if is_due else "refused"


class Limiter(Service):
    """From any leave to any later one at most ten, and five for each second between them; and leave is given where that allows it."""
    name, outcomes = "limiter", ("leave", "later", "never")
    most, rate = 10, 5  # leaves at once, and for each second

    def __init__(self):
        self.given = []  # when, and how many

    async def turn(self, client):
        millis = await client.request("ask %d" % client.dice.choice([1, 1, 1, 2, 5, 10, 11, 0]))
        if millis > 0:
            # some ask again too early
            await asyncio.sleep(min(millis, 500) / 1000 * client.dice.random() * 1.5)

    def wait_for(self, count, clock):
        """After how many milliseconds so many leaves may be given."""
        wait = 0
        for at, given in reversed(self.given):
            count += given
            wait = max(wait, at - clock + math.ceil((count - self.most) * 1000 / self.rate))
        return wait

    def step(self, it):
        (count,) = it.arguments
        due = self.wait_for(count, it.clock) if 1 <= count <= self.most else -1
        promised(it.reply == due, "%s, and %d is due, behind %s", it, due, self.given[-12:])
        if due == 0:
            self.given.append((it.clock, count))
        return "leave" if due == 0 else "later" if due > 0 else "never"


SERVICES = {it.name: it for it in (Locks, Leases, Queue, Bank, Limiter)}

# bugs of services: in which, what stands there once, and what stands there in its place
BUGS = {
    "lent-twice": ("leases", "let free = now >= expiry", "let free = 1"),
    "given-in-vain": ("leases", "set owner = 0\nset expiry = now", "set owner = 0"),
    "one-token": ("leases", "set token = token + 1", "set token = 1"),
    "renewed-by-another": ("leases", "let live = mine == token * live", "let live = mine <= token * live"),
    "longer-queue": ("queue", "length < 4", "length < 5"),
    "last-out-first": ("queue", "let r = first", "let r = second"),
    "overdrawn": ("bank", "let r = have >= amount * r", "let r = r"),
    "not-taken-off": ("bank", "let out = from == 2", "let out = 0"),
    "unlimited": ("limiter", "set level = level - cost", "set level = level - count"),
    "overfull": ("limiter", "set level = 10000", "set level = 12000"),
}


def text_of(service, bug):
    """A service's text, with a bug, where there is one of this name."""
    text = service.text()
    if bug in BUGS:
        _, old, new = BUGS[bug]
        assert text.count(old) == 1, f"what {bug} replaces isn't there once"
        text = text.replace(old, new)
    return text
