"""What each code of a refusal says: where it is answered, and what mostly lies behind it.

docs/LANGUAGE.md and docs/SCENARIOS.md show this table; scripts/compare-codes compares them with it. `explanation` is what
scripts/run-program adds to a refusal."""
import os
import re
import shutil
import sys
import textwrap

LANGUAGE, SCENARIOS = "docs/LANGUAGE.md", "docs/SCENARIOS.md"

# for each code where it is refused, and what it often comes from
SERVICE = {
    "P1": (
        "a byte isn't allowed, in a comment too",
        "letters with accents, typographic quotes or dashes, or a CR that doesn't end a line",
    ),
    "P2": (
        "the first word is unknown or stands in the wrong place (a declaration inside a handler, a handler's line outside), or it closes or"
        " divides another block than the innermost open one: `endtry` before `busy`, a second `else` or `busy`, `endif` with nothing open",
        "a misspelt word, a handler above that has no `reply` yet, lines behind a `reply`, or a scenario handed to `rex check`, which reads"
        " a service alone",
    ),
    "P3": (
        "the number of words or a fixed word is wrong; a fifth parameter",
        "`=`, `on` or `while` left out, an expression left out, or operators without spaces around them",
    ),
    "P4": (
        "a word isn't a name where one is due",
        "a word of the language as a name, a name that begins with a digit or `_`, one with a hyphen, or one of more than 32 characters",
    ),
    "P5": (
        "a word isn't a number in range where one is due; an operand that begins with a digit or `-` isn't a signed 64-bit number",
        "leading zeros, `-0`, a minus right before a name, an operator right behind a number, more than 64 lanes, a semaphore that begins "
        "above 1,000,000, or more than 1,000 turns of a `repeat`",
    ),
    "P6": (
        "an expression has an even number of words, an unknown operator, more than eight operands, or an operand that is neither a name nor"
        " begins with a digit or `-`",
        "parentheses, of which there are none, two operands without an operator, operators without spaces around them, or `and`, `or` and "
        "`!`, which aren't there either; put parts into a `let` of their own",
    ),
    "P7": (
        "a name isn't declared above, nor is it a parameter or local",
        "a misspelt name, a declaration that stands below, or a local that is made on this very line",
    ),
    "P8": (
        "a name is there, but isn't of the kind that is due: `share` of a plain lock, `try` or `cond` on a readers-writer lock, `down` of a"
        " lock, `set` of a local, `let` of a variable, a handler's own name in its lines",
        "`set` and `let` mixed up, or a lock that should be an `rwlock` or a plain one",
    ),
    "P9": (
        "a name that a declaration makes is taken already; a parameter that has its handler's name or that of another parameter",
        "locks, semaphores, conditions, variables and handlers share one space of names",
    ),
    "P10": (
        "a fifth `repeat` inside four",
        "a loop that is better written as one with a greater count",
    ),
    "P11": (
        "one lock, semaphore, condition, variable, handler, local or line of a handler too many",
        "parameters count as locals, and block words and `reply` as lines",
    ),
    "P12": (
        "the first line that isn't skipped isn't `lanes`, or `lanes` comes again",
        "a service that begins with its locks",
    ),
    "P13": (
        "`reply` inside an open block",
        "an early reply: put its value into a local, and reply once at the end",
    ),
    "P14": (
        "the text ends inside a handler, or has none; the line is the last one's number plus 1",
        "a last handler without `reply`",
    ),
}
CHECK = {
    "C1": (
        "an expression reads a variable whose lock isn't held",
        "a variable that is read behind the `release`, as in `reply`: read it into a local before",
    ),
    "C2": (
        "`set` of a variable whose lock isn't held exclusively",
        "a `set` under `share`, which lets one read alone",
    ),
    "C3": (
        "`release` of a lock that isn't held",
        "a lock that only one branch has taken, or the branch of `busy`, in which the lock of the `try` isn't held",
    ),
    "C4": (
        "`acquire` or `share` of a lock that isn't declared after all held ones; `try` of one that is held",
        "locks are taken in the order of their declarations, so another order of declarations may help; a shared hold can't be raised to an"
        " exclusive one",
    ),
    "C5": (
        "the two branches of an `if` or a `try` end with different locksets (an absent `else` ends as it began; the lock of a `try` is held"
        " at the begin of its first branch alone)",
        "a lock that one branch takes or gives up and the other doesn't; the first branch of a `try` without `release`",
    ),
    "C6": (
        "a loop's lines end with another lockset than they began with",
        "a `release` that stands behind `endrepeat`",
    ),
    "C7": (
        "a lock is held at `reply`",
        "a `release` left out: note the value in a local, give the lock up, then reply",
    ),
    "C8": (
        "`wait` where the lockset isn't exactly its condition's lock; `signal` or `broadcast` without that lock",
        "a `wait` that holds a second lock, or a `signal` behind the `release`",
    ),
    "C9": (
        "the bound on steps is above 100,000",
        "loops inside loops: their counts multiply",
    ),
    "C10": (
        "`down` where a lock is held",
        "a `down` behind the `acquire`: take the semaphore down first, then the lock",
    ),
}
# where each code of the check is answered
AT = {"C5": "`endif`, `endtry`", "C6": "`endrepeat`", "C9": "the `handler` line, after all its lines"}
SCENARIO = {
    "S1": (
        "the input has more than 4,194,304 bytes; the line is 0, and this comes before all others, also in `rex check`",
        "another file than was meant",
    ),
    "S2": (
        "a byte isn't allowed, outside the service",
        "letters with accents, typographic quotes or dashes, or a CR that doesn't end a line",
    ),
    "S3": (
        "a line that begins with `%` isn't one that is due, another line stands before `%service`, or the text ends before `%schedule` "
        "(then the line is the last one's number plus 1)",
        "a heading misspelt or out of order (`%nodes`, `%seed`, `%service`, `%requests`, `%schedule`; only `%seed` may be left out), or a "
        "service alone handed to `rex run`",
    ),
    "S4": (
        "the words or the number of a `%` line are wrong",
        "a number of nodes other than 1, 3, 5, 7 or 9",
    ),
    "S5": (
        "a request's words aren't of the form or in their ranges",
        "client or sequence left out (`CLIENT SEQUENCE HANDLER ARGUMENT..`), or one of them 0",
    ),
    "S6": (
        "a request names no handler, or has the wrong number of arguments",
        "a misspelt handler",
    ),
    "S7": (
        "an earlier request has the same client and sequence",
        "a copied line; to hand in a request again, `submit` it again in the schedule",
    ),
    "S8": (
        "a schedule line isn't of any of its forms, a number in it is above 2^64 - 1, or a limit above 4,294,967,295. So is a `keepfail` with "
        "another last word than `kept` or `lost`, a `checkpoint` with another one than `old`, and a `read` whose client isn't 1 to 256 or "
        "whose NAME isn't a name",
        "a misspelt word, a number too many or too few (`submit NODE REQUEST`, `lane NODE LANE`, `read NODE CLIENT NAME`), or, for `rexlive`, "
        "any schedule line at all",
    ),
    "S9": (
        "a schedule line past the 100,000th",
        "a schedule that is made up by a program",
    ),
    "S10": (
        "a node, lane or request that isn't there, a name that is no variable's, a node that asks itself, or message 0",
        "node and lane or request changed over; all of them count from 1",
    ),
    "S11": (
        "a request past the 65,536th",
        "requests that are made up by a program",
    ),
    "S12": (
        "a cut has limits, but not one for each lane",
        "limits of the lanes without events left out: they are 0",
    ),
    "S13": (
        "a checkpoint in version 1, where the service has more than 16 lanes or 256 variables",
        "`old` left over from a smaller service: `checkpoint N` takes each",
    ),
    "W1": (
        "of `rexlive --words` alone: the service's first `rwlock`, `cond` or `sem`; this comes after all lines are read, and before the check",
        "a service for `rexlive` without `--words`, which takes them all",
    ),
}
PLACES = [(SERVICE, LANGUAGE, "Refusals"), (CHECK, LANGUAGE, "The check"), (SCENARIO, SCENARIOS, "Refusals")]

REFUSED = re.compile(rb"refused (?:handler (\w+) )?line (\d+) ([PCSW]\d+)\n")


def tables():
    """The tables of codes, each with the document that shows it."""
    for codes, document, _ in PLACES:
        extra = codes is CHECK
        lines = ["| code | refused where | at | often |" if extra else "| code | refused where | often |", "|---|---|---|---|" if extra else "|---|---|---|"]
        for code, (where, often) in codes.items():
            cells = [code, where, *([AT.get(code, "the line")] if extra else []), often]
            lines.append("| %s |" % " | ".join(cells))
        yield document, lines


def line_of(text, number):
    """The line of a text as it may be shown: without its line break, with a question mark for each byte that isn't allowed."""
    lines = text.split(b"\n")
    if lines[-1] == b"":
        lines.pop()
    if not 1 <= number <= len(lines):
        return None
    shown = "".join(chr(byte) if byte == 9 or 32 <= byte <= 126 else "?" for byte in lines[number - 1].rstrip(b"\r"))
    return shown if len(shown) <= 200 else shown[:200] + " .."


def lockset(held):
    return ", ".join(name + ("" if is_exclusive else " (shared)") for name, is_exclusive in held.items()) or "no lock"


def is_scenario(text):
    return text.lstrip().startswith(b"%") or b"\n%" in text


def held_at(text, handler, number, code):
    """What is held at the line of a handler that the check refuses with this code, by tests/model; None where that doesn't tell."""
    from model.check import Flow, Unchecked
    from model.scenarios import read
    from model.services import read_service
    from model.texts import Refused
    try:
        service = read(text).service if is_scenario(text) else read_service(text)
        flow = Flow(service, service.handlers[handler])
        flow.go()
    except Unchecked as unchecked:
        if not str(unchecked).endswith(f" line {number} {code}"):
            return None
        place = flow.handler.numbers.index(number)
        other = {"C5": "; the other branch ends with: %s", "C6": "; the loop began with: %s"}.get(code)
        begun = flow.before.get(flow.handler.blocks.get(place, (None,))[0])
        return lockset(flow.held) + (other % lockset(flow.other_end(place) if code == "C5" else begun) if other else "")
    except (Refused, KeyError):
        pass
    return None


def explanation(text, answer):
    """What may be said of an answer that refuses a text, or an empty text."""
    refused = REFUSED.fullmatch(answer)
    if not refused:
        return ""
    number, code = int(refused[2]), refused[3].decode()
    codes, document, heading = next(place for place in PLACES if code in place[0])
    where, often = codes[code]
    line = line_of(text, number)
    parts = [f"line {number}: {line}" if line is not None else f"line {number} is behind the last one" if number else "the whole input", f"{code}: {where}"]
    # its readers take long to load
    from reasons import bound_of, reasons
    held = held_at(text, refused[1].decode(), number, code) if refused[1] else None
    parts += [f"held there: {held}"] if held else []
    parts += [f"here: the bound is {bound_of(text, refused[1].decode()):,}"] if code == "C9" else []
    parts += [f"here: {reason}" for reason in reasons(text, number, code)]
    parts += [f"often: {often}", f"read on: {document}, \"{heading}\""]
    width = max(40, min(shutil.get_terminal_size().columns, 120))
    return "".join(textwrap.fill(part, width, subsequent_indent="    ", break_long_words=False) + "\n" for part in parts)
