"""Lines, words, names and numbers of a text."""
import re

MOST_BYTES = 4194304
RESERVED = set("lanes lock rwlock sem cond on var handler acquire share release try busy endtry wait while signal broadcast down up "
               "set let clock random if else endif repeat endrepeat reply".split())


class Refused(Exception):
    """A line that is refused, with its code."""

    def __init__(self, line, code):
        super().__init__("refused line %d %s" % (line, code))


def lines_of(text):
    """The lines of a text, without their line breaks."""
    lines = text.split(b"\n")
    last = lines.pop()
    lines = [line[:-1] if line.endswith(b"\r") else line for line in lines]
    return lines + [last] if last else lines


def is_allowed(line):
    return re.fullmatch(rb"[\t -~]*", line) is not None


def words_of(line):
    return [word for word in line.decode("latin-1").replace("\t", " ").split(" ") if word]


def is_skipped(words):
    return not words or words[0][0] == "#"


def is_name(word):
    return word[0].isalpha() and all(letter.isalnum() or letter == "_" for letter in word) and len(word) <= 32 and word not in RESERVED


def is_number_like(word):
    """Whether a word is a number where an operand is due, be it a good one or not."""
    return word[0] == "-" or word[0].isdigit()


def natural(word, least=0, most=2 ** 64 - 1):
    """The number in this range that a word spells, or None."""
    spelled = word.isdigit() and (word == "0" or word[0] != "0") and len(word) <= 20
    return int(word) if spelled and least <= int(word) <= most else None


def signed(word):
    """The signed 64-bit number that a word spells, or None."""
    digits = word[1:] if word[:1] == "-" else word
    if not digits.isdigit() or (digits[0] == "0" and word != "0") or len(digits) > 19:
        return None
    return int(word) if -2 ** 63 <= int(word) < 2 ** 63 else None
