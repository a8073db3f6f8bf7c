"""Statements of a text: their numbers, words and signs, and what is wrong with them. A job's text and that of amendments are made of
them: on a line of their own or with ; between them, # begins a comment. Numbers are whole, and may be grouped by threes: 1,000,000 or
1_000_000."""

import re
import unicodedata
from typing import NamedTuple

TOKEN = re.compile(r"[0-9]{1,3}(?:[,_][0-9]{3})+(?![0-9])|[0-9]+|[^\W\d_]\w*|\.\.(?!\.)|[-−–+*·×=,]")
FRACTION = re.compile(r"[0-9][0-9,_]*(?:\.(?!\.)|/|,(?=[0-9]))[0-9]*|\.[0-9]+|/")
COMPARISON = re.compile(r"[<>≤≥≠!]=?|==|=[<>]")
SIGNS = str.maketrans("−–·×", "--**")
NUMBERED = re.compile(r"c[0-9]+")
MOST_HINTS, MOST_NAMES = 50, 1000  # a hint takes a while where there are many names
BETWEEN = " (a ; or a new line stands between statements)"


class Field:
    """What a number has to be: it is packed where it fits its bytes, and taken by the planner where it is in its range."""

    def __init__(self, what, least, most, allowed):
        self.what, self.least, self.most, self.allowed = what, least, most, allowed

    def hold(self, value):
        """The value, if its bytes can hold it."""
        if not self.least <= value <= self.most:
            shown = f"{value:,}" if abs(value) < 10**24 else f"{value:.6e}"
            raise Fault(f"{self.what} is {shown}, and may be {self.allowed}")
        return value


class Grammar(NamedTuple):
    """What the statements of a text have in common."""

    begins: tuple  # the words with which a statement begins
    words: tuple  # these, and the others that have a meaning
    reserved: tuple  # words that no name has
    compared: str  # what is said where a statement compares
    elsewhere: dict  # words with which statements of another text begin, and what is said of them


class Fault(Exception):
    """What is wrong with a statement. Where a word is not known, those that may be meant."""

    def __init__(self, words, word="", known=()):
        super().__init__(words)
        self.words, self.word, self.known = words, word, known

    def told(self, with_hint):
        return self.words + (meant(self.word, self.known) if with_hint and 0 < len(self.known) <= MOST_NAMES else "")


def meant(word, known):
    """A hint, where a known word is nearly the one that stands there."""
    import difflib  # takes as long as all the rest, and only a fault needs it

    near = difflib.get_close_matches(word.lower(), known, 1, 0.7)
    return f" (is '{near[0]}' meant?)" if near and near[0] != word else ""


# ---- tokens


def tokens_of(text, grammar):
    """The numbers, words and signs of a statement."""
    tokens, at = [], 0
    while at < len(text):
        if text[at].isspace():
            at += 1
            continue
        found, fraction, token = COMPARISON.match(text, at), FRACTION.match(text, at), TOKEN.match(text, at)
        if found:
            raise Fault(f"'{found.group()}': {grammar.compared}")
        if text.startswith("...", at) or text[at] == "…":
            raise Fault("two dots stand between low and high: LOW..HIGH")
        if fraction and (not token or fraction.end() > token.end()):
            raise Fault(f"'{fraction.group()}': whole numbers only, grouped by threes with , or _ if at all")
        if text[at].isnumeric() and not text[at].isascii():
            raise Fault(f"'{text[at]}': whole numbers only, in the digits 0 to 9")
        if not token:
            raise Fault(f"'{text[at:].split()[0][:40]}' is not understood")
        tokens.append(token.group().translate(SIGNS))
        at = token.end()
    return tokens


def is_number(token):
    return token[:1].isdigit()


def is_word(token):
    return token[:1].isalpha()


def value_of(token):
    digits = token.replace(",", "").replace("_", "").lstrip("0") or "0"
    # no field holds more than 19 digits; a number of very many is not even converted
    return int(digits[:40])


class Statement:
    """The tokens of a statement, taken from the left."""

    def __init__(self, text, grammar):
        self.tokens, self.at, self.grammar = tokens_of(text, grammar), 0, grammar

    def next(self):
        return self.tokens[self.at] if self.at < len(self.tokens) else ""

    def pop(self):
        self.at += 1
        return self.tokens[self.at - 1]

    def shown(self):
        return f"'{self.next()}'" if self.next() else "the end of the line"

    def take(self, *wanted):
        """Whether the next token is one of those wanted; if so it is taken."""
        if self.next() in wanted:
            self.at += 1
            return True
        return False

    def begin(self):
        """The word with which it begins; nothing where it is empty."""
        word, begins, elsewhere = self.next(), self.grammar.begins, self.grammar.elsewhere
        if word and not self.take(*begins):
            hint = f" ({elsewhere[word]})" if word in elsewhere else ""
            raise Fault(f"unknown word {self.shown()}: a line begins with {' or '.join(begins)}{hint}", word, begins)
        return word

    def sign(self):
        """-1 for a minus; 1 for a plus, or for no sign."""
        if self.take("-"):
            return -1
        self.take("+")
        return 1

    def number(self, field):
        """The next number, with its sign; it has to fit its field."""
        sign = self.sign()
        if not is_number(self.next()):
            raise Fault(f"the number for {field.what} is missing before {self.shown()}")
        return field.hold(sign * value_of(self.pop()))

    def bounds(self, low, high):
        """LOW..HIGH"""
        least = self.number(low)
        if not self.take(".."):
            next_is_name = is_number(self.next()) or is_word(self.next())
            hint = " (each word of a name begins with a letter)" if next_is_name else ""
            raise Fault(f"'..' is missing between low and high, before {self.shown()}{hint}")
        return least, self.number(high)

    def name(self):
        """The words of a name; empty where there is none."""
        words = []
        while is_word(self.next()) and self.next() not in self.grammar.reserved:
            words.append(self.pop())
        return " ".join(words)

    def end(self):
        """Nothing may follow."""
        word = self.next()
        if word == ".." and "," in self.tokens[self.at - 1]:
            before = self.tokens[self.at - 1]
            raise Fault(f"'..' is not expected here ({before} is one number: a blank stands after a comma between counts)")
        if word:
            raise Fault(f"{self.shown()} is not expected here{BETWEEN if word in self.grammar.begins else ''}", word, self.grammar.words)


# ---- a whole text


class Reader:
    """Reads all statements of a text, and keeps the faults and the warnings by their lines."""

    def __init__(self):
        self.faults, self.warnings = {}, {}  # by line and words; each is told once

    def attempt(self, line, act, *words):
        try:
            return act(line, *words)
        except Fault as fault:
            self.faults.setdefault((line, fault.words), fault)

    def warning(self, line, words, reason=0):
        self.warnings[line, words + (f"; the planner refuses this, reason {reason}" if reason else "")] = True

    def told(self):
        """The faults and the warnings, each with its line and in the order of the lines."""
        faults = sorted(self.faults.items(), key=lambda item: item[0][0])
        return [(line, fault.told(place < MOST_HINTS)) for place, ((line, _), fault) in enumerate(faults)], sorted(self.warnings)


def lines_of(text):
    """Each line with its number, and its statements without their comments."""
    for line, content in enumerate(unicodedata.normalize("NFC", text).split("\n"), 1):
        yield line, content, content.split("#", 1)[0].split(";")


def begins(text, words):
    """Whether some line begins with one of the words."""
    return any(line.split()[:1] == [word] for line in text.splitlines() for word in words)
