"""Conditions in words, compiled to the elements of Tcondbreak.

    or       := and { "or" and }
    and      := not { "and" not }
    not      := "not" not | compare
    compare  := bits [ ("==" | "!=") bits ]
    bits     := value { "&" value }
    value    := NUMBER | "pid" | "word" "[" or "]" | "(" or ")"

`pid` stands only in `pid == N` and `pid != N`. Numbers are decimal or 0x. The stack begins with a 1, so every compiled
condition ends with `a`, which joins it with that.
"""

from __future__ import annotations

import re
from dataclasses import dataclass
from typing import Callable, NoReturn

from .errors import CommandError

MOST = 64
PLACES = 128
LARGEST = 0xFFFFFFFF
JOIN = "a"


@dataclass(frozen=True)
class Element:
    """One element: its letter, and the value of k and p."""

    op: str
    value: int = 0

    def __str__(self) -> str:
        return {"k": f"k {self.value}", "p": f"p {self.value:#x}"}.get(self.op, self.op)


@dataclass(frozen=True)
class Token:
    text: str
    at: int


@dataclass(frozen=True)
class Part:
    """A compiled part: its elements, where it stands, and whether it is the word pid or a plain number."""

    elements: tuple[Element, ...]
    token: Token
    pid: bool = False
    number: int | None = None


_TOKEN = re.compile(r"\s*(?:(0[xX][0-9a-fA-F]+|[A-Za-z0-9_]+)|(==|!=|[&\[\]()])|(\S))")
_HINTS = {"=": "equal is written =="} | dict.fromkeys("<>", "only == and != compare: the head knows no order")
_WORDS = {"or", "and", "not", "pid", "word"}


def tokens_of(line: str, start: int = 0) -> list[Token]:
    """The tokens of a line from a place on; an unknown character is refused."""
    tokens, at = [], start
    while (match := _TOKEN.match(line, at)) and match.group().strip():
        token = Token(match.group().strip(), match.start() + len(match.group()) - len(match.group().lstrip()))
        if match.group(3):
            refuse(_HINTS.get(token.text, f"{token.text!r} is no part of a condition"), token)
        tokens.append(token)
        at = match.end()
    return tokens


def refuse(text: str, token: Token) -> NoReturn:
    raise CommandError(text, token.at, max(len(token.text), 1))


def number_of(token: Token, most: int = LARGEST) -> int:
    """A number from 0 to most."""
    try:
        value = int(token.text, 16) if token.text[:2].lower() == "0x" else int(token.text, 10)
    except ValueError:
        refuse(f"{token.text!r} is no number", token)
    if value > most:
        refuse(f"{token.text} is too large: at most {most:#x}", token)
    return value


class Compiler:
    """Goes over the tokens once, from left to right."""

    def __init__(self, tokens: list[Token], end: int) -> None:
        self._tokens = tokens
        self._at = 0
        self._end = Token("", end)

    def _next(self) -> Token:
        return self._tokens[self._at] if self._at < len(self._tokens) else self._end

    def _take(self, text: str) -> Token | None:
        token = self._next()
        if token.text != text:
            return None
        self._at += 1
        return token

    def _demand(self, text: str, opened: Token) -> None:
        if self._take(text) is None:
            token = self._next()
            refuse(f"{text!r} is missing: {opened.text!r} was opened", token)

    def whole(self) -> tuple[Element, ...]:
        """The elements of the condition that takes up all the tokens."""
        part = self._settled(self._or())
        if self._next() is not self._end:
            refuse(f"{self._next().text!r} is not expected here", self._next())
        return part.elements

    def _or(self) -> Part:
        return self._joined(self._and, "or", "o")

    def _and(self) -> Part:
        return self._joined(self._not, "and", "a")

    def _joined(self, inner: Callable[[], Part], word: str, op: str) -> Part:
        part = inner()
        while self._take(word):
            other = inner()
            elements = self._settled(part).elements + self._settled(other).elements + (Element(op),)
            part = Part(elements, part.token)
        return part

    def _not(self) -> Part:
        token = self._take("not")
        if token is None:
            return self._compare()
        return self._negated(self._settled(self._not()))

    def _negated(self, part: Part) -> Part:
        """True where the part is zero."""
        return Part(part.elements + (Element("p", 0), Element("=")), part.token)

    def _compare(self) -> Part:
        part = self._bits()
        token = self._take("==") or self._take("!=")
        if token is None:
            return part
        other = self._bits()
        if self._next().text in ("==", "!="):
            refuse("compare two values at a time; join comparisons with `and` or `or`", self._next())
        if part.pid or other.pid:
            return self._compare_pid(part, other, token)
        return Part(part.elements + other.elements + (Element("=" if token.text == "==" else "!"),), part.token)

    def _compare_pid(self, part: Part, other: Part, token: Token) -> Part:
        word, number = (part, other) if part.pid else (other, part)
        if number.number is None:
            refuse("pid can only be compared with a number", number.token)
        found = Part((Element("k", number.number),), word.token)
        return found if token.text == "==" else self._negated(found)

    def _bits(self) -> Part:
        part = self._value()
        while self._take("&"):
            other = self._value()
            elements = self._settled(part).elements + self._settled(other).elements + (Element("&"),)
            part = Part(elements, part.token)
        return part

    def _value(self) -> Part:
        token = self._next()
        if token is self._end:
            refuse("the condition ends too early", token)
        self._at += 1
        if token.text == "pid":
            return Part((), token, pid=True)
        if token.text == "word":
            return self._word(token)
        if token.text == "(":
            part = self._or()
            self._demand(")", token)
            return part
        if token.text in _WORDS or not token.text[0].isalnum():
            refuse(f"a value is expected, not {token.text!r}", token)
        value = number_of(token)
        return Part((Element("p", value),), token, number=value)

    def _word(self, token: Token) -> Part:
        opened = self._take("[")
        if opened is None:
            refuse("word needs an address: word[0x1008]", self._next() if self._next().text else token)
        inner = self._settled(self._or())
        self._demand("]", opened)
        return Part(inner.elements + (Element("*"),), token)

    def _settled(self, part: Part) -> Part:
        """A part that has a value: pid alone has none."""
        if part.pid:
            refuse("pid stands only in a comparison with a number: pid == 7", part.token)
        return part


def compile_condition(line: str, start: int) -> tuple[Element, ...]:
    """The elements of the condition that stands in the line from a place on."""
    tokens = tokens_of(line, start)
    elements = Compiler(tokens, len(line)).whole() + (Element(JOIN),)
    if len(elements) > MOST:
        first = tokens[0]
        raise CommandError(f"the condition has {len(elements)} elements, at most {MOST} are possible", first.at,
                           len(line) - first.at)
    return elements


def depths(elements: tuple[Element, ...]) -> list[int]:
    """The depth of the stack after each element; it begins with one value."""
    depth, found = 1, []
    for element in elements:
        depth += {"k": 1, "p": 1, "*": 0}.get(element.op, -1)
        found.append(depth)
    return found
