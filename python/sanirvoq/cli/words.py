"""The words of a command line with their places, so that a fault can be shown under its word."""

from __future__ import annotations

import re

from ..condition import LARGEST, Token, number_of, refuse
from ..errors import CommandError

_WORD = re.compile(r""""([^"]*)"|'([^']*)'|(\S+)""")


class Words:
    """Taken one by one from the left; the first word is the command's name."""

    def __init__(self, line: str, usage: str = "") -> None:
        self.line = line
        self.usage = usage
        self._tokens = [Token(next(part for part in match.groups() if part is not None), match.start())
                        for match in _WORD.finditer(line)]
        self._at = 1
        for at, character in enumerate(line):
            if ord(character) < 0x20 and character != "\t":
                raise CommandError(f"the line has a control character ({ord(character):#04x})", at)

    @property
    def name(self) -> Token:
        return self._tokens[0] if self._tokens else Token("", 0)

    def peek(self) -> str:
        return self._tokens[self._at].text if self._at < len(self._tokens) else ""

    def next(self, what: str) -> Token:
        if self._at >= len(self._tokens):
            raise CommandError(f"{what} is missing: {self.usage}", len(self.line), 1)
        self._at += 1
        return self._tokens[self._at - 1]

    def number(self, what: str, least: int = 0, most: int = LARGEST) -> int:
        token = self.next(what)
        value = number_of(token, most)
        if value < least:
            refuse(f"{what} is at least {least}", token)
        return value

    def take(self, *keywords: str) -> str:
        """One of these words where it comes next, else nothing."""
        if self.peek() in keywords:
            self._at += 1
            return self._tokens[self._at - 1].text
        return ""

    def demand(self, keyword: str) -> None:
        token = self.next(f"`{keyword}`")
        if token.text != keyword:
            refuse(f"`{keyword}` is expected: {self.usage}", token)

    def more(self) -> bool:
        return self._at < len(self._tokens)

    def rest(self) -> str:
        """The line from the next word on, as it was typed."""
        if not self.more():
            return ""
        at = self._tokens[self._at].at
        self._at = len(self._tokens)
        return self.line[at:]

    def end(self) -> None:
        if self.more():
            refuse(f"{self.peek()!r} is not expected here: {self.usage}", self._tokens[self._at])

    def stretch(self) -> tuple[int, int]:
        """An address and a length, which do not pass the last address."""
        address = self.number("the address")
        token = self.next("the length")
        length = number_of(token)
        if length < 1:
            refuse("the length is at least 1", token)
        if address + length > 2**32:
            refuse("the stretch passes the last address", token)
        return address, length
