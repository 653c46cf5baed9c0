"""A breakpoint in words: `3 at 0x1008 if pid == 7`."""

from __future__ import annotations

import re
from dataclasses import dataclass

from .condition import Element, Token, compile_condition, number_of, refuse
from .errors import CommandError

USAGE = "break ID at ADDRESS [if CONDITION]"


@dataclass(frozen=True)
class Breakpoint:
    ident: int
    site: int
    elements: tuple[Element, ...]
    words: str
    ident_token: Token
    site_token: Token


def words_of(line: str) -> list[Token]:
    return [Token(match.group(), match.start()) for match in re.finditer(r"\S+", line)]


def parse(line: str) -> Breakpoint:
    """The breakpoint of a whole command line, `break 3 at 0x1008 if ...`; refused with the place of the fault."""
    tokens = words_of(line)
    if len(tokens) < 4:
        raise CommandError(f"a breakpoint is `{USAGE}`", len(line), 1)
    ident = number_of(tokens[1], 255)
    if tokens[2].text != "at":
        refuse(f"`at` is expected: {USAGE}", tokens[2])
    site = number_of(tokens[3])
    if site % 2:
        refuse("the site has to be even: instructions begin at even addresses", tokens[3])
    elements: tuple[Element, ...] = ()
    words = ""
    if len(tokens) > 4:
        if tokens[4].text != "if":
            refuse(f"`if` is expected: {USAGE}", tokens[4])
        start = tokens[4].at + len("if")
        elements = compile_condition(line, start)
        words = line[start:].strip()
    return Breakpoint(ident, site, elements, words, tokens[1], tokens[3])
