"""break, explain, list, delete, forget."""

from __future__ import annotations

import datetime

from ..belief import TRAP_LENGTH, Believed
from ..breakpoints import Breakpoint, parse
from ..condition import MOST, PLACES, Element, depths, refuse
from ..errors import CommandError
from ..messages import condition
from ..messages import words as message_words
from .bench import Bench
from .command import Command
from .output import Result, said, table
from .words import Words

MOST_BREAKPOINTS = 8


def checked(bench: Bench, line: str) -> Breakpoint:
    """A breakpoint that this side finds nothing wrong with; refused with its place before anything is sent."""
    found = parse(line)
    belief = bench.belief
    if found.ident in belief.breakpoints:
        refuse(f"breakpoint {found.ident} stands already (believed): `delete {found.ident}` first, or take another id",
               found.ident_token)
    for ident, one in belief.breakpoints.items():
        if one.site == found.site:
            refuse(f"breakpoint {ident} stands there already (believed)", found.site_token)
    if belief.in_window(found.site, TRAP_LENGTH) is False:
        refuse("the site is outside the window", found.site_token)
    if belief.is_protected(found.site, TRAP_LENGTH):
        refuse("the site lies in the protected stretch (the laser power limits)", found.site_token)
    if len(belief.breakpoints) >= MOST_BREAKPOINTS:
        raise CommandError("eight breakpoints stand already (believed): `delete` one first")
    if len(found.elements) > belief.places_left():
        raise CommandError(f"the condition has {len(found.elements)} elements, and of the head's {PLACES} places "
                           f"{belief.places_left()} are free (believed)")
    return found


def is_always_true(bench: Bench, elements: tuple[Element, ...]) -> int | None:
    """The first fixed address outside the known window that the condition reads: it then counts as true."""
    for element, after in zip(elements, elements[1:]):
        if element.op == "p" and after.op == "*" and bench.belief.in_window(element.value, 4) is False:
            return element.value
    return None


def set_break(bench: Bench, words: Words) -> Result:
    words.rest()
    found = checked(bench, words.line)
    bench.head.set_breakpoint(found.ident, found.site, found.elements)
    now = datetime.datetime.now().strftime("%H:%M:%S")
    bench.belief.breakpoints[found.ident] = Believed(found.site, found.words, len(found.elements), now)
    outside = is_always_true(bench, found.elements)
    if outside is not None:
        bench.output.notice(f"word[{outside:#x}] is outside the window: the whole condition counts as true there")
    told = f" if {found.words}" if found.words else ""
    return said(f"breakpoint {found.ident} stands at {found.site:#x}{told}", id=found.ident, site=found.site,
                elements=[str(one) for one in found.elements])


def explain(bench: Bench, words: Words) -> Result:
    """What a break would send; nothing is sent."""
    line = words.rest()
    if not line:
        raise CommandError(f"what is to be explained? {words.usage}", len(words.line))
    offset = len(words.line) - len(line)
    if line.split()[0] != "break":
        raise CommandError("only a break can be explained: explain break 3 at 0x1008 if pid == 7", offset,
                           len(line.split()[0]))
    try:
        found = parse(line)
    except CommandError as error:
        error.at = offset + error.at if error.at is not None else None
        raise
    sent = [("n", found.ident, 1), *((one.op, one.value, depth)
                                     for one, depth in zip(found.elements, depths(found.elements))),
            ("b", found.site, 1)]
    rows = [[f"b {value:#x}" if op == "b" else f"n {value}" if op == "n" else str(Element(op, value)), str(depth),
             message_words(condition(op, value))] for op, value, depth in sent]
    lines = table(["element", "depth", "meaning"], rows, right=["depth"])
    count = len(found.elements)
    deepest = max([1, *depths(found.elements)])
    told = (f"{count} of at most {MOST} elements, {bench.belief.places_left()} of {PLACES} places free (believed), "
            f"depth at most {deepest}; {len(sent)} messages, none sent")
    return Result({"elements": [str(one) for one in found.elements], "count": count, "deepest": deepest,
                   "messages": len(sent)}, [*lines, told])


def list_breaks(bench: Bench, words: Words) -> Result:
    words.end()
    rows = sorted(bench.belief.breakpoints.items())
    data = [{"id": ident, "site": one.site, "if": one.words, "elements": one.count, "set": one.time}
            for ident, one in rows]
    if not rows:
        return Result({"believed": data}, ["no breakpoint of this side stands; the head cannot be asked for others"])
    cells = [[str(ident), f"{one.site:#010x}", one.time, str(one.count), one.words or "always"] for ident, one in rows]
    lines = table(["id", "site", "set", "elements", "if"], cells, right=["id", "elements"])
    note = "(believed: set from here. The head cannot be asked; a restart or another tool may have changed it)"
    return Result({"believed": data}, [*lines, note])


def delete(bench: Bench, words: Words) -> Result:
    ident = words.number("the breakpoint's id", most=255)
    words.end()
    bench.head.delete_breakpoint(ident)
    gone = bench.belief.breakpoints.pop(ident, None)
    where = f" at {gone.site:#x}" if gone else ""
    return said(f"breakpoint {ident}{where} is gone; what was written under it is in memory", id=ident)


def forget(bench: Bench, words: Words) -> Result:
    words.end()
    count = len(bench.belief.breakpoints)
    bench.belief.breakpoints.clear()
    return said(f"{count} believed breakpoints forgotten; nothing was sent to the head", forgotten=count)


COMMANDS = [
    Command("break", "break ID at ADDRESS [if CONDITION]", "sets a breakpoint", set_break,
            "A condition has numbers (decimal or 0x), pid, word[ADDRESS] (four bytes of memory, low-order first),\n"
            "== and !=, & (bit-wise and, before == and !=), not, and, or, and brackets:\n"
            "    break 3 at 0x1008 if pid == 7 and word[0x1008] == 0x0b0a0908\n"
            "    break 4 at 0x1010 if not (word[0x1020] & 0xff == 0)\n"
            "A word outside the window makes the whole condition true. `explain break ..` shows what would be sent.",
            "breakpoints"),
    Command("explain", "explain break ID at ADDRESS [if CONDITION]", "what a break would send, without sending it",
            explain, group="breakpoints"),
    Command("list", "list", "the breakpoints that stand, as far as this side knows", list_breaks, group="breakpoints"),
    Command("delete", "delete ID", "removes a breakpoint", delete, group="breakpoints"),
    Command("forget", "forget", "forgets the believed breakpoints, as after a restart that was not seen", forget,
            group="breakpoints"),
]
