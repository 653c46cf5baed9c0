"""What the head's reasons mean for the request that got them, and what to do."""

from __future__ import annotations

from .errors import Refused
from .messages import Kind, Message, words

_PROTECTED = ("it touches the protected stretch (the laser power limits)",
              "that stretch is read only, on purpose; `protected` tells this tool where it lies")
_ADDRESS = ("not all of these bytes are in the window, nor all in the register block",
            "`window` shows what is known of the window")

# Of the letters of Tcondbreak: an element is any letter but n, b and d.
_CONDITION = {
    ("n", "inval"): ("a breakpoint with this id stands already", "take another id, or `delete` that one first"),
    ("n", "count"): ("eight breakpoints stand, which is all there is room for", "`delete` one first"),
    ("b", "inval"): ("the site is odd, outside the window or taken", "`list` shows what was set from here"),
    ("b", "unsup"): _PROTECTED,
    ("d", "inval"): ("no breakpoint has this id", "`list` shows what was set from here"),
    ("", "inval"): ("no condition is being built (the stub may have been restarted)", "give the `break` again"),
    ("", "count"): ("the condition has 64 elements, or all 128 places are held", "shorten it, or `delete` another"),
}
_GENERAL = {
    "reset": ("the head's stub was restarted", "breakpoints are gone: set them again"),
    "unk": ("the head knows no such request", "the line may have lost bytes: use frames, or try again"),
    "inval": ("a byte that should be zero is not", "the line may have lost bytes: use frames, or try again"),
    "count": ("too many bytes at once", "this tool never asks for so many: the line may have garbled it"),
    "pid": ("the head has no such process", "`ps` shows those that it has"),
    "unsup": ("the head does not serve this request", "it is no part of this protocol"),
    "notstop": ("the process is not Stopped, so its registers are not at rest", "`stop` it and `wait` for it first"),
}


def explain(reason: str, request: Message) -> tuple[str, str]:
    """What the reason says of this request, and what to do."""
    if request.kind is Kind.TCONDBREAK:
        letter = request.op if request.op in "nbd" else ""
        return _CONDITION.get((letter, reason), _GENERAL[reason])
    if request.kind in (Kind.TMGET, Kind.TMPUT):
        if reason == "inval" and request.kind is Kind.TMPUT and request.value < 4:
            return "register zero cannot be written", "it is always 0"
        if reason == "inval":
            return _ADDRESS
        if reason == "pid":
            return "registers were asked for and no process is current", "`select` a process first"
        if reason == "unsup":
            return _PROTECTED
    return _GENERAL[reason]


def refusal(reason: str, request: Message) -> Refused:
    return Refused(reason, *explain(reason, request), words(request))
