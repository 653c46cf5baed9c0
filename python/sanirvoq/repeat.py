"""Which requests may be sent twice.

A request whose reply did not come whole may or may not have been carried out. It is safe to send it again where
twice leaves the head as once does:

- reads and questions (Tmget, Tproc, Tstatus, Trnote) change nothing, or name the same process again;
- Tmput writes the same bytes to the same place;
- Tstop marks a process that is marked, or leaves one that is Stopped;
- n begins the condition of its id anew, and nothing has joined it yet;
- d: the breakpoint is gone after the first as after the second. The second is refused with inval, which then means
  that it is gone.

Never again by itself: Tstart (a process that went on and stopped at the next breakpoint would be let go a second
time, and that stop missed), the elements of a condition (a second one is one more) and b (a second one finds nothing
in hand, is refused, and says nothing of the first). A breakpoint as a whole can be sent again all the same; see
Head.set_breakpoint.
"""

from __future__ import annotations

from .messages import Kind, Message

_SAFE = {Kind.TMGET, Kind.TMPUT, Kind.TPROC, Kind.TSTATUS, Kind.TRNOTE, Kind.TSTOP}


def is_repeatable(request: Message) -> bool:
    """Whether sending the request twice leaves the head as once does."""
    if request.kind is Kind.TCONDBREAK:
        return request.op in ("n", "d")
    return request.kind in _SAFE
