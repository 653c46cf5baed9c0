"""A session of the stub's program: its input cut into steps, its output into answers, both as text.

docs/PROTOCOL.md, "The program", has the format.
"""

from typing import NamedTuple

from messages import RERR, RSTART, TMGET, number, show_reply, show_request

REQUEST, TRAP, SCHEDULE, STATE, RESTART = 1, 2, 3, 4, 5
STOP, PASS = 1, 2
REPLIED = 11  # bytes of a number and a reply
NAMES = {REQUEST: "request", TRAP: "trap", SCHEDULE: "schedule", STATE: "state", RESTART: "restart"}
BODY = {REQUEST: 10, TRAP: 140, SCHEDULE: 140, STATE: 5, RESTART: 0}
OTHER_KIND = b"\xff"
NUMBERS = {
    2: "a buffer of wrong size", 3: "the record is not fit", 4: "unlisted pid", 5: "Stopped, or state 8",
    6: "no breakpoint there",
}


class Step(NamedTuple):
    kind: int
    body: bytes


def split_steps(data):
    """The whole steps of an input, and what ends it: a text, empty where the input ends after a step, and the bytes
    that the program writes for this end."""
    steps, at = [], 0
    while at < len(data):
        kind = data[at]
        if kind not in BODY:
            rest = len(data) - at - 1
            return steps, f"unknown kind {kind}: the run ends, {rest} more bytes are not read", OTHER_KIND
        body = data[at + 1:at + 1 + BODY[kind]]
        if len(body) < BODY[kind]:
            return steps, f"cut: a {NAMES[kind]} with {len(body)} of its {BODY[kind]} bytes is not run", b""
        steps.append(Step(kind, body))
        at += 1 + BODY[kind]
    return steps, "", b""


def answer_length(kind, output):
    """How many bytes the answer at the front of the output has; more than there are where it is cut.

    A Pass may follow an Rstart. It cannot be taken for the number of the next step: the program's are never 2.
    """
    if not output or output[0] != 0:
        return 1
    if kind == TRAP:
        return 4 if output[1:2] == bytes([PASS]) else 3
    if kind == REQUEST and output[1:2] == bytes([RSTART]) and output[REPLIED:REPLIED + 1] == bytes([PASS]):
        return REPLIED + 3
    return {REQUEST: REPLIED, SCHEDULE: 2, STATE: 1, RESTART: REPLIED}[kind]


def split_answers(steps, output):
    """An answer for each step as far as the output goes, and the bytes that are left."""
    answers = []
    for step in steps:
        length = answer_length(step.kind, output)
        if len(output) < length:
            break
        answers.append(output[:length])
        output = output[length:]
    return answers, output


def is_accepted(step, answer):
    """Number 0, and of a request no Rerr."""
    return answer[0] == 0 and not (step.kind == REQUEST and answer[1] == RERR)


def plain_beside(answer):
    """The plain bytes that the answer of a request has beside its reply; none where it has no Pass."""
    return answer[REPLIED + 1:]


def show_step(step):
    kind, body = step
    if kind == REQUEST:
        return show_request(body)
    if kind == RESTART:
        return "restart"
    pid = number(body[:4])
    if kind == STATE:
        return f"state of {pid} is {body[4]}"
    return f"{NAMES[kind]} of {pid} at pc {number(body[-4:]):#x}"


def show_answer(step, answer):
    kind, body = step
    if answer[0] != 0:
        return f"number {answer[0]}: {NUMBERS.get(answer[0], 'no number of a step')}"
    if kind in (REQUEST, RESTART):
        asked = body[5] if kind == REQUEST and body[0] == TMGET else 9
        plain = plain_beside(answer)
        return show_reply(answer[1:REPLIED], asked) + (f", Pass {plain.hex(' ')}" if plain else "")
    if kind == TRAP:
        return f"Stop {answer[2]}" if answer[1] == STOP else f"Pass {answer[2:].hex(' ')}"
    if kind == SCHEDULE:
        return "yes" if answer[1] else "no"
    return "accepted"
