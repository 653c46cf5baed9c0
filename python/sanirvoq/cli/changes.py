"""diff, patch, map."""

from __future__ import annotations

from .. import patches, picture
from ..errors import CommandError, LineError, Refused
from ..images import Run, differences
from ..transfer import compare
from .bench import Bench
from .command import Command
from .memory import file_bytes, file_to_make, stays_lines
from .output import Result, counted, said, table
from .words import Words

RUNS_SHOWN = 16
BYTES_SHOWN = 8


def image_at(words: Words) -> tuple[int, bytes]:
    """`FILE at ADDRESS`: the address and the file's bytes."""
    data = file_bytes(words.next("the image's file"))
    words.demand("at")
    address = words.number("the address")
    if address + len(data) > 2**32:
        raise CommandError("the image passes the last address")
    return address, data


def shortened(data: bytes) -> str:
    return data[:BYTES_SHOWN].hex(" ") + (" .." if len(data) > BYTES_SHOWN else "")


def runs_table(address: int, found: bytes, wanted: bytes, runs: list[Run]) -> list[str]:
    rows = [[f"{address + start:#010x}", str(length), shortened(found[start:start + length]),
             shortened(wanted[start:start + length])] for start, length in runs[:RUNS_SHOWN]]
    lines = table(["from", "bytes", "the head has", "the image has"], rows, right=["bytes"])
    return lines + ([f"and {counted(len(runs) - RUNS_SHOWN, 'run')} more"] if len(runs) > RUNS_SHOWN else [])


def runs_data(address: int, runs: list[Run]) -> list[dict[str, int]]:
    return [{"address": address + run.start, "length": run.length} for run in runs]


def diff(bench: Bench, words: Words) -> Result:
    address, wanted = image_at(words)
    words.end()
    found = bench.read(address, len(wanted))
    runs = differences(found, wanted)
    data = {"address": address, "length": len(wanted), "runs": runs_data(address, runs)}
    if not runs:
        return said(f"the head has the same {len(wanted)} bytes", **data)
    count = sum(run.length for run in runs)
    told = f"{count} of {counted(len(wanted), 'byte')} differ, in {counted(len(runs), 'run')}:"
    return Result(data, [told, *runs_table(address, found, wanted, runs)], status=1)


def patch(bench: Bench, words: Words) -> Result:
    address, image = image_at(words)
    words.end()
    plan = planned(bench, address, image)
    if not plan.runs:
        return said(f"the head has the same {len(image)} bytes: there is nothing to send", writes=0, sent=False)
    show_plan(bench, plan)
    data = {"address": address, "runs": runs_data(plan.address, plan.runs), "writes": len(plan.writes),
            "bytes": plan.differing}
    if not bench.confirm(f"send {counted(len(plan.writes), 'write')}?"):
        return said("nothing was sent", **data, sent=False)
    send(bench, plan)
    told = (f"{counted(plan.differing, 'byte')} changed by {counted(len(plan.writes), 'write')}, "
            "read back and the same as the image")
    return said(told, **data, sent=True, same=True)


def planned(bench: Bench, address: int, image: bytes) -> patches.Plan:
    """The plan over the words that hold the image: their other bytes are wanted as they are."""
    bench.check_window(address, len(image))
    low = address - address % 4
    high = -(-(address + len(image)) // 4) * 4
    found = bench.read(low, high - low, "reading what is there")
    wanted = found[:address - low] + image + found[address - low + len(image):]
    return patches.plan(low, found, wanted, bench.belief.protected)


def covered(bench: Bench, plan: patches.Plan) -> dict[int, int]:
    """The differing bytes that lie under traps, as far as this side knows."""
    under = bench.belief.under_traps(plan.address, len(plan.found))
    return {at: ident for at, ident in under.items()
            if plan.found[at - plan.address] != plan.wanted[at - plan.address]}


def show_plan(bench: Bench, plan: patches.Plan) -> None:
    if bench.output.as_json:
        return
    lines = [f"{counted(plan.differing, 'byte')} to change, in {counted(len(plan.runs), 'run')}:",
             *runs_table(plan.address, plan.found, plan.wanted, plan.runs),
             f"the plan has {counted(len(plan.writes), 'write')}; no list with fewer does it"]
    lines += stays_lines(covered(bench, plan))
    bench.output.show("patch", Result(shown=list(lines)))


def send(bench: Bench, plan: patches.Plan) -> None:
    """Sends the writes in their order, reads the stretch back and compares. A refusal puts the old bytes back."""
    total = 4 * len(plan.writes) + len(plan.wanted)
    done: list[patches.Write] = []
    try:
        with bench.output.progress("patching", total) as report:
            for one in plan.writes:
                bench.head.put(one.address, one.data)
                done.append(one)
                report(4 * len(done), total)
    except Refused as error:
        for one in reversed(done):
            at = one.address - plan.address
            bench.head.put(one.address, plan.found[at:at + len(one.data)])
        back = f"the {len(done)} writes before it were taken back" if done else "nothing was written"
        raise Refused(error.reason, error.meaning, f"{error.advice}; {back}", error.request) from None
    except (LineError, KeyboardInterrupt) as error:
        raise LineError(f"{error or 'interrupted'}; {len(done)} of {len(plan.writes)} writes were confirmed: give the "
                        "same command again, it plans from what is there", known=False) from None
    compare(plan.address, plan.wanted, bench.read(plan.address, len(plan.wanted), "reading back"))


def draw_map(bench: Bench, words: Words) -> Result:
    image = None
    if words.more() and words.peek() != "svg":
        image = image_at(words)
    path = None
    if words.take("svg"):
        path = file_to_make(words.next("the SVG file"))
    words.end()
    base, size = bench.window()
    if image is not None:
        bench.check_window(image[0], len(image[1]))
    drawn = picture.draw(bench.belief, base, bench.read(base, size), image)
    data = {"base": base, "size": size, "cell": drawn.cell, "cells": "".join(one.letter for one in drawn.cells)}
    if path is None:
        return Result(data, list(picture.as_text(drawn)))
    path.write_text(picture.as_svg(drawn, f"{size} bytes from {base:#x}, {bench.options.head}"), encoding="utf-8")
    return said(f"the map is in {path}", **data, file=str(path))


COMMANDS = [
    Command("diff", "diff FILE at ADDRESS", "what differs between an image and the head (exit status 1)", diff,
            group="images"),
    Command("patch", "patch FILE at ADDRESS", "makes the head's memory like an image, with the fewest writes", patch,
            "Shows what differs and the plan, asks, sends, reads back and compares. Bytes under a breakpoint are kept\n"
            "with it and are in memory when it goes. Interrupted, the same command plans anew from what is there.",
            "images"),
    Command("map", "map [FILE at ADDRESS] [svg FILE]", "the window as a picture: traps, changes, differences", draw_map,
            group="images"),
]
