"""The structs of include/sanirvoq.h, and their sizes checked."""

from __future__ import annotations

import ctypes
from ctypes import c_size_t, c_uint8, c_uint16, c_uint32, c_uint64

PROCESSES = 4
ENTRIES = 8
PLACES = 128


class Entry(ctypes.Structure):
    """A breakpoint of the record."""

    _fields_ = [("used", c_uint8), ("id", c_uint8), ("count", c_uint8), ("plain", c_uint8 * 4), ("site", c_uint32)]


class Draft(ctypes.Structure):
    """The condition in hand."""

    _fields_ = [("active", c_uint8), ("id", c_uint8), ("count", c_uint8)]


class Table(ctypes.Structure):
    _fields_ = [("entries", Entry * ENTRIES), ("draft", Draft)]


class Process(ctypes.Structure):
    _fields_ = [("pid", c_uint32), ("address", c_uint32), ("state", c_uint8), ("wanted", c_uint8)]


class Target(ctypes.Structure):
    """What the record has besides its places."""

    _fields_ = [("base", c_uint32), ("size", c_uint32), ("protected_offset", c_uint32), ("protected_length", c_uint32),
                ("count", c_uint32), ("processes", Process * PROCESSES), ("selected", c_uint8), ("current", c_uint32),
                ("table", Table)]


class Fields(ctypes.Structure):
    """A message by its type byte and its fields."""

    _fields_ = [("kind", c_uint8), ("n", c_uint8), ("op", c_uint8), ("code", c_uint8), ("value", c_uint32),
                ("bytes", c_uint8 * 9)]


class Found(ctypes.Structure):
    _fields_ = [("number", c_uint8), ("fields", Fields)]


class Comparison(ctypes.Structure):
    _fields_ = [("number", c_uint8), ("runs", c_uint32)]


class TextFields(ctypes.Structure):
    """A text packet: PID LETTER ADDR DATA, or PID LETTER ERRFLG RESPONSE."""

    _fields_ = [("pid", c_uint32), ("letter", c_uint8), ("third", c_uint32), ("fourth", c_uint32)]


class TextWritten(ctypes.Structure):
    _fields_ = [("number", c_uint8), ("filled", c_uint32)]


class TextFound(ctypes.Structure):
    _fields_ = [("number", c_uint8), ("packet", TextFields)]


class FrameReaderState(ctypes.Structure):
    """A reader of frames between two bytes of the line."""

    _fields_ = [("last", c_uint64), ("count", c_uint32), ("id", c_uint32), ("scale", c_uint16), ("size", c_uint16),
                ("sum", c_uint16), ("phase", c_uint8), ("held", c_uint8)]


class FrameAnswer(ctypes.Structure):
    _fields_ = [("id", c_uint32), ("size", c_uint16), ("kind", c_uint8), ("index", c_uint8), ("sequence", c_uint8),
                ("request", c_uint8)]


class FrameFed(ctypes.Structure):
    _fields_ = [("reader", FrameReaderState), ("taken", c_size_t), ("answer", FrameAnswer), ("number", c_uint8)]


class PlannedWrite(ctypes.Structure):
    """A write of a patch plan."""

    _fields_ = [("address", c_uint32), ("count", c_uint32), ("bytes", c_uint8 * 4)]


class Verdict(ctypes.Structure):
    _fields_ = [("number", c_uint8), ("verdict", c_uint8), ("index", c_uint32)]


class Planning(ctypes.Structure):
    _fields_ = [("number", c_uint8), ("address", c_uint32), ("writes", c_uint32)]


SIZES = {Entry: 12, Draft: 3, Table: 100, Process: 12, Target: 176, Fields: 20, Found: 24, Comparison: 8,
         TextFields: 16, TextWritten: 8, TextFound: 20, FrameReaderState: 24, FrameFed: 48,
         PlannedWrite: 12, Verdict: 8, Planning: 12}

for _kind, _size in SIZES.items():
    if ctypes.sizeof(_kind) != _size:
        raise ImportError(f"{_kind.__name__} has {ctypes.sizeof(_kind)} bytes here, {_size} in include/sanirvoq.h")
