"""The bench of the Sanirvoq debug stub: a command line (`python3 -m sanirvoq`) and this package for scripts.

    from sanirvoq import connect
    with connect("serial:/dev/ttyUSB0@115200") as head:
        print(head.read(0x1000, 16).hex(" "))
"""

from __future__ import annotations

from .connect import Line, connect
from .errors import (BenchError, CallError, CommandError, Differs, LibraryError, LineError, Refused, TextRefused)
from .exchange import Settings
from .head import Head

__all__ = ["BenchError", "CallError", "CommandError", "Differs", "Head", "LibraryError", "Line", "LineError", "Refused",
           "Settings", "TextRefused", "connect"]
__version__ = "0.1.0"
