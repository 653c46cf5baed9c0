"""What can go wrong, each with the exit status of the command line."""

from __future__ import annotations


class BenchError(Exception):
    """The base of all: `str` is one line for a person."""

    status = 1


class Differs(BenchError):
    """Two images, or what was written and what is read back, are not the same."""

    status = 1


class CommandError(BenchError):
    """A command that is refused here, before anything is sent. `at` is where in the line the fault is."""

    status = 2

    def __init__(self, text: str, at: int | None = None, length: int = 1) -> None:
        super().__init__(text)
        self.at = at
        self.length = length


class FileError(BenchError):
    """A file of this machine that cannot be read or written."""

    status = 2

    def __init__(self, error: OSError) -> None:
        super().__init__(f"{error.filename or 'a file'}: {error.strerror or error}")


class Refused(BenchError):
    """The head answered Rerr: `reason` is its word, `meaning` what that says here, `advice` what to do."""

    status = 3

    def __init__(self, reason: str, meaning: str, advice: str, request: str = "") -> None:
        super().__init__(f"the head refused ({reason}): {meaning}; {advice}")
        self.reason = reason
        self.meaning = meaning
        self.advice = advice
        self.request = request


class TextRefused(BenchError):
    """The head answered a text request with ERRFLG -1 and this errno."""

    status = 3

    def __init__(self, errno: int, meaning: str, reply: str) -> None:
        super().__init__(f"the head refused (errno {errno}): {meaning} [{reply}]")
        self.errno = errno
        self.meaning = meaning


class LineError(BenchError):
    """No answer, or none that can be used. `known` is false where the head may have done what was asked."""

    status = 4

    def __init__(self, text: str, known: bool = True) -> None:
        super().__init__(text)
        self.known = known


class LineGone(LineError):
    """The line itself is gone: closed at the other end, or the device was pulled."""


class LibraryError(BenchError):
    """The proved library cannot be had, or lacks a call."""

    status = 5


class CallError(BenchError):
    """A call of the library answered a number other than 0."""

    status = 5

    def __init__(self, call: str, number: int, meaning: str) -> None:
        super().__init__(f"{call}: number {number}, {meaning}")
        self.number = number
