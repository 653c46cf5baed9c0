"""python3 -m sanirvoq"""

from __future__ import annotations

import sys


def start() -> int:
    try:
        from .cli.main import entry
    except ModuleNotFoundError as error:
        packages = "python3-serial python3-prompt-toolkit python3-rich gcc"
        print(f"{error}: apt-get update && apt-get install -y {packages}", file=sys.stderr)
        return 5
    return entry()


sys.exit(start())
