#!/usr/bin/env python3
"""Checks that README shows the sessions of examples/head as they are stored: each excerpt is a part of its file."""

import re
import sys
from pathlib import Path

ROOT = Path(__file__).resolve().parent.parent.parent

text = (ROOT / "README.md").read_text()
excerpts = re.findall(r"`(examples/head/session\w*\.txt)`:\n\n```\n(.*?)```\n", text, re.DOTALL)
wrong = [name for name, excerpt in excerpts if excerpt not in (ROOT / name).read_text()]
print(f"{len(excerpts)} excerpts", *wrong)
sys.exit(len(excerpts) != 2 or bool(wrong))
