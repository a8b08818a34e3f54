"""A file of the repository, written by a script, or with --check compared with what the script makes."""

import sys
from pathlib import Path

TOP = Path(__file__).resolve().parent.parent


def write_or_check(name, content):
    target = TOP / name
    if "--check" not in sys.argv:
        target.write_text(content)
    elif target.read_text() != content:
        sys.exit(f"{name} differs from what this script makes")
    else:
        print(f"{name} is what this script makes")
