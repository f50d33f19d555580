#!/usr/bin/env python3
"""Takes the programs out of docs/LIBRARY.md, and what it says that the first one prints.

    examples/library/blocks.py FOLDER

writes FOLDER/first.rt, FOLDER/sessions.rt and FOLDER/collections.rt, whose functions another module may call, and FOLDER/first.out.
"""
import pathlib
import re
import sys

PAGE = pathlib.Path(__file__).resolve().parents[2] / "docs/LIBRARY.md"


def blocks(lines):
    """What stands indented by four blanks, block by block, without these blanks."""
    block = []
    for line in [*lines, "end"]:
        if line.startswith("    ") or block and not line:
            block.append(line[4:])
        elif block:
            yield "\n".join(block).rstrip() + "\n"
            block = []


def main():
    folder = pathlib.Path(sys.argv[1])
    found = list(blocks(PAGE.read_text().splitlines()))
    for name, start in [("first.rt", "use disk_file"), ("first.out", "1 begin -> "), ("sessions.rt", "use disk_model"), ("collections.rt", "use disk_model")]:
        block = next(block for block in found if block.startswith(start))
        found.remove(block)
        if name.endswith(".rt"):
            block = re.sub(r"^(fn (?!main)|enum )", r"pub \1", block, flags=re.M)
        (folder / name).write_text(block)


main()
