#!/usr/bin/env python3
"""Whether a page quotes a file: all its lines stand in the page one after another, indented by four blanks.

    examples/quoted.py PAGE FILE [--notes | --from LINE]

With --notes a line of the page may end in a note, which two or more blanks part from the quoted line. With --from the page need only
have that line of the file and those after it.
"""
import re
import sys

page, file = (open(name, encoding="utf-8").read().splitlines() for name in sys.argv[1:3])
option, *line = sys.argv[3:] or [""]
if option == "--from":
    file = file[file.index(line[0]) :]
wanted = ["    " + line if line else "" for line in file]
if option == "--notes":
    page = [re.sub(r"(?<=\S) {2,}.*", "", line) for line in page]
found = any(page[at : at + len(wanted)] == wanted for at in range(len(page)))
sys.exit(not found)
