#!/bin/sh
# Compiles the programs that docs/LIBRARY.md shows, as a crate of a copy of this repository, and runs them with nothing proved, which takes minutes.
# Its program over several threads is proved and tested in crates/thread_tests.
#
#     examples/library/page.sh [--quick]
. "$(dirname "$0")/../room.sh"
cd "$room" || exit
tar -C "$top" --exclude=out -c HANDLES crates.txt crates | tar -x || exit
echo 'library_page: heap_core graph_model disk_model disk_file heap_io' >>crates.txt
src=$room/crates/library_page/src
mkdir -p "$src"
cp "$here/main.rt.txt" "$src/main.rt" && "$here/blocks.py" "$src" || exit

(cd crates/library_page && rt try </dev/null) >"$room/printed" 2>"$room/said" || cat "$room/said" >&2
lines=$(wc -l <"$src/first.out")
head -n "$lines" printed | cmp -s - "$src/first.out" && echo "the first program prints what the page says"
tail -n "+$((lines + 1))" printed
