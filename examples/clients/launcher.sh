# Read by the scripts here, behind room.sh: the launcher that clients start, in HEAP, and a fresh folder to work in.
cd "$room" || exit
HEAP="$top/heap $quick"
grep -q '^heap_session' "$top/crates.txt" || HEAP=$here/stand_in.py
export HEAP
