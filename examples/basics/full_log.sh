#!/bin/sh
# Writes a script whose one transaction fills the log: the 22,795th put is the first for which there is no room.
echo "1 begin"
echo "1 root 0"
yes "1 put 0 0 7" | head -n 22796
echo "1 commit"
