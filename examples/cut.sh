#!/usr/bin/env bash
# Cuts names to a few rooms, for a reader to look at: `make run`.
set -eu
cd "$(dirname "$0")/.."
program=target/host/rigcactus

# cut_line NAME ROOM: a line with what is kept of examples/names/NAME.txt, and its number of bytes.
cut_line() {
  kept=$("$program" cut "$2" < "examples/names/$1.txt")
  printf '  room %2d keeps %2d bytes: %s\n' "$2" "$(printf %s "$kept" | wc -c)" "$kept"
}

# show NAME LANGUAGE ROOM..: a name, and a line for each room.
show() {
  name=$1
  printf '\n%s (%s, %d bytes)\n' "$(cat "examples/names/$name.txt")" "$2" "$(wc -c < "examples/names/$name.txt")"
  shift 2
  for room; do cut_line "$name" "$room"; done
}

echo "The guest's name is the bytes 5A 6F C3 AB. Its last letter has two bytes."
cut_line guest 3
cut_line guest 4
echo
echo 'A field cut after 3 bytes without looking holds 5A 6F C3, which is not a text:'
printf '  '
"$program" cut 3 < examples/names/guest-cut-by-bytes.txt 2>&1 && exit 1
echo
echo 'Names in other scripts, at a room inside a character and at the next that holds it whole:'
show french French 5 6
show polish Polish 9 10
show greek Greek 9 10
show russian Russian 7 8
show arabic Arabic 7 8
show hindi Hindi 11 12
show chinese Chinese 8 9
show emoji 'an emoji' 7 8
echo
echo "What is kept is the output of: $program cut ROOM < examples/names/NAME.txt"
