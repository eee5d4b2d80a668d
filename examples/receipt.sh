#!/usr/bin/env bash
# Prints receipts, for a reader to look at: `make run`.
set -eu
cd "$(dirname "$0")/.."
program=$PWD/target/host/rigcactus
cd examples/receipts

# show STATUS WHAT FOLDER OPTION..: what is tried, the command, and the receipt. The status is what the command is to end with.
show() {
  local due=$1 what=$2 folder=$3 status=0 receipt
  shift 3
  set -- name.xml sum.xml pass.xml identifier.xml "$@"
  printf '\n%s\n  $ cd %s; rigcactus receipt %s\n\n' "$what" "$folder" "$*"
  receipt=$(cd "$folder" && "$program" receipt "$@") || status=$?
  printf "    %s\n" "${receipt//$'\n'/$'\n    '}"
  [ "$status" -eq "$due" ]
}

echo 'Receipts, each from four records: a name, a sum, the times of a pass and an identifier. The width of the paper is in bytes.'
show 0 'The last letter of the name has two bytes, and only one of them would fit: it is left out whole.' french --offset 120
show 0 'Greek, on narrow paper. Two visits that are an hour apart stay apart. The second is written in UTC.' greek --width 24 --offset 180
show 0 'Arabic. The pass has no end, and one day is taken out of it.' arabic --offset 240
show 0 'Chinese. The last moment of the pass belongs to it.' chinese --offset 480
show 0 'Finnish. The pass is to 30 April, closed: all of its last day belongs to it.' last-day --offset 180
show 0 'Hindi, on wide paper. The hour from noon on the second day is taken out of the stay.' hindi --width 100 --offset 330
show 1 'A name that was cut inside its last letter before it came here: it is refused, and the guest can be shown why.' cut-letter
show 1 'A pass to 31 April: it is refused, the other records are not, and the clinic can be told which date that is.' no-such-day
show 1 'Four records that are refused, each for a reason of its own.' refused --width 48
