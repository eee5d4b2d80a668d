#!/usr/bin/env bash
# Turns timestamps into ticks, for a reader to look at: `make run`.
set -eu
cd "$(dirname "$0")/.."
program=target/host/rigcactus

# show WHAT ARGUMENT..: what is tried, the command, and what it writes.
show() {
  printf '\n%s\n  $ rigcactus tick %s\n' "$1" "${*:2}"
  "$program" tick "${@:2}" 2>&1 | sed 's/^/  /'
}

echo 'A tick is a ten-thousandth of a second, counted from the start of year 1 in UTC.'
show 'A pass for a day. No offset is written, and none is agreed on: the day begins at midnight in UTC.' 20240501
show 'The same at a desk two hours east, which agreed on 120 minutes: its day begins two hours earlier.' 20240501 --offset 120
show 'A time with its own offset, five and a half hours east. What was agreed does not count for it.' 20240501093000.25+0530 --offset 120
show 'The start of year 1 at an hour east: a tick below zero, in the year that is written 0000.' 0001010100+01
show 'The last second of the calendar, after 9998 years that nobody counts through.' 99991231235959
show 'A leap day.' 20000229
show 'There is no 29 February in 1900, which is no leap year.' 19000229
show 'Midnight at the end of a day, as some write it: it is written as 00 of the day that begins.' 202405012400
show 'An offset beyond those that there are.' 20240501093000+1530
show 'Z is not read as an offset, and so this is not of the form of a timestamp.' 20240501093000Z
