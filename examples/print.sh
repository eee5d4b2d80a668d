#!/usr/bin/env bash
# Prints the times of passes back as records, for a reader to look at: `make run`.
set -eu
cd "$(dirname "$0")/.."
program=$PWD/target/host/rigcactus
cd examples/records

printed=$(mktemp)
trap 'rm -f "$printed"' EXIT

# show WHAT FILE OPTION..: what is tried, the command, the record that it writes, and the times of that record, which are those of the file.
show() {
  local times
  printf '\n%s\n  $ rigcactus print %s\n' "$1" "${*:2}"
  "$program" print "${@:2}" > "$printed"
  sed 's/<term/\n  &/g; s/<\/stay>/\n&/' "$printed" | sed 's/^/  /'
  times=$("$program" list "$printed" "${@:3}")
  printf '  read back:\n    %s\n' "${times//$'\n'/$'\n    '}"
  [ "$times" = "$("$program" list "${@:2}")" ]
}

echo 'The times of a pass, printed back as a record that a clinic can read: a term for each stretch, in UTC. The record is one line, and is broken here before each term.'
show 'A pass for three days, closed on the second from noon to six but for the hour from two to three: a difference in a difference.' reopened.xml
show 'A pass to 30 April, closed: it ends where 1 May begins.' april.xml
show 'A pass for three days at a desk two hours east, which agreed on 120 minutes.' pass.xml --offset 120
show 'A pass without an end, with one day taken out of it: an end that is unbounded has no flag.' open-end.xml
show 'Two halves of a morning that have nothing in common: one term that means no time.' never.xml
printf '\n%s\n  $ rigcactus print refused-not-writable.xml\n' 'A pass from the start of year 1 at an hour east: in UTC that is in the year before, which no timestamp has.'
"$program" print refused-not-writable.xml 2>&1 | sed 's/^/  /'
