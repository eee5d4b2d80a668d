#!/usr/bin/env bash
# Lists the times of passes, for a reader to look at: `make run`.
set -eu
cd "$(dirname "$0")/.."
program=$PWD/target/host/rigcactus
cd examples/records

# show WHAT ARGUMENT..: what is tried, the command, and what it writes.
show() {
  printf '\n%s\n  $ rigcactus list %s\n' "$1" "${*:2}"
  "$program" list "${@:2}" 2>&1 | sed 's/^/  /'
}

echo 'The times of a pass, as stretches that cannot be made longer.'
show 'A pass for three days.' pass.xml
show 'The same at a desk two hours east, which agreed on 120 minutes.' pass.xml --offset 120
show 'Its stay, without the hour from noon on the second day: what is left are two stretches.' stay.xml
show 'The numbers that C sees of it: low kind, low tick, high kind, high tick.' stay.xml --raw
show 'A pass to 30 April, which is closed: all of that day belongs to it.' april.xml
show 'The same at a desk three hours east: the day ends there at midnight.' april.xml --offset 180
show 'A pass for the afternoon of its last day: it begins in the day that it is closed at.' last-afternoon.xml
show 'Two visits.' visits.xml
show 'The part of the pass for which someone goes along: from an hour on, as long as the pass lasts.' escorted.xml
show 'A pass without an end, with one day taken out of it.' open-end.xml
show 'Two halves of a morning that have nothing in common.' never.xml
show 'A pass of which nobody knows when it ends.' refused-unknown-bound.xml
show 'A pass to 31 April.' refused-date.xml
show 'A sum of money is not a set of times.' deposit.xml
