#!/usr/bin/env bash
# Compares records, for a reader to look at: `make run`.
set -eu
cd "$(dirname "$0")/.."
program=$PWD/target/host/rigcactus
cd examples/records

# show WHAT ARGUMENT..: what is tried, the command, and what it writes.
show() {
  printf '\n%s\n  $ rigcactus compare %s\n' "$1" "${*:2}"
  "$program" compare "${@:2}" 2>&1 | sed 's/^/  /'
}

echo 'Whether two records have the same value: yes, no or unknown.'
show 'A sum as the desk has it and as the clinic wrote it, 12.50 and 12.5.' deposit.xml deposit-of-clinic.xml
show "The guest's name, and the same parts in another order." guest.xml guest-turned.xml
show 'An arrival at half past nine two hours east, and one at half past seven in UTC.' arrival.xml arrival-utc.xml
show 'An arrival of which only the day is known: it may be the same.' arrival.xml arrival-day.xml
show 'At a desk ten hours west that day has not begun by then.' arrival.xml arrival-day.xml --offset -600
show 'A pass to 30 April, closed, and one to 1 May, open: bounds are compared as they are written, though the times are the same.' april.xml april-to-may.xml
show 'A name that nobody asked for may be any, and is not even known to be itself.' guest-not-asked.xml guest-not-asked.xml
show 'A sum and a badge are not of one type.' deposit.xml badge.xml
show 'The second record breaks a rule by itself.' pass.xml refused-rule.xml
show 'The second record has an offset that there is not.' arrival.xml refused-zone.xml
