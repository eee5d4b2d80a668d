#!/usr/bin/env bash
# Checks records of each type, for a reader to look at: `make run`.
set -eu
cd "$(dirname "$0")/.."
program=$PWD/target/host/rigcactus
cd examples/records

echo 'A record of each type, and last one that is null: nobody asked for the name.'
printf '\n  $ rigcactus check arrival.xml pass.xml ..\n'
"$program" check arrival.xml pass.xml visits.xml escorted.xml stay.xml deposit.xml badge.xml reason.xml guest.xml guest-not-asked.xml | sed 's/^/  /'

# show WHY FILE: why a record is refused, the record, with ? for a byte that is not ASCII, and the line for it.
show() {
  printf '\n%s\n' "$1"
  LC_ALL=C sed 's/[^ -~]/?/g; s/^/    /' "$2"
  line=$("$program" check "$2") && exit 1
  echo "  $line"
}

echo
echo 'Records that are refused, by the first of the refusals that applies:'
show 'A name that was cut inside a letter is no text.' refused-not-utf-8.xml
show 'A prolog is no part of a record.' refused-markup.xml
show 'It does not say of what type it is.' refused-type.xml
show 'The low comes before the high.' refused-shape.xml
show 'An amount is written with a point.' refused-value.xml
show 'April has no day 31: what is wrong with a date, a clock or an offset is named.' refused-date.xml
show 'A day ends at 00 of the next, and not at 24.' refused-clock.xml
show 'An offset of an hour and a half is 0130, and not 90 minutes.' refused-zone.xml
show 'Whether the bounds belong to the pass is not said.' refused-rule.xml
