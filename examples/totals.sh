#!/usr/bin/env bash
# Adds up a day's records of money, of one desk and of two, for a reader to look at: `make run`.
set -eu
cd "$(dirname "$0")/.."
program=$PWD/target/host/rigcactus
cd examples/totals

# show STATUS WHAT WORD..: what is tried, the command, and what it writes. The status is what the command is to end with.
show() {
  local due=$1 what=$2 status=0 totals
  shift 2
  printf '\n%s\n  $ rigcactus totals %s\n' "$what" "$*"
  totals=$("$program" totals "$@") || status=$?
  printf '  %s\n' "${totals//$'\n'/$'\n  '}"
  [ "$status" -eq "$due" ]
}

echo "A day's records of money, added up by desk and currency, exactly."
show 0 'A deposit, and what a guest paid for parking.' deposit.xml parking.xml
show 1 "The whole day. Nobody asked for one sum, and one was written with a comma. Two deposits are paid back: francs are at zero again, and keep their line. A third was yesterday's: pounds are below zero." \
  deposit.xml deposit-in-francs.xml parking.xml not-asked.xml comma.xml refund.xml refund-in-francs.xml refund-of-yesterday.xml
show 1 'Two desks that share the box, their records as they come. Each has a report of its own: what the other sends, and what of that is refused, is not in it.' \
  --desk 1 deposit.xml --desk 2 dinner.xml comma.xml --desk 1 parking.xml refund.xml --desk 2 taxi.xml
