#!/usr/bin/env bash
# The program `rigcactus`: its output, its messages and its exit statuses. What is due is written here from the rules page.
set -u
cd "$(dirname "$0")/.." || exit 2
program=${RIGCACTUS:-$PWD/target/host/rigcactus}
repository=$PWD
names=$PWD/examples/names
records=$PWD/examples/records

folder=$(mktemp -d)
trap 'rm -rf "$folder"' EXIT
cd "$folder" || exit 2
failures=0

# expect STATUS OUT ERR ARGUMENT..: runs the program on the file `in`. OUT and ERR are what it is to write, as printf takes them; an ERR
# of '*' stands for any text but an empty one.
expect() {
  local status=$1 out=$2 err=$3 got
  shift 3
  timeout 20 "$program" "$@" < in > out 2> err
  got=$?
  # shellcheck disable=SC2059
  printf "$out" > due
  if [ "$got" -ne "$status" ]; then
    fail "$* ended with $got, due is $status"
  elif ! cmp -s due out; then
    fail "$* wrote another text to standard output than is due"
  elif [ "$err" = '*' ]; then
    [ -s err ] || fail "$* wrote nothing to standard error"
  elif [ "$(cat err)" != "$err" ]; then
    fail "$* wrote to standard error: $(cat err)"
  fi
}

fail() {
  echo "tests/host.sh: rigcactus $1" >&2
  failures=$((failures + 1))
}

# Accepted: the text that is kept, and a line feed.
printf '\x5A\x6F\xC3\xAB' > in
expect 0 '\n' '' cut 0
expect 0 'Z\n' '' cut 1
expect 0 'Zo\n' '' cut 2
expect 0 'Zo\n' '' cut 3
expect 0 '\x5A\x6F\xC3\xAB\n' '' cut 4
expect 0 '\x5A\x6F\xC3\xAB\n' '' cut 000004
expect 0 '\x5A\x6F\xC3\xAB\n' '' cut 18446744073709551615
printf 'a\0b\n' > in
expect 0 'a\0b\n' '' cut 3
expect 0 'a\0b\n\n' '' cut 4
: > in
expect 0 '\n' '' cut 0
expect 0 '\n' '' cut 10

# The names of the examples, at a room inside a character.
cp "$names/french.txt" in
expect 0 'Fran\n' '' cut 5
cp "$names/chinese.txt" in
expect 0 '\xE7\x8E\x8B\xE7\xA7\x80\n' '' cut 8
cp "$names/emoji.txt" in
expect 0 'Kim \n' '' cut 7
expect 0 'Kim \xF0\x9F\x8C\xB5\n' '' cut 8

# Refused: nothing on standard output, the name and the number on standard error.
cp "$names/guest-cut-by-bytes.txt" in
expect 1 '' 'rigcactus: refused: NOT UTF-8 (3)' cut 2
expect 1 '' 'rigcactus: refused: NOT UTF-8 (3)' cut 0
printf '\xED\xA0\x80' > in
expect 1 '' 'rigcactus: refused: NOT UTF-8 (3)' cut 3

# The limit, from both sides.
head -c 16384 /dev/zero > in
expect 0 '\0\0\n' '' cut 2
head -c 16385 /dev/zero > in
expect 1 '' 'rigcactus: refused: TOO LONG (2)' cut 2
head -c 16385 /dev/zero | tr '\0' '\377' > in
expect 1 '' 'rigcactus: refused: TOO LONG (2)' cut 2
ln -sf /dev/zero in
expect 1 '' 'rigcactus: refused: TOO LONG (2)' cut 2
rm in

# Ticks: the tick, the precision in words and the instant.
: > in
expect_tick() { expect 0 "tick       $1\nprecision  $2\ninstant    $3 UTC\n" '' tick "${@:4}"; }
expect_tick 0 '4 digits, to the year' '0001-01-01 00:00:00.0000' 0001
expect_tick 621355968000000 '8 digits, to the day' '1970-01-01 00:00:00.0000' 19700101
expect_tick 630822816000001 '18 digits, to the ten-thousandth of a second' '2000-01-01 00:00:00.0001' 20000101000000.0001+0000
expect_tick -36000000 '10 digits, to the hour' '0000-12-31 23:00:00.0000' 0001010100+01
expect_tick 638501184000000 '6 digits, to the month' '2024-05-01 00:00:00.0000' 202405
expect_tick 638502480000000 '10 digits, to the hour' '2024-05-02 12:00:00.0000' 2024050212
expect_tick 638502480600000 '12 digits, to the minute' '2024-05-02 12:01:00.0000' 202405021201
expect_tick 638502480610000 '14 digits, to the second' '2024-05-02 12:01:01.0000' 20240502120101
expect_tick 638502480611000 '15 digits, to the tenth of a second' '2024-05-02 12:01:01.1000' 20240502120101.1
expect_tick 638502480611200 '16 digits, to the hundredth of a second' '2024-05-02 12:01:01.1200' 20240502120101.12
expect_tick 638502480611230 '17 digits, to the thousandth of a second' '2024-05-02 12:01:01.1230' 20240502120101.123

# The agreed offset, which a text with its own does not take; the first and the last instant there are.
expect_tick 638501112000000 '8 digits, to the day' '2024-04-30 22:00:00.0000' 20240501 --offset 120
expect_tick 638501112000000 '8 digits, to the day' '2024-04-30 22:00:00.0000' 20240501 --offset +120
expect_tick 638501256000000 '8 digits, to the day' '2024-05-01 02:00:00.0000' 20240501 --offset -120
expect_tick 638501184000000 '10 digits, to the hour' '2024-05-01 00:00:00.0000' 2024050102+02 --offset -120
expect_tick -504000000 '4 digits, to the year' '0000-12-31 10:00:00.0000' 0001 --offset 840
expect_tick 3155379479999999 '18 digits, to the ten-thousandth of a second' '10000-01-01 13:59:59.9999' 99991231235959.9999 --offset -840

# Every month's end, from both sides, and leap days: the instant is what is written.
for date in 0001-12-31 1900-02-28 1900-03-01 1999-12-31 2000-02-29 2000-03-01 2000-12-31 2023-02-28 2024-01-31 2024-02-01 2024-02-29 \
  2024-03-31 2024-04-30 2024-05-31 2024-06-30 2024-07-31 2024-08-31 2024-09-30 2024-10-31 2024-11-30 2024-12-31 2100-03-01 9999-12-31; do
  "$program" tick "${date//-/}235958" > out 2> err || fail "tick of $date was refused"
  grep -qx "instant    $date 23:59:58.0000 UTC" out || fail "tick of $date wrote another instant"
done

# Timestamps of a wrong form, with an impossible date, clock or offset too.
for text in '' 2024050112Z 20240501+01 20240501-1401 20240230+15 ' 2024' '2024 ' 2024-05-01 20240230Z 2024023 20240230246060. 20240230246060.12345 2024050124+ 2024050124+1 \
  2024050124+140 2024050124+14:01 2024050124+14001 202405012400.5 0000- 00000 "$(printf '202\xD9\xA4')"; do
  expect 1 '' 'rigcactus: refused: VALUE (7)' tick "$text"
done

# The right form, and no such time: what there is not is named. expect_wrong REFUSAL WHAT TEXT..: each text is refused so, with any allowed offset.
expect_wrong() {
  local refusal=$1 what=$2 text offset
  shift 2
  for text; do
    for offset in 0 840 -840; do expect 1 '' "rigcactus: refused: $refusal: $what" tick "$text" --offset $offset; done
    expect 1 '' 'rigcactus: refused: OFFSET (1)' tick "$text" --offset 841
  done
}
years=': years go from 0001 to 9999'
expect_wrong 'DATE (13)' "the year 0000 is on no calendar$years" 0000 000001 00000101 0000010100 00001301 00000230 0000023025+15
months=': months go from 01 to 12'
expect_wrong 'DATE (13)' "the month 13 of 2024 is on no calendar$months" 202413 20241301 20241332 2024130124 20241301246060.5+1500
expect_wrong 'DATE (13)' "the month 00 of 0001 is on no calendar$months" 000100 00010000
expect_wrong 'DATE (13)' "the month 99 of 9999 is on no calendar$months" 999999 99999999
expect_wrong 'DATE (13)' 'the date 30 February 2024 is on no calendar' 20240230 2024023009 202402302460 20240230093060 20240230093000.1234-1401
expect_wrong 'DATE (13)' 'the date 29 February 1900 is on no calendar' 19000229
expect_wrong 'DATE (13)' 'the date 29 February 2023 is on no calendar' 20230229
expect_wrong 'DATE (13)' 'the date 29 February 0001 is on no calendar' 00010229
expect_wrong 'DATE (13)' 'the date 30 February 2000 is on no calendar' 20000230
number=0
for month in January February March April May June July August September October November December; do
  number=$((number + 1))
  digits=$(printf %02d $number)
  expect_wrong 'DATE (13)' "the date 32 $month 9999 is on no calendar" "9999${digits}32"
  expect_wrong 'DATE (13)' "the date 99 $month 2024 is on no calendar" "2024${digits}99"
  expect_wrong 'DATE (13)' "the day 00 of $month 2024 is on no calendar: days go from 01 on" "2024${digits}00" "2024${digits}0024"
  case $month in
    April | June | September | November) expect_wrong 'DATE (13)' "the date 31 $month 2024 is on no calendar" "2024${digits}31" ;;
    February) ;;
    *) "$program" tick "2024${digits}31" > out 2> err || fail "tick of 31 $month was refused" ;;
  esac
done
hours=' is on no clock: hours go from 00 to 23'
expect_wrong 'CLOCK (14)' "the hour 24$hours" 2024050124 202405012400 20240501240000 20240501240000.0+0000 202405012460 2024050124+1401 00010101246060
expect_wrong 'CLOCK (14)' "the hour 99$hours" 9999123199 20240229995959
minutes=' is on no clock: minutes go from 00 to 59'
expect_wrong 'CLOCK (14)' "the time 09:60$minutes" 202405010960 20240501096000 20240501096060.5 202405010960+0060
expect_wrong 'CLOCK (14)' "the time 23:99$minutes" 202405012399
expect_wrong 'CLOCK (14)' 'the time 23:59:60 is on no clock: seconds go from 00 to 59' 20161231235960 20161231235960.0001 20161231235960-15
expect_wrong 'CLOCK (14)' 'the time 00:00:99 is on no clock: seconds go from 00 to 59' 20240501000099
offsets=' is of no time zone: offsets go up to 14:00, with minutes from 00 to 59'
expect_wrong 'ZONE (15)' "the offset +14:01$offsets" 2024050109+1401 202405010930+1401 20240501093000+1401 20240501093000.25+1401
expect_wrong 'ZONE (15)' "the offset -14:01$offsets" 0001010100-1401 99991231235959.9999-1401
expect_wrong 'ZONE (15)' "the offset +15$offsets" 2024050109+15
expect_wrong 'ZONE (15)' "the offset -99$offsets" 20240501093000-99
expect_wrong 'ZONE (15)' "the offset +00:60$offsets" 2024050109+0060
expect_wrong 'ZONE (15)' "the offset -13:99$offsets" 2024050109-1399
expect_wrong 'ZONE (15)' "the offset +99:99$offsets" 202405010930+9999

# The times that docs/HOST.md shows.
shown=0
# shellcheck disable=SC2016
while IFS=$'\t' read -r text line; do
  shown=$((shown + 1))
  expect 1 '' "rigcactus: refused: $line" tick "$text"
done < <(sed -n 's/^| `\([0-9+]*\)` | \([A-Z]* ([0-9]*)\) | \(.*\) |$/\1\t\2: \3/p' "$repository/docs/HOST.md")
[ $shown -eq 9 ] || fail "tick: docs/HOST.md shows $shown times that cannot be, and not 9"

# Just possible, beside what is not.
for text in 0001 9999 202401 202412 20240101 20240229 20230228 20000229 19000228 20240430 20240531 2024050100 2024050123 202405010959 20240501095959 2024050109+14 \
  2024050109+1400 2024050109-1400 2024050109+1359 2024050109+0059 2024050109-00; do
  "$program" tick "$text" > out 2> err || fail "tick $text was refused: $(cat err)"
done
expect 1 '' 'rigcactus: refused: OFFSET (1)' tick 2024 --offset 841
expect 1 '' 'rigcactus: refused: OFFSET (1)' tick 2024 --offset -841
expect 1 '' 'rigcactus: refused: OFFSET (1)' tick 2024 --offset 9223372036854775807
expect 1 '' 'rigcactus: refused: VALUE (7)' tick "$(head -c 16384 /dev/zero | tr '\0' 1)"
expect 1 '' 'rigcactus: refused: TOO LONG (2)' tick "$(head -c 16385 /dev/zero | tr '\0' 1)"
expect 1 '' 'rigcactus: refused: OFFSET (1)' tick "$(head -c 16385 /dev/zero | tr '\0' 1)" --offset 841

# Records: a line for each file, by its name as it was given.
: > in
for type in arrival badge deposit escorted guest guest-not-asked pass reason reopened stay visits; do
  cp "$records/$type.xml" .
  expect 0 "$type.xml: ACCEPTED\n" '' check "$type.xml"
done
for refusal in 'NOT UTF-8 (3)' 'MARKUP (4)' 'TYPE (5)' 'SHAPE (6)' 'VALUE (7)' 'DATE (13): the date 31 April 2024 is on no calendar' \
  "CLOCK (14): the hour 24$hours" "ZONE (15): the offset +00:90$offsets" 'RULE (8)'; do
  name=${refusal%% (*}
  name=${name,,}
  cp "$records/refused-${name// /-}.xml" "${name// /-}"
  expect 1 "${name// /-}: $refusal\n" '' check "${name// /-}"
done
expect 0 'pass.xml: ACCEPTED\nstay.xml: ACCEPTED\n./pass.xml: ACCEPTED\n' '' check pass.xml stay.xml ./pass.xml
expect 1 'type: TYPE (5)\npass.xml: ACCEPTED\nrule: RULE (8)\n' '' check type pass.xml rule
: > empty
expect 1 'empty: MARKUP (4)\n' '' check empty
{ cat deposit.xml; head -c $((16384 - $(wc -c < deposit.xml))) /dev/zero | tr '\0' ' '; } > longest
{ cat longest; printf ' '; } > longer
expect 1 'longest: ACCEPTED\nlonger: TOO LONG (2)\n/dev/zero: TOO LONG (2)\n' '' check longest longer /dev/zero

# The agreed offset: one hour east the day begins before the instant that the high is, and not after.
printf '<t xsi:type="IVL_TS" lowClosed="true" highClosed="true"><low value="20240501"/><high value="2024043023+00"/></t>' > crossed
expect 1 'crossed: RULE (8)\n' '' check crossed
expect 0 'crossed: ACCEPTED\n' '' check crossed --offset 60
expect 0 'crossed: ACCEPTED\n' '' check crossed --offset 1
printf '<t xsi:type="IVL_TS" lowClosed="true" highClosed="false"><low value="20240501"/><high value="2024043023+00"/></t>' > crossed-open
expect 0 'crossed-open: ACCEPTED\n' '' check crossed-open --offset 60
expect 1 'crossed-open: RULE (8)\n' '' check crossed-open --offset 59
expect 1 'crossed: RULE (8)\n' '' check crossed --offset -840
expect 1 'pass.xml: OFFSET (1)\nstay.xml: OFFSET (1)\n' '' check pass.xml stay.xml --offset 841

# Files that cannot be read: the others are checked all the same.
expect 3 '' 'rigcactus: cannot read none: No such file or directory' check none
expect 3 'type: TYPE (5)\npass.xml: ACCEPTED\n' 'rigcactus: cannot read none: No such file or directory' check type none pass.xml
expect 3 '' 'rigcactus: cannot read .: Is a directory' check .

# A record with an impossible time: the first timestamp that gets the record's refusal is named, and no other. A wrong form anywhere comes first, then an impossible
# date anywhere, then a clock, then an offset, then a broken rule. interval LOW HIGH [NAME]: a record of two bounds.
# expect_checked REFUSAL RECORD: so the record is refused, by check, list, print and compare, on either side. print and list refuse a record that is no set otherwise.
interval() { printf '<%s xsi:type="IVL_TS" lowClosed="true" highClosed="true"><low value="%s"/><high value="%s"/></%s>' "${3-t}" "$1" "$2" "${3-t}"; }
expect_checked() {
  local number=${1%%:*} what=''
  [ "$number" = "$1" ] || what=": ${1#*: }"
  printf '%s' "$2" > given
  expect 1 "given: $1\\n" '' check given
  expect 1 "pass.xml: ACCEPTED\\ngiven: $1\\n" '' check pass.xml given --offset -840
  expect 1 '' "rigcactus: refused: $number, the first record, given$what" compare given given
  expect 1 '' "rigcactus: refused: $number, the second record, given$what" compare pass.xml given --offset 840
  case $2 in *'"TS"'*) set -- 'TYPE (5)' ;; esac
  expect 1 '' "rigcactus: refused: $1" list given
  expect 1 '' "rigcactus: refused: $1" list given --raw --offset 840
  expect 1 '' "rigcactus: refused: $1" print given --offset -840
}
february='the date 30 February 2024 is on no calendar'
expect_checked "DATE (13): $february" '<t xsi:type="TS" value="20240230"/>'
expect_checked "CLOCK (14): the hour 24$hours" '<t xsi:type="TS" value="2024050124"/>'
expect_checked "ZONE (15): the offset +15$offsets" '<t xsi:type="TS" value="2024050109+15"/>'
expect_checked "DATE (13): $february" '<t xsi:type="TS" nullFlavor="UNK" value="20240230"/>'
expect_checked "DATE (13): $february" "$(interval 20240230 20240501)"
expect_checked "DATE (13): $february" "$(interval 20240201 20240230)"
expect_checked "DATE (13): $february" "$(interval 20240230 20240231)"
expect_checked "DATE (13): the date 31 February 2024 is on no calendar" "$(interval 20240231 20240230)"
expect_checked "DATE (13): $february" "$(interval 2024020124 20240230)"
expect_checked "DATE (13): $february" "$(interval 2024020109+15 20240230)"
expect_checked "DATE (13): $february" "$(interval 2024023024+15 2024050124)"
expect_checked "CLOCK (14): the hour 24$hours" "$(interval 2024050124 20240502)"
expect_checked "CLOCK (14): the time 09:60$minutes" "$(interval 20240502 202405010960)"
expect_checked "CLOCK (14): the time 09:60$minutes" "$(interval 2024050109+1401 202405010960)"
expect_checked "CLOCK (14): the time 09:60$minutes" "$(interval 2024050109 202405010960+1401)"
expect_checked "CLOCK (14): the time 09:60$minutes" "$(interval 202405010960 2024050124)"
expect_checked "ZONE (15): the offset +00:60$offsets" "$(interval 2024050109 2024050109+0060)"
expect_checked "ZONE (15): the offset -14:01$offsets" "$(interval 2024050109-1401 2024050109+0060)"
for value in 20240230 2024050124 2024050109+15; do
  expect_checked 'VALUE (7)' "$(interval $value 2024-05-01)"
  expect_checked 'VALUE (7)' "$(interval '' $value)"
  expect_checked 'VALUE (7)' "<t xsi:type=\"IVL_TS\" lowClosed=\"yes\"><low value=\"$value\"/></t>"
  expect_checked 'VALUE (7)' "<t xsi:type=\"TS\" value=\"$value&amp;\"/>"
  expect_checked 'SHAPE (6)' "<t xsi:type=\"IVL_TS\"><low value=\"$value\"/><low/></t>"
  expect_checked 'SHAPE (6)' "<t xsi:type=\"IVL_TS\" value=\"$value\"/>"
  expect_checked 'MARKUP (4)' "<t xsi:type=\"IVL_TS\"><low value=\"$value\"></t>"
done

# It is found wherever it stands: in a set in a set, after timestamps that are good, null or wrong in a later way, between other attributes, and spread over lines. Rules that
# are broken beside it, bounds that are not known, and over 32 intervals, come after it.
expect_checked "DATE (13): $february" "<t xsi:type=\"QSU_TS\">$(interval 2024 2025 term)$(interval 2024050124 2024050109+15 term)$(interval 2024 20240230 term)</t>"
expect_checked "DATE (13): $february" "<t xsi:type=\"QSI_TS\"><term xsi:type=\"IVL_TS\"><low nullFlavor=\"UNK\"/></term><term xsi:type=\"QSD_TS\">$(interval 2025 2024 minuend)$(interval 20240230 2024 subtrahend)</term></t>"
expect_checked "CLOCK (14): the hour 24$hours" '<t xsi:type="IVL_TS"><low value="2024"/><high value="2024050124"/></t>'
expect_checked "CLOCK (14): the hour 24$hours" '<t xsi:type="QSU_TS" nullFlavor="NI"><term xsi:type="IVL_TS" nullFlavor="NI"><low value="2024050124" nullFlavor="NI"/></term></t>'
expect_checked "ZONE (15): the offset +15$offsets" $'\n<t xmlns:value="20240230"\txmlns="2024050124" xsi:type = "IVL_TS">\r\n  <low\n    value\n    =\n    "2024050109+15"\n  >\n  </low >\n</t>\n'
expect_checked "DATE (13): $february" "<t xsi:type=\"QSU_TS\">$(for i in {1..33}; do interval 2024 2025 term; done)$(interval 2024 20240230 term)</t>"

# Times: a line for each stretch, with two instants.
midnight='2024-05-01 00:00:00'
stay="from $midnight (included) to 2024-05-02 12:00:00 (not included)\\nfrom 2024-05-02 13:00:00 (included) to 2024-05-04 00:00:00 (not included)\\n"
expect 0 "$stay" '' list stay.xml
expect 0 '2 638501184000000 1 638502480000000\n2 638502516000000 1 638503776000000\n' '' list stay.xml --raw
expect 0 "from $midnight (included) to 2024-05-04 00:00:00 (not included)\\n" '' list pass.xml
expect 0 'from 2024-05-01 09:00:00 (included) to 2024-05-01 12:00:00 (not included)\nfrom 2024-05-02 14:00:00 (included) to 2024-05-02 18:00:00 (not included)\n' '' list visits.xml
expect 0 'from 2024-05-02 13:00:00 (included) to 2024-05-04 00:00:00 (not included)\n' '' list escorted.xml
expect 0 "from $midnight (included) to 2024-05-02 12:00:00 (not included)
from 2024-05-02 14:00:00 (included) to 2024-05-02 15:00:00 (not included)
from 2024-05-02 18:00:00 (included) to 2024-05-04 00:00:00 (not included)\\n" '' list reopened.xml
cp "$records/never.xml" "$records/open-end.xml" "$records/april.xml" "$records/april-to-may.xml" "$records/last-afternoon.xml" .
expect 0 'no times\n' '' list never.xml
expect 0 '' '' list never.xml --raw
expect 0 "from $midnight (included) to 2024-12-25 00:00:00 (not included)\\nfrom 2024-12-26 00:00:00 (included) to the end of time\\n" '' list open-end.xml
expect 0 '2 638501184000000 1 638706816000000\n2 638707680000000 0 0\n' '' list open-end.xml --raw

# Times as clocks at the agreed offset show them, and the numbers, which are in UTC.
expect 0 "from $midnight +02:00 (included) to 2024-05-04 00:00:00 +02:00 (not included)\\n" '' list pass.xml --offset 120
expect 0 "from $midnight -03:30 (included) to 2024-05-04 00:00:00 -03:30 (not included)\\n" '' list pass.xml --offset -210
expect 0 '2 638501112000000 1 638503704000000\n' '' list pass.xml --offset 120 --raw
expect 0 '2 638501112000000 1 638503704000000\n' '' list pass.xml --raw --offset 120
expect 0 "from $midnight (included) to 2024-05-04 00:00:00 (not included)\\n" '' list pass.xml --offset 0
printf '<t xsi:type="IVL_TS" lowClosed="false" highClosed="true"><low value="00010101000000.0001"/><high value="99991231235959.9999"/></t>' > widest
expect 0 'from 0001-01-01 00:00:00.0001 +14:00 (not included) to 9999-12-31 23:59:59.9999 +14:00 (included)\n' '' list widest --offset 840
printf '<t xsi:type="IVL_TS" lowClosed="true" highClosed="true"><low value="0001010100+14"/><high value="99991231235959.9999-14"/></t>' > wider
expect 0 'from 0000-12-30 20:00:00 -14:00 (included) to 9999-12-31 23:59:59.9999 -14:00 (included)\n' '' list wider --offset -840
expect 0 'from 0001-01-01 00:00:00 +14:00 (included) to 10000-01-02 03:59:59.9999 +14:00 (included)\n' '' list wider --offset 840
printf '<t xsi:type="IVL_TS"><low nullFlavor="NINF"/><high nullFlavor="PINF"/></t>' > all
expect 0 'from the beginning of time to the end of time\n' '' list all
expect 0 '0 0 0 0\n' '' list all --raw

# The last day is a whole day, and so is the last year.
april='from 2024-04-01 00:00:00 (included) to 2024-05-01 00:00:00 (not included)\n'
expect 0 "$april" '' list april.xml
expect 0 "$april" '' list april-to-may.xml
expect 0 '2 638475264000000 1 638501184000000\n' '' list april.xml --raw
expect 0 'from 2024-04-01 00:00:00 +03:00 (included) to 2024-05-01 00:00:00 +03:00 (not included)\n' '' list april.xml --offset 180
expect 0 'from 2024-04-30 12:00:00 (included) to 2024-05-01 00:00:00 (not included)\n' '' list last-afternoon.xml
printf '<t xsi:type="IVL_TS" lowClosed="true" highClosed="true"><low value="2024"/><high value="9999"/></t>' > to-9999
expect 0 'from 2024-01-01 00:00:00 (included) to 10000-01-01 00:00:00 (not included)\n' '' list to-9999
expect 0 '2 638396640000000 1 3155378976000000\n' '' list to-9999 --raw
expect 0 '2 638397144000000 1 3155379480000000\n' '' list to-9999 --raw --offset -840
expect 0 '2 638396136000000 1 3155378472000000\n' '' list to-9999 --raw --offset 840
printf '<t xsi:type="IVL_TS" lowClosed="true" highClosed="false"><low value="2024043012"/><high value="20240430"/></t>' > last-open
expect 1 '' 'rigcactus: refused: RULE (8)' list last-open

# 32 stretches, and one interval more.
{
  printf '<t xsi:type="QSU_TS">'
  for i in {01..32}; do
    printf '<term xsi:type="IVL_TS" lowClosed="true" highClosed="true"><low value="202405010000%s"/><high value="202405010000%s"/></term>' "$i" "$i"
  done
} > most
{ cat most; printf '<term xsi:type="IVL_TS" lowClosed="true" highClosed="true"><low value="2024"/><high value="2024"/></term></t>'; } > too-many
printf '</t>' >> most
expect 0 "$(for i in {01..32}; do printf 'from 2024-05-01 00:00:%s (included) to 2024-05-01 00:00:%s (included)\\n' "$i" "$i"; done)" '' list most
expect 1 '' 'rigcactus: refused: TOO MANY (10)' list too-many

# Sets that are refused.
expect 1 '' 'rigcactus: refused: UNKNOWN BOUND (9)' list "$records/refused-unknown-bound.xml"
expect 1 '' 'rigcactus: refused: TYPE (5)' list deposit.xml
expect 1 '' 'rigcactus: refused: TYPE (5)' list value
expect 1 '' 'rigcactus: refused: TYPE (5)' list zone
expect 1 '' 'rigcactus: refused: RULE (8)' list rule --raw
expect 1 '' 'rigcactus: refused: MARKUP (4)' list empty
expect 1 '' 'rigcactus: refused: TOO LONG (2)' list /dev/zero
expect 1 '' 'rigcactus: refused: OFFSET (1)' list pass.xml --offset 841
expect 3 '' 'rigcactus: cannot read none: No such file or directory' list none

# Times as a record, and a line feed: first the whole example of the rules page.
expect 0 '<stay xsi:type="QSU_TS"><term xsi:type="IVL_TS" lowClosed="true" highClosed="false"><low value="20240501000000.0000+0000"/><high value="20240502120000.0000+0000"/></term><term xsi:type="IVL_TS" lowClosed="true" highClosed="false"><low value="20240502130000.0000+0000"/><high value="20240504000000.0000+0000"/></term></stay>\n' '' print stay.xml

# record_of TERM..: the record of these terms. term LOW_CLOSED LOW HIGH HIGH_CLOSED: one of them, its bounds without the offset; one that is - is unbounded.
record_of() { printf '<stay xsi:type="QSU_TS">'; printf %s "$@"; printf '</stay>'; }
term() {
  local low="<low value=\"$2+0000\"/>" high="<high value=\"$3+0000\"/>" low_flag=" lowClosed=\"$1\"" high_flag=" highClosed=\"$4\""
  [ "$2" != - ] || { low='<low nullFlavor="NINF"/>'; low_flag=''; }
  [ "$3" != - ] || { high='<high nullFlavor="PINF"/>'; high_flag=''; }
  printf '<term xsi:type="IVL_TS"%s%s>%s%s</term>' "$low_flag" "$high_flag" "$low" "$high"
}

# expect_printed FILE OFFSET TERM..: the set is printed so. What is printed is a record that has the same times with every offset, and is printed as itself.
expect_printed() {
  local name=$1 offset=$2
  shift 2
  expect 0 "$(record_of "$@")\\n" '' print "$name" --offset "$offset"
  cp out printed
  expect 0 'printed: ACCEPTED\n' '' check printed
  expect 0 "$(cat printed)\\n" '' print printed --offset 30
  "$program" list "$name" --offset "$offset" --raw > raw
  "$program" list "$name" --offset "$offset" > listed
  for agreed in 0 "$offset" 840 -840; do
    "$program" list printed --offset "$agreed" --raw | cmp -s raw - || fail "print $name --offset $offset wrote other times, read with offset $agreed"
  done
  "$program" list printed --offset "$offset" | cmp -s listed - || fail "print $name --offset $offset wrote times that are listed in other words"
}

day=20240501000000.0000
expect_printed pass.xml 0 "$(term true $day 20240504000000.0000 false)"
expect_printed pass.xml 120 "$(term true 20240430220000.0000 20240503220000.0000 false)"
expect_printed pass.xml -210 "$(term true 20240501033000.0000 20240504033000.0000 false)"
expect_printed stay.xml 840 "$(term true 20240430100000.0000 20240501220000.0000 false)" "$(term true 20240501230000.0000 20240503100000.0000 false)"
expect_printed visits.xml 0 "$(term true 20240501090000.0000 20240501120000.0000 false)" "$(term true 20240502140000.0000 20240502180000.0000 false)"
expect_printed escorted.xml 0 "$(term true 20240502130000.0000 20240504000000.0000 false)"
expect_printed reopened.xml 0 "$(term true $day 20240502120000.0000 false)" "$(term true 20240502140000.0000 20240502150000.0000 false)" \
  "$(term true 20240502180000.0000 20240504000000.0000 false)"
expect_printed reopened.xml -840 "$(term true 20240501140000.0000 20240503020000.0000 false)" "$(term true 20240503040000.0000 20240503050000.0000 false)" \
  "$(term true 20240503080000.0000 20240504140000.0000 false)"
printf '<t xsi:type="IVL_TS" lowClosed="false" highClosed="true"><low value="20240501093000.25+0530"/><high value="20240501040000.2501"/></t>' > fractions
expect_printed fractions 0 "$(term false 20240501040000.2500 20240501040000.2501 true)"

# No time at all, with every offset the same, and unbounded ends, each without its flag.
first=00010101000000.0000
last=99991231235959.9999
expect_printed never.xml 0 "$(term false $first $first false)"
expect_printed never.xml 840 "$(term false $first $first false)"
expect_printed all 0 "$(term - - - -)"
expect_printed open-end.xml 0 "$(term true $day 20241225000000.0000 false)" "$(term true 20241226000000.0000 - -)"
printf '<t xsi:type="IVL_TS" highClosed="true"><low nullFlavor="NINF"/><high value="20240501"/></t>' > until
expect_printed until 0 "$(term - - 20240502000000.0000 false)"
printf '<t xsi:type="QSD_TS"><minuend xsi:type="IVL_TS"><low nullFlavor="NINF"/><high nullFlavor="PINF"/></minuend><subtrahend xsi:type="IVL_TS" lowClosed="true" highClosed="true"><low value="20240501"/><high value="20240501"/></subtrahend></t>' > but-one
expect_printed but-one 0 "$(term - - $day false)" "$(term true 20240502000000.0000 - -)"
expect_printed april.xml 0 "$(term true 20240401000000.0000 $day false)"
expect_printed april.xml 180 "$(term true 20240331210000.0000 20240430210000.0000 false)"
expect_printed last-afternoon.xml 0 "$(term true 20240430120000.0000 $day false)"

# Every month's end and leap days: the date is what is written.
for date in 00011231 19000228 19000301 20000229 20000301 20001231 20230228 20240131 20240229 20240331 20240430 20240531 20240630 20240731 20240831 \
  20240930 20241031 20241130 20241231 21000301 99991231; do
  printf '<t xsi:type="IVL_TS" lowClosed="true"><low value="%s235958"/><high nullFlavor="PINF"/></t>' "$date" > dated
  expect_printed dated 0 "$(term true "${date}235958.0000" - -)"
done

# 32 terms; and the longest record there is, 4,735 bytes before the line feed.
terms=()
for i in {01..32}; do terms+=("$(term true "202405010000$i.0000" "202405010000$i.0000" true)"); done
expect_printed most 0 "${terms[@]}"
{
  printf '<t xsi:type="QSU_TS">'
  for i in {01..32}; do
    printf '<term xsi:type="IVL_TS" lowClosed="false" highClosed="false"><low value="202405010000%s"/><high value="202405010000%s.5"/></term>' "$i" "$i"
  done
  printf '</t>'
} > most-open
terms=()
for i in {01..32}; do terms+=("$(term false "202405010000$i.0000" "202405010000$i.5000" false)"); done
expect_printed most-open 0 "${terms[@]}"
[ "$(wc -c < printed)" -eq 4736 ] || fail 'print most-open wrote another length than 4,735 bytes and a line feed'

# Years 0001 to 9999 in UTC, from both sides: the first tick and the last are written, those beside them are not, whether or not they belong to the set.
not_writable='rigcactus: refused: NOT WRITABLE (12). Tell the clinic: a time lies outside years 0001 to 9999 in UTC, as the end of year 9999 does. Please send times within them.'
printf '<t xsi:type="IVL_TS" lowClosed="true" highClosed="true"><low value="0001010101+01"/><high value="99991231225959.9999-01"/></t>' > edges
expect_printed edges 0 "$(term true $first $last true)"
expect_printed edges 840 "$(term true $first $last true)"
for flag in true false; do
  printf '<t xsi:type="IVL_TS" lowClosed="%s" highClosed="true"><low value="00010101005959.9999+01"/><high value="2024"/></t>' $flag > before
  expect 1 '' "$not_writable" print before
  printf '<t xsi:type="IVL_TS" lowClosed="true" highClosed="%s"><low value="2024"/><high value="99991231230000-01"/></t>' $flag > after
  expect 1 '' "$not_writable" print after
done
expect 1 '' "$not_writable" print "$records/refused-not-writable.xml"
printf '<t xsi:type="IVL_TS" lowClosed="true" highClosed="true"><low value="9999"/><high value="9999"/></t>' > last-year
expect 1 '' "$not_writable" print last-year
expect 1 '' "$not_writable" print last-year --offset -840
expect_printed last-year 840 "$(term true 99981231100000.0000 99991231100000.0000 false)"
printf '<t xsi:type="IVL_TS" lowClosed="true"><low value="00010101"/><high nullFlavor="PINF"/></t>' > first-day
expect_printed first-day 0 "$(term true $first - -)"
expect_printed first-day -60 "$(term true 00010101010000.0000 - -)"
expect 1 '' "$not_writable" print first-day --offset 60
expect 1 '' "$not_writable" print first-day --offset 1
expect 0 '2 -36000000 0 0\n' '' list first-day --offset 60 --raw

# Only the times that are left count, and a set that cannot be listed is refused for that.
outside='<low value="0001010100+01"/><high value="2024"/>'
printf '<t xsi:type="QSD_TS"><minuend xsi:type="IVL_TS" lowClosed="true" highClosed="true">%s</minuend><subtrahend xsi:type="IVL_TS" highClosed="false"><low nullFlavor="NINF"/><high value="2023"/></subtrahend></t>' "$outside" > inside
expect_printed inside 0 "$(term true 20230101000000.0000 20250101000000.0000 false)"
printf '<t xsi:type="QSU_TS"><term xsi:type="IVL_TS" lowClosed="true" highClosed="true">%s</term><term xsi:type="IVL_TS"/></t>' "$outside" > unknown
expect 1 '' 'rigcactus: refused: UNKNOWN BOUND (9)' print unknown
interval 1900-02-28 2024 > no-form
expect 1 '' 'rigcactus: refused: OFFSET (1)' print pass.xml --offset 841
expect 1 '' 'rigcactus: refused: TOO LONG (2)' print /dev/zero
expect 1 '' 'rigcactus: refused: NOT UTF-8 (3)' print not-utf-8
expect 1 '' 'rigcactus: refused: MARKUP (4)' print empty
expect 1 '' 'rigcactus: refused: TYPE (5)' print deposit.xml
expect 1 '' 'rigcactus: refused: TYPE (5)' print value
expect 1 '' 'rigcactus: refused: SHAPE (6)' print shape
expect 1 '' 'rigcactus: refused: VALUE (7)' print no-form
expect 1 '' 'rigcactus: refused: DATE (13): the date 31 April 2024 is on no calendar' print date
expect 1 '' "rigcactus: refused: CLOCK (14): the hour 24$hours" print clock
expect 1 '' 'rigcactus: refused: RULE (8)' print rule
expect 1 '' 'rigcactus: refused: UNKNOWN BOUND (9)' print "$records/refused-unknown-bound.xml"
expect 1 '' 'rigcactus: refused: TOO MANY (10)' print too-many
expect 3 '' 'rigcactus: cannot read none: No such file or directory' print none
expect 3 '' 'rigcactus: cannot read .: Is a directory' print .

# Two records: one word, or which of them is refused.
printf '<deposit xsi:type="MO" value="12.5" currency="EUR"/>' > same-deposit
printf '<deposit xsi:type="MO" value="12.51" currency="EUR"/>' > other-deposit
expect 0 'yes\n' '' compare deposit.xml same-deposit
expect 0 'yes\n' '' compare same-deposit deposit.xml
expect 0 'yes\n' '' compare deposit.xml deposit.xml
expect 0 'no\n' '' compare deposit.xml other-deposit
expect 0 'unknown\n' '' compare guest.xml guest-not-asked.xml
expect 0 'unknown\n' '' compare guest-not-asked.xml guest-not-asked.xml
for type in arrival badge deposit guest pass reason; do
  expect 0 'yes\n' '' compare "$type.xml" "$type.xml"
done
expect 1 '' 'rigcactus: refused: TYPE (5), the second record, badge.xml' compare deposit.xml badge.xml
expect 1 '' 'rigcactus: refused: TYPE (5), the second record, stay.xml' compare stay.xml stay.xml
expect 1 '' 'rigcactus: refused: VALUE (7), the first record, value' compare value rule
expect 1 '' 'rigcactus: refused: RULE (8), the second record, rule' compare deposit.xml rule
expect 1 '' 'rigcactus: refused: MARKUP (4), the first record, empty' compare empty empty
expect 1 '' 'rigcactus: refused: DATE (13), the first record, date: the date 31 April 2024 is on no calendar' compare date clock
expect 1 '' "rigcactus: refused: CLOCK (14), the first record, clock: the hour 24$hours" compare clock date
expect 1 '' "rigcactus: refused: ZONE (15), the second record, zone: the offset +00:90$offsets" compare arrival.xml zone
expect 1 '' "rigcactus: refused: ZONE (15), the second record, zone: the offset +00:90$offsets" compare deposit.xml zone
expect 1 '' "rigcactus: refused: ZONE (15), the first record, zone: the offset +00:90$offsets" compare zone value
expect 1 '' 'rigcactus: refused: VALUE (7), the first record, value' compare value zone
expect 1 '' 'rigcactus: refused: TOO LONG (2), the second record, longer' compare longest longer
expect 0 'yes\n' '' compare longest deposit.xml
expect 1 '' 'rigcactus: refused: OFFSET (1), the first record, pass.xml' compare pass.xml value --offset 841

# The agreed offset: noon without an offset is the same as noon in UTC only if that was agreed on.
printf '<t xsi:type="TS" value="2024050112"/>' > noon
printf '<t xsi:type="TS" value="2024050112+00"/>' > noon-utc
expect 0 'yes\n' '' compare noon noon-utc
expect 0 'no\n' '' compare noon noon-utc --offset 60
expect 0 'unknown\n' '' compare noon noon-utc --offset -30
expect 3 '' 'rigcactus: cannot read none: No such file or directory' compare none pass.xml
expect 3 '' 'rigcactus: cannot read none: No such file or directory' compare pass.xml none

# A day's totals: a line for each file, then the counts, then a line for each currency, in the order in which they came.
# sum NAME VALUE CURRENCY: a record of money. report 'ADDED NULL REFUSED' TOTALS: counts, and totals, each given on a line, as printf takes them.
# expect_totals STATUS LINES 'ADDED NULL REFUSED' TOTALS ERR ARGUMENT..: the lines of files, as printf takes them, and the report.
sum() { printf '<s xsi:type="MO" value="%s" currency="%s"/>' "$2" "$3" > "$1"; }
report() {
  local counts total
  read -ra counts <<< "$1"
  printf 'added      %s\\nnull       %s\\nrefused    %s\\n' "${counts[@]}"
  while read -r total; do [ -z "$total" ] || printf 'total      %s\\n' "$total"; done <<< "$2"
}
expect_totals() {
  local status=$1 lines=$2 err=$5 report
  report=$(report "$3" "$4")
  shift 5
  expect "$status" "$lines$report" "$err" totals "$@"
}
printf '<s xsi:type="MO" nullFlavor="UNK"/>' > null
sum refund -12.5 EUR
sum cent .01 EUR
sum dollars 1234.5678 USD
sum least 0.0001 USD
sum less -0.5 GBP
sum zero 0 CHF
sum below-zero -0.0 EUR
expect_totals 0 'deposit.xml: added 12.5000 EUR\n' '1 0 0' '12.5000 EUR' '' deposit.xml
expect_totals 0 'null: null\n' '0 1 0' '' '' null
expect_totals 1 'value: VALUE (7)\n' '0 0 1' '' '' value
expect_totals 0 'deposit.xml: added 12.5000 EUR\nrefund: added -12.5000 EUR\n' '2 0 0' '0.0000 EUR' '' deposit.xml refund
expect_totals 0 'zero: added 0.0000 CHF\nbelow-zero: added 0.0000 EUR\nbelow-zero: added 0.0000 EUR\n' '3 0 0' $'0.0000 CHF\n0.0000 EUR' '' zero below-zero below-zero
expect_totals 0 'less: added -0.5000 GBP\n' '1 0 0' '-0.5000 GBP' '' less
expect_totals 0 'dollars: added 1234.5678 USD\ndeposit.xml: added 12.5000 EUR\nleast: added 0.0001 USD\nless: added -0.5000 GBP\ndeposit.xml: added 12.5000 EUR\nless: added -0.5000 GBP\n' \
  '6 0 0' $'1234.5679 USD\n25.0000 EUR\n-1.0000 GBP' '' dollars deposit.xml least less deposit.xml less
expect_totals 1 'type: TYPE (5)\nrefund: added -12.5000 EUR\nnull: null\ncent: VALUE (7)\n./null: null\nbadge.xml: TYPE (5)\nguest-not-asked.xml: TYPE (5)\nlonger: TOO LONG (2)\nlongest: added 12.5000 EUR\nempty: MARKUP (4)\n' \
  '2 2 6' '0.0000 EUR' '' type refund null cent ./null badge.xml guest-not-asked.xml longer longest empty
expect_totals 1 'not-utf-8: NOT UTF-8 (3)\nshape: TYPE (5)\n' '0 0 2' '' '' not-utf-8 shape
expect_totals 1 'date: TYPE (5)\nclock: TYPE (5)\nzone: TYPE (5)\n' '0 0 3' '' '' date clock zone
printf '<s xsi:type="MO" value="1" currency="EUR" unit="1"/>' > unit
printf '<s xsi:type="MO" value="1"/>' > no-currency
expect_totals 1 'unit: SHAPE (6)\nno-currency: RULE (8)\n' '0 0 2' '' '' unit no-currency

# The day of the examples, whose sums are 12.50 + 7.25 - 12.5, 20 - 20.00 and -15.75. docs/HOST.md shows it.
day=$repository/tests/totals/day.txt
cp "$repository"/examples/totals/*.xml .
expect 1 "$(sed 's/$/\\n/' "$day" | tr -d '\n')" '' totals deposit.xml deposit-in-francs.xml parking.xml not-asked.xml comma.xml refund.xml refund-in-francs.xml refund-of-yesterday.xml
awk '/^```text$/ { n++; inside = n == 2; next } /^```$/ { inside = 0 } inside' "$repository/docs/HOST.md" | cmp -s - "$day" || fail "totals: docs/HOST.md shows another day"

# The agreed offset: money has no time, so that it changes nothing where it is allowed.
for offset in 840 -840 0; do
  expect_totals 0 'deposit.xml: added 12.5000 EUR\nnull: null\n' '1 1 0' '12.5000 EUR' '' deposit.xml null --offset $offset
done
expect_totals 1 'deposit.xml: OFFSET (1)\nnull: OFFSET (1)\nlonger: OFFSET (1)\n' '0 0 3' '' '' deposit.xml null longer --offset 841
expect_totals 1 'deposit.xml: OFFSET (1)\n' '0 0 1' '' '' deposit.xml --offset -841

# Sixteen currencies, and one more, which is refused; one that is held is not.
lines='' totals='' currencies=()
for letter in {P..A}; do
  sum "in-$letter" 1 "${letter}AA"
  currencies+=("in-$letter")
  lines+="in-$letter: added 1.0000 ${letter}AA\\n"
  totals+="1.0000 ${letter}AA"$'\n'
done
sum in-Q 1 QAA
expect_totals 0 "$lines" '16 0 0' "$totals" '' "${currencies[@]}"
expect_totals 1 "${lines}in-Q: NO ROW (16)\\nin-A: added 1.0000 AAA\\n" '17 0 1' "${totals/1.0000 AAA/2.0000 AAA}" '' "${currencies[@]}" in-Q in-A

# The largest total and the smallest: 900 times the largest amount are 0.09 below the one, and nothing goes beyond it.
sum most-money 999999999999.9999 EUR
sum rest 0.09 EUR
sum one-more 0.0001 EUR
sum least-money -999999999999.9999 EUR
sum rest-below -0.09 EUR
sum one-less -0.0001 EUR
lines='' files=()
for ((i = 0; i < 900; i++)); do
  files+=(most-money)
  lines+='most-money: added 999999999999.9999 EUR\n'
done
expect_totals 1 "${lines}most-money: TOTAL (17)\\n" '900 0 1' '899999999999999.9100 EUR' '' "${files[@]}" most-money
expect_totals 1 "${lines}rest: added 0.0900 EUR\\none-more: TOTAL (17)\\n" '901 0 1' '900000000000000.0000 EUR' '' "${files[@]}" rest one-more
lines=${lines//added /added -}
expect_totals 1 "${lines//most/least}rest-below: added -0.0900 EUR\\none-less: TOTAL (17)\\none-more: added 0.0001 EUR\\n" '902 0 1' \
  '-899999999999999.9999 EUR' '' "${files[@]/most/least}" rest-below one-less one-more

# Files that cannot be read: the others are added all the same, and these are in no count.
expect_totals 3 '' '0 0 0' '' 'rigcactus: cannot read none: No such file or directory' none
expect_totals 3 'value: VALUE (7)\ndeposit.xml: added 12.5000 EUR\n' '1 0 1' '12.5000 EUR' 'rigcactus: cannot read none: No such file or directory' value none deposit.xml
expect_totals 3 '' '0 0 0' '' 'rigcactus: cannot read .: Is a directory' .

# Two desks: the line of a file has its desk before it, and each desk that is named has its number, its counts and its totals, in the order in which desks are first named.
# desk NUMBER 'ADDED NULL REFUSED' TOTALS: the report of a desk.
desk() { printf 'desk       %s\\n%s' "$1" "$(report "$2" "$3")"; }
for number in 1 2 02; do
  expect 0 "desk ${number#0}: deposit.xml: added 12.5000 EUR\\n$(desk "${number#0}" '1 0 0' '12.5000 EUR')" '' totals --desk $number deposit.xml
done
expect 0 "desk 1: deposit.xml: added 12.5000 EUR\\ndesk 2: less: added -0.5000 GBP\\n$(desk 1 '1 0 0' '12.5000 EUR')$(desk 2 '1 0 0' '-0.5000 GBP')" '' \
  totals --desk 1 deposit.xml --desk 2 less
expect 0 "desk 2: deposit.xml: added 12.5000 EUR\\ndesk 1: less: added -0.5000 GBP\\n$(desk 2 '1 0 0' '12.5000 EUR')$(desk 1 '1 0 0' '-0.5000 GBP')" '' \
  totals --desk 2 deposit.xml --desk 1 less --offset 120

# Both have euros, each its own; a file may be of both; desks may take turns, and a desk may be named again before its own files.
expect 0 "desk 1: deposit.xml: added 12.5000 EUR\\ndesk 2: deposit.xml: added 12.5000 EUR\\ndesk 1: dollars: added 1234.5678 USD\\ndesk 2: refund: added -12.5000 EUR
desk 2: less: added -0.5000 GBP\\ndesk 2: least: added 0.0001 USD\\ndesk 1: deposit.xml: added 12.5000 EUR\\n$(desk 1 '3 0 0' $'25.0000 EUR\n1234.5678 USD')$(desk 2 '4 0 0' $'0.0000 EUR\n-0.5000 GBP\n0.0001 USD')" '' \
  totals --desk 1 deposit.xml --desk 2 deposit.xml --desk 1 dollars --desk 2 refund less --desk 2 least --desk 1 deposit.xml

# What is refused or null at one desk is in its counts alone, and decides how the program ends.
expect 1 "desk 1: deposit.xml: added 12.5000 EUR\\ndesk 2: value: VALUE (7)\\ndesk 2: null: null\\ndesk 1: refund: added -12.5000 EUR\\n$(desk 1 '2 0 0' '0.0000 EUR')$(desk 2 '0 1 1' '')" '' \
  totals --desk 1 deposit.xml --desk 2 value null --desk 1 refund
expect 1 "desk 2: deposit.xml: OFFSET (1)\\ndesk 1: null: OFFSET (1)\\n$(desk 2 '0 0 1' '')$(desk 1 '0 0 1' '')" '' totals --desk 2 deposit.xml --desk 1 null --offset 841

# A desk that is named has a report, also with no file.
expect 0 "desk 1: deposit.xml: added 12.5000 EUR\\n$(desk 1 '1 0 0' '12.5000 EUR')$(desk 2 '0 0 0' '')" '' totals --desk 1 deposit.xml --desk 2
expect 0 "desk 1: deposit.xml: added 12.5000 EUR\\n$(desk 2 '0 0 0' '')$(desk 1 '1 0 0' '12.5000 EUR')" '' totals --desk 2 --desk 1 deposit.xml --offset 0
expect 0 "$(desk 2 '0 0 0' '')" '' totals --desk 2
expect 0 "$(desk 1 '0 0 0' '')$(desk 2 '0 0 0' '')" '' totals --desk 1 --desk 2 --desk 1 --offset 0

# A file of one desk that cannot be read is in no count, and the others are added all the same.
expect 3 "desk 1: deposit.xml: added 12.5000 EUR\\ndesk 2: value: VALUE (7)\\n$(desk 2 '0 0 1' '')$(desk 1 '1 0 0' '12.5000 EUR')" 'rigcactus: cannot read none: No such file or directory' \
  totals --desk 2 none --desk 1 deposit.xml --desk 2 value

# Two desks of the examples, whose sums are 12.50 + 7.25 - 12.5, and 64.80 and 31.5. docs/HOST.md shows them.
desks=$repository/tests/totals/desks.txt
expect 1 "$(sed 's/$/\\n/' "$desks" | tr -d '\n')" '' totals --desk 1 deposit.xml --desk 2 dinner.xml comma.xml --desk 1 parking.xml refund.xml --desk 2 taxi.xml
awk '/^```text$/ { n++; inside = n == 3; next } /^```$/ { inside = 0 } inside' "$repository/docs/HOST.md" | cmp -s - "$desks" || fail "totals: docs/HOST.md shows other desks"

# Sixteen currencies at each desk, in turns and in two orders; one more is refused at either, also where the other desk has it.
lines='' totals='' turned='' words=()
for i in {0..15}; do
  here=${currencies[i]} there=${currencies[15 - i]}
  words+=(--desk 1 "$here" --desk 2 "$there")
  lines+="desk 1: $here: added 1.0000 ${here#in-}AA\\ndesk 2: $there: added 1.0000 ${there#in-}AA\\n"
  totals+="1.0000 ${here#in-}AA"$'\n'
  turned+="1.0000 ${there#in-}AA"$'\n'
done
expect 0 "$lines$(desk 1 '16 0 0' "$totals")$(desk 2 '16 0 0' "$turned")" '' totals "${words[@]}"
expect 1 "${lines}desk 1: in-Q: NO ROW (16)\\ndesk 1: in-A: added 1.0000 AAA\\ndesk 2: in-Q: NO ROW (16)\\ndesk 2: in-B: added 1.0000 BAA
$(desk 1 '17 0 1' "${totals/1.0000 AAA/2.0000 AAA}")$(desk 2 '17 0 1' "${turned/1.0000 BAA/2.0000 BAA}")" '' totals "${words[@]}" --desk 1 in-Q in-A --desk 2 in-Q in-B
lines=''
for name in "${currencies[@]}"; do lines+="desk 1: $name: added 1.0000 ${name#in-}AA\\n"; done
expect 1 "${lines}desk 2: in-Q: added 1.0000 QAA\\ndesk 1: in-Q: NO ROW (16)\\ndesk 2: in-A: added 1.0000 AAA\\n$(desk 1 '16 0 1' "$totals")$(desk 2 '2 0 0' $'1.0000 QAA\n1.0000 AAA')" '' \
  totals --desk 1 "${currencies[@]}" --desk 2 in-Q --desk 1 in-Q --desk 2 in-A

# One desk's total in euros is as large as can be, and the other's is not.
lines=''
for ((i = 0; i < 900; i++)); do lines+='desk 1: most-money: added 999999999999.9999 EUR\n'; done
expect 1 "${lines}desk 1: rest: added 0.0900 EUR\\ndesk 2: one-more: added 0.0001 EUR\\ndesk 1: one-more: TOTAL (17)\\n$(desk 1 '901 0 1' '900000000000000.0000 EUR')$(desk 2 '1 0 0' '0.0001 EUR')" '' \
  totals --desk 1 "${files[@]}" rest --desk 2 one-more --desk 1 one-more

# Three files of each desk, in every order in which they can come: a desk gets what it gets alone.
# part DESK: the lines of a desk, without its number.
part() { sed -n "s/^desk $1: //p" out; awk -v desk="$1" '/^desk  / { inside = $2 == desk; next } inside && !/^desk /' out; }
own=('' 'deposit.xml value zero' 'refund null deposit.xml')
for number in 1 2; do
  # shellcheck disable=SC2086
  "$program" totals ${own[number]} > "alone-$number"
done
orders=0
for order in {1,2}{1,2}{1,2}{1,2}{1,2}{1,2}; do
  ones=${order//2/}
  [ ${#ones} -eq 3 ] || continue
  orders=$((orders + 1)) words=() next=(0 0 0)
  for ((i = 0; i < 6; i++)); do
    number=${order:i:1}
    read -ra files <<< "${own[number]}"
    words+=(--desk "$number" "${files[next[number]]}")
    next[number]=$((next[number] + 1))
  done
  "$program" totals "${words[@]}" > out
  for number in 1 2; do
    part $number | cmp -s - "alone-$number" || fail "totals ${words[*]}: desk $number gets another answer than alone"
  done
done
[ $orders -eq 20 ] || fail "totals: $orders orders of three files and three, and not 20"

# Bad usage.
printf 'abc' > in
expect 2 '' '*'
expect 2 '' '*' ''
expect 2 '' '*' cutt 3
expect 2 '' '*' cut
expect 2 '' '*' cut 3 4
for room in '' ' 3' '3 ' -1 +1 0x3 3x 1e3 18446744073709551616 99999999999999999999 184467440737095516150; do
  expect 2 '' '*' cut "$room"
done
expect 2 '' '*' cut 3 --offset 0
expect 2 '' '*' tick
expect 2 '' '*' tick 2024 2025
expect 2 '' '*' tick --offset 0
expect 2 '' '*' tick --offset 0 2024
expect 2 '' '*' tick 2024 --offset
expect 2 '' '*' tick 2024 --offset 0 0
expect 2 '' '*' tick 2024 --offset 0 --offset 0
for minutes in '' ' 3' '3 ' - + -- --3 +-3 3- 0x3 1.5 9223372036854775808 -9223372036854775808 18446744073709551616; do
  expect 2 '' '*' tick 2024 --offset "$minutes"
done

expect 2 '' '*' check
expect 2 '' '*' check --offset 0
expect 2 '' '*' check --offset 0 pass.xml
expect 2 '' '*' check pass.xml --offset
expect 2 '' '*' check pass.xml --offset x
expect 2 '' '*' check pass.xml --raw
expect 2 '' '*' check pass.xml --offset 0 stay.xml
expect 2 '' '*' check pass.xml --offset 0 --offset 0

expect 2 '' '*' list
expect 2 '' '*' list pass.xml stay.xml
expect 2 '' '*' list --offset 0 pass.xml
expect 2 '' '*' list pass.xml --raw --raw
expect 2 '' '*' list pass.xml --offset 0 --raw --offset 0
expect 2 '' '*' list pass.xml --offset --raw
expect 2 '' '*' list pass.xml --offset x
expect 2 '' '*' tick 2024 --raw

expect 2 '' '*' print
expect 2 '' '*' print pass.xml stay.xml
expect 2 '' '*' print --offset 0 pass.xml
expect 2 '' '*' print pass.xml --offset
expect 2 '' '*' print pass.xml --offset x
expect 2 '' '*' print pass.xml --offset 0 --offset 0
expect 2 '' '*' print pass.xml --raw
expect 2 '' '*' print pass.xml --width 32

expect 2 '' '*' compare
expect 2 '' '*' compare pass.xml
expect 2 '' '*' compare pass.xml pass.xml pass.xml
expect 2 '' '*' compare pass.xml --offset 0
expect 2 '' '*' compare pass.xml pass.xml --offset
expect 2 '' '*' compare pass.xml pass.xml --raw

expect 2 '' '*' totals
expect 2 '' '*' totals --offset 0
expect 2 '' '*' totals --offset 0 deposit.xml
expect 2 '' '*' totals deposit.xml --offset
expect 2 '' '*' totals deposit.xml --offset x
expect 2 '' '*' totals deposit.xml --raw
expect 2 '' '*' totals deposit.xml --width 32
expect 2 '' '*' totals deposit.xml --offset 0 null
expect 2 '' '*' totals deposit.xml --offset 0 --offset 0

# A desk that is none, or is not said, is found before any file is read.
expect 2 '' "rigcactus: DESK is 1 or 2, and not '3'" totals --desk 3 deposit.xml
expect 2 '' "rigcactus: DESK is 1 or 2, and not '3'" totals --desk 1 deposit.xml --desk 3 deposit.xml
for number in 0 3 '' ' 1' '1 ' +1 -1 0x1 1x one deposit.xml 18446744073709551617 340282366920938463463374607431768211457; do
  expect 2 '' "rigcactus: DESK is 1 or 2, and not '$number'" totals --desk "$number" deposit.xml
  expect 2 '' "rigcactus: DESK is 1 or 2, and not '$number'" totals --desk 2 none --desk "$number"
done
expect 2 '' "rigcactus: DESK is 1 or 2, and not ''" totals --desk
expect 2 '' "rigcactus: DESK is 1 or 2, and not ''" totals --desk 1 deposit.xml --desk
expect 2 '' "rigcactus: DESK is 1 or 2, and not ''" totals --desk --offset 0
expect 2 '' "rigcactus: it is not said which desk 'deposit.xml' is of: name one before the first file too, or none at all" totals deposit.xml --desk 2 null
expect 2 '' '*' totals deposit.xml null --desk 1
expect 2 '' '*' totals --desk 1 --offset 0 deposit.xml
expect 2 '' '*' totals --offset 0 --desk 1 deposit.xml
expect 2 '' '*' totals --desk 1 deposit.xml --offset 0 --desk 2 null
expect 2 '' '*' totals --desk=1 deposit.xml
expect 2 '' '*' totals --desks 1 deposit.xml
expect 2 '' '*' totals --desk --desk 1 deposit.xml
expect 2 '' '*' totals --desk 1 deposit.xml --raw
expect 2 '' '*' check --desk 1 deposit.xml
expect 2 '' '*' check deposit.xml --desk 1

# Help, which is not an error.
"$program" --help > out 2> err || fail '--help ended with an error'
grep -q '^  receipt NAME SUM PASS IDENTIFIER \[--width BYTES\] \[--offset MINUTES\]$' out || fail '--help does not name the command receipt'
grep -q '^  cut ROOM < FILE$' out || fail '--help does not name the command cut'
grep -q '^  tick TEXT \[--offset MINUTES\]$' out || fail '--help does not name the command tick'
grep -q '^  check FILE.. \[--offset MINUTES\]$' out || fail '--help does not name the command check'
grep -q '^  list FILE \[--offset MINUTES\] \[--raw\]$' out || fail '--help does not name the command list'
grep -q '^  print FILE \[--offset MINUTES\]$' out || fail '--help does not name the command print'
grep -q '^  compare FILE FILE \[--offset MINUTES\]$' out || fail '--help does not name the command compare'
grep -q '^  totals \[--desk DESK\] FILE.. \[--desk DESK FILE..\].. \[--offset MINUTES\]$' out || fail '--help does not name the command totals'
[ ! -s err ] || fail '--help wrote to standard error'

# Reading and writing that fail.
"$program" cut 3 < "$folder" > out 2> err
[ $? -eq 3 ] || fail 'cut 3 of a folder did not end with 3'
printf 'abc' | "$program" cut 3 > /dev/full 2> err
[ $? -eq 3 ] || fail 'cut 3 to a full device did not end with 3'
"$program" tick 2024 > /dev/full 2> err
[ $? -eq 3 ] || fail 'tick 2024 to a full device did not end with 3'
"$program" check pass.xml > /dev/full 2> err
[ $? -eq 3 ] || fail 'check pass.xml to a full device did not end with 3'
"$program" list pass.xml > /dev/full 2> err
[ $? -eq 3 ] || fail 'list pass.xml to a full device did not end with 3'
"$program" print pass.xml > /dev/full 2> err
[ $? -eq 3 ] || fail 'print pass.xml to a full device did not end with 3'
"$program" compare pass.xml pass.xml > /dev/full 2> err
[ $? -eq 3 ] || fail 'compare pass.xml pass.xml to a full device did not end with 3'
"$program" totals deposit.xml > /dev/full 2> err
[ $? -eq 3 ] || fail 'totals deposit.xml to a full device did not end with 3'
"$program" totals --desk 1 deposit.xml --desk 2 > /dev/full 2> err
[ $? -eq 3 ] || fail 'totals --desk 1 deposit.xml --desk 2 to a full device did not end with 3'

[ "$failures" -eq 0 ]
