#!/usr/bin/env bash
# The command `rigcactus receipt`: whole receipts, which stand in tests/receipts, and sections of others. What is due is written from the rules
# page. Weekdays and durations were worked out apart from the program, by another calendar.
set -u
cd "$(dirname "$0")/.." || exit 2
program=${RIGCACTUS:-$PWD/target/host/rigcactus}
repository=$PWD
examples=$PWD/examples/receipts
receipts=$PWD/tests/receipts

folder=$(mktemp -d)
trap 'rm -rf "$folder"' EXIT
cd "$folder" || exit 2
failures=0

fail() {
  echo "tests/receipt.sh: $1" >&2
  failures=$((failures + 1))
}

# expect_receipt STATUS FOLDER DUE OPTION..: the receipt of an example is the text tests/receipts/DUE.txt, and so the command ends.
expect_receipt() {
  local status=$1 example=$examples/$2 due=$receipts/$3.txt
  shift 3
  "$program" receipt "$example/name.xml" "$example/sum.xml" "$example/pass.xml" "$example/identifier.xml" "$@" > out 2> err
  [ $? -eq "$status" ] || fail "$due: ended with another status than $status"
  cmp -s out "$due" || fail "$due: another text was printed"
  [ ! -s err ] || fail "$due: wrote to standard error: $(cat err)"
}

expect_receipt 0 french french --offset 120
expect_receipt 0 french french --offset 120 --width 32
expect_receipt 0 french french --width 00032 --offset +120
expect_receipt 0 greek greek --offset 180 --width 24
expect_receipt 0 arabic arabic --offset 240
expect_receipt 0 chinese chinese --offset 480
expect_receipt 0 last-day last-day --offset 180
expect_receipt 0 hindi hindi --offset 330 --width 100
expect_receipt 0 hindi hindi-16 --offset 330 --width 16
expect_receipt 1 cut-letter cut-letter
expect_receipt 1 no-such-day no-such-day
expect_receipt 1 no-such-day no-such-day --offset -840
expect_receipt 1 refused refused --width 48

# Good records, for the places that a test is not about.
printf '<n xsi:type="EN"><part value="A"/></n>' > name
printf '<s xsi:type="MO" value="1" currency="EUR"/>' > sum
printf '<p xsi:type="IVL_TS"><low nullFlavor="NINF"/><high nullFlavor="PINF"/></p>' > pass
printf '<i xsi:type="II" root="1.2"/>' > identifier

# section NUMBER: the lines of a receipt after its rule of that number, without the heading, which on narrow paper is broken.
section() {
  LC_ALL=C awk -v number="$1" '
    /^(-+|=+)$/ { rules++; heading = ""; next }
    rules == number && heading !~ /^(Guest|Sum|Passholds|Identifier)$/ { gsub(/ /, ""); heading = heading $0; next }
    rules == number { print }'
}

# expect_section STATUS PLACE RECORD DUE OPTION..: with a record at one place, its section has these lines, as printf takes them. The paper is
# wide unless an option says otherwise, and the record is bytes as printf takes them.
expect_section() {
  local status=$1 place=$2 record=$3 due=$4 number
  local files=(name sum pass identifier)
  shift 4
  case $place in name) number=2 ;; sum) number=3 ;; pass) number=4 ;; *) number=5 ;; esac
  case " $* " in *' --width '*) ;; *) set -- "$@" --width 400 ;; esac
  # shellcheck disable=SC2059
  printf -- "$record" > given
  # shellcheck disable=SC2059
  printf -- "$due\n" > due
  timeout 20 "$program" receipt "${files[@]/#$place/given}" "$@" > out 2> err
  [ $? -eq "$status" ] || fail "$record $*: ended with another status than $status"
  section "$number" < out > got
  cmp -s got due || fail "$record $*: printed $(cat got)"
  [ ! -s err ] || fail "$record $*: wrote to standard error: $(cat err)"
}

expect_name() { expect_section 0 name "<n xsi:type=\"EN\">$1</n>" "${@:2}"; }
expect_pass() { expect_section 0 pass "$@"; }
expect_refusal() { expect_section 1 "$1" "$2" "Refused: $3\nTell the clinic: $4" "${@:5}"; }

# Names: a space between parts, none after a prefix, before a suffix and around a delimiter (ISO 21090, 7.7.5.3), and never two.
expect_name '<part value="Adam" type="GIV"/><part value="A." type="GIV"/><part value="Everyman" type="FAM"/>' 'Adam A. Everyman'
expect_name '<part value="Zo\xC3\xAB"/><part value="van der " type="FAM" qualifier="PFX"/><part value="Berg"/>' 'Zo\xC3\xAB van der Berg'
expect_name '<part value="Jeanne" /><part qualifier = "PFX" value="d&apos;"></part><part value="Arc"/>' "Jeanne d'Arc"
expect_name '<part value="Hochheim"/><part value="-" type="DEL"/><part value="Weilenfels"/>' 'Hochheim-Weilenfels'
expect_name '<part value="Jones"/><part value=" III" qualifier="AC SFX"/><part value=", " type="DEL"/><part value="PhD"/>' 'Jones III, PhD'
expect_name '<part value="Peter"/><part value="son" qualifier="AD SFX"/><part value="Ann"/>' 'Peterson Ann'
expect_name '<part value="Health Level Seven, "/><part value="Inc."/>' 'Health Level Seven, Inc.'
expect_name '<part value="A"/><part value=" B"/>' 'A B'
expect_name '<part value="A" qualifier="SP"/><part value="B" qualifier="LS AC NB PR HON BR AD SP MID CL IN"/>' 'A B'
expect_name '<part value="A"/><part nullFlavor="UNK"/><part value="C"/>' 'A [unknown] C'
expect_name '<part nullFlavor="MSK"/>' '[masked]'

# Texts: the five references, raw characters that need none, and control characters, which are not sent to a printer.
expect_name '<part value="&lt;&gt;&amp;&quot;&apos;"/>' "<>&\"'"
expect_name '<part value="&amp;lt;"/>' '&lt;'
expect_name "<part value=\"a > b = '/>'\"/>" "a > b = '/>'"
expect_name '<part value="a\x7Fb\xC2\x80c\xC2\x9Fd\xC2\xA0e"/>' 'a?b?c?d\xC2\xA0e'
expect_name '<part\r\n\tvalue\t=\r\n"A"\n type="GIV" />' 'A'

# The width is in bytes, and a name is cut between whole characters: one more byte of paper, one more letter only where it is whole.
zoe='<part value="Zo\xC3\xAB van der Berg"/>'
expect_name "$zoe" 'Zo\xC3\xAB' --width 4
expect_name "$zoe" 'Zo\xC3\xAB ' --width 5
expect_name '<part value="Anna \xC3\xA9"/>' 'Anna ' --width 6
expect_name '<part value="Anna \xC3\xA9"/>' 'Anna \xC3\xA9' --width 7
expect_name '<part value="\xE7\x8E\x8B\xE7\xA7\x80\xE8\x8B\xB1"/>' '\xE7\x8E\x8B\xE7\xA7\x80' --width 8
expect_name '<part value="\xF0\x9F\x8C\xB5\xF0\x9F\x8C\xB5"/>' '\xF0\x9F\x8C\xB5' --width 7
long=$(head -c 16200 /dev/zero | tr '\0' x)
expect_name "<part value=\"$long\"/>" "$long" --width 16384
expect_name "<part value=\"$long\"/>" "${long:0:4}" --width 4

# Sums, as they are written.
expect_sum() { expect_section 0 sum "<s xsi:type=\"MO\" value=\"$1\" currency=\"$2\"/>" "$1 $2"; }
expect_sum 12.50 EUR
expect_sum -0.0001 USD
expect_sum 999999999999.9999 JPY
expect_sum 007 XXX
expect_section 0 sum '<s currency="EUR" xmlns:value="3" value="12.5" xsi:type="MO"></s>' '12.5 EUR'

# Identifiers: the extension and whose it is, or the root alone.
expect_section 0 identifier '<i xsi:type="II" root="2.16.840" extension="V-0417"/>' 'V-0417 of 2.16.840'
expect_section 0 identifier '<i extension="\xC3\xA9&amp;\xC2\x9B" xsi:type="II" root="1.2"/>' '\xC3\xA9&? of 1.2'
expect_section 0 identifier '<i xsi:type="II" root="0.39"/>' '0.39'
expect_section 0 identifier '<i xsi:type="II" root="1.2" extension="abcdefghij"/>' 'abcd\nefgh\nij\nof\n1.2' --width 4
expect_section 0 identifier '<i xsi:type="II" root="1.2" extension="ab\xE7\x8E\x8Bc"/>' 'ab\n\xE7\x8E\x8Bc\nof\n1.2' --width 4
expect_section 0 identifier '<i xsi:type="II" root="1.2" extension=" a  b"/>' ' a  b\nof\n1.2' --width 5

# Values that are null, in the words of ISO 21090.
expect_null() {
  expect_section 0 name "<n xsi:type=\"EN\" nullFlavor=\"$1\"/>" "none: $2 ($1)"
  expect_section 0 sum "<n nullFlavor=\"$1\" xsi:type=\"MO\"/>" "none: $2 ($1)"
  expect_section 0 identifier "<n xsi:type=\"II\" nullFlavor=\"$1\"></n>" "none: $2 ($1)"
}
expect_null NI 'no information'
expect_null INV invalid
expect_null DER derived
expect_null OTH other
expect_null NINF 'negative infinity'
expect_null PINF 'positive infinity'
expect_null UNC unencoded
expect_null MSK masked
expect_null NA 'not applicable'
expect_null UNK unknown
expect_null ASKU 'asked but unknown'
expect_null NAV 'temporarily unavailable'
expect_null NASK 'not asked'
expect_null QS 'sufficient quantity'
expect_null TRC trace

# interval LOW_CLOSED LOW HIGH HIGH_CLOSED [NAME]: a record of type IVL_TS. A bound that is - is unbounded.
interval() {
  local low="<low value=\"$2\"/>" high="<high value=\"$3\"/>" flags=" lowClosed=\"$1\" highClosed=\"$4\""
  [ "$2" != - ] || { low='<low nullFlavor="NINF"/>'; flags=" highClosed=\"$4\""; }
  [ "$3" != - ] || { high='<high nullFlavor="PINF"/>'; flags=" lowClosed=\"$1\""; }
  [ "$2$3" != -- ] || flags=''
  printf '<%s xsi:type="IVL_TS"%s>%s%s</%s>' "${5-p}" "$flags" "$low" "$high" "${5-p}"
}

# Times: each kind of bound on each side, to the second.
expect_pass "$(interval true 20240501000000 20240503120000 false)" \
  'from Wednesday 1 May 2024 00:00 up to, not including, Friday 3 May 2024 12:00 (2 days 12 hours)\nClock: UTC'
expect_pass "$(interval true 20240501000000 20240503120000 true)" \
  'from Wednesday 1 May 2024 00:00 up to and including Friday 3 May 2024 12:00 (2 days 12 hours)\nClock: UTC'
expect_pass "$(interval false 20240501000000 20240503120000 false)" \
  'from just after Wednesday 1 May 2024 00:00 up to, not including, Friday 3 May 2024 12:00 (2 days 12 hours)\nClock: UTC'
expect_pass "$(interval false 20240501000000 20240503120000 true)" \
  'from just after Wednesday 1 May 2024 00:00 up to and including Friday 3 May 2024 12:00 (2 days 12 hours)\nClock: UTC'
expect_pass "$(interval true 20240229000000 - -)" 'from Thursday 29 February 2024 00:00 on, with no end\nClock: UTC'
expect_pass "$(interval false 20240229000000 - -)" 'from just after Thursday 29 February 2024 00:00 on, with no end\nClock: UTC'
expect_pass "$(interval - - 20000229000000 true)" 'with no beginning, up to and including Tuesday 29 February 2000 00:00\nClock: UTC'
expect_pass "$(interval - - 20000229000000 false)" 'with no beginning, to the end of Monday 28 February 2000\nClock: UTC'
expect_pass "$(interval - - - -)" 'at all times, with no beginning and no end\nClock: UTC'
expect_pass "$(interval true 20240502120000 20240502120000 true)" 'at Thursday 2 May 2024 12:00, for that moment alone\nClock: UTC'
expect_pass "$(interval false 20240502120000 20240502120000 true)" 'at no time\nClock: UTC'

# The same to the day or the hour: a closed end takes in all of its day or hour, and an open beginning none of it.
expect_pass "$(interval true 20240501 2024050312 false)" \
  'from Wednesday 1 May 2024 00:00 up to, not including, Friday 3 May 2024 12:00 (2 days 12 hours)\nClock: UTC'
expect_pass "$(interval true 20240501 2024050312 true)" \
  'from Wednesday 1 May 2024 00:00 up to, not including, Friday 3 May 2024 13:00 (2 days 13 hours)\nClock: UTC'
expect_pass "$(interval false 20240501 2024050312 false)" \
  'from Thursday 2 May 2024 00:00 up to, not including, Friday 3 May 2024 12:00 (1 day 12 hours)\nClock: UTC'
expect_pass "$(interval false 20240501 2024050312 true)" \
  'from Thursday 2 May 2024 00:00 up to, not including, Friday 3 May 2024 13:00 (1 day 13 hours)\nClock: UTC'
expect_pass "$(interval true 20240229 - -)" 'from Thursday 29 February 2024 00:00 on, with no end\nClock: UTC'
expect_pass "$(interval false 20240229 - -)" 'from Friday 1 March 2024 00:00 on, with no end\nClock: UTC'
expect_pass "$(interval - - 20000229 true)" 'with no beginning, to the end of Tuesday 29 February 2000\nClock: UTC'
expect_pass "$(interval - - 20000229 false)" 'with no beginning, to the end of Monday 28 February 2000\nClock: UTC'
expect_pass "$(interval true 2024050212 2024050212 true)" \
  'from Thursday 2 May 2024 12:00 up to, not including, Thursday 2 May 2024 13:00 (1 hour)\nClock: UTC'
expect_pass "$(interval false 2024050212 2024050212 true)" 'at no time\nClock: UTC'

# The last day of a pass: an end at midnight that is not included is the end of the day before, by the clock that the receipt shows.
april='from Monday 1 April 2024 00:00 to the end of Tuesday 30 April 2024 (30 days)'
expect_pass "$(interval true 20240401 20240430 true)" "$april\\nClock: UTC"
expect_pass "$(interval true 20240401 20240430 true)" "$april\\nClock: UTC+02:00" --offset 120
expect_pass "$(interval true 20240401 20240430 true)" "$april\\nClock: UTC-03:30" --offset -210
expect_pass "$(interval true 20240401 20240501 false)" "$april\\nClock: UTC"
expect_pass "$(interval true 202404 202404 true)" "$april\\nClock: UTC"
expect_pass "$(interval false 20240331 2024043023 true)" "$april\\nClock: UTC"
expect_pass "$(interval false 202403 202404302359 true)" "$april\\nClock: UTC"
expect_pass "$(interval true 20240401 2024043021+00 true)" "$april\\nClock: UTC+02:00" --offset 120
expect_pass "$(interval true 20240401 20240501000000.0000 true)" \
  'from Monday 1 April 2024 00:00 up to and including Wednesday 1 May 2024 00:00 (30 days)\nClock: UTC'
expect_pass "$(interval true 20240401 20240501000000.0001 false)" \
  'from Monday 1 April 2024 00:00 up to, not including, Wednesday 1 May 2024 00:00:00.0001 (30 days 0.0001 seconds)\nClock: UTC'
expect_pass "$(interval true 20240401 20240430235959.9999 false)" \
  'from Monday 1 April 2024 00:00 up to, not including, Tuesday 30 April 2024 23:59:59.9999 (29 days 23 hours 59 minutes 59.9999 seconds)\nClock: UTC'
expect_pass "$(interval true 20240401 2024043021+00 true)" \
  'from Monday 1 April 2024 00:00 up to, not including, Tuesday 30 April 2024 22:00 (29 days 22 hours)\nClock: UTC'
expect_pass "$(interval true 2024043012 20240430 true)" 'from Tuesday 30 April 2024 12:00 to the end of Tuesday 30 April 2024 (12 hours)\nClock: UTC'
expect_pass "$(interval true 20240430 20240430 true)" 'from Tuesday 30 April 2024 00:00 to the end of Tuesday 30 April 2024 (1 day)\nClock: UTC'

# The end of year 9999, by every clock; and the start of year 0001, before which no day is on the calendar.
for clock in 'UTC 0' 'UTC+14:00 840' 'UTC-14:00 -840'; do
  expect_pass "$(interval true 9999 9999 true)" "from Friday 1 January 9999 00:00 to the end of Friday 31 December 9999 (365 days)\\nClock: ${clock% *}" --offset "${clock#* }"
done
expect_pass "$(interval true 9999123100-14 9999123123-14 true)" \
  'from Friday 31 December 9999 14:00 up to, not including, Saturday 1 January 10000 14:00 (1 day)\nClock: UTC'
expect_pass "$(interval true 9999123100-14 9999123123-14 true)" \
  'from Friday 31 December 9999 00:00 to the end of Friday 31 December 9999 (1 day)\nClock: UTC-14:00' --offset -840
expect_pass "$(interval true 9999123100-14 9999123123-14 true)" \
  'from Saturday 1 January 10000 04:00 up to, not including, Sunday 2 January 10000 04:00 (1 day)\nClock: UTC+14:00' --offset 840
expect_pass "$(interval false 9999 - -)" 'from Saturday 1 January 10000 00:00 on, with no end\nClock: UTC'
expect_pass "$(interval - - 0001 true)" 'with no beginning, to the end of Monday 31 December 0001\nClock: UTC'
expect_pass "$(interval - - 00010101 true)" 'with no beginning, to the end of Monday 1 January 0001\nClock: UTC'
expect_pass "$(interval - - 0001 false)" 'with no beginning, up to, not including, Monday 1 January 0001 00:00\nClock: UTC'

# Durations, and seconds on the clock where there are some.
day='from Wednesday 1 May 2024 00:00 up to, not including, '
expect_pass "$(interval true 20240501 20240502 false)" 'from Wednesday 1 May 2024 00:00 to the end of Wednesday 1 May 2024 (1 day)\nClock: UTC'
expect_pass "$(interval true 20240501 2024050101 false)" "${day}Wednesday 1 May 2024 01:00 (1 hour)\\nClock: UTC"
expect_pass "$(interval true 20240501 202405010001 false)" "${day}Wednesday 1 May 2024 00:01 (1 minute)\\nClock: UTC"
expect_pass "$(interval true 20240501 20240501000001 false)" "${day}Wednesday 1 May 2024 00:00:01 (1 second)\\nClock: UTC"
expect_pass "$(interval true 20240501 20240501000000.0001 false)" "${day}Wednesday 1 May 2024 00:00:00.0001 (0.0001 seconds)\\nClock: UTC"
expect_pass "$(interval true 20240501 20240501000100.5 false)" "${day}Wednesday 1 May 2024 00:01:00.5000 (1 minute 0.5000 seconds)\\nClock: UTC"
expect_pass "$(interval true 20240501 20240502010101 false)" \
  "${day}Thursday 2 May 2024 01:01:01 (1 day 1 hour 1 minute 1 second)\\nClock: UTC"
expect_pass "$(interval true 20240501 20240531235958 false)" \
  "${day}Friday 31 May 2024 23:59:58 (30 days 23 hours 59 minutes 58 seconds)\\nClock: UTC"
expect_pass "$(interval true 2023 2024 false)" \
  'from Sunday 1 January 2023 00:00 to the end of Sunday 31 December 2023 (365 days)\nClock: UTC'
expect_pass "$(interval true 2024 2025 false)" \
  'from Monday 1 January 2024 00:00 to the end of Tuesday 31 December 2024 (366 days)\nClock: UTC'

# The agreed offset: times that carry none are at that clock, and all are shown by it. The edges of the calendar: the year before 0001 is 0000.
expect_pass "$(interval true 20240501 2024050212+00 false)" \
  "${day}Thursday 2 May 2024 14:00 (1 day 14 hours)\\nClock: UTC+02:00" --offset 120
expect_pass "$(interval true 20240501 2024050212+00 false)" \
  "${day}Thursday 2 May 2024 08:30 (1 day 8 hours 30 minutes)\\nClock: UTC-03:30" --offset -210
expect_pass "$(interval true 20240501 2024050212+0530 false)" "${day}Thursday 2 May 2024 06:30 (1 day 6 hours 30 minutes)\\nClock: UTC"
expect_pass "$(interval false 00010101000000 99991231235959.9999 true)" \
  'from just after Monday 1 January 0001 00:00 up to and including Friday 31 December 9999 23:59:59.9999 (3652058 days 23 hours 59 minutes 59.9999 seconds)\nClock: UTC'
expect_pass "$(interval true 0001010100+14 99991231235959.9999-14 true)" \
  'from Saturday 30 December 0000 20:00 up to and including Friday 31 December 9999 23:59:59.9999 (3652060 days 3 hours 59 minutes 59.9999 seconds)\nClock: UTC-14:00' --offset -840
expect_pass "$(interval true 0001010100+14 99991231235959.9999-14 true)" \
  'from Monday 1 January 0001 00:00 up to and including Sunday 2 January 10000 03:59:59.9999 (3652060 days 3 hours 59 minutes 59.9999 seconds)\nClock: UTC+14:00' --offset 840

# Sets: stretches that touch are one, a day and the next one touch, and neighbouring moments do not.
union() { printf '<p xsi:type="QSU_TS">'; printf %s "$@"; printf '</p>'; }
t=20240501000000.000
expect_pass "$(union "$(interval true 20240501 20240502 false term)" "$(interval true 20240502 20240503 true term)")" \
  'from Wednesday 1 May 2024 00:00 to the end of Friday 3 May 2024 (3 days)\nClock: UTC'
expect_pass "$(union "$(interval true 20240501 20240502 true term)" "$(interval true 20240503 20240503 true term)")" \
  'from Wednesday 1 May 2024 00:00 to the end of Friday 3 May 2024 (3 days)\nClock: UTC'
expect_pass "$(union "$(interval true 20240501 20240502 false term)" "$(interval true 20240503 20240503 true term)")" \
  '1. from Wednesday 1 May 2024 00:00 to the end of Wednesday 1 May 2024 (1 day)
2. from Friday 3 May 2024 00:00 to the end of Friday 3 May 2024 (1 day)
Clock: UTC'
expect_pass "$(union "$(interval true ${t}1 ${t}2 true term)" "$(interval true ${t}3 ${t}4 true term)")" \
  "1. from Wednesday 1 May 2024 00:00:00.0001 up to and including Wednesday 1 May 2024 00:00:00.0002 (0.0001 seconds)
2. from Wednesday 1 May 2024 00:00:00.0003 up to and including Wednesday 1 May 2024 00:00:00.0004 (0.0001 seconds)
Clock: UTC"
moments=()
due=''
for i in {1..32}; do
  minute=$(printf %02d "$i")
  moments+=("$(interval true "2024050108${minute}00" "2024050108${minute}00" true term)")
  due+="$i. at Wednesday 1 May 2024 08:$minute, for that moment alone\\n"
done
expect_pass "$(union "${moments[@]}")" "${due}Clock: UTC"

# The receipt that docs/HOST.md shows is one of these.
awk '/^```text$/ { n++; inside = n == 1; next } /^```$/ { inside = 0 } inside' "$repository/docs/HOST.md" | cmp -s - "$receipts/french.txt" ||
  fail 'docs/HOST.md shows another receipt'

# Refusals of records, from OFFSET to TOO MANY, with what to tell the clinic. 12 is for `rigcactus print` alone, and 16, 17, 21, 23 and 25 are for totals. The program lends a list that is
# long enough for every set, so 11 does not occur.
offset='nothing. The offset that this desk was set to is not from -840 to 840 minutes. Set it right and read the record again.'
too_long='the record is longer than 16,384 bytes. Please send a shorter one.'
not_utf8='the record is not UTF-8. A text may have been cut inside a letter, or be in another encoding. Please send it whole and in UTF-8.'
markup='the record is not one whole XML element as this desk reads it. Please send one element, its attributes in double quotes, with no text between tags, no prolog, comment, CDATA or numeric reference, and no more than 8 elements open at once.'
type='an xsi:type is missing, is not known here, or does not belong where it stands. This record is to be of type'
sets='IVL_TS, QSU_TS, QSI_TS or QSD_TS.'
shape='an attribute or an inner element is missing, does not belong there, or is out of order. Please send what the type has and no more.'
value='the text of an attribute is not written as it must be, like 12,50 for the amount 12.50, or 2024-05-01 for the date 20240501. Please write it right.'
rule='what the record says does not go together, like a sum without its currency, a part of a name without a text, a time without its flag, or a start after its end. Please put it right.'
unknown='it is not said when the pass starts or ends. Please send each start and each end, or NINF and PINF where there is none.'
too_many='the pass is written with more than 32 intervals. Please write it with fewer, or as two passes.'
not_writable='a time lies outside years 0001 to 9999 in UTC, as the end of year 9999 does. Please send times within them.'
right='Please send the right one.'
hours="is on no clock: hours go from 00 to 23. $right"
minutes="is on no clock: minutes go from 00 to 59. $right"
seconds="is on no clock: seconds go from 00 to 59. $right"
offsets="is of no time zone: offsets go up to 14:00, with minutes from 00 to 59. $right"
april="the date 31 April 2024 is on no calendar. $right"
for advice in "$offset" "$too_long" "$not_utf8" "$markup" "$type .." "$shape" "$value" "$april" "the hour 24 $hours" "the offset +14:01 $offsets" "$rule" "$unknown" \
  "$too_many" "$not_writable"; do
  grep -qF ") | $advice |" "$repository/docs/HOST.md" || fail "docs/HOST.md does not say: $advice"
done
spaces=$(head -c 16385 /dev/zero | tr '\0' ' ')
for place in name sum pass identifier; do
  expect_refusal $place '<t/>' 'OFFSET (1)' "$offset" --offset 841
  expect_refusal $place '<t/>' 'OFFSET (1)' "$offset" --offset -9223372036854775807
  expect_refusal $place "$spaces" 'TOO LONG (2)' "$too_long"
  expect_refusal $place '<t xsi:type="\xFF"/>' 'NOT UTF-8 (3)' "$not_utf8"
  expect_refusal $place '' 'MARKUP (4)' "$markup"
  expect_refusal $place '<t xsi:type="MO" value="1" currency="EUR">1</t>' 'MARKUP (4)' "$markup"
done
for given in '<t/>' '<t xsi:type="TS" value="2024"/>' '<t xsi:type="CD" nullFlavor="NI"/>' '<t xsi:type="EN.PN"/>'; do
  expect_refusal name "$given" 'TYPE (5)' "$type EN."
  expect_refusal sum "$given" 'TYPE (5)' "$type MO."
  expect_refusal pass "$given" 'TYPE (5)' "$type $sets"
  expect_refusal identifier "$given" 'TYPE (5)' "$type II."
done
expect_refusal name "$(cat sum)" 'TYPE (5)' "$type EN."
expect_refusal sum "$(cat name)" 'TYPE (5)' "$type MO."
expect_refusal pass "$(cat identifier)" 'TYPE (5)' "$type $sets"
expect_refusal identifier "$(cat pass)" 'TYPE (5)' "$type II."
expect_refusal name '<n xsi:type="EN"/>' 'SHAPE (6)' "$shape"
expect_refusal sum '<s xsi:type="MO" value="1" currency="EUR" unit="1"/>' 'SHAPE (6)' "$shape"
expect_refusal pass '<p xsi:type="QSU_TS"/>' 'SHAPE (6)' "$shape"
expect_refusal identifier '<i xsi:type="II" root="1.2"><low/></i>' 'SHAPE (6)' "$shape"
expect_refusal name '<n xsi:type="EN"><part value="A" type="FAMILY"/></n>' 'VALUE (7)' "$value"
expect_refusal sum '<s xsi:type="MO" value="12,50" currency="EUR"/>' 'VALUE (7)' "$value"
expect_refusal pass "$(interval true 2024-05-01 20240501 true)" 'VALUE (7)' "$value"
expect_refusal identifier '<i xsi:type="II" root="3.2"/>' 'VALUE (7)' "$value"

# Times that cannot be, in the words for each part: the year, the month, the day, the day 00, the hour, the minute, the second, the offset.
# expect_wrong REFUSAL WHAT TIMESTAMP: so it is as the low of a pass, as its high, and in a pass that is a difference, after good times.
wrong=0
expect_wrong() {
  wrong=$((wrong + 1))
  expect_refusal pass "$(interval true "$3" 20240501 true)" "$1" "$2"
  expect_refusal pass "$(interval false 20240501 "$3" false)" "$1" "$2"
  expect_refusal pass "<p xsi:type=\"QSD_TS\">$(interval true 2024 - - minuend)$(interval - - "$3" true subtrahend)</p>" "$1" "$2" --offset -840
}
expect_wrong 'DATE (13)' "the year 0000 is on no calendar: years go from 0001 to 9999. $right" 0000
expect_wrong 'DATE (13)' "the year 0000 is on no calendar: years go from 0001 to 9999. $right" 00001332246060+1500
expect_wrong 'DATE (13)' "the month 13 of 2024 is on no calendar: months go from 01 to 12. $right" 202413
expect_wrong 'DATE (13)' "the month 00 of 0987 is on no calendar: months go from 01 to 12. $right" 0987003109+01
expect_wrong 'DATE (13)' "$april" 20240431
expect_wrong 'DATE (13)' "the date 30 February 2024 is on no calendar. $right" 2024023024
expect_wrong 'DATE (13)' "the date 29 February 0100 is on no calendar. $right" 01000229
expect_wrong 'DATE (13)' "the date 32 December 9999 is on no calendar. $right" 99991232
expect_wrong 'DATE (13)' "the day 00 of May 2024 is on no calendar: days go from 01 on. $right" 20240500
expect_wrong 'CLOCK (14)' "the hour 24 $hours" 2024050124
expect_wrong 'CLOCK (14)' "the hour 24 $hours" 20240501240000.0000+0200
expect_wrong 'CLOCK (14)' "the hour 31 $hours" 202405013199
expect_wrong 'CLOCK (14)' "the time 09:60 $minutes" 202405010960
expect_wrong 'CLOCK (14)' "the time 00:75 $minutes" 20240501007599-1500
expect_wrong 'CLOCK (14)' "the time 23:59:60 $seconds" 20161231235960
expect_wrong 'CLOCK (14)' "the time 09:05:61 $seconds" 20240501090561.5
expect_wrong 'ZONE (15)' "the offset +14:01 $offsets" 2024050109+1401
expect_wrong 'ZONE (15)' "the offset -14:01 $offsets" 20240501093000.5-1401
expect_wrong 'ZONE (15)' "the offset +15 $offsets" 202405010930+15
expect_wrong 'ZONE (15)' "the offset -00:60 $offsets" 2024050109-0060
expect_wrong 'ZONE (15)' "the offset +00:90 $offsets" 20240501093000+0090
[ $wrong -eq 21 ] || fail "$wrong times that cannot be, and not 21"

# On a narrow roll the words go on over several lines.
expect_refusal pass "$(interval true 20240401 20240431 true)" 'DATE (13)' 'the\ndate 31 April 2024 is\non no calendar.\nPlease send the right\none.' --width 21
expect_refusal pass "$(interval true 2024050109+1401 2024 true)" 'ZONE (15)' 'the\noffset +14:01 is of no\ntime zone: offsets go up\nto 14:00, with minutes\nfrom 00 to 59. Please\nsend the right one.' --width 24

# Of several times the first that gets the refusal is named: one before it may be good, or wrong in a way that comes later. A wrong form anywhere comes before all of these.
expect_refusal pass "$(interval true 2024040124 20240431 true)" 'DATE (13)' "$april"
expect_refusal pass "$(interval true 2024040109+15 20240431 true)" 'DATE (13)' "$april"
expect_refusal pass "$(interval true 20240431 20240532 true)" 'DATE (13)' "$april"
expect_refusal pass "$(interval true 2024050109+15 202405010960 true)" 'CLOCK (14)' "the time 09:60 $minutes"
expect_refusal pass "$(interval true 202405010960+15 2024050124 true)" 'CLOCK (14)' "the time 09:60 $minutes"
expect_refusal pass "$(interval true 20240431 2024-05-01 true)" 'VALUE (7)' "$value"
expect_refusal pass "$(interval yes 20240431 20240501 true)" 'VALUE (7)' "$value"
expect_refusal pass "$(union "$(interval true 2024 2025 false term)" "$(interval true 202401 2024040109+15 false term)" "$(interval true 20240401 20240431 true term)" "$(interval true 2024040124 20240532 true term)")" \
  'DATE (13)' "$april"
expect_refusal pass "$(union "${moments[@]}" "$(interval true 20240401 20240431 true term)")" 'DATE (13)' "$april"
expect_refusal pass "<p xsi:type=\"IVL_TS\" nullFlavor=\"NI\"><low value=\"20240501\"/>\\n<high nullFlavor=\"UNK\" value=\"20240431\"/></p>" 'DATE (13)' "$april"

# A record with such a time is of no other section's type, but its own refusal comes first there, as for comparing. As a pass it is TYPE, as for listing.
for place in name sum identifier; do
  expect_refusal $place '<t xsi:type="TS" value="20240431"/>' 'DATE (13)' "$april"
  expect_refusal $place "$(interval true 2024 2024050124 true)" 'CLOCK (14)' "the hour 24 $hours"
  expect_refusal $place '<t xsi:type="TS" value="2024050109+1401"/>' 'ZONE (15)' "the offset +14:01 $offsets"
done
expect_refusal pass '<t xsi:type="TS" value="20240431"/>' 'TYPE (5)' "$type $sets"

expect_refusal name '<n xsi:type="EN"><part value=""/></n>' 'RULE (8)' "$rule"
expect_refusal sum '<s xsi:type="MO" value="12.50"/>' 'RULE (8)' "$rule"
expect_refusal pass "$(interval true 20240502 20240501 true)" 'RULE (8)' "$rule"
expect_refusal pass "$(interval true 2024043012 20240430 false)" 'RULE (8)' "$rule"
expect_refusal identifier '<i xsi:type="II" extension="1"/>' 'RULE (8)' "$rule"
expect_refusal pass '<p xsi:type="IVL_TS"/>' 'UNKNOWN BOUND (9)' "$unknown"
expect_refusal pass '<p xsi:type="QSU_TS" nullFlavor="NI"/>' 'UNKNOWN BOUND (9)' "$unknown"
expect_refusal pass "$(union "${moments[@]}" "${moments[0]}")" 'TOO MANY (10)' "$too_many"

# expect_failure STATUS ARGUMENT..: the command prints no receipt, says why on standard error, and ends so.
expect_failure() {
  local status=$1
  shift
  "$program" receipt "$@" > out 2> err
  [ $? -eq "$status" ] || fail "receipt $*: ended with another status than $status"
  [ ! -s out ] || fail "receipt $*: wrote to standard output"
  [ -s err ] || fail "receipt $*: wrote nothing to standard error"
}
expect_failure 2
expect_failure 2 name sum pass
expect_failure 2 name sum pass identifier identifier
expect_failure 2 --width 32 name sum pass identifier
expect_failure 2 name sum pass identifier --width
expect_failure 2 name sum pass identifier --raw
expect_failure 2 name sum pass identifier --width 32 --width 32
for width in '' x -4 +32 3 0 16385 18446744073709551616; do
  expect_failure 2 name sum pass identifier --width "$width"
done
expect_failure 2 name sum pass identifier --offset x
expect_failure 3 none sum pass identifier
expect_failure 3 name sum pass none
expect_failure 3 name . pass identifier
"$program" receipt name sum pass identifier > /dev/full 2> err
[ $? -eq 3 ] || fail 'receipt to a full device did not end with 3'

# On paper of any width lines fit, are whole characters, and say the same, but for the name.
words() { section 3 < "$1"; section 4 < "$1"; section 5 < "$1"; }
for example in "$examples"/*; do
  files=("$example/name.xml" "$example/sum.xml" "$example/pass.xml" "$example/identifier.xml")
  "$program" receipt "${files[@]}" --width 1000 > wide
  for width in 4 5 6 7 10 13 16 23 24 31 36; do
    "$program" receipt "${files[@]}" --width "$width" > narrow
    LC_ALL=C awk -v width="$width" 'length > width { exit 1 }' narrow || fail "$example: a line is longer than $width bytes"
    "$program" cut 0 < narrow > /dev/null || fail "$example: a line of paper $width bytes wide is not UTF-8"
    [ "$(words narrow | tr -d ' \n')" = "$(words wide | tr -d ' \n')" ] || fail "$example: other words on paper $width bytes wide"
  done
done

[ "$failures" -eq 0 ]
