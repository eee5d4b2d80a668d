# One part of the tables of docs/BENCH.md, as the variable `part` says. Files PLACE/SERVICE.times and 0/SERVICE.instructions have a line with
# names, `set bytes inputs` and those of the sides, and then a line for each set; 0/SERVICE.shares has a line for each function, with its share
# of the instructions in percent.

FNR == 1 {
  count = split(FILENAME, path, "/")
  split(path[count], file, ".")
  service = file[1]
  place = path[count - 1]
}

file[2] == "shares" {
  shares[service] = shares[service] (shares[service] == "" ? "" : ", ") "`" $1 "` " $2 " %"
  next
}

FNR == 1 {
  for (i = 4; i <= NF; i++) side[i] = $i
  next
}

NF > 3 {
  bytes[service, $1] = $2
  for (i = 4; i <= NF; i++) take(service SUBSEP $1 SUBSEP side[i], $i)
}

function take(key, number) {
  if (file[2] == "instructions") {
    instructions[key] = number
    return
  }
  placed[key, place] = number
  if (!(key in time) || number < time[key]) time[key] = number
}

# A number with its thousands apart, or a dash; small ones with a digit after the point.
function written(number) {
  if (number == "") return "-"
  return number < 100 ? sprintf("%.1f", number) : whole(number)
}

function whole(number,  text, groups) {
  text = sprintf("%.0f", number)
  while (length(text) > 3) {
    groups = "," substr(text, length(text) - 2) groups
    text = substr(text, 1, length(text) - 3)
  }
  return text groups
}

function ratio(ours, theirs) {
  return ours == "" || theirs == "" ? "-" : sprintf(ours / theirs < 0.1 ? "%.3f" : "%.2f", ours / theirs)
}

function each(number, of) {
  if (number == "" || !of) return "-"
  return number / of < 10 ? sprintf("%.2f", number / of) : written(number / of)
}

# The numbers of both sides and their ratios, in instructions and in time.
function both(service, set, other,  ours, theirs) {
  ours = service SUBSEP set SUBSEP "rigcactus"
  theirs = service SUBSEP set SUBSEP other
  return written(instructions[ours]) " | " written(instructions[theirs]) " | " ratio(instructions[ours], instructions[theirs]) " | " \
    written(time[ours]) " | " written(time[theirs]) " | " ratio(time[ours], time[theirs])
}

function head(columns,  count, names, i, line) {
  count = split(columns, names, "|")
  line = "|"
  for (i = 1; i <= count; i++) line = line "---|"
  print (titled ? "\n" : "") "| " columns " |\n" line
}

function glance(service, what, set, other, name) {
  print "| " service " | " what " | " written_bytes(service, set) " | " name " | " both(service, set, other) " |"
}

function written_bytes(service, set) {
  return (service, set) in bytes ? whole(bytes[service, set]) : "-"
}

# A table with a line for each set, named by words.
function by_set(service, other, sets,  count, names, i) {
  head("Input | Bytes | Instructions | Instead | Ratio | ns | Instead | Ratio")
  count = split(sets, names, " ")
  for (i = 1; i <= count; i++)
    print "| " names[i] " | " written_bytes(service, names[i]) " | " both(service, names[i], other) " |"
}

# How cost grows, by the byte, or by the interval or the stretch, as the name of a set says: a line for each.
function growth(service, kind, other, sizes, unit,  count, size, i, set, of, ours, theirs) {
  if (unit == "byte") head(columns("Bytes", "a byte"))
  else head(unit == "interval" ? columns("Intervals", "an interval") : columns("Stretches", "a stretch"))
  count = split(sizes, size, " ")
  for (i = 1; i <= count; i++) {
    set = kind "-" size[i]
    of = unit == "byte" ? bytes[service, set] : size[i]
    ours = service SUBSEP set SUBSEP "rigcactus"
    theirs = service SUBSEP set SUBSEP other
    print "| " whole(of) " | " written(instructions[ours]) " | " each(instructions[ours], of) " | " written(instructions[theirs]) " | " \
      each(instructions[theirs], of) " | " ratio(instructions[ours], instructions[theirs]) " | " each(time[ours], of) " | " \
      each(time[theirs], of) " | " ratio(time[ours], time[theirs]) " |"
  }
}

function columns(first, each_one) {
  return first " | Instructions | " each_one " | Instead | " each_one " | Ratio | ns " each_one " | Instead | Ratio"
}

# The ratios of time at each place.
function by_place(service, other, sets,  count, names, i, j, places, line) {
  head("Input | 0 | 16 | 32 | 48")
  count = split(sets, names, " ")
  split("0 16 32 48", places, " ")
  for (i = 1; i <= count; i++) {
    line = "| " names[i] " |"
    for (j = 1; j <= 4; j++)
      line = line " " ratio(placed[service, names[i], "rigcactus", places[j]], placed[service, names[i], other, places[j]]) " |"
    print line
  }
}

# A line above a table, with an empty one between it and a table before it.
function title(text) {
  print (titled++ ? "\n" : "") text
}

function glances() {
  head("Service | Input | Bytes | Instead of it | Instructions | Instead | Ratio | ns | Instead | Ratio")
  glance("cut", "ASCII", "ascii-100", "std", "Rust's std")
  glance("cut", "ASCII", "ascii-16000", "std", "Rust's std")
  glance("cut", "mixed scripts", "mixed-100", "std", "Rust's std")
  glance("cut", "mixed scripts", "mixed-16000", "std", "Rust's std")
  glance("cut", "mixed scripts", "mixed-16000", "mbrtowc", "mbrtowc")
  glance("tick", "years 2020 to 2029", "desk", "glibc", "strptime, timegm")
  glance("tick", "years 1 to 9", "early", "glibc", "strptime, timegm")
  glance("tick", "years 9990 to 9999", "late", "glibc", "strptime, timegm")
  glance("tick", "read part by part", "parts", "glibc", "strptime, timegm by parts")
  glance("tick", "an impossible date", "date", "glibc", "strptime, timegm by parts")
  glance("tick", "an impossible clock", "clock", "glibc", "strptime, timegm by parts")
  glance("tick", "an impossible offset", "zone", "glibc", "strptime, timegm by parts")
  glance("check", "an amount", "money", "expat", "expat, bare parse")
  glance("check", "a name", "name-100", "expat", "expat, bare parse")
  glance("check", "a name", "name-1000", "expat", "expat, bare parse")
  glance("check", "a name", "name-16000", "expat", "expat, bare parse")
  glance("check", "a union", "times-200", "expat", "expat, bare parse")
  glance("check", "a union", "times-16000", "expat", "expat, bare parse")
  glance("list", "1 interval", "flat-1", "expat+icl", "expat, Boost.ICL")
  glance("list", "8 intervals", "flat-8", "expat+icl", "expat, Boost.ICL")
  glance("list", "32 intervals", "flat-32", "expat+icl", "expat, Boost.ICL")
  glance("list", "32, sets in sets", "deep-32", "expat+icl", "expat, Boost.ICL")
  glance("compare", "amounts", "money", "expat", "expat, strcmp, strtod")
  glance("compare", "intervals", "pass", "expat", "expat, strcmp, strtod")
  glance("compare", "names", "name-1000", "expat", "expat, strcmp, strtod")
  glance("compare", "names", "name-16000", "expat", "expat, strcmp, strtod")
  glance("print", "1 stretch", "open-1", "glibc", "gmtime_r, snprintf")
  glance("print", "32 stretches", "open-32", "glibc", "gmtime_r, snprintf")
  glance("totals", "1 currency", "day-1", "expat", "expat, strtod")
  glance("totals", "4 currencies", "day-4", "expat", "expat, strtod")
  glance("totals", "16 currencies", "day-16", "expat", "expat, strtod")
  glance("totals", "2 desks, 16 each", "day-16+16", "expat", "expat, strtod")
}

function growths(  lengths) {
  lengths = "100 200 500 1000 2000 4000 8000 16000"
  title("Cutting ASCII, beside Rust's standard library:")
  growth("cut", "ascii", "std", lengths, "byte")
  title("Cutting words of mixed scripts, beside Rust's standard library:")
  growth("cut", "mixed", "std", lengths, "byte")
  title("Checking a name, beside expat's bare parse:")
  growth("check", "name", "expat", lengths, "byte")
  title("Checking a union of intervals, which has 149 bytes at least, beside expat's bare parse:")
  growth("check", "times", "expat", "200 500 1000 2000 4000 8000 16000", "byte")
  title("Comparing names, by the bytes of one of the two, beside expat's parse of both:")
  growth("compare", "name", "expat", lengths, "byte")
  title("Listing a union of intervals, beside expat and Boost.ICL:")
  growth("list", "flat", "expat+icl", "1 2 4 8 16 32", "interval")
  title("Printing a list, beside glibc's `gmtime_r` and `snprintf`:")
  growth("print", "open", "glibc", "1 2 4 8 16 32", "stretch")
}

function cuts(  texts) {
  texts = "ascii latin scattered two three four planes mixed"
  title("Beside Rust's standard library:")
  by_set("cut", "std", texts)
  title("Ratios of time to Rust's standard library, by the place of the service:")
  by_place("cut", "std", texts)
  title("Beside glibc's `mbrtowc`:")
  by_set("cut", "mbrtowc", texts)
}

function ticks() {
  title("Beside glibc's `strptime` and `timegm`:")
  by_set("tick", "glibc", "desk early late all year month day hour minute offset fraction")
  title("Beside the same part by part, which says what is wrong:")
  by_set("tick", "glibc", "parts date clock zone form")
}

function lists(  records) {
  records = "flat-1 flat-32 deep-32 both-32 less-32"
  title("Beside expat and Boost.ICL:")
  by_set("list", "expat+icl", records)
  title("Beside `rigcactus_check` of the same record:")
  by_set("list", "check", records)
}

function compares(  records) {
  records = "time pass money badge reason name-100 name-1000 name-16000"
  title("Beside expat's parse of both:")
  by_set("compare", "expat", records)
  title("Beside `rigcactus_check` of both:")
  by_set("compare", "check", records)
}

function totals(  days) {
  days = "day-1 first-1 last-1 day-4 first-4 last-4 day-16 first-16 last-16 day-16+16 first-16+16 last-16+16"
  title("Beside expat, `strtod` and an array of sums for each desk, for each record:")
  by_set("totals", "expat", days)
  title("Beside `rigcactus_check` of the same record:")
  by_set("totals", "check", days)
}

function share(service) {
  print "| " service " | " (shares[service] == "" ? "-" : shares[service]) " |"
}

function all_shares() {
  head("Service | Functions and their shares of its instructions, over all inputs of the bench")
  share("cut")
  share("tick")
  share("check")
  share("list")
  share("compare")
  share("print")
  share("totals")
}

END {
  if (part == "glance") glances()
  else if (part == "shares") all_shares()
  else if (part == "growth") growths()
  else if (part == "cut") cuts()
  else if (part == "tick") ticks()
  else if (part == "list") lists()
  else if (part == "compare") compares()
  else if (part == "print") by_set("print", "glibc", "open-1 open-32")
  else if (part == "totals") totals()
}
