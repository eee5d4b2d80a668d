#include "list_expat_icl.h"

#include <boost/icl/interval_set.hpp>
#include <expat.h>

#include <array>
#include <cmath>
#include <cstring>
#include <ctime>
#include <limits>
#include <string_view>
#include <utility>

namespace {

// Time is a line without gaps here, so that [1,2] and [3,4] stay apart. A double holds every tick as it is.
using Interval = boost::icl::continuous_interval<double>;
using Set = boost::icl::interval_set<double>;

constexpr double infinity = std::numeric_limits<double>::infinity();

// The tick of 1970-01-01 00:00 UTC, where time_t begins.
constexpr std::int64_t unix_start = 621355968000000;

// A set or an interval that is open. An interval has bounds, and a set has what its members made of it so far.
struct Open {
    std::string_view type;
    double low, high;
    bool low_closed, high_closed;
    int members;
    Set set;
};

// The sets that are open, outermost first; there are at most eight levels. The last one that was closed is the outcome.
std::array<Open, 8> open_sets;
std::size_t depth;
XML_Parser parser;

bool is_true(const char *text) { return std::strcmp(text, "true") == 0; }

// The tick of a text, or of the next start of its unit: timegm carries what is past the last of a unit.
double tick(const char *text, bool next) {
    static const char *const formats[] = {"%Y", "%Y%m", "%Y%m%d", "%Y%m%d%H", "%Y%m%d%H%M", "%Y%m%d%H%M%S"};
    std::size_t parts = std::strlen(text) / 2;
    std::tm time = {};
    time.tm_mday = 1;
    if (parts < 2 || parts > 7 || strptime(text, formats[parts - 2], &time) == nullptr) return NAN;
    int *const units[] = {&time.tm_year, &time.tm_mon, &time.tm_mday, &time.tm_hour, &time.tm_min, &time.tm_sec};
    if (next) ++*units[parts - 2];
    return static_cast<double>(timegm(&time) * RIGCACTUS_TICKS_PER_SECOND + unix_start);
}

// A bound. One coarser than a second is at the next start of its unit if its flag is the given one, which is turned then.
void read_bound(double &bound, bool &closed, bool pushed, const XML_Char **attributes) {
    for (; *attributes != nullptr; attributes += 2)
        if (std::strcmp(attributes[0], "value") == 0) {
            bool next = closed == pushed && std::strlen(attributes[1]) < 14;
            bound = tick(attributes[1], next);
            closed = closed != next;
        }
}

void read_side(Open &open, bool is_low, const XML_Char **attributes) {
    if (is_low) read_bound(open.low, open.low_closed, false, attributes);
    else read_bound(open.high, open.high_closed, true, attributes);
}

bool is_bound(const XML_Char *name) { return std::strcmp(name, "low") == 0 || std::strcmp(name, "high") == 0; }

std::string_view type_of(const char *text) {
    for (std::string_view type : {"IVL_TS", "QSU_TS", "QSI_TS", "QSD_TS"})
        if (type == text) return type;
    return {};
}

void begin_set(Open &open, const XML_Char **attributes) {
    open.low = -infinity;
    open.high = infinity;
    open.low_closed = open.high_closed = false;
    open.members = 0;
    open.set.clear();
    for (; *attributes != nullptr; attributes += 2) {
        if (std::strcmp(attributes[0], "xsi:type") == 0) open.type = type_of(attributes[1]);
        else if (std::strcmp(attributes[0], "lowClosed") == 0) open.low_closed = is_true(attributes[1]);
        else if (std::strcmp(attributes[0], "highClosed") == 0) open.high_closed = is_true(attributes[1]);
    }
}

void XMLCALL start_element(void *, const XML_Char *name, const XML_Char **attributes) {
    if (is_bound(name)) read_side(open_sets[depth - 1], name[0] == 'l', attributes);
    else if (depth < open_sets.size()) begin_set(open_sets[depth++], attributes);
    else XML_StopParser(parser, XML_FALSE);
}

Interval interval_of(const Open &open) {
    using boost::icl::interval_bounds;
    return {open.low, open.high, interval_bounds((open.low_closed ? 2 : 0) | (open.high_closed ? 1 : 0))};
}

template <class Operand> void combine(Open &into, const Operand &operand) {
    if (into.members++ == 0 || into.type == "QSU_TS") into.set += operand;
    else if (into.type == "QSI_TS") into.set &= operand;
    else into.set -= operand;
}

// A set that is the first member is taken over as it is.
void close_member(Open &into, Open &member) {
    if (member.type == "IVL_TS") combine(into, interval_of(member));
    else if (into.members == 0) {
        into.set.swap(member.set);
        into.members = 1;
    } else combine(into, member.set);
}

void XMLCALL end_element(void *, const XML_Char *name) {
    if (is_bound(name)) return;
    depth--;
    if (depth > 0) close_member(open_sets[depth - 1], open_sets[depth]);
    else if (open_sets[0].type == "IVL_TS") open_sets[0].set += interval_of(open_sets[0]);
}

int kind(double bound, bool closed) { return std::isinf(bound) ? RIGCACTUS_UNBOUNDED : closed ? RIGCACTUS_CLOSED : RIGCACTUS_OPEN; }

std::int64_t number(double bound) { return std::isinf(bound) ? 0 : static_cast<std::int64_t>(bound); }

rigcactus_stretch stretch_of(const Interval &interval) {
    bool low_closed = (interval.bounds().bits() & 2) != 0, high_closed = (interval.bounds().bits() & 1) != 0;
    return {kind(interval.lower(), low_closed), number(interval.lower()), kind(interval.upper(), high_closed), number(interval.upper())};
}

}

bool icl_begin() {
    parser = XML_ParserCreate("UTF-8");
    return parser != nullptr;
}

std::size_t icl_list(const char *record, std::size_t length, rigcactus_stretch *stretches, std::size_t room) {
    depth = 0;
    XML_ParserReset(parser, "UTF-8");
    XML_SetElementHandler(parser, start_element, end_element);
    if (XML_Parse(parser, record, static_cast<int>(length), XML_TRUE) != XML_STATUS_OK) return SIZE_MAX;
    std::size_t count = 0;
    for (const Interval &interval : open_sets[0].set) {
        if (count < room) stretches[count] = stretch_of(interval);
        count++;
    }
    return count;
}
