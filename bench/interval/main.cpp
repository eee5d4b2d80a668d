// Set operations against Boost.ICL's interval_set, in one run on the same intervals.
//
//     interval                     times both sides, each the best of many rounds in turn, and prints the ratios
//     interval SIDE WHAT TIMES     runs one side alone: SIDE is rigcactus or boost, WHAT pairs or joins (for counting instructions)
#include <boost/icl/interval_set.hpp>
#include <algorithm>
#include <chrono>
#include <cstdint>
#include <cstdio>
#include <cstdlib>
#include <cstring>

extern "C" uint64_t interval_bench_pairs(const uint64_t *ticks, size_t len, uint64_t times);
extern "C" uint64_t interval_bench_joins(const uint64_t *ticks, size_t len, uint64_t times);

namespace {

typedef boost::icl::interval_set<uint64_t> IntervalSet;
typedef boost::icl::discrete_interval<uint64_t> Piece;

IntervalSet joined(const uint64_t *ticks, int count) {
    IntervalSet s;
    for (int k = 0; k < count; k++) s += Piece::right_open(ticks[2 * k], ticks[2 * k + 1]);
    return s;
}

uint64_t boost_pairs(const uint64_t *ticks, size_t, uint64_t times) {
    const IntervalSet a = joined(ticks, 16), b = joined(ticks + 32, 16);
    uint64_t count = 0;
    for (uint64_t k = 0; k < times; k++) {
        IntervalSet r(a);
        if (k % 3 == 0) r += b;
        else if (k % 3 == 1) r &= b;
        else r -= b;
        count = r.iterative_size();
    }
    return count;
}

uint64_t boost_joins(const uint64_t *ticks, size_t, uint64_t times) {
    uint64_t count = 0;
    for (uint64_t k = 0; k < times; k++) count = joined(ticks, 32).iterative_size();
    return count;
}

typedef uint64_t (*Work)(const uint64_t *, size_t, uint64_t);

enum { ROUNDS = 2000, CALLS = 20 };

// Nanoseconds of a call, in a round of some.
double round_time(Work work, const uint64_t *ticks) {
    auto start = std::chrono::steady_clock::now();
    volatile uint64_t kept = work(ticks, 64, CALLS);
    (void)kept;
    return std::chrono::duration<double, std::nano>(std::chrono::steady_clock::now() - start).count() / CALLS;
}

bool compare(const char *name, Work ours, Work theirs, const uint64_t *ticks) {
    for (uint64_t k = 1; k <= 3; k++)
        if (ours(ticks, 64, k) != theirs(ticks, 64, k)) {
            std::printf("%s: the outcomes differ\n", name);
            return false;
        }
    double a = 1e18, b = 1e18;
    for (int round = 0; round < ROUNDS; round++) {
        a = std::min(a, round_time(ours, ticks));
        b = std::min(b, round_time(theirs, ticks));
    }
    std::printf("%s: %.0f ns, Boost.ICL %.0f ns, ratio %.2f\n", name, a, b, a / b);
    return true;
}

}

int main(int argc, char **argv) {
    // sets that overlap: [100 k, 100 k + 60) and [100 k + 30, 100 k + 90)
    uint64_t pairs[64], joins[64];
    for (int k = 0; k < 16; k++) {
        pairs[2 * k] = 1000 + 100 * k;
        pairs[2 * k + 1] = pairs[2 * k] + 60;
        pairs[32 + 2 * k] = 1030 + 100 * k;
        pairs[32 + 2 * k + 1] = pairs[32 + 2 * k] + 60;
    }
    // intervals apart from each other, in mixed order
    for (int k = 0; k < 32; k++) {
        joins[2 * k] = 1000 + 100 * ((13 * k) % 32);
        joins[2 * k + 1] = joins[2 * k] + 60;
    }
    if (argc == 4) {
        bool ours = std::strcmp(argv[1], "rigcactus") == 0, pair = std::strcmp(argv[2], "pairs") == 0;
        Work work = pair ? (ours ? interval_bench_pairs : boost_pairs) : (ours ? interval_bench_joins : boost_joins);
        volatile uint64_t kept = work(pair ? pairs : joins, 64, std::strtoull(argv[3], nullptr, 10));
        (void)kept;
        return 0;
    }
    bool same = compare("two sets of 16 combined", interval_bench_pairs, boost_pairs, pairs);
    same &= compare("32 intervals joined one after another", interval_bench_joins, boost_joins, joins);
    return same ? 0 : 1;
}
