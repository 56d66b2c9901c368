// Gaps on the proved zones beside the Parma Polyhedra Library's difference shapes, which take "at most" gaps only. First both have to agree
// on emptiness, on containment and on all bounds; then alternating rounds, with the median of their ratio.
#include <algorithm>
#include <chrono>
#include <cstdint>
#include <cstdio>
#include <cstdlib>
#include <ppl.hh>
#include <vector>

namespace ppl = Parma_Polyhedra_Library;

struct Zone {
    int32_t bounds[49];
};

extern "C" {
void kinds_zone_all(Zone *zone);
uint8_t kinds_zone_gap(Zone *zone, uint8_t first, uint8_t second, bool strict, int32_t constant);
bool kinds_zone_within(const Zone *low, const Zone *high);
bool kinds_zone_is_empty(const Zone *zone);
}

using Shape = ppl::BD_Shape<int32_t>;

struct Gap {
    int first, second, constant;
    ppl::Constraint constraint;
};

using Sequence = std::vector<Gap>;

const int LENGTH = 12;
const int32_t NO_BOUND = INT32_MAX;

static uint64_t state = 0x9e3779b97f4a7c15;

static int between(int low, int high) {
    state ^= state << 13;
    state ^= state >> 7;
    state ^= state << 17;
    return low + int((state >> 11) % uint64_t(high - low + 1));
}

// the difference of two clocks; clock 0 reads zero
static ppl::Linear_Expression difference(int first, int second) {
    ppl::Linear_Expression e;
    if (first > 0)
        e += ppl::Variable(first - 1);
    if (second > 0)
        e -= ppl::Variable(second - 1);
    return e;
}

// Gaps around a point, so that the set stays nonempty. One in `losing` of those from place `from` on leaves the point out, and often
// everything.
static Sequence random_sequence(int losing, int from) {
    int point[7] = {0};
    for (int clock = 1; clock < 7; clock++)
        point[clock] = between(0, 4000);
    Sequence sequence;
    for (int n = 0; n < LENGTH; n++) {
        int first = between(0, 6);
        int second = (first + between(1, 6)) % 7;
        int slack = n >= from && between(1, losing) == 1 ? -between(1, 6000) : between(0, 1500);
        int constant = std::clamp(point[first] - point[second] + slack, -9999, 9999);
        sequence.push_back(Gap{first, second, constant, difference(first, second) <= constant});
    }
    return sequence;
}

static Shape all_shape() {
    Shape shape(6, ppl::UNIVERSE);
    for (int clock = 0; clock < 6; clock++)
        shape.add_constraint(ppl::Variable(clock) >= 0);
    shape.is_empty();
    return shape;
}

static void must(bool agrees, const char *what, int number) {
    if (!agrees) {
        printf("DIFFERENT %s in sequence %d\n", what, number);
        exit(1);
    }
}

// every result of a gap is closed or in the one empty form, which has 0 in its first place
static bool is_empty_form(const Zone &zone) { return zone.bounds[0] == 0; }

static void verify(int count) {
    Zone all;
    kinds_zone_all(&all);
    Shape all_of_ppl = all_shape();
    Zone old = all;
    Shape old_of_ppl = all_of_ppl;
    long prefixes = 0, empty = 0, contained = 0, containments = 0, bounds = 0;
    for (int number = 0; number < count; number++) {
        Zone zone = all;
        Shape shape = all_of_ppl;
        for (const Gap &gap : random_sequence(20, 0)) {
            Zone before = zone;
            Shape shape_before = shape;
            must(kinds_zone_gap(&zone, uint8_t(gap.first), uint8_t(gap.second), false, gap.constant) == 0, "answer", number);
            shape.add_constraint(gap.constraint);
            bool none = shape.is_empty();
            must(is_empty_form(zone) == none && kinds_zone_is_empty(&zone) == none, "emptiness", number);
            must(kinds_zone_within(&zone, &old) == old_of_ppl.contains(shape), "containment in the last", number);
            must(kinds_zone_within(&old, &zone) == shape.contains(old_of_ppl), "containment of the last", number);
            must(kinds_zone_within(&before, &zone) == shape.contains(shape_before), "containment of the one before", number);
            contained += shape.contains(shape_before) + old_of_ppl.contains(shape) + shape.contains(old_of_ppl);
            containments += 3;
            prefixes++;
            empty += none;
        }
        if (!shape.is_empty()) {
            for (int i = 0; i < 7; i++) {
                for (int j = 0; j < 7; j++) {
                    ppl::Coefficient sum, parts;
                    bool reached;
                    bool finite = i != j && shape.maximize(difference(i, j), sum, parts, reached);
                    int32_t bound = zone.bounds[7 * i + j];
                    if (i != j)
                        must(finite ? parts == 1 && sum * 2 + 1 == bound : bound == NO_BOUND, "bound", number);
                    bounds += i != j;
                }
            }
        }
        old = zone;
        old_of_ppl = shape;
    }
    printf("agreed: %ld sets, %ld of them empty; %ld containments, %ld of them yes; %ld bounds\n", prefixes, empty, containments, contained,
           bounds);
}

template <class F> static double nanoseconds(F f) {
    auto begun = std::chrono::steady_clock::now();
    f();
    return double(std::chrono::duration_cast<std::chrono::nanoseconds>(std::chrono::steady_clock::now() - begun).count());
}

int main(int count, char **words) {
    int rounds = count > 1 ? atoi(words[1]) : 401;
    if (rounds < 1)
        return 2;
    verify(5000);

    // constraints are built here, outside the timed loops
    std::vector<Sequence> sequences;
    for (int number = 0; number < 64; number++)
        sequences.push_back(random_sequence(8, LENGTH - 1));
    Zone all;
    kinds_zone_all(&all);
    Shape all_of_ppl = all_shape();
    long tighter = 0;
    for (const Sequence &sequence : sequences) {
        Zone zone = all;
        for (const Gap &gap : sequence) {
            Zone before = zone;
            kinds_zone_gap(&zone, uint8_t(gap.first), uint8_t(gap.second), false, gap.constant);
            tighter += !std::equal(before.bounds, before.bounds + 49, zone.bounds);
        }
    }
    printf("timed: %zu sequences of %d gaps, %ld gaps of all change the set\n", sequences.size(), LENGTH, tighter);
    long found = 0, found_by_ppl = 0;
    auto proved = [&] {
        for (const Sequence &sequence : sequences) {
            Zone zone = all;
            for (const Gap &gap : sequence) {
                kinds_zone_gap(&zone, uint8_t(gap.first), uint8_t(gap.second), false, gap.constant);
                found += is_empty_form(zone);
            }
        }
    };
    auto peer = [&] {
        for (const Sequence &sequence : sequences) {
            Shape shape = all_of_ppl;
            for (const Gap &gap : sequence) {
                shape.add_constraint(gap.constraint);
                found_by_ppl += shape.is_empty();
            }
        }
    };
    std::vector<double> ratios, ours, theirs;
    double calls = 2.0 * LENGTH * double(sequences.size());
    for (int round = 0; round < rounds; round++) {
        // each side goes first once in a round
        double x = nanoseconds(proved);
        double y = nanoseconds(peer) + nanoseconds(peer);
        x += nanoseconds(proved);
        ours.push_back(x / calls);
        theirs.push_back(y / calls);
        ratios.push_back(x / y);
    }
    must(found == found_by_ppl, "emptiness, timed", 0);
    for (auto *times : {&ratios, &ours, &theirs})
        std::sort(times->begin(), times->end());
    int middle = rounds / 2, low = rounds / 4, high = rounds * 3 / 4;
    printf("gap     proved %6.1f ns  PPL %6.1f ns  ratio %.3f (quarters %.3f to %.3f), %d rounds\n", ours[middle], theirs[middle],
           ratios[middle], ratios[low], ratios[high], rounds);
}
