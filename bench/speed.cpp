// Times the proved entry, and the proved solver on larger fields, beside LEMON's network simplex on the same fields. Each is timed from the lists of
// a field to the cost, with all set-up; ours also leaves the turns, which LEMON is not asked for.
// speed: fields 16, 32 and 64 wide and high. speed large: 128, 256 and 512.
#include "fields.hpp"
#include "lemon.hpp"
#include <algorithm>
#include <chrono>
#include <cmath>
#include <cstdio>
#include <cstdlib>
#include <cstring>
#include <functional>
#include <malloc.h>

// The same for fields of up to 512 by 512, by the same functions, in memory of its own. Answers 0, or 1 where it doesn't take the field, or 2.
extern "C" uint64_t mulantsy_bench_cells(
    uint64_t wide, uint64_t high, uint32_t turn,
    const uint32_t *seen, size_t seen_len,
    const uint32_t *right, size_t right_len,
    const uint32_t *below, size_t below_len,
    int64_t *room, size_t room_len,
    uint64_t *cost);

static uint64_t put_back_any(const Field &f, int64_t *room, uint64_t *cost) {
    if (f.wide <= 64 && f.high <= 64) return put_back(f, room, cost);
    return mulantsy_bench_cells(f.wide, f.high, uint32_t(f.turn), f.seen.data(), f.seen.size(), f.right.data(), f.right.size(),
                                f.below.data(), f.below.size(), room, f.places(), cost);
}

using Clock = std::chrono::steady_clock;

static double milliseconds(Clock::time_point from) {
    return std::chrono::duration<double, std::milli>(Clock::now() - from).count();
}

static double median(std::vector<double> v) {
    std::sort(v.begin(), v.end());
    return v[v.size() / 2];
}

struct Kind {
    const char *name;
    // Made to hurt: asked for a ratio of 2 at 64 wide, and in no mean.
    bool hard;
    std::function<Field(Random &, size_t)> make;
};

// What is asked of each field of a size, and of the geometric mean of the kinds that are not made to hurt.
struct Size {
    size_t wide;
    int fields, runs;
    double each, mean;
};

struct Row {
    double ours, lemons;
};

// A million numbers of other use between two runs, as a program that does more than this would have them.
static void forget_caches() {
    static std::vector<char> other(3 << 20);
    for (size_t i = 0; i < other.size(); i += 64) other[i]++;
}

static Row measure(const Kind &kind, const Size &size, uint64_t seed) {
    Random r(seed);
    std::vector<double> ours, lemons;
    std::vector<int64_t> room(size.wide * size.wide);
    for (int i = 0; i < size.fields; i++) {
        Field f = kind.make(r, size.wide);
        uint64_t cost = 0, least = 0;
        double best[2] = {1e9, 1e9};
        // The best of the runs of each, taken in turn.
        for (int again = 0; again < size.runs; again++) {
            forget_caches();
            auto start = Clock::now();
            uint64_t refusal = put_back_any(f, room.data(), &cost);
            best[0] = std::min(best[0], milliseconds(start));
            forget_caches();
            start = Clock::now();
            least = least_by_lemon(f);
            best[1] = std::min(best[1], milliseconds(start));
            if (refusal != 0) {
                std::printf("%s, %zu wide: refused with %zu\n", kind.name, size.wide, size_t(refusal));
                std::exit(1);
            }
        }
        uint64_t of_turns = cost_of(f, room.data());
        if (cost != least || cost != of_turns) {
            std::printf("%s, %zu wide: %zu, %zu by its turns, %zu by LEMON\n", kind.name, size.wide, size_t(cost), size_t(of_turns),
                        size_t(least));
            std::exit(1);
        }
        ours.push_back(best[0]);
        lemons.push_back(best[1]);
    }
    return {median(ours), median(lemons)};
}

static std::vector<Kind> all_kinds() {
    constexpr uint32_t turn = 1024;
    std::vector<Kind> kinds;
    kinds.push_back({"noise, price 1", false, [](Random &r, size_t n) { return noise(r, n, n, turn); }});
    kinds.push_back({"noise, prices 0 to 1,000", false, [](Random &r, size_t n) { return some_free(r, n, n, turn, 0); }});
    static const char *names[3] = {"volcano, noise 0.1, price 1", "volcano, noise 0.2, price 1", "volcano, noise 0.3, price 1"};
    static const char *priced[3] = {"volcano, noise 0.1, prices fall with noise", "volcano, noise 0.2, prices fall with noise",
                                    "volcano, noise 0.3, prices fall with noise"};
    for (int i = 0; i < 3; i++) {
        double spread = 0.1 * (i + 1);
        kinds.push_back({names[i], false, [=](Random &r, size_t n) { return volcano(r, n, n, turn, spread); }});
        kinds.push_back({priced[i], false, [=](Random &r, size_t n) { return priced_volcano(r, n, n, turn, spread); }});
    }
    kinds.push_back({"fault of 2.5 turns", false, [](Random &r, size_t n) { return fault(r, n, n, turn); }});
    kinds.push_back({"smooth", false, [](Random &r, size_t n) { return smooth(r, n, n, turn); }});
    kinds.push_back({"ten residues far apart", false, [](Random &r, size_t n) { return few_residues(r, n, n, turn); }});
    kinds.push_back({"noise, 40% of prices 0", false, [](Random &r, size_t n) { return some_free(r, n, n, turn, 40); }});
    kinds.push_back({"noise, 10% of prices 0", true, [](Random &r, size_t n) { return some_free(r, n, n, turn, 10); }});
    kinds.push_back({"noise, 20% of prices 0", true, [](Random &r, size_t n) { return some_free(r, n, n, turn, 20); }});
    kinds.push_back({"noise, 60% of prices 0", true, [](Random &r, size_t n) { return some_free(r, n, n, turn, 60); }});
    kinds.push_back({"noise, prices 1 or 1,000", true, [](Random &r, size_t n) { return two_prices(r, n, n, turn, 1, 1000); }});
    kinds.push_back({"noise, prices 900 to 1,000", true, [](Random &r, size_t n) { return prices_between(r, n, n, turn, 900, 1000); }});
    kinds.push_back({"every square off", true, [](Random &r, size_t n) { return every_square_off(r, n, n, turn); }});
    kinds.push_back({"residues in far corners", true, [](Random &r, size_t n) { return far_corners(r, n, n, turn); }});
    kinds.push_back({"residues of one sign, a dear border", true, [](Random &r, size_t n) { return dear_border(r, n, n, turn); }});
    kinds.push_back({"noise, a turn of 2", true, [](Random &r, size_t n) { return noise(r, n, n, 2); }});
    return kinds;
}

int main(int count, char **words) {
    // The entry works in the stack, which stays mapped from run to run. So does LEMON's memory by this: else pages that are given back
    // and taken anew would be most of what its set-up takes.
    mallopt(M_MMAP_THRESHOLD, 1 << 30);
    mallopt(M_TRIM_THRESHOLD, 1 << 30);
    static const Size small[] = {{16, 31, 5, 2.5, 4}, {32, 31, 5, 4, 0}, {64, 15, 3, 6, 10}};
    static const Size large[] = {{128, 5, 2, 8, 0}, {256, 3, 1, 15, 0}, {512, 1, 1, 20, 0}};
    bool is_large = count > 1 && std::strcmp(words[1], "large") == 0;
    const Size *sizes = is_large ? large : small;
    const char *ours = is_large ? "solver" : "entry";
    std::printf("| field | wide | %s, ms | LEMON, ms | ratio | to reach |\n|---|---|---|---|---|---|\n", ours);
    bool reached = true;
    uint64_t seed = 0;
    double logs[3] = {0, 0, 0};
    int plain = 0;
    for (const Kind &kind : all_kinds()) {
        for (int i = 0; i < 3; i++) {
            const Size &size = sizes[i];
            Row row = measure(kind, size, ++seed);
            double ratio = row.lemons / row.ours;
            if (!kind.hard) logs[i] += std::log(ratio);
            double wanted = !kind.hard ? size.each : size.wide == 64 ? 2 : 0;
            bool missed = ratio < wanted;
            reached = reached && !missed;
            std::printf("| %s | %zu | %.4f | %.3f | %.2f |", kind.name, size.wide, row.ours, row.lemons, ratio);
            if (wanted > 0) std::printf(" %.1f%s |\n", wanted, missed ? ", missed" : "");
            else std::printf(" |\n");
            std::fflush(stdout);
        }
        plain += !kind.hard;
    }
    for (int i = 0; i < 3; i++) {
        double mean = std::exp(logs[i] / plain);
        bool missed = mean < sizes[i].mean;
        reached = reached && !missed;
        std::printf("geometric mean at %zu wide: %.2f", sizes[i].wide, mean);
        if (sizes[i].mean > 0) std::printf(", to reach %.1f%s", sizes[i].mean, missed ? ", missed" : "");
        std::printf("\n");
    }
    std::printf("%s\n", reached ? "every cost equal, every figure reached" : "every cost equal, a figure missed");
    return 0;
}
