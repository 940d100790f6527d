// Holds the proved entry to LEMON's network simplex on fields of every kind, and to the list of refusals.
#include "fields.hpp"
#include "lemon.hpp"
#include <cstdio>
#include <cstdlib>

struct Kind {
    const char *name;
    Field (*make)(Random &, size_t, size_t, uint32_t);
};

static double some_spread(Random &r) { return uniform(r, 0.05, 0.35); }

static const Kind kinds[] = {
    {"noise", noise},
    {"volcano with noise",
     [](Random &r, size_t wide, size_t high, uint32_t turn) { return volcano(r, wide, high, turn, some_spread(r)); }},
    {"priced volcano",
     [](Random &r, size_t wide, size_t high, uint32_t turn) { return priced_volcano(r, wide, high, turn, some_spread(r)); }},
    {"fault", fault},
    {"smooth", smooth},
    {"few residues", few_residues},
};

struct Prices {
    const char *name;
    void (*set)(Random &, Field &);
};

static const Prices all_prices[] = {
    {"as made", [](Random &, Field &) {}},
    {"all 1",
     [](Random &, Field &f) {
         f.right.assign(f.places(), 1);
         f.below.assign(f.places(), 1);
     }},
    {"0 to 1,000", [](Random &r, Field &f) { reprice(r, f, 1000, 0); }},
    {"mostly 0", [](Random &r, Field &f) { reprice(r, f, 1000, 70); }},
};

constexpr uint32_t turns[] = {2, 3, 10, 65536};
constexpr size_t most = 64;
// How often each kind is made with each turn and prices: 2,016 fields in all.
constexpr int times = 21;

static size_t some_size(Random &r) { return 1 + below_or_at(r, most - 1); }

// The first is as large as can be, the next two are lines.
static Field make(Random &r, const Kind &kind, const Prices &prices, uint32_t turn, int time) {
    size_t wide = some_size(r), high = some_size(r);
    if (time == 0) wide = high = most;
    if (time == 1) wide = 1;
    if (time == 2) high = 1;
    Field f = kind.make(r, wide, high, turn);
    prices.set(r, f);
    return f;
}

struct Row {
    size_t fields = 0, above = 0, equal = 0;
};

static void print_row(const char *name, const Row &row) {
    std::printf("| %s | %zu | %zu | %zu |\n", name, row.fields, row.above, row.equal);
}

// Adds a field to its row, or ends.
static void compare(Row &row, const Kind &kind, const Prices &prices, uint32_t turn, int time, uint64_t seed) {
    Random r(seed);
    Field f = make(r, kind, prices, turn, time);
    uint64_t least = least_by_lemon(f);
    std::optional<uint64_t> ours = guarded_cost(f);
    row.fields++;
    row.above += least > 0;
    if (ours != least) {
        std::printf("%s, prices %s, turn %u, %zu wide, %zu high, seed %zu: ", kind.name, prices.name, turn, size_t(f.wide),
                    size_t(f.high), size_t(seed));
        if (ours) std::printf("the entry: %zu, LEMON: %zu\n", size_t(*ours), size_t(least));
        else std::printf("the entry is wrong in itself: %s\n", wrong_in_itself);
        std::exit(1);
    }
    row.equal++;
}

// A field and the room that it is lent with.
struct Input {
    Field field;
    size_t room;
};

static void make_longer_or_shorter(Random &r, std::vector<uint32_t> &list) { list.resize(list.size() + (r() % 2 ? 1 : -1)); }

// Something that is turned away with number 1: a size or a turn out of range, also by more than 32 bits.
static void break_size(Random &r, Input &in) {
    static const uint64_t sizes[] = {0, 65, uint64_t(1) << 32, (uint64_t(1) << 32) + 5, UINT64_MAX};
    static const uint64_t wrong_turns[] = {0, 1, 65537, (uint64_t(1) << 32) + 10, UINT64_MAX};
    uint64_t *parts[] = {&in.field.wide, &in.field.high, &in.field.turn};
    size_t part = r() % 3;
    *parts[part] = part == 2 ? wrong_turns[r() % 5] : sizes[r() % 5];
}

// With number 2: not a number for each place, or one that is a turn or more.
static void break_seen(Random &r, Input &in) {
    auto &seen = in.field.seen;
    if (r() % 2) make_longer_or_shorter(r, seen);
    else seen[r() % seen.size()] = r() % 2 ? uint32_t(in.field.turn) : UINT32_MAX;
}

// With number 3: not a price for each place and way, or one above 1,000.
static void break_prices(Random &r, Input &in) {
    auto &prices = r() % 2 ? in.field.right : in.field.below;
    if (r() % 2) make_longer_or_shorter(r, prices);
    else prices[r() % prices.size()] = r() % 2 ? 1001 : UINT32_MAX;
}

// With number 4: a room that isn't a number for each place.
static void break_room(Random &r, Input &in) {
    size_t rooms[] = {0, in.room - 1, in.room + 1, 2 * in.room};
    in.room = rooms[r() % 4];
}

// Each set of reasons is tried so many times; the first of them has to be the answer.
static bool refuses_all(size_t &inputs) {
    static void (*const breaks[])(Random &, Input &) = {break_size, break_seen, break_prices, break_room};
    for (unsigned reasons = 1; reasons < 16; reasons++)
        for (uint64_t time = 0; time < 40; time++) {
            uint64_t seed = reasons * 1000 + time;
            Random r(seed);
            size_t wide = some_size(r), high = some_size(r);
            Field f = noise(r, wide, high, turns[r() % 4]);
            Input in{f, f.places()};
            uint64_t first = 0;
            // The last reasons first: a wrong turn is no measure for what was seen.
            for (unsigned i = 4; i-- > 0;)
                if (reasons >> i & 1) {
                    breaks[i](r, in);
                    first = i + 1;
                }
            if (!is_refused(in.field, in.room, first)) {
                std::printf("not refused with %zu, or not with all as it was: reasons %u, seed %zu\n", size_t(first), reasons,
                            size_t(seed));
                return false;
            }
            inputs++;
        }
    return true;
}

int main() {
    size_t refused = 0;
    if (!refuses_all(refused)) return 1;
    std::printf("refused: %zu inputs by the numbers 1 to 4, each by the first that applies, with all as it was\n\n", refused);
    std::printf("| kind | fields | cost more than 0 | equal |\n|---|---|---|---|\n");
    Row total;
    uint64_t seed = 0;
    for (const Kind &kind : kinds) {
        Row row;
        for (const Prices &prices : all_prices)
            for (uint32_t turn : turns)
                for (int time = 0; time < times; time++) compare(row, kind, prices, turn, time, ++seed);
        print_row(kind.name, row);
        total.fields += row.fields;
        total.above += row.above;
        total.equal += row.equal;
    }
    print_row("total", total);
    return 0;
}
