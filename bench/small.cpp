// Holds the proved entry to all turns from -2 to 2, on small fields of every shape.
#include "fields.hpp"
#include <array>
#include <cstdio>
#include <cstdlib>

constexpr size_t most_places = 6;

// The number that is the difference of what was seen but for whole turns, above minus half a turn and at most half of one.
static int64_t expected(const Field &f, size_t from, size_t to) {
    int64_t turn = int64_t(f.turn), d = int64_t(f.seen[to]) - int64_t(f.seen[from]);
    for (int64_t e : {d - turn, d, d + turn})
        if (-turn < 2 * e && 2 * e <= turn) return e;
    std::abort();
}

// Tries turns place by place, and tells costs by heights: nothing is shared with the entry or with `cost_of`. A partial cost only
// grows, so what costs as much as the least so far is left. Turns beyond need no trying: a part that no step joins to the rest as
// expected can be turned one way at no loss until one does, and then turns of six places differ by at most 3.
class Least {
    struct Step {
        size_t from;
        int64_t expected, price;
    };
    // The steps that end at each place.
    std::array<std::array<Step, 2>, most_places> steps{};
    std::array<size_t, most_places> count{};
    std::array<int64_t, most_places> height{};
    const Field &field;
    int64_t least = INT64_MAX;

    void arrive(size_t from, size_t to, uint32_t price) {
        steps[to][count[to]++] = {from, expected(field, from, to), int64_t(price)};
    }

    void set_from(size_t p, int64_t cost) {
        if (cost >= least) return;
        if (p == field.places()) {
            least = cost;
            return;
        }
        for (int64_t k = -2; k <= 2; k++) {
            height[p] = int64_t(field.seen[p]) + k * int64_t(field.turn);
            int64_t more = 0;
            for (size_t i = 0; i < count[p]; i++) {
                const Step &s = steps[p][i];
                more += s.price * std::abs(height[p] - height[s.from] - s.expected);
            }
            set_from(p + 1, cost + more);
        }
    }

public:
    explicit Least(const Field &f) : field(f) {
        for (size_t y = 0; y < f.high; y++)
            for (size_t x = 0; x < f.wide; x++) {
                size_t p = f.at(x, y);
                if (x > 0) arrive(p - 1, p, f.right[p - 1]);
                if (y > 0) arrive(p - f.wide, p, f.below[p - f.wide]);
            }
    }

    uint64_t cost() {
        set_from(0, 0);
        return uint64_t(least);
    }
};

static void print_list(const char *name, const std::vector<uint32_t> &list) {
    std::printf("%s", name);
    for (uint32_t n : list) std::printf(" %u", n);
    std::printf("\n");
}

[[noreturn]] static void differs(const Field &f, std::optional<uint64_t> ours, uint64_t least) {
    std::printf("%zu wide, %zu high, turn %zu\n", size_t(f.wide), size_t(f.high), size_t(f.turn));
    print_list("seen", f.seen);
    print_list("right", f.right);
    print_list("below", f.below);
    if (ours) std::printf("the entry: %zu, all turns from -2 to 2: %zu\n", size_t(*ours), size_t(least));
    else std::printf("the entry is wrong in itself: %s\n", wrong_in_itself);
    std::exit(1);
}

// Prices all 1, 0 to 3, 0 to 1,000, mostly 0.
constexpr int price_kinds = 4;

static void price(Random &r, Field &f, int kind) {
    if (kind == 1) reprice(r, f, 3, 0);
    if (kind == 2) reprice(r, f, 1000, 0);
    if (kind == 3) reprice(r, f, 1000, 70);
}

int main() {
    Random r(1);
    size_t fields = 0, above = 0;
    for (uint64_t high = 1; high <= most_places; high++)
        for (uint64_t wide = 1; wide * high <= most_places; wide++)
            for (uint32_t turn : {2, 3, 10, 65536})
                for (int prices = 0; prices < price_kinds; prices++) {
                    // Only a field with squares can cost anything.
                    int times = wide > 1 && high > 1 ? 2500 : 100;
                    for (int i = 0; i < times; i++) {
                        Field f = noise(r, wide, high, turn);
                        price(r, f, prices);
                        uint64_t least = Least(f).cost();
                        std::optional<uint64_t> ours = guarded_cost(f);
                        if (ours != least) differs(f, ours, least);
                        fields++;
                        above += least > 0;
                    }
                }
    std::printf("small: %zu fields, %zu cost more than 0, all equal to the least of all turns from -2 to 2\n", fields, above);
    return 0;
}
