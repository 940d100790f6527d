// The proved entry, as it is called from C and C++.
#pragma once
#include <algorithm>
#include <cstddef>
#include <cstdint>
#include <optional>
#include <vector>

// A slice crosses as a pointer and a length. Answers 0 with the cost in `cost`, or the number of a refusal.
extern "C" uint64_t mulantsy_put_back(
    uint64_t wide, uint64_t high, uint64_t turn,
    const uint32_t *seen, size_t seen_len,
    const uint32_t *right, size_t right_len,
    const uint32_t *below, size_t below_len,
    int64_t *room, size_t room_len,
    uint64_t *cost);

// What was seen at each place, row by row, and the prices of the steps to the right and down.
struct Field {
    uint64_t wide = 0, high = 0, turn = 2;
    std::vector<uint32_t> seen, right, below;

    size_t places() const { return wide * high; }
    size_t at(size_t x, size_t y) const { return y * wide + x; }
};

// The whole turns that make what is expected of a step of the difference of what was seen.
inline int64_t turns_of_step(const Field &f, size_t from, size_t to) {
    int64_t turn = int64_t(f.turn), d = int64_t(f.seen[to]) - int64_t(f.seen[from]);
    if (2 * d > turn) return -1;
    if (2 * d <= -turn) return 1;
    return 0;
}

// What turns cost, told from the definition alone.
inline uint64_t cost_of(const Field &f, const int64_t *turns) {
    uint64_t units = 0;
    auto step = [&](size_t from, size_t to, uint32_t price) {
        int64_t k = turns[to] - turns[from] - turns_of_step(f, from, to);
        units += uint64_t(price) * uint64_t(k < 0 ? -k : k);
    };
    for (size_t y = 0; y < f.high; y++)
        for (size_t x = 0; x < f.wide; x++) {
            size_t p = f.at(x, y);
            if (x + 1 < f.wide) step(p, p + 1, f.right[p]);
            if (y + 1 < f.high) step(p, p + f.wide, f.below[p]);
        }
    return units * f.turn;
}

inline uint64_t put_back(const Field &f, int64_t *room, uint64_t *cost) {
    return mulantsy_put_back(f.wide, f.high, f.turn, f.seen.data(), f.seen.size(), f.right.data(),
                             f.right.size(), f.below.data(), f.below.size(), room, f.places(), cost);
}

// Values between guards.
template <class T> class Guarded {
    static constexpr size_t guard = 64;
    static constexpr T mark = T(0x5a5a5a5a5a5a5a5a);
    std::vector<T> before, memory;

public:
    explicit Guarded(const std::vector<T> &values) : before(values.size() + 2 * guard, mark) {
        std::copy(values.begin(), values.end(), before.begin() + guard);
        memory = before;
    }
    // So many values that nothing was written to yet.
    explicit Guarded(size_t length) : Guarded(std::vector<T>(length, T(~mark))) {}

    T *data() { return memory.data() + guard; }
    size_t size() const { return memory.size() - 2 * guard; }
    bool as_it_was() const { return memory == before; }
    bool guards_as_they_were() const {
        return std::equal(before.begin(), before.begin() + guard, memory.begin()) &&
               std::equal(before.end() - guard, before.end(), memory.end() - guard);
    }
};

// One call with all that is lent between guards.
struct Call {
    Guarded<uint32_t> seen, right, below;
    Guarded<int64_t> room;
    Guarded<uint64_t> cost{1};
    uint64_t answer;

    Call(const Field &f, size_t room_length) : seen(f.seen), right(f.right), below(f.below), room(room_length) {
        answer = mulantsy_put_back(f.wide, f.high, f.turn, seen.data(), seen.size(), right.data(), right.size(),
                                   below.data(), below.size(), room.data(), room.size(), cost.data());
    }
    // What is only read is as it was, and so is all beside what may be written.
    bool kept() const {
        return seen.as_it_was() && right.as_it_was() && below.as_it_was() && room.guards_as_they_were() &&
               cost.guards_as_they_were();
    }
};

// The room has turns, and heights are what was seen and so many of them: each is right but for whole turns if it is a number at all.
// A place that was not written has no height.
inline bool has_heights(const Field &f, const int64_t *turns) {
    for (size_t p = 0; p < f.places(); p++) {
        int64_t height;
        if (__builtin_mul_overflow(turns[p], int64_t(f.turn), &height) ||
            __builtin_add_overflow(height, int64_t(f.seen[p]), &height))
            return false;
    }
    return true;
}

// The cost of turns put back between guards. None where anything of this is wrong.
constexpr const char *wrong_in_itself =
    "it refused, wrote elsewhere, left a place out, turned the first place, or told another cost than that of its turns";
inline std::optional<uint64_t> guarded_cost(const Field &f) {
    Call call(f, f.places());
    const int64_t *turns = call.room.data();
    if (call.answer != 0 || !call.kept() || !has_heights(f, turns) || turns[0] != 0) return std::nullopt;
    uint64_t cost = *call.cost.data();
    if (cost_of(f, turns) != cost) return std::nullopt;
    return cost;
}

// Whether a field is turned away with this number, and all that was lent, room and cost too, is as it was.
inline bool is_refused(const Field &f, size_t room_length, uint64_t number) {
    Call call(f, room_length);
    return call.answer == number && call.kept() && call.room.as_it_was() && call.cost.as_it_was();
}
