// Made fields of several kinds, the same for the same seed.
#pragma once
#include "entry.hpp"
#include <algorithm>
#include <cmath>
#include <random>
#include <utility>

using Random = std::mt19937_64;

inline double uniform(Random &r, double from, double to) {
    return from + (to - from) * double(r() >> 11) * 0x1.0p-53;
}

inline uint32_t below_or_at(Random &r, uint32_t most) { return uint32_t(r() % (uint64_t(most) + 1)); }

// A normal number by the sum of twelve uniform ones: the same on every machine.
inline double normal(Random &r) {
    double sum = -6;
    for (int i = 0; i < 12; i++) sum += uniform(r, 0, 1);
    return sum;
}

// What is seen of heights in turns: the part below a turn.
inline uint32_t wrapped(double height, uint32_t turn) {
    double part = height - std::floor(height);
    uint32_t seen = uint32_t(part * turn);
    return seen < turn ? seen : turn - 1;
}

// Seen through a height for each place, with a spread of noise for each.
template <class Height, class Spread>
Field seen_of(Random &r, size_t wide, size_t high, uint32_t turn, Height height, Spread spread) {
    Field f;
    f.wide = wide;
    f.high = high;
    f.turn = turn;
    for (size_t y = 0; y < high; y++)
        for (size_t x = 0; x < wide; x++)
            f.seen.push_back(wrapped(height(double(x), double(y)) + spread(double(x), double(y)) * normal(r), turn));
    f.right.assign(f.places(), 1);
    f.below.assign(f.places(), 1);
    return f;
}

inline Field noise(Random &r, size_t wide, size_t high, uint32_t turn) {
    Field f;
    f.wide = wide;
    f.high = high;
    f.turn = turn;
    for (size_t p = 0; p < f.places(); p++) f.seen.push_back(below_or_at(r, turn - 1));
    f.right.assign(f.places(), 1);
    f.below.assign(f.places(), 1);
    return f;
}

// A round mountain, no steeper than a third of a turn from place to place.
inline double mountain(double x, double y, double wide, double high) {
    double s = std::max(wide, high) / 4, dx = x - wide / 2, dy = y - high / 2;
    return s / 2 * std::exp(-(dx * dx + dy * dy) / (2 * s * s));
}

// Noise of so many turns everywhere.
inline Field volcano(Random &r, size_t wide, size_t high, uint32_t turn, double spread) {
    return seen_of(r, wide, high, turn, [&](double x, double y) { return mountain(x, y, wide, high); },
                   [&](double, double) { return spread; });
}

// Noise that is less on one side and more on the other, so many turns in the middle, and prices that fall where it is noisy.
inline Field priced_volcano(Random &r, size_t wide, size_t high, uint32_t turn, double spread) {
    auto level = [&](double x, double y) {
        return spread * (0.5 + 0.5 * (x / double(wide)) + 0.5 * std::fabs(std::sin(x / 7) * std::cos(y / 9)));
    };
    Field f = seen_of(r, wide, high, turn, [&](double x, double y) { return mountain(x, y, wide, high); }, level);
    for (size_t y = 0; y < high; y++)
        for (size_t x = 0; x < wide; x++) {
            double right = std::max(level(x, y), level(x + 1, y)), below = std::max(level(x, y), level(x, y + 1));
            f.right[f.at(x, y)] = uint32_t(1 + 999 / (1 + 50 * right * right));
            f.below[f.at(x, y)] = uint32_t(1 + 999 / (1 + 50 * below * below));
        }
    return f;
}

// A slope that is torn across its middle, by 2.5 turns at the left edge and by nothing at the right.
inline Field fault(Random &r, size_t wide, size_t high, uint32_t turn) {
    return seen_of(r, wide, high, turn,
                   [&](double x, double y) {
                       double torn = y > double(high) / 2 ? 2.5 * (1 - x / double(wide)) : 0;
                       return 0.11 * x + 0.07 * y + torn;
                   },
                   [](double, double) { return 0.03; });
}

inline Field smooth(Random &r, size_t wide, size_t high, uint32_t turn) {
    double a = uniform(r, -0.2, 0.2), b = uniform(r, -0.2, 0.2);
    return seen_of(r, wide, high, turn,
                   [&](double x, double y) { return a * x + b * y + 0.2 * mountain(x, y, wide, high); },
                   [](double, double) { return 0.0; });
}

// Ten squares that are off, far apart: heights that wind round ten points, one way or the other.
inline Field few_residues(Random &r, size_t wide, size_t high, uint32_t turn) {
    std::vector<std::pair<double, double>> points;
    for (int i = 0; i < 10; i++) {
        double x = (i % 5 + uniform(r, 0.2, 0.8)) * double(wide) / 5;
        double y = (i / 5 + uniform(r, 0.2, 0.8)) * double(high) / 2;
        points.emplace_back(std::floor(x) + 0.5, std::floor(y) + 0.5);
    }
    return seen_of(r, wide, high, turn,
                   [&](double x, double y) {
                       double h = 0;
                       for (size_t i = 0; i < points.size(); i++)
                           h += (i % 2 ? 1 : -1) * std::atan2(y - points[i].second, x - points[i].first) / (2 * M_PI);
                       return h;
                   },
                   [](double, double) { return 0.0; });
}

// Prices from 0 to the most, so many percent of them 0.
inline void reprice(Random &r, Field &f, uint32_t most, uint32_t percent_free) {
    for (auto *prices : {&f.right, &f.below})
        for (uint32_t &price : *prices) {
            bool is_free = below_or_at(r, 99) < percent_free;
            price = is_free ? 0 : percent_free > 0 ? 1 + below_or_at(r, most - 1) : below_or_at(r, most);
        }
}

// ---- fields made to hurt

// Every price one of two, as likely as not.
inline Field two_prices(Random &r, size_t wide, size_t high, uint32_t turn, uint32_t low, uint32_t dear) {
    Field f = noise(r, wide, high, turn);
    for (auto *prices : {&f.right, &f.below})
        for (uint32_t &price : *prices) price = r() % 2 ? low : dear;
    return f;
}

// Prices between two, so that many ways cost nearly the same.
inline Field prices_between(Random &r, size_t wide, size_t high, uint32_t turn, uint32_t low, uint32_t dear) {
    Field f = noise(r, wide, high, turn);
    for (auto *prices : {&f.right, &f.below})
        for (uint32_t &price : *prices) price = low + below_or_at(r, dear - low);
    return f;
}

// At turn 4 the numbers 0 1 over 3 2, again and again: round each square it is a turn, one way and the other in turn.
inline Field every_square_off(Random &r, size_t wide, size_t high, uint32_t) {
    Field f = noise(r, wide, high, 4);
    for (size_t y = 0; y < high; y++)
        for (size_t x = 0; x < wide; x++) {
            static const uint32_t tile[2][2] = {{0, 1}, {3, 2}};
            f.seen[f.at(x, y)] = tile[y % 2][x % 2];
        }
    reprice(r, f, 1000, 0);
    return f;
}

// Heights that wind one way round points near one corner, and the other way round as many near the opposite one.
inline Field far_corners(Random &r, size_t wide, size_t high, uint32_t turn) {
    std::vector<std::pair<double, double>> points;
    for (int i = 0; i < 12; i++) {
        double x = uniform(r, 0.05, 0.2) * double(wide), y = uniform(r, 0.05, 0.2) * double(high);
        if (i % 2) x = double(wide) - x, y = double(high) - y;
        points.emplace_back(std::floor(x) + 0.5, std::floor(y) + 0.5);
    }
    Field f = seen_of(r, wide, high, turn,
                      [&](double x, double y) {
                          double h = 0;
                          for (size_t i = 0; i < points.size(); i++)
                              h += (i % 2 ? 1 : -1) * std::atan2(y - points[i].second, x - points[i].first) / (2 * M_PI);
                          return h;
                      },
                      [](double, double) { return 0.0; });
    reprice(r, f, 1000, 0);
    return f;
}

// Heights that wind one way round all points, which lie within, and a border that is dear to cross.
inline Field dear_border(Random &r, size_t wide, size_t high, uint32_t turn) {
    std::vector<std::pair<double, double>> points;
    for (int i = 0; i < 8; i++)
        points.emplace_back(std::floor(uniform(r, 0.35, 0.65) * double(wide)) + 0.5, std::floor(uniform(r, 0.35, 0.65) * double(high)) + 0.5);
    Field f = seen_of(r, wide, high, turn,
                      [&](double x, double y) {
                          double h = 0;
                          for (auto &point : points) h += std::atan2(y - point.second, x - point.first) / (2 * M_PI);
                          return h;
                      },
                      [](double, double) { return 0.0; });
    for (size_t y = 0; y < high; y++)
        for (size_t x = 0; x < wide; x++) {
            bool edge = x < 2 || y < 2 || x + 3 > wide || y + 3 > high;
            f.right[f.at(x, y)] = edge ? 1000 : 1 + below_or_at(r, 9);
            f.below[f.at(x, y)] = edge ? 1000 : 1 + below_or_at(r, 9);
        }
    return f;
}

inline Field some_free(Random &r, size_t wide, size_t high, uint32_t turn, uint32_t percent_free) {
    Field f = noise(r, wide, high, turn);
    reprice(r, f, 1000, percent_free);
    return f;
}
