// Times numbers that cost least over links beside LEMON's network simplex on the same networks: turns of the places of a field, with a link
// for each step to the right and down, and of six fields over time, with a link from each place to the same place in the next field, too.
// Each is timed from the list of links to the numbers or the cost, with all set-up.
#include "fields.hpp"
#include <algorithm>
#include <chrono>
#include <cstdio>
#include <cstdlib>
#include <functional>
#include <lemon/network_simplex.h>
#include <lemon/smart_graph.h>
#include <malloc.h>

// The number of node `to` is expected to lie `low` up to `high` above that of node `from`, at `price` for each beyond.
struct Link {
    uint64_t from, to;
    int64_t low, high, price;
};

// A slice crosses as a pointer and a length. Whether it wrote numbers that cost least.
extern "C" bool mulantsy_settle(const Link *links, size_t links_len, int64_t *numbers, size_t numbers_len);

using Clock = std::chrono::steady_clock;

static double milliseconds(Clock::time_point from) {
    return std::chrono::duration<double, std::milli>(Clock::now() - from).count();
}

static double median(std::vector<double> v) {
    std::sort(v.begin(), v.end());
    return v[v.size() / 2];
}

struct Network {
    size_t nodes = 0;
    std::vector<Link> links;

    void join(size_t from, size_t to, int64_t turns, uint32_t price) { links.push_back({from, to, turns, turns, price}); }

    int64_t cost(const std::vector<int64_t> &numbers) const {
        int64_t sum = 0;
        for (const Link &l : links) {
            int64_t rise = numbers[l.to] - numbers[l.from];
            sum += l.price * (std::max<int64_t>(rise - l.high, 0) + std::max<int64_t>(l.low - rise, 0));
        }
        return sum;
    }
};

// The steps within each field, and from each field to the next one, at the prices of its steps to the right.
static Network network_of(const std::vector<Field> &fields) {
    Network net;
    size_t places = fields[0].places();
    net.nodes = places * fields.size();
    for (size_t k = 0; k < fields.size(); k++) {
        const Field &f = fields[k];
        size_t first = k * places;
        for (size_t y = 0; y < f.high; y++)
            for (size_t x = 0; x < f.wide; x++) {
                size_t p = f.at(x, y);
                if (x + 1 < f.wide) net.join(first + p, first + p + 1, turns_of_step(f, p, p + 1), f.right[p]);
                if (y + 1 < f.high) net.join(first + p, first + p + f.wide, turns_of_step(f, p, p + f.wide), f.below[p]);
                if (k + 1 < fields.size()) {
                    Field step = f;
                    step.seen = {f.seen[p], fields[k + 1].seen[p]};
                    net.join(first + p, first + places + p, turns_of_step(step, 0, 1), f.right[p]);
                }
            }
    }
    return net;
}

// The cheapest circulation costs minus what numbers cost least. Each link is two arcs, one each way, or one arc whose flow may be below 0.
static int64_t least_by_lemon(const Network &net, bool one_arc) {
    using lemon::SmartDigraph;
    SmartDigraph graph;
    graph.reserveNode(int(net.nodes));
    graph.reserveArc(int(net.links.size() * (one_arc ? 1 : 2)));
    for (size_t i = 0; i < net.nodes; i++) graph.addNode();
    for (const Link &l : net.links) {
        auto u = graph.nodeFromId(int(l.from)), v = graph.nodeFromId(int(l.to));
        graph.addArc(u, v);
        if (!one_arc) graph.addArc(v, u);
    }
    SmartDigraph::ArcMap<int> cost(graph), lower(graph, 0), upper(graph);
    int a = 0;
    auto set = [&](int64_t unit, int64_t most) {
        cost[graph.arcFromId(a)] = int(unit);
        upper[graph.arcFromId(a)] = int(most);
        if (one_arc) lower[graph.arcFromId(a)] = -int(most);
        a++;
    };
    for (const Link &l : net.links) {
        set(l.high, l.price);
        if (!one_arc) set(-l.low, l.price);
    }
    lemon::NetworkSimplex<SmartDigraph, int, int> simplex(graph);
    simplex.costMap(cost).upperMap(upper);
    if (one_arc) simplex.lowerMap(lower);
    if (simplex.run() != simplex.OPTIMAL) return -1;
    return -simplex.totalCost<int64_t>();
}

struct Kind {
    const char *name;
    std::function<Field(Random &)> make;
};

struct Row {
    double ours, two_arcs, one_arc;
};

static Row measure(const Kind &kind, size_t depth, int networks, uint64_t seed) {
    Random r(seed);
    std::vector<double> times[3];
    for (int i = 0; i < networks; i++) {
        std::vector<Field> fields;
        for (size_t k = 0; k < depth; k++) fields.push_back(kind.make(r));
        Network net = network_of(fields);
        std::vector<int64_t> numbers(net.nodes);
        double best[3] = {1e9, 1e9, 1e9};
        int64_t least[2] = {0, 0};
        // The better of three runs each, taken in turn; of six fields, which take seconds, one run.
        for (int again = 0; again < (depth == 1 ? 3 : 1); again++) {
            auto start = Clock::now();
            bool done = mulantsy_settle(net.links.data(), net.links.size(), numbers.data(), numbers.size());
            best[0] = std::min(best[0], milliseconds(start));
            if (!done) {
                std::printf("%s, %zu fields: refused\n", kind.name, depth);
                std::exit(1);
            }
            for (int one_arc = 0; one_arc < 2; one_arc++) {
                start = Clock::now();
                least[one_arc] = least_by_lemon(net, one_arc == 1);
                best[1 + one_arc] = std::min(best[1 + one_arc], milliseconds(start));
            }
        }
        int64_t cost = net.cost(numbers);
        if (cost != least[0] || cost != least[1]) {
            std::printf("%s, %zu fields: %zd, by LEMON %zd and %zd\n", kind.name, depth, ssize_t(cost), ssize_t(least[0]),
                        ssize_t(least[1]));
            std::exit(1);
        }
        for (int k = 0; k < 3; k++) times[k].push_back(best[k]);
    }
    return {median(times[0]), median(times[1]), median(times[2])};
}

int main() {
    // Memory stays mapped from run to run for all: else pages that are given back and taken anew would be most of what set-up takes.
    mallopt(M_MMAP_THRESHOLD, 1 << 30);
    mallopt(M_TRIM_THRESHOLD, 1 << 30);
    constexpr uint32_t turn = 1024;
    constexpr size_t size = 64;
    constexpr double wanted = 0.7;
    std::vector<Kind> kinds;
    kinds.push_back({"noise, price 1", [](Random &r) { return noise(r, size, size, turn); }});
    kinds.push_back({"noise, prices 0 to 1,000", [](Random &r) {
                         Field f = noise(r, size, size, turn);
                         reprice(r, f, 1000, 0);
                         return f;
                     }});
    kinds.push_back({"volcano, noise 0.2, price 1", [](Random &r) { return volcano(r, size, size, turn, 0.2); }});
    kinds.push_back({"volcano, noise 0.3, prices fall with noise", [](Random &r) { return priced_volcano(r, size, size, turn, 0.3); }});
    kinds.push_back({"smooth", [](Random &r) { return smooth(r, size, size, turn); }});
    kinds.push_back({"noise, 40% of prices 0", [](Random &r) {
                         Field f = noise(r, size, size, turn);
                         reprice(r, f, 1000, 40);
                         return f;
                     }});
    std::printf("| field | fields | settle, ms | LEMON, two arcs, ms | ratio | LEMON, one arc, ms | ratio |\n|---|---|---|---|---|---|---|\n");
    bool reached = true;
    uint64_t seed = 0;
    for (size_t depth : {size_t(1), size_t(6)})
        for (const Kind &kind : kinds) {
            Row row = measure(kind, depth, depth == 1 ? 15 : 3, ++seed);
            double two = row.two_arcs / row.ours, one = row.one_arc / row.ours;
            reached = reached && std::min(two, one) >= wanted;
            std::printf("| %s | %zu | %.2f | %.2f | %.2f | %.2f | %.2f%s |\n", kind.name, depth, row.ours, row.two_arcs, two,
                        row.one_arc, one, std::min(two, one) >= wanted ? "" : ", missed");
            std::fflush(stdout);
        }
    std::printf("%s\n", reached ? "every cost equal, every figure reached" : "every cost equal, a figure missed");
    return 0;
}
