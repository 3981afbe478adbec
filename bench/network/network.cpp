// The algorithm of inc_paths' Network, in plain C++, to compare its speed with.
//
//     g++ -O2 -o /tmp/network bench/network/network.cpp && time /tmp/network && time /tmp/network search
//
// A point's value has 64 bits, or with -DWIDE 128, as Network's have. A literal's bound has 64 in both.
//
// 60,000 points, 400,000 random literals that a hidden schedule satisfies, and with the word `search` 1,000,000 adds and
// retracts: after one literal in ten, and after each refused one, up to 19 of the last literals are taken back.
#include <algorithm>
#include <cstdint>
#include <cstdio>
#include <utility>
#include <vector>

#ifdef WIDE
using Value = __int128;
using Fall = unsigned __int128;
#else
using Value = int64_t;
using Fall = uint64_t;
#endif

struct Literal {
    uint32_t x, y;
    int64_t c;
};

struct Lowering {
    Literal literal;
    Value now, old;
    size_t parent;
};

struct Network {
    std::vector<Literal> literals;
    std::vector<size_t> heads, nexts, ends;
    std::vector<Value> values, before;
    std::vector<Lowering> trail;
    std::vector<std::pair<Fall, size_t>> queue;
    size_t start = 0;
    uint64_t adds = 0;

    explicit Network(uint32_t points) : heads(points), values(points), before(points) {}

    bool fails(const Literal &l) const { return values[l.y] + l.c < values[l.x]; }

    void lower(const Literal &l, size_t parent) {
        Value now = values[l.y] + l.c;
        queue.emplace_back(Fall(before[l.x] - now), trail.size());
        std::push_heap(queue.begin(), queue.end());
        trail.push_back({l, now, values[l.x], parent});
        values[l.x] = now;
    }

    void cut(size_t count) {
        size_t end = count < ends.size() ? ends[count] : trail.size();
        while (trail.size() > end) {
            const Lowering &e = trail.back();
            values[e.literal.x] = before[e.literal.x] = e.old;
            trail.pop_back();
        }
        ends.resize(std::min(count, ends.size()));
        while (literals.size() > count) {
            heads[literals.back().y] = nexts.back();
            literals.pop_back();
            nexts.pop_back();
        }
    }

    // The negative cycle, or none where all literals hold.
    std::vector<Literal> settle(const Literal &added) {
        start = trail.size();
        queue.clear();
        if (!fails(added)) return {};
        if (added.x == added.y) return {added};
        lower(added, 0);
        while (!queue.empty()) {
            std::pop_heap(queue.begin(), queue.end());
            size_t place = queue.back().second;
            queue.pop_back();
            uint32_t point = trail[place].literal.x;
            if (values[point] != trail[place].now) continue;
            for (size_t number = heads[point]; number != 0; number = nexts[number - 1]) {
                Literal l = literals[number - 1];
                if (!fails(l)) continue;
                if (l.x == added.y) {
                    std::vector<Literal> walk{l};
                    for (size_t at = place + 1; at != 0; at = trail[at - 1].parent) walk.push_back(trail[at - 1].literal);
                    return walk;
                }
                lower(l, place + 1);
            }
        }
        for (size_t k = start; k < trail.size(); k++) before[trail[k].literal.x] = values[trail[k].literal.x];
        return {};
    }

    bool add(const Literal &l) {
        size_t count = literals.size();
        ends.push_back(trail.size());
        nexts.push_back(heads[l.y]);
        literals.push_back(l);
        heads[l.y] = literals.size();
        adds++;
        if (settle(l).empty()) return true;
        cut(count);
        return false;
    }
};

static uint64_t state = 1;

static uint32_t below(uint32_t limit) {
    state = state * 6364136223846793005u + 1442695040888963407u;
    return uint32_t(state >> 33) % limit;
}

int main(int argc, char **) {
    const uint32_t points = 60000;
    std::vector<int64_t> hidden;
    for (uint32_t i = 0; i < points; i++) hidden.push_back(below(1000000));
    Network net(points);
    for (int i = 0; i < 400000; i++) {
        uint32_t x = below(points), y = below(points);
        int64_t slack = below(1000);
        net.add({x, y, hidden[x] - hidden[y] + slack});
    }
    uint64_t refused = 0;
    if (argc > 1) {
        size_t base = net.literals.size();
        for (uint32_t done = 0; done < 1000000; done++) {
            uint32_t x = below(points), y = below(points);
            int64_t slack = below(2000);
            bool taken = net.add({x, y, hidden[x] - hidden[y] + slack - 200});
            if (!taken) refused++;
            // back by some decisions, as at a dead end
            if (!taken || below(10) == 0) {
                size_t depth = net.literals.size() - base;
                size_t back = below(20);
                net.cut(base + (back < depth ? depth - back : 0));
                done++;
            }
        }
    }
    uint64_t sum = 0;
    for (Value value : net.values) sum = sum * 31 + uint64_t(-value);
    std::printf("adds %lu length %zu refused %lu sum %lu\n", net.adds, net.literals.size(), refused, sum);
}
