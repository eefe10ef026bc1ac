// The peer: the same two plans as a C++ programmer would write them with a library for flows at hand. It checks no input and has no rule
// for ties between divisions; both are part of our time and not of its own.
#pragma once
#include "towns.hpp"
#include <algorithm>
#include <lemon/network_simplex.h>
#include <lemon/smart_graph.h>
#include <memory>
#include <type_traits>

// What a plan gives back.
struct Plan {
    std::uint64_t total = 0;
    std::vector<std::uint8_t> sites, division;
};

// The free plan: greedy rounds over a table of values. The table is by site, so that a round reads it from end to end. Where all weights are
// 1 the values are the scores, in 16 bits, of which a vector holds twice as many; else they are scores times weights, in 32.
template <bool Weighted>
class FreePeer {
public:
    Plan plan(const Town& town, std::size_t k) {
        fill(town);
        bests.assign(town.n, 0);
        chosen.assign(town.m + 1, 0);
        Plan plan;
        for (std::size_t i = 0; i < k; ++i) plan.sites.push_back(static_cast<std::uint8_t>(round(town)));
        for (Value best : bests) plan.total += best;
        serve(town, plan.division);
        return plan;
    }

private:
    using Value = std::conditional_t<Weighted, std::uint32_t, std::uint16_t>;

    std::vector<Value> values, bests;
    std::vector<std::uint8_t> chosen;

    void fill(const Town& town) {
        values.assign(town.n * town.m, 0);
        for (std::size_t s = 0; s < town.n; ++s) {
            const std::uint8_t* row = &town.rows[s * town.m];
            const Value weight = Weighted ? town.weights[s] : 1;
            for (std::size_t j = 0; j < town.m && row[j] != 0; ++j)
                values[(row[j] - 1u) * town.n + s] = static_cast<Value>(weight * town.scores[j]);
        }
    }

    // What a site adds to the total. The loop has no branch, so that it is compiled to vectors.
    static std::uint32_t rise(const Value* value, const Value* best, std::size_t n) {
        std::uint32_t sum = 0;
        for (std::size_t s = 0; s < n; ++s) sum += static_cast<Value>(std::max(value[s], best[s]) - best[s]);
        return sum;
    }

    // The unchosen site that adds most is chosen, the lowest on a tie.
    std::size_t round(const Town& town) {
        std::size_t site = 0;
        std::uint32_t most = 0;
        for (std::size_t a = 1; a <= town.m; ++a) {
            if (chosen[a]) continue;
            std::uint32_t r = rise(&values[(a - 1) * town.n], bests.data(), town.n);
            if (site == 0 || most < r) site = a, most = r;
        }
        chosen[site] = 1;
        const Value* value = &values[(site - 1) * town.n];
        for (std::size_t s = 0; s < town.n; ++s) bests[s] = std::max(bests[s], value[s]);
        return site;
    }

    // Each street goes to the first chosen site of its list.
    void serve(const Town& town, std::vector<std::uint8_t>& division) const {
        division.assign(town.n, 0);
        for (std::size_t s = 0; s < town.n; ++s) {
            const std::uint8_t* row = &town.rows[s * town.m];
            std::size_t j = 0;
            while (j < town.m && row[j] != 0 && !chosen[row[j]]) ++j;
            if (j < town.m) division[s] = row[j];
        }
    }
};

// The streets of the site chosen in round i of k, from 0 on: where they don't divide evenly, the first rounds deal one more.
inline std::size_t share(std::size_t n, std::size_t k, std::size_t i) { return n / k + (i < n % k ? 1 : 0); }

// The key of a street at a site, such that one comparison of keys is the order of a round. Where all weights are 1 that is by place, then by
// street: place above, street below, and the value of a place from the table of scores.
class ByPlace {
public:
    void read(const Town& town) {
        scores.assign(town.scores.begin(), town.scores.end());
        scores.push_back(0);
    }

    // The key of a street that has the site at this place of its list, counted from 0, and of one that has not ranked it.
    std::uint32_t ranked(const Town&, std::size_t s, std::size_t j) const { return static_cast<std::uint32_t>(j << 16 | s); }
    std::uint32_t unranked(const Town& town, std::size_t s) const { return static_cast<std::uint32_t>(town.m << 16 | s); }

    std::uint32_t value(std::uint32_t key) const { return scores[key >> 16]; }
    static std::size_t street(std::uint32_t key) { return key & 0xFFFF; }

private:
    std::vector<std::uint32_t> scores;
};

// By counted score, highest first, then by place, then by street: 17, 6 and 9 bits. What the score lacks of the greatest stands above, and
// one more for a street that has not ranked the site, so that it comes after all places.
class ByCountedScore {
public:
    void read(const Town&) {}

    std::uint32_t ranked(const Town& town, std::size_t s, std::size_t j) const {
        return (GREATEST - std::uint32_t{town.weights[s]} * town.scores[j]) << 15 | static_cast<std::uint32_t>(j << 9 | s);
    }
    std::uint32_t unranked(const Town&, std::size_t s) const { return (GREATEST + 1) << 15 | static_cast<std::uint32_t>(s); }

    std::uint32_t value(std::uint32_t key) const { return GREATEST - std::min(key >> 15, GREATEST); }
    static std::size_t street(std::uint32_t key) { return key & 0x1FF; }

private:
    static constexpr std::uint32_t GREATEST = 99 * 1000;
};

// The rounds of the balanced plan. For each site the first streets come by a partial sort of those that are free.
template <bool Weighted>
class RoundsPeer {
public:
    // The sites in order of choice.
    std::vector<std::uint8_t> play(const Town& town, std::size_t k) {
        by.read(town);
        fill(town);
        free.resize(town.n);
        std::iota(free.begin(), free.end(), std::uint16_t{0});
        chosen.assign(town.m + 1, 0);
        std::vector<std::uint8_t> sites;
        for (std::size_t i = 0; i < k; ++i) sites.push_back(static_cast<std::uint8_t>(round(town, share(town.n, k, i))));
        return sites;
    }

private:
    std::conditional_t<Weighted, ByCountedScore, ByPlace> by;
    std::vector<std::uint32_t> keys; // by site
    std::vector<std::uint32_t> line, best;
    std::vector<std::uint16_t> free;
    std::vector<std::uint8_t> chosen;

    void fill(const Town& town) {
        keys.resize(town.n * town.m);
        for (std::size_t a = 0; a < town.m; ++a)
            for (std::size_t s = 0; s < town.n; ++s) keys[a * town.n + s] = by.unranked(town, s);
        for (std::size_t s = 0; s < town.n; ++s) {
            const std::uint8_t* row = &town.rows[s * town.m];
            for (std::size_t j = 0; j < town.m && row[j] != 0; ++j) keys[(row[j] - 1u) * town.n + s] = by.ranked(town, s, j);
        }
    }

    // The worth of a site; its first q free streets are left at the front of the line.
    std::uint32_t worth(const std::uint32_t* key, std::size_t q) {
        line.resize(free.size());
        for (std::size_t i = 0; i < free.size(); ++i) line[i] = key[free[i]];
        if (q < line.size()) std::nth_element(line.begin(), line.begin() + static_cast<std::ptrdiff_t>(q), line.end());
        std::uint32_t sum = 0;
        for (std::size_t i = 0; i < q; ++i) sum += by.value(line[i]);
        return sum;
    }

    // The unchosen site of greatest worth is chosen, the lowest on a tie, and takes its streets.
    std::size_t round(const Town& town, std::size_t q) {
        std::size_t site = 0;
        std::uint32_t most = 0;
        for (std::size_t a = 1; a <= town.m; ++a) {
            if (chosen[a]) continue;
            std::uint32_t w = worth(&keys[(a - 1) * town.n], q);
            if (site != 0 && w <= most) continue;
            site = a, most = w;
            best.swap(line);
        }
        chosen[site] = 1;
        take(q, town.n);
        return site;
    }

    // The streets at the front of the best line are no longer free.
    void take(std::size_t q, std::size_t n) {
        std::vector<std::uint8_t> taken(n, 0);
        for (std::size_t i = 0; i < q; ++i) taken[by.street(best[i])] = 1;
        free.erase(std::remove_if(free.begin(), free.end(), [&](std::uint16_t s) { return taken[s] != 0; }), free.end());
    }
};

// The best division as a flow of least cost from n streets to k sites, by LEMON's network simplex. Graph and solver are made once for n
// and k and serve every town of that size.
class Network {
public:
    Network(std::size_t n, std::size_t k) : n(n), k(k), costs(graph), supplies(graph) {
        graph.reserveNode(static_cast<int>(n + k));
        graph.reserveArc(static_cast<int>(n * k));
        for (std::size_t i = 0; i < n + k; ++i) graph.addNode();
        for (std::size_t s = 0; s < n; ++s) supplies[graph.nodeFromId(static_cast<int>(s))] = 1;
        for (std::size_t i = 0; i < k; ++i) supplies[site(i)] = -static_cast<int>(share(n, k, i));
        for (std::size_t s = 0; s < n; ++s)
            for (std::size_t i = 0; i < k; ++i) graph.addArc(graph.nodeFromId(static_cast<int>(s)), site(i));
        solver = std::make_unique<Solver>(graph, false); // mostly quicker here if it leaves the arcs in their order
        solver->supplyMap(supplies);
    }

    // The total of the best division over the sites, and the division.
    std::uint64_t divide(const Town& town, const std::vector<std::uint8_t>& sites, std::vector<std::uint8_t>& division) {
        price(town, sites);
        solver->costMap(costs).run(Solver::BLOCK_SEARCH);
        division.resize(n);
        for (std::size_t s = 0; s < n; ++s)
            for (std::size_t i = 0; i < k; ++i)
                if (solver->flow(arc(s, i)) != 0) division[s] = sites[i];
        return static_cast<std::uint64_t>(-solver->totalCost());
    }

private:
    using Graph = lemon::SmartDigraph;
    using Solver = lemon::NetworkSimplex<Graph, int, int>;

    std::size_t n, k;
    Graph graph;
    Graph::ArcMap<int> costs;
    Graph::NodeMap<int> supplies;
    std::unique_ptr<Solver> solver;

    Graph::Node site(std::size_t i) const { return graph.nodeFromId(static_cast<int>(n + i)); }
    Graph::Arc arc(std::size_t s, std::size_t i) const { return graph.arcFromId(static_cast<int>(s * k + i)); }

    // The cost of a street at a site is its counted score there below 0; a site that it has not ranked costs 0.
    void price(const Town& town, const std::vector<std::uint8_t>& sites) {
        std::vector<int> index(town.m + 1, -1);
        for (std::size_t i = 0; i < k; ++i) index[sites[i]] = static_cast<int>(i);
        for (std::size_t s = 0; s < n; ++s) {
            for (std::size_t i = 0; i < k; ++i) costs[arc(s, i)] = 0;
            const std::uint8_t* row = &town.rows[s * town.m];
            const int weight = town.weights[s];
            for (std::size_t j = 0; j < town.m && row[j] != 0; ++j)
                if (index[row[j]] >= 0) costs[arc(s, static_cast<std::size_t>(index[row[j]]))] = -weight * static_cast<int>(town.scores[j]);
        }
    }
};

// The balanced plan: the rounds choose the sites, the network divides the streets.
template <bool Weighted>
class BalancedPeer {
public:
    BalancedPeer(std::size_t n, std::size_t k) : k(k), network(n, k) {}

    Plan plan(const Town& town) {
        Plan plan;
        plan.sites = rounds.play(town, k);
        plan.total = network.divide(town, plan.sites, plan.division);
        return plan;
    }

private:
    std::size_t k;
    RoundsPeer<Weighted> rounds;
    Network network;
};
