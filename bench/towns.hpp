// The towns that are measured: made by a small generator from a culture and a seed, so that every run of the bench sees the same ones.
#pragma once
#include <cstddef>
#include <cstdint>
#include <numeric>
#include <utility>
#include <vector>

// A survey as the library takes it: m scores, and a weight and a row of m bytes for each of n streets.
struct Town {
    std::size_t n, m;
    std::vector<std::uint16_t> scores;
    std::vector<std::uint8_t> weights, rows;
};

// How the streets' lists come about.
enum class Culture { Impartial, Mallows, Urn, ThreeNames };

// Random numbers by splitmix64: the standard library's distributions differ between compilers, these don't.
class Random {
public:
    explicit Random(std::uint64_t seed) : state(seed) {}

    std::uint64_t next() {
        state += 0x9E3779B97F4A7C15u;
        std::uint64_t z = state;
        z = (z ^ (z >> 30)) * 0xBF58476D1CE4E5B9u;
        z = (z ^ (z >> 27)) * 0x94D049BB133111EBu;
        return z ^ (z >> 31);
    }

    // A number below the bound.
    std::size_t below(std::size_t bound) { return next() % bound; }

    // A number from 0 up to, not including, 1.
    double unit() { return static_cast<double>(next() >> 11) / 9007199254740992.0; }

private:
    std::uint64_t state;
};

// A list of site numbers, best first.
using List = std::vector<std::uint8_t>;

// Every order is as likely as every other.
inline List anyOrder(std::size_t m, Random& random) {
    List list(m);
    std::iota(list.begin(), list.end(), std::uint8_t{1});
    for (std::size_t i = m; i > 1; --i) std::swap(list[i - 1], list[random.below(i)]);
    return list;
}

// Mallows by repeated insertion: the site that comes i-th in the common order goes j places up with a weight of phi to the power j.
inline List nearCommon(const List& common, double phi, Random& random) {
    List list;
    for (std::size_t i = 0; i < common.size(); ++i) {
        std::size_t up = 0;
        double whole = 0, weight = 1;
        for (std::size_t j = 0; j <= i; ++j, weight *= phi) whole += weight;
        double left = random.unit() * whole;
        for (weight = 1; up < i && left >= weight; weight *= phi, ++up) left -= weight;
        list.insert(list.end() - static_cast<std::ptrdiff_t>(up), common[i]);
    }
    return list;
}

// Urn: the more streets have drawn before, the likelier a street repeats one of their lists.
inline List fromUrn(const std::vector<List>& drawn, double again, std::size_t m, Random& random) {
    double back = again * static_cast<double>(drawn.size());
    if (random.unit() * (1 + back) < back) return drawn[random.below(drawn.size())];
    return anyOrder(m, random);
}

// The lists of all streets.
inline std::vector<List> lists(Culture culture, std::size_t n, std::size_t m, Random& random) {
    const double phi = 0.8;    // neighbours in the common order often change places
    const double again = 0.05; // with 400 streets 55 to 68 different lists
    List common = anyOrder(m, random);
    std::vector<List> all;
    for (std::size_t s = 0; s < n; ++s) {
        if (culture == Culture::Mallows) all.push_back(nearCommon(common, phi, random));
        else if (culture == Culture::Urn) all.push_back(fromUrn(all, again, m, random));
        else all.push_back(anyOrder(m, random));
        if (culture == Culture::ThreeNames && m > 3) all.back().resize(3);
    }
    return all;
}

// A town with the usual table of scores, m - place, and weights from 1 to the top one. The weights are drawn last, so that the lists are the
// same whatever the weights are.
inline Town makeTown(Culture culture, std::size_t n, std::size_t m, std::uint64_t seed, std::size_t topWeight) {
    Random random(seed * 4 + static_cast<std::uint64_t>(culture));
    Town town{n, m, std::vector<std::uint16_t>(m), std::vector<std::uint8_t>(n), std::vector<std::uint8_t>(n * m, 0)};
    for (std::size_t j = 0; j < m; ++j) town.scores[j] = static_cast<std::uint16_t>(m - 1 - j);
    std::vector<List> all = lists(culture, n, m, random);
    for (std::size_t s = 0; s < n; ++s)
        for (std::size_t j = 0; j < all[s].size(); ++j) town.rows[s * m + j] = all[s][j];
    for (std::uint8_t& weight : town.weights) weight = static_cast<std::uint8_t>(1 + random.below(topWeight));
    return town;
}
