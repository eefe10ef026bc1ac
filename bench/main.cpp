// The bench: our plans and the peer's side by side on the same towns, with all weights 1 and with weights from 1 to 99, then how our time grows
// with the town.
#include "ours.hpp"
#include <chrono>
#include <cstdio>
#include <functional>

// Of each size and culture so many towns are planned, each so often.
constexpr std::size_t TOWNS = 5, TURNS = 21;

constexpr Culture CULTURES[] = {Culture::Impartial, Culture::Mallows, Culture::Urn, Culture::ThreeNames};
constexpr const char* NAMES[] = {"impartial", "Mallows", "urn", "three names"};
// With 7 and 33 sites the 400 streets don't divide evenly: shares of 58 and 57, and of 13 and 12.
constexpr std::size_t SITES[] = {4, 7, 8, 20, 25, 33, 40, 50};

// A plan of a town by either side.
using Planner = std::function<Plan(const Town&)>;

// The time of one call in microseconds, and what the call gave back.
struct Timed {
    double time;
    Plan plan;
};

Timed timed(const Planner& planner, const Town& town) {
    auto start = std::chrono::steady_clock::now();
    Plan plan = planner(town);
    std::chrono::duration<double, std::micro> time = std::chrono::steady_clock::now() - start;
    return {time.count(), std::move(plan)};
}

double median(std::vector<double> times) {
    auto middle = times.begin() + static_cast<std::ptrdiff_t>(times.size() / 2);
    std::nth_element(times.begin(), middle, times.end());
    return *middle;
}

std::vector<Town> makeTowns(Culture culture, std::size_t n, std::size_t m, std::size_t topWeight = 1) {
    std::vector<Town> towns;
    for (std::size_t i = 0; i < TOWNS; ++i) towns.push_back(makeTown(culture, n, m, i, topWeight));
    return towns;
}

// The median time of one side alone; the first turn only warms up.
double timeOf(const std::vector<Town>& towns, const Planner& planner) {
    std::vector<double> times;
    for (std::size_t turn = 0; turn <= TURNS; ++turn) {
        for (const Town& town : towns) {
            double time = timed(planner, town).time;
            if (turn > 0) times.push_back(time);
        }
    }
    return median(times);
}

// Where the two sides differ, a word about it.
const char* difference(const Plan& our, const Plan& their) {
    if (our.sites != their.sites) return "  sites differ";
    return our.total == their.total ? "" : "  totals differ";
}

// One line of the table. Both sides plan each town in turn, so that a disturbance of the machine meets both.
void compare(const char* kind, const char* name, std::size_t k, const std::vector<Town>& towns, const Planner& ours, const Planner& peer) {
    std::vector<double> ourTimes, peerTimes;
    const char* word = "";
    for (std::size_t turn = 0; turn <= TURNS; ++turn) {
        for (const Town& town : towns) {
            Timed our = timed(ours, town), their = timed(peer, town);
            if (*word == 0) word = difference(our.plan, their.plan);
            if (turn == 0) continue;
            ourTimes.push_back(our.time);
            peerTimes.push_back(their.time);
        }
    }
    double our = median(ourTimes), their = median(peerTimes);
    std::printf("%-9s %-12s K %2zu %8.0f %8.0f %10.2f%s\n", kind, name, k, our, their, our / their, word);
}

// Towns of the full size, with weights or with all of them 1.
template <bool Weighted>
std::vector<Town> fullTowns(std::size_t culture) {
    return makeTowns(CULTURES[culture], 400, 64, Weighted ? 99 : 1);
}

template <bool Weighted>
void compareFree(std::size_t culture, std::size_t k) {
    FreePeer<Weighted> peer;
    compare("free", NAMES[culture], k, fullTowns<Weighted>(culture),
            [&](const Town& town) { return ourPlan(PLANNER_FREE, town, k); }, [&](const Town& town) { return peer.plan(town, k); });
}

template <bool Weighted>
void compareBalanced(std::size_t culture, std::size_t k) {
    BalancedPeer<Weighted> peer(400, k);
    compare("balanced", NAMES[culture], k, fullTowns<Weighted>(culture),
            [&](const Town& town) { return ourPlan(PLANNER_BALANCED, town, k); }, [&](const Town& town) { return peer.plan(town); });
}

// The lines of both plans.
template <bool Weighted>
void compareAll() {
    std::printf("%-9s %-12s %4s %8s %8s %10s\n", "plan", "lists", "", "ours", "peer", "ours/peer");
    for (std::size_t culture = 0; culture < 4; ++culture)
        for (std::size_t k : SITES) compareFree<Weighted>(culture, k);
    for (std::size_t culture = 0; culture < 4; ++culture)
        for (std::size_t k : SITES) compareBalanced<Weighted>(culture, k);
}

// Our time of both plans on towns of one size.
void grow(std::size_t n, std::size_t m, std::size_t k) {
    std::vector<Town> towns = makeTowns(Culture::Impartial, n, m);
    double free = timeOf(towns, [&](const Town& town) { return ourPlan(PLANNER_FREE, town, k); });
    double balanced = timeOf(towns, [&](const Town& town) { return ourPlan(PLANNER_BALANCED, town, k); });
    std::printf("n %3zu  m %2zu  K %2zu        %8.0f %8.0f\n", n, m, k, free, balanced);
}

int main() {
    std::printf("microseconds, median of %zu runs; n 400, m 64\n", TOWNS * TURNS);
    compareAll<false>();
    std::printf("\nweights 1 to 99\n");
    compareAll<true>();
    std::printf("\nof our time the check of the survey, which the peer leaves out\n");
    for (std::size_t culture = 0; culture < 4; ++culture)
        std::printf("%-22s      %8.0f\n", NAMES[culture], timeOf(makeTowns(CULTURES[culture], 400, 64), ourCheck));
    std::printf("\nhow our time grows, impartial\n%-22s      %8s %8s\n", "", "free", "balanced");
    for (std::size_t n : {50, 100, 200, 400}) grow(n, 64, 25);
    for (std::size_t m : {25, 32, 48, 64}) grow(400, m, 25);
    for (std::size_t k : {1, 4, 16, 50}) grow(400, 64, k);
}
