// Our side: the entries of the static library, as a C++ program calls them.
#pragma once
#include "../include/planner.h"
#include "peer.hpp"

// The plan of a kind. A refusal is a number of 2^32 or more, so it agrees with no total of the peer's.
inline Plan ourPlan(std::size_t kind, const Town& town, std::size_t k) {
    Plan plan;
    plan.sites.resize(k);
    plan.division.resize(town.n);
    plan.total = planner_plan(town.n, town.m, k, kind, town.scores.data(), town.scores.size(), town.weights.data(), town.weights.size(),
                              town.rows.data(), town.rows.size(), plan.division.data(), plan.division.size(), plan.sites.data(),
                              plan.sites.size());
    return plan;
}

// The check that every entry begins with, alone.
inline Plan ourCheck(const Town& town) {
    Plan plan;
    plan.total = planner_check_survey(town.n, town.m, 1, town.scores.data(), town.scores.size(), town.weights.data(), town.weights.size(),
                                      town.rows.data(), town.rows.size());
    return plan;
}
