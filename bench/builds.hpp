// A table built by the library and by both builders in plain C++, for the sections that compare them.
#pragma once

#include <cstddef>
#include <string>

#include "common.hpp"

const Sizes SMALL = {8, 8, 8};
const Sizes MIDDLE = {64, 32, 16};
const Sizes LARGE = {256, 256, 256};

// The places used, 0 where the diagram does not fit, and what each builder took, in microseconds.
struct Built {
    size_t places;
    double kolfsein, by_requests, by_sets;
};

inline std::string shown(size_t places) { return places == 0 ? "does not fit (11)" : std::to_string(places); }

// The three must agree in every place; then they are timed.
inline Built measure(const Table &table) {
    Numbers diagram(KOLFSEIN_MOST_PLACES, 1), second(KOLFSEIN_MOST_PLACES, 2), third(KOLFSEIN_MOST_PLACES, 3);
    const kolfsein_answer answer = build(kolfsein_build, table, diagram);
    expect(same(answer, build(plain::build_by_requests, table, second)) && same(diagram, second), "a build");
    expect(same(answer, build(plain::build_by_sets, table, third)) && same(diagram, third), "a build by sets");
    expect(answer.number == KOLFSEIN_OK || answer.number == KOLFSEIN_ROOM, "a table that is accepted");
    const auto ns = timing::nanoseconds({building(kolfsein_build, table, diagram),
                                         building(plain::build_by_requests, table, second),
                                         building(plain::build_by_sets, table, third)});
    return {answer.count, ns[0] / 1000, ns[1] / 1000, ns[2] / 1000};
}
