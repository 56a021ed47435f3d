// Measures ruling and building beside another build of the library, on the same inputs and into the same lists, and
// prints tables in Markdown.
#include <cstdio>
#include <string>
#include <vector>

#include "builds.hpp"
#include "common.hpp"
#include "rulings.hpp"

// The calls of the other build, as `run` names them.
extern "C" {
decltype(kolfsein_rule) before_kolfsein_rule;
decltype(kolfsein_build) before_kolfsein_build;
}

namespace {

void print_times(const std::string &what, double before, double now) {
    std::printf("| %s | %s | %s | %.2f |\n", what.c_str(), figure(before).c_str(), figure(now).c_str(), now / before);
    std::fflush(stdout);
}

std::string described(const Table &table) {
    return table.name + " | " + table.fields() + " | " + std::to_string(table.nodes());
}

void rule_row(const Table &table, unsigned subjects) {
    const std::vector<Rule> calls = {before_kolfsein_rule, kolfsein_rule};
    const auto requests = table.joint_requests(subjects);
    for (const auto &request : requests) {
        agreed(calls, table.bytes, request, KOLFSEIN_MOST_CARDS);
    }
    Numbers list(KOLFSEIN_MOST_CARDS);
    const auto ns = timing::nanoseconds(
        {asking(calls[0], table.bytes, requests, list), asking(calls[1], table.bytes, requests, list)});
    print_times(described(table) + " | " + std::to_string(subjects), ns[0], ns[1]);
}

void build_row(const Table &table) {
    Numbers diagram(KOLFSEIN_MOST_PLACES, 1), other(KOLFSEIN_MOST_PLACES, 2);
    expect(same(build(before_kolfsein_build, table, other), build(kolfsein_build, table, diagram)) &&
               same(diagram, other),
           "a build");
    const auto ns = timing::nanoseconds(
        {building(before_kolfsein_build, table, diagram), building(kolfsein_build, table, diagram)});
    print_times(described(table), ns[0] / 1000, ns[1] / 1000);
}

}  // namespace

int main() {
    std::printf("| Table | Fields | Nodes | Subjects | `kolfsein_rule` before, ns | Now, ns | Ratio |\n"
                "|---|---|--:|--:|--:|--:|--:|\n");
    for (const Table &table : ruled_tables()) {
        for (const unsigned subjects : {1u, 64u}) {
            if (subjects <= tables::most_subjects(table.bytes)) {
                rule_row(table, subjects);
            }
        }
    }
    std::printf("\n| Table | Fields | Nodes | `kolfsein_build` before, µs | Now, µs | Ratio |\n"
                "|---|---|--:|--:|--:|--:|\n");
    for (const Table &table : {example("harbour"), any_ranges(30, SMALL), example("rulebook"),
                               part_ranges(100, MIDDLE, 16), part_ranges(128, MIDDLE, 12), any_ranges(5, LARGE),
                               any_ranges(20, LARGE), any_ranges(30, LARGE), part_ranges(128, LARGE, 12)}) {
        build_row(table);
    }
    return sink == 0;
}
