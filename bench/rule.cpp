// Ruling by a table, against plain C++.
#include <cstdio>
#include <vector>

#include "common.hpp"
#include "rulings.hpp"
#include "sections.hpp"

namespace {

// How many subjects ask together, and the most times as long as plain C++ that a ruling for them may take, by tables of
// so many nodes or more; 0 where nothing is asked.
struct Asked {
    unsigned subjects;
    double target;
    unsigned nodes;
};

const Asked ASKED[] = {{1, 1.1, 1}, {8, 0, 1}, {64, 1.5, 30}};

const std::vector<Rule> CALLS = {kolfsein_rule, plain::rule};

void print_row(const Table &table, const Asked &asked) {
    Numbers list(KOLFSEIN_MOST_CARDS);
    const auto requests = table.joint_requests(asked.subjects);
    size_t cards = 0;
    for (const auto &request : requests) {
        cards += agreed(CALLS, table.bytes, request, KOLFSEIN_MOST_CARDS).count;
    }
    const auto ns = timing::nanoseconds({asking(kolfsein_rule, table.bytes, requests, list),
                                         asking(plain::rule, table.bytes, requests, list)});
    const double ratio = ns[0] / ns[1];
    char target[32] = "";
    if (asked.target > 0 && table.nodes() >= asked.nodes) {
        std::snprintf(target, sizeof target, "%g, %s", asked.target, met(ratio <= asked.target));
    }
    std::printf("| %s | %s | %u | %u | %.1f | %.0f | %.0f | %.2f | %s |\n", table.name.c_str(), table.fields().c_str(),
                table.nodes(), asked.subjects, static_cast<double>(cards) / static_cast<double>(requests.size()), ns[0],
                ns[1], ratio, target);
    std::fflush(stdout);
}

}  // namespace

void rule_section() {
    std::printf("### Ruling by a table\n\n"
                "Subjects: how many ask together. Targets: at most 1.1 times plain C++ for one subject, 1.5 times "
                "for 64 with 30 nodes or more.\n\n"
                "| Table | Fields | Nodes | Subjects | Cards on average | `kolfsein_rule`, ns | Plain C++, ns | "
                "Ratio | Target |\n"
                "|---|---|--:|--:|--:|--:|--:|--:|---|\n");
    // ranges past the subjects that a set can have
    agreed_on_damaged(CALLS, any_ranges(30, {256, 32, 16}), change_byte);
    for (const Table &table : ruled_tables()) {
        agreed_on_damaged(CALLS, table, change_byte);
        for (const Asked &asked : ASKED) {
            if (asked.subjects <= tables::most_subjects(table.bytes)) {
                print_row(table, asked);
            }
        }
    }
    std::printf("\n");
}
