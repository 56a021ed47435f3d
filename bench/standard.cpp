// Reading and ruling by the convention profile, against plain C++ and against the plain calls.
#include <cstdio>
#include <vector>

#include "common.hpp"
#include "damage.hpp"
#include "rulings.hpp"
#include "sections.hpp"

namespace {

// The most times as long as kolfsein_rule that a ruling by the profile may take, where a table has as many nodes as it
// can.
const double TARGET = 1.25;

const std::vector<Rule> BY_PROFILE = {kolfsein_rule_standard, plain::rule_standard};

// On a table of the profile these agree with the plain calls.
const std::vector<Rule> ALL = {kolfsein_rule_standard, plain::rule_standard, kolfsein_rule, plain::rule};

// The calls must agree on refusals too, each of which has to be met where it can be.
void expect_refusals(const Table &table) {
    agreed_on_damaged(BY_PROFILE, table, change_byte);
    const Answered answered = agreed_on_damaged(BY_PROFILE, table, change_node);
    expect(answered[KOLFSEIN_MIXED_GROUP] > 0, "how often a mixed group is met");
    expect(answered[KOLFSEIN_RULE_IN_ONLY_ONE] > 0, "how often a rule in an only-one group is met");
}

void expect_reading(const Table &table) {
    tables::Random random(13);
    for (int i = 0; i < 5000; ++i) {
        tables::Bytes changed = table.bytes;
        change_node(random, changed);
        expect(same(read(kolfsein_read_standard, changed), read(plain::read_standard, changed)), "a reading");
    }
    const kolfsein_answer answer = read(kolfsein_read_standard, table.bytes);
    for (const Read call : {kolfsein_read, plain::read, plain::read_standard}) {
        expect(same(answer, read(call, table.bytes)), "a reading of a table of the profile");
    }
    expect(answer.number == KOLFSEIN_OK, "whether the profile accepts a table");
}

timing::Candidate reading(Read call, const tables::Bytes &table) {
    return repeating([call, &table] { return read(call, table); });
}

void print_ruling(const Table &table, unsigned subjects) {
    const auto requests = table.joint_requests(subjects);
    for (const auto &request : requests) {
        agreed(ALL, table.bytes, request, KOLFSEIN_MOST_CARDS);
    }
    Numbers list(KOLFSEIN_MOST_CARDS);
    const auto ns = timing::nanoseconds({asking(kolfsein_rule_standard, table.bytes, requests, list),
                                         asking(plain::rule_standard, table.bytes, requests, list),
                                         asking(kolfsein_rule, table.bytes, requests, list)});
    const double to_rule = ns[0] / ns[2];
    char target[32] = "";
    if (table.nodes() == plain::MOST_NODES) {
        std::snprintf(target, sizeof target, "%g, %s", TARGET, met(to_rule <= TARGET));
    }
    std::printf("| %s | %u | %u | %.0f | %.0f | %.2f | %.0f | %.2f | %s |\n", table.name.c_str(), table.nodes(),
                subjects, ns[0], ns[1], ns[0] / ns[1], ns[2], to_rule, target);
    std::fflush(stdout);
}

void print_reading(const Table &table) {
    const auto ns = timing::nanoseconds({reading(kolfsein_read_standard, table.bytes),
                                         reading(plain::read_standard, table.bytes),
                                         reading(kolfsein_read, table.bytes)});
    std::printf("| %s | %u | %.0f | %.0f | %.2f | %.0f | %.2f |\n", table.name.c_str(), table.nodes(), ns[0], ns[1],
                ns[0] / ns[1], ns[2], ns[0] / ns[2]);
    std::fflush(stdout);
}

}  // namespace

void standard_section() {
    const Sizes sizes = {64, 32, 16};
    const std::vector<Table> all = {
        any_standard(5, sizes), any_standard(30, sizes), any_standard(128, sizes),
        flat(5, sizes),         flat(30, sizes),         flat(128, sizes),
    };
    expect(agreed_on_damaged(BY_PROFILE, one_rule(), change_node)[KOLFSEIN_RULE_AS_ROOT] > 0,
           "how often a rule as the root is met");
    for (const Table &table : all) {
        expect_refusals(table);
        expect_reading(table);
    }
    std::printf("### Ruling by the convention profile\n\n"
                "All fields are 64 × 32 × 16. Target: with 128 nodes at most %g times `kolfsein_rule`.\n\n"
                "| Table | Nodes | Subjects | `kolfsein_rule_standard`, ns | Plain C++, ns | Ratio | "
                "`kolfsein_rule`, ns | Standard to that | Target |\n"
                "|---|--:|--:|--:|--:|--:|--:|--:|---|\n",
                TARGET);
    for (const Table &table : all) {
        for (const unsigned subjects : {1u, 64u}) {
            print_ruling(table, subjects);
        }
    }
    std::printf("\n### Reading by the convention profile\n\n"
                "| Table | Nodes | `kolfsein_read_standard`, ns | Plain C++, ns | Ratio | `kolfsein_read`, ns | "
                "Standard to that |\n"
                "|---|--:|--:|--:|--:|--:|--:|\n");
    for (const Table &table : all) {
        print_reading(table);
    }
    std::printf("\n");
}
