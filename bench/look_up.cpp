// Ruling by a diagram, against plain C++ and against ruling by the table.
#include <cstdint>
#include <cstdio>
#include <utility>
#include <vector>

#include "common.hpp"
#include "sections.hpp"

namespace {

// Of many generated tables the one whose diagram's places come nearest to a number.
Table nearest(size_t places) {
    Table best;
    size_t distance = SIZE_MAX;
    for (unsigned nodes = 20; nodes <= plain::MOST_NODES; nodes += 4) {
        for (uint64_t seed = 1; seed <= 20; ++seed) {
            Table table = part_ranges(nodes, {64, 32, 16}, 16, seed);
            const size_t used = diagram_of(table).size();
            const size_t away = used > places ? used - places : places - used;
            if (used > 0 && away < distance) {
                distance = away;
                best = std::move(table);
            }
        }
    }
    return best;
}

// A request of which any value may be one over its maximum.
tables::Request any_request(tables::Random &random, const Table &table) {
    tables::Request request;
    for (size_t field = 0; field < request.size(); ++field) {
        request[field] = static_cast<uint16_t>(random.below(table.bytes[3 + field] + 2u));
    }
    return request;
}

// Refusals too: diagrams with one number changed, any values, and lists of any length.
void expect_refusals(const Table &table, const Numbers &diagram) {
    tables::Random random(11);
    Numbers list, other;
    for (int i = 0; i < 5000; ++i) {
        Numbers damaged = diagram;
        uint16_t &number = damaged[random.below(static_cast<unsigned>(damaged.size()))];
        number = static_cast<uint16_t>(random.below(2) == 0 ? number ^ 1u << random.below(16) : random.below(256));
        const tables::Request request = any_request(random, table);
        list.assign(random.below(16), 1);
        other.assign(list.size(), 2);
        const kolfsein_answer answer = ask(kolfsein_look_up, damaged, request, list);
        expect(same(answer, ask(plain::look_up, damaged, request, other)) && same(list, other), "a refusal");
    }
}

}  // namespace

void look_up_section() {
    std::printf("### Ruling by a diagram\n\n"
                "Target: at most 2 times plain C++ with the same check.\n\n"
                "| Table | Nodes | Places | `kolfsein_look_up`, ns | Plain C++, same check, ns | Ratio | Target | "
                "`kolfsein_rule`, ns | Look-up to rule | Plain C++, no check, ns | Look-up to that |\n"
                "|---|--:|--:|--:|--:|--:|---|--:|--:|--:|--:|\n");
    Numbers list(KOLFSEIN_MOST_CARDS), other(KOLFSEIN_MOST_CARDS);
    for (const Table &table : {example("harbour"), nearest(3000), nearest(32000)}) {
        const Numbers diagram = diagram_of(table);
        expect_refusals(table, diagram);
        const auto requests = table.requests();
        std::vector<tables::JointRequest> alone;  // the same, each subject as a set of one
        for (const auto &request : requests) {
            alone.push_back({uint64_t{1} << request[0], request[1], request[2]});
            kolfsein_answer answer = ask(kolfsein_rule, table.bytes, alone.back(), list);
            expect(answer.subjects == 1, "a set of one subject");
            answer.subjects = 0;  // a look-up asks for no set
            for (const LookUp call : {kolfsein_look_up, plain::look_up, plain::look_up_unchecked}) {
                expect(same(answer, ask(call, diagram, request, other)) && same(list, other), "a look-up");
            }
        }
        const auto ns = timing::nanoseconds({asking(kolfsein_look_up, diagram, requests, list),
                                             asking(plain::look_up, diagram, requests, list),
                                             asking(kolfsein_rule, table.bytes, alone, list),
                                             asking(plain::look_up_unchecked, diagram, requests, list)});
        std::printf("| %s | %u | %zu | %.0f | %.0f | %.2f | %s | %.0f | %s | %.0f | %s |\n", table.name.c_str(),
                    table.nodes(), diagram.size(), ns[0], ns[1], ns[0] / ns[1], met(ns[0] <= 2 * ns[1]), ns[2],
                    figure(ns[0] / ns[2]).c_str(), ns[3], figure(ns[0] / ns[3]).c_str());
        std::fflush(stdout);
    }
    std::printf("\n");
}
