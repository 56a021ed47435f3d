// Building a diagram, against two builders in plain C++ and against BuDDy.
#include <cstdio>
#include <string>
#include <vector>

#include "bdd.hpp"
#include "builds.hpp"
#include "common.hpp"
#include "plain/parsed.hpp"
#include "sections.hpp"

namespace {

// A table, and how many times as fast as ruling on every request its build is to be; 0 where nothing is asked.
struct Case {
    Table table;
    double target;
};

// The most nodes, up to 128, whose diagram over large fields fits.
Table most_nodes() {
    unsigned nodes = plain::MOST_NODES;
    while (diagram_of(any_ranges(nodes, LARGE)).empty()) {
        --nodes;
    }
    return any_ranges(nodes, LARGE);
}

std::vector<Case> all_cases() {
    return {
        {example("harbour"), 0.5},
        {any_ranges(30, SMALL), 0.5},
        {example("rulebook"), 0.5},
        {part_ranges(100, MIDDLE, 16), 3},
        {part_ranges(128, MIDDLE, 12), 3},
        {any_ranges(100, MIDDLE), 0},
        {any_ranges(5, LARGE), 100},
        {any_ranges(20, LARGE), 100},
        {any_ranges(30, LARGE), 0},
        {most_nodes(), 0},
        {part_ranges(128, LARGE, 12), 0},
        {any_ranges(128, LARGE), 0},
    };
}

// An encoding by BuDDy: what its build took, in microseconds, and its size.
struct Binary {
    double taken;
    size_t nodes, bytes;
};

// By rules and, where it is wanted, by terminals. Both must rule as the table does; then they are timed.
std::vector<Binary> measure_binary(binary::Package &package, const Table &table, bool by_terminals) {
    const plain::Parsed parsed(table.bytes.data());
    binary::ByRules rules;
    binary::ByTerminals terminals;
    const auto clear = [&] {
        rules = {};
        terminals = {};
        package.clear();
    };
    const auto build_rules = [&] { rules = binary::RulesBuilder(parsed).build(); };
    const auto build_terminals = [&] {
        build_rules();
        terminals = binary::TerminalsBuilder(parsed, rules).build();
    };
    build_rules();
    if (by_terminals) {
        build_terminals();
    }
    for (const auto &request : table.requests()) {
        binary::Ruling ruling;
        ruling.first = plain::decide(parsed, request, [&](uint16_t card) { ruling.second.push_back(card); });
        expect(binary::ruling(parsed, rules, request) == ruling, "a ruling by BuDDy, by rules");
        expect(!by_terminals || binary::ruling(terminals, request) == ruling, "a ruling by BuDDy, by terminals");
    }
    std::vector<Binary> measured = {{0, rules.nodes(), rules.bytes()}};
    if (by_terminals) {
        measured.push_back({0, terminals.nodes(), terminals.bytes()});
        measured[1].taken = timing::nanoseconds({{build_terminals, 1, clear}})[0] / 1000;
    }
    measured[0].taken = timing::nanoseconds({{build_rules, 1, clear}})[0] / 1000;
    return measured;
}

void print_case(const Case &wanted, const Built &built) {
    const Table &table = wanted.table;
    const double faster = built.by_requests / built.kolfsein;
    char target[32] = "";
    if (wanted.target > 0) {
        std::snprintf(target, sizeof target, "%g, %s", wanted.target, met(faster >= wanted.target));
    }
    std::printf("| %s | %s | %u | %s | %s | %s | %s | %s | %s | %s |\n", table.name.c_str(), table.fields().c_str(),
                table.nodes(), shown(built.places).c_str(), figure(built.kolfsein).c_str(),
                figure(built.by_requests).c_str(), figure(faster).c_str(), target, figure(built.by_sets).c_str(),
                figure(built.kolfsein / built.by_sets).c_str());
    std::fflush(stdout);
}

void print_binaries(const Table &table, const Built &built, const std::vector<Binary> &binaries) {
    const std::string bytes = built.places == 0 ? "" : std::to_string(sizeof(uint16_t) * built.places);
    std::printf("| %s | %s | %u | %s | %s | %s |", table.name.c_str(), table.fields().c_str(), table.nodes(),
                figure(built.kolfsein).c_str(), shown(built.places).c_str(), bytes.c_str());
    for (const Binary &by : binaries) {
        std::printf(" %s | %zu | %zu |", figure(by.taken).c_str(), by.nodes, by.bytes);
    }
    std::printf("%s\n", binaries.size() < 2 ? " not tried | | |" : "");
    std::fflush(stdout);
}

}  // namespace

void build_section() {
    const std::vector<Case> cases = all_cases();
    std::vector<Built> builds;
    std::printf("### Building a diagram\n\n"
                "Targets, as times as fast as ruling on every request: 0.5 over small fields, 3 over 64 × 32 × 16, 100 "
                "over 256 × 256 × 256 with 5 and with 20 nodes. The builder by sets is a mark to come near.\n\n"
                "| Table | Fields | Nodes | Places | `kolfsein_build`, µs | Plain C++, every request, µs | "
                "Times as fast | Target | Plain C++, sets, µs | Ratio to sets |\n"
                "|---|---|--:|--:|--:|--:|--:|---|--:|--:|\n");
    for (const Case &wanted : cases) {
        builds.push_back(measure(wanted.table));
        print_case(wanted, builds.back());
    }
    std::printf("\n### The same function as binary decision diagrams\n\n"
                "| Table | Fields | Nodes | `kolfsein_build`, µs | Places | Bytes | BuDDy by rules, µs | BDD nodes | "
                "Bytes | BuDDy by terminals, µs | BDD nodes | Bytes |\n"
                "|---|---|--:|--:|--:|--:|--:|--:|--:|--:|--:|--:|\n");
    binary::Package package;
    for (size_t i = 0; i < cases.size(); ++i) {
        const bool fits = builds[i].places > 0;
        print_binaries(cases[i].table, builds[i], measure_binary(package, cases[i].table, fits));
    }
    std::printf("\n");
}
