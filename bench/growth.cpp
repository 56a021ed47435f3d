// How the time of a build grows, with the nodes and with the fields.
#include <cstdio>
#include <string>

#include "builds.hpp"
#include "common.hpp"
#include "sections.hpp"

namespace {

void head(const char *grows) {
    std::printf("| %s | Places | `kolfsein_build`, µs | Plain C++, sets, µs | Ratio to sets | "
                "Plain C++, every request, µs |\n"
                "|---|--:|--:|--:|--:|--:|\n",
                grows);
}

void row(const std::string &name, const Table &table) {
    const Built built = measure(table);
    std::printf("| %s | %s | %s | %s | %s | %s |\n", name.c_str(), shown(built.places).c_str(),
                figure(built.kolfsein).c_str(), figure(built.by_sets).c_str(),
                figure(built.kolfsein / built.by_sets).c_str(), figure(built.by_requests).c_str());
    std::fflush(stdout);
}

}  // namespace

void growth_section() {
    std::printf("### How the time of a build grows\n\nWith the nodes, over 64 × 64 × 64, ranges by 12 parts:\n\n");
    head("Nodes");
    for (const unsigned nodes : {8, 16, 32, 64, 128}) {
        row(std::to_string(nodes), part_ranges(nodes, {64, 64, 64}, 12));
    }
    std::printf("\nWith the fields, 30 nodes, ranges by 12 parts, so that every diagram has as many places:\n\n");
    head("Fields");
    for (const unsigned size : {16, 32, 64, 128, 256}) {
        const Table table = part_ranges(30, {size, size, size}, 12);
        row(table.fields(), table);
    }
    std::printf("\nWith the fields, 30 nodes, any ranges:\n\n");
    head("Fields");
    for (const unsigned size : {16, 32, 64, 128, 256}) {
        const Table table = any_ranges(30, {size, size, size});
        row(table.fields(), table);
    }
    std::printf("\n");
}
