// Measures the library against plain C++ on the same inputs, in one run, and prints tables in Markdown.
// Arguments name the sections to run; without any, all are.
#include <cstdio>
#include <cstring>
#include <string>

#include "common.hpp"
#include "sections.hpp"

namespace {

struct Section {
    const char *name;
    void (*run)();
};

const Section SECTIONS[] = {
    {"rule", rule_section},
    {"standard", standard_section},
    {"attach", attach_section},
    {"build", build_section},
    {"growth", growth_section},
    {"look-up", look_up_section},
};

bool known(const char *name) {
    for (const Section &section : SECTIONS) {
        if (std::strcmp(section.name, name) == 0) {
            return true;
        }
    }
    return false;
}

}  // namespace

int main(int count, char **arguments) {
    for (int i = 1; i < count; ++i) {
        if (!known(arguments[i])) {
            fail(std::string("no section ") + arguments[i] +
                 "; there are rule, standard, attach, build, growth, look-up");
        }
    }
    for (const Section &section : SECTIONS) {
        bool wanted = count == 1;
        for (int i = 1; i < count; ++i) {
            wanted = wanted || std::strcmp(section.name, arguments[i]) == 0;
        }
        if (wanted) {
            section.run();
        }
    }
    return sink == 0;
}
