// Building in plain C++ by ruling on every request.
#include <cstddef>
#include <cstdint>

#include "plain/entries.hpp"
#include "plain/parsed.hpp"
#include "plain/plain.hpp"

namespace plain {

namespace {

// All subjects upward, within each all resources, within each all actions.
class FullWalk {
public:
    FullWalk(const Parsed &table, Entries &entries) : table_(table), entries_(entries) {}

    size_t root() { return walk(0); }

private:
    size_t walk(size_t field) {
        if (field == FIELDS) {
            return terminal();
        }
        OpenNode node(field);
        for (unsigned value = 0; value <= table_.maxima[field]; ++value) {
            request_[field] = static_cast<uint8_t>(value);
            const size_t child = walk(field + 1);
            if (child == NO_PLACE) {
                return NO_PLACE;
            }
            node.extend(value, child);
        }
        return node.enter(entries_);
    }

    // What the table gives the request.
    size_t terminal() {
        OpenTerminal terminal;
        const uint8_t decision = decide(table_, request_, [&](uint16_t card) { terminal.add(card); });
        return terminal.enter(entries_, decision);
    }

    const Parsed &table_;
    Entries &entries_;
    uint8_t request_[FIELDS] = {};
};

}  // namespace

kolfsein_answer build_by_requests(const uint8_t *table, size_t table_len, uint16_t *diagram, size_t diagram_len) {
    return build<FullWalk>(table, table_len, diagram, diagram_len);
}

}  // namespace plain
