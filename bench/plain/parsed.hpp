// A table that was read, as the builders use it.
#pragma once

#include <algorithm>
#include <array>
#include <cstddef>
#include <cstdint>

#include "plain/plain.hpp"

namespace plain {

// A node; a group's card is 0.
struct Node {
    uint8_t kind;
    uint8_t low[FIELDS], high[FIELDS];
    uint16_t end, parent, card;

    bool is_rule() const { return kind >= 4; }

    // Whether its target holds for one value in each field, at most 255 each.
    template <class Values>
    bool holds(const Values &values) const {
        return in_range(values[0], low[0], high[0]) && in_range(values[1], low[1], high[1]) &&
               in_range(values[2], low[2], high[2]);
    }

    // What a matching rule gives.
    uint8_t effect() const { return static_cast<uint8_t>(kind - 3); }
};

// All nodes; the root is its own parent.
struct Parsed {
    std::array<Node, MOST_NODES> nodes;
    size_t count;
    uint8_t maxima[FIELDS];

    explicit Parsed(const uint8_t *table) : count(word(table + 6)) {
        std::copy_n(table + 3, FIELDS, maxima);
        size_t parent = 0;
        for (size_t i = 0; i < count; ++i) {
            const uint8_t *record = table + HEADER + RECORD * i;
            while (i > 0 && nodes[parent].end <= i) {
                parent = nodes[parent].parent;
            }
            Node &node = nodes[i];
            node.kind = record[0];
            node.end = static_cast<uint16_t>(i + word(record + 1));
            node.parent = static_cast<uint16_t>(parent);
            node.card = static_cast<uint16_t>(word(record + 3));
            for (size_t field = 0; field < FIELDS; ++field) {
                node.low[field] = record[5 + 2 * field];
                node.high[field] = record[6 + 2 * field];
            }
            parent = i;
        }
    }
};

// The groups that are open while a table is gone through; the outermost stands for the table itself.
class OpenGroups {
public:
    OpenGroups() : depth_(0) { open_[0] = {SIZE_MAX, SIZE_MAX, 0, 0}; }

    // The innermost open group's node.
    size_t innermost() const { return open_[depth_].node; }

    void open(size_t number, const Node &node) { open_[++depth_] = {number, node.end, node.kind, 0}; }

    // Closes the groups that end before a node: each hands its decision up.
    void close_before(size_t number) {
        while (open_[depth_].end <= number) {
            const uint8_t decision = decided(open_[depth_--].running);
            take(decision);
        }
    }

    // The innermost group takes in the decision of a child that applies.
    void take(uint8_t decision) {
        Group &group = open_[depth_];
        group.running = COMBINING[group.kind][group.running][decision];
    }

    uint8_t close_all() {
        close_before(MOST_NODES);
        return open_[0].running;
    }

private:
    struct Group {
        size_t node, end;
        uint8_t kind, running;
    };
    Group open_[LEVELS + 1];
    size_t depth_;
};

// What a table gives a request of one value in each field: the decision, and to add each matching card. A node whose
// target fails is stepped over with all under it.
template <class Values, class Add>
uint8_t decide(const Parsed &table, const Values &values, const Add &add) {
    OpenGroups groups;
    for (size_t i = 0; i < table.count;) {
        const Node &node = table.nodes[i];
        if (!node.holds(values)) {
            i = node.end;
            continue;
        }
        groups.close_before(i);
        if (node.is_rule()) {
            add(node.card);
            groups.take(node.effect());
        } else {
            groups.open(i, node);
        }
        ++i;
    }
    return groups.close_all();
}

}  // namespace plain
