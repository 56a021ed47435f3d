// Building in plain C++ by the sets of nodes that may still apply.
#include <algorithm>
#include <array>
#include <cstddef>
#include <cstdint>
#include <vector>

#include "plain/entries.hpp"
#include "plain/parsed.hpp"
#include "plain/plain.hpp"

namespace plain {

namespace {

// A set of nodes.
struct Set {
    uint64_t words[2] = {0, 0};

    void flip(size_t i) { words[i / 64] ^= uint64_t{1} << i % 64; }
    Set operator&(const Set &other) const { return {{words[0] & other.words[0], words[1] & other.words[1]}}; }
    Set operator^(const Set &other) const { return {{words[0] ^ other.words[0], words[1] ^ other.words[1]}}; }
    bool operator==(const Set &other) const { return words[0] == other.words[0] && words[1] == other.words[1]; }
    bool operator!=(const Set &other) const { return !(*this == other); }

    size_t hash() const {
        uint64_t mixed = words[0] * 0x9E3779B97F4A7C15u;
        mixed = (mixed ^ (mixed >> 32) ^ words[1]) * 0xC2B2AE3D27D4EB4Fu;
        return mixed ^ (mixed >> 29);
    }
};

// Places by set, in a power of two of slots.
class Memo {
public:
    // The place remembered; 0 where there is none.
    size_t find(const Set &set) const { return slots_[slot_of(set)].place; }

    void remember(const Set &set, size_t place) {
        slots_[slot_of(set)] = {set, static_cast<uint16_t>(place)};
        if (2 * ++count_ > slots_.size()) {
            grow();
        }
    }

private:
    struct Slot {
        Set set;
        uint16_t place = 0;  // 0: free
    };

    size_t slot_of(const Set &set) const {
        const size_t mask = slots_.size() - 1;
        size_t slot = set.hash() & mask;
        while (slots_[slot].place != 0 && slots_[slot].set != set) {
            slot = (slot + 1) & mask;
        }
        return slot;
    }

    void grow() {
        std::vector<Slot> before(4 * slots_.size());
        before.swap(slots_);
        for (const Slot &taken : before) {
            if (taken.place != 0) {
                slots_[slot_of(taken.set)] = taken;
            }
        }
    }

    std::vector<Slot> slots_ = std::vector<Slot>(64);
    size_t count_ = 0;
};

// Goes down with the set of nodes that may still apply, of those that a ruling depends on: rules, and groups in an
// only-one-applicable group, which count there though no rule in them matches. Values of a field at which the same of
// them apply stand in one run, and a set that was met at a level has its place remembered.
class SetWalk {
public:
    SetWalk(const Parsed &table, Entries &entries) : table_(table), entries_(entries) { find_runs(); }

    size_t root() { return walk(0, all_); }

private:
    struct Run {
        size_t last;
        Set nodes;
    };

    // Whether a ruling depends on it that a node applies.
    bool matters(size_t i) const {
        const Node &node = table_.nodes[i];
        return node.is_rule() || (i > 0 && table_.nodes[node.parent].kind == 1);
    }

    // Values of a field, as parts that rise, each from low up to high.
    struct Parts {
        struct {
            uint8_t low, high;
        } all[LEVELS + 1];  // each level has one range, which splits at most one part in two
        size_t count;

        void add(uint8_t low, uint8_t high) {
            if (low <= high) {
                all[count++] = {low, high};
            }
        }

        // These become those of some values that are in a range.
        void assign(const Parts &values, uint8_t low, uint8_t high) {
            count = 0;
            for (size_t k = 0; k < values.count; ++k) {
                const auto &part = values.all[k];
                if (low <= high) {
                    add(std::max(part.low, low), std::min(part.high, high));
                } else {
                    add(part.low, std::min(part.high, high));
                    add(std::max(part.low, low), part.high);
                }
            }
        }
    };

    // A node's values in a field are those that its own range and all those above it share. A node that has none in
    // some field never applies and is in no set.
    void find_runs() {
        std::array<std::array<Parts, FIELDS>, MOST_NODES> values;
        std::array<std::array<Set, 257>, FIELDS> changes{};
        for (size_t i = 0; i < table_.count; ++i) {
            const Node &node = table_.nodes[i];
            bool possible = true;
            for (size_t field = 0; field < FIELDS; ++field) {
                const Parts whole = {{{0, table_.maxima[field]}}, 1};
                const Parts &above = i > 0 ? values[node.parent][field] : whole;
                values[i][field].assign(above, node.low[field], node.high[field]);
                possible = possible && values[i][field].count > 0;
            }
            if (!possible || !matters(i)) {
                continue;
            }
            all_.flip(i);
            for (size_t field = 0; field < FIELDS; ++field) {
                const Parts &parts = values[i][field];
                for (size_t k = 0; k < parts.count; ++k) {
                    changes[field][parts.all[k].low].flip(i);
                    changes[field][parts.all[k].high + 1u].flip(i);
                }
            }
        }
        for (size_t field = 0; field < FIELDS; ++field) {
            Set nodes;
            for (size_t value = 0; value <= table_.maxima[field]; ++value) {
                if (value == 0 || changes[field][value] != Set{}) {
                    nodes = nodes ^ changes[field][value];
                    runs_[field].push_back({value, nodes});
                }
                runs_[field].back().last = value;
            }
        }
    }

    size_t walk(size_t field, const Set &possible) {
        if (field == FIELDS) {
            return terminal(possible);
        }
        OpenNode node(field);
        Set before;
        size_t child = 0;
        for (const Run &run : runs_[field]) {
            const Set nodes = possible & run.nodes;
            if (child == 0 || nodes != before) {
                child = place_of(field + 1, nodes);
                if (child == NO_PLACE) {
                    return NO_PLACE;
                }
                before = nodes;
            }
            node.extend(run.last, child);
        }
        return node.enter(entries_);
    }

    size_t place_of(size_t field, const Set &nodes) {
        Memo &memo = memos_[field - 1];
        size_t place = memo.find(nodes);
        if (place == 0) {
            place = walk(field, nodes);
            if (place != NO_PLACE) {
                memo.remember(nodes, place);
            }
        }
        return place;
    }

    // What the table gives where these nodes apply: they are gone through upward, and the groups above each are opened.
    size_t terminal(const Set &nodes) {
        OpenTerminal terminal;
        OpenGroups groups;
        for (size_t half = 0; half < 2; ++half) {
            for (uint64_t left = nodes.words[half]; left != 0; left &= left - 1) {
                const size_t i = 64 * half + static_cast<size_t>(__builtin_ctzll(left));
                const Node &node = table_.nodes[i];
                groups.close_before(i);
                if (i > 0) {
                    open_down_to(groups, node.parent);
                }
                if (node.is_rule()) {
                    terminal.add(node.card);
                    groups.take(node.effect());
                } else {
                    groups.open(i, node);
                }
            }
        }
        return terminal.enter(entries_, groups.close_all());
    }

    void open_down_to(OpenGroups &groups, size_t group) {
        if (groups.innermost() == group) {
            return;
        }
        if (group > 0) {
            open_down_to(groups, table_.nodes[group].parent);
        }
        groups.open(group, table_.nodes[group]);
    }

    const Parsed &table_;
    Entries &entries_;
    Set all_;
    std::array<std::vector<Run>, FIELDS> runs_;
    std::array<Memo, FIELDS> memos_;
};

}  // namespace

kolfsein_answer build_by_sets(const uint8_t *table, size_t table_len, uint16_t *diagram, size_t diagram_len) {
    return build<SetWalk>(table, table_len, diagram, diagram_len);
}

}  // namespace plain
