// Reading, ruling, both also by the profile, attaching, and looking up in plain C++.
#include "plain/plain.hpp"

#include <algorithm>
#include <cstring>

namespace plain {

namespace {

// Whether a node is a rule.
inline bool is_rule(const uint8_t *record) { return record[0] >= 4; }

// What a reading without the profile keeps of the nodes: nothing.
struct Plain {
    explicit Plain(const uint8_t *) {}
    void see(size_t, size_t, const uint8_t *, bool) {}
    kolfsein_answer settled(const uint8_t *, size_t nodes) const { return {KOLFSEIN_OK, 0, 0, nodes, 0}; }
};

// What a reading by the profile keeps: whether the first child of the open group of each level is a rule, as all others
// then have to be; whether some child is of another sort; and the lowest only-one group whose first child is a rule.
struct Profile {
    bool rules[LEVELS + 1];
    bool mixed = false;
    size_t only_one = MOST_NODES;

    explicit Profile(const uint8_t *root) { rules[0] = is_rule(root); }

    // A node under the open group of a level.
    void see(size_t level, size_t node, const uint8_t *record, bool rule) {
        mixed |= rules[level] != rule;
        rules[level + 1] = word(record + 1) > 1 && is_rule(record + RECORD);
        if (record[0] == 1 && rules[level + 1] && only_one == MOST_NODES) {
            only_one = node;
        }
    }

    kolfsein_answer settled(const uint8_t *table, size_t nodes) const {
        if (mixed) {
            return refused(KOLFSEIN_MIXED_GROUP, lowest_mixed(table));
        }
        if (only_one < MOST_NODES) {
            return refused(KOLFSEIN_RULE_IN_ONLY_ONE, only_one);
        }
        if (rules[0]) {
            return refused(KOLFSEIN_RULE_AS_ROOT, 0);
        }
        return {KOLFSEIN_OK, 0, 0, nodes, 0};
    }

    // The lowest mixed group, where there is one.
    static size_t lowest_mixed(const uint8_t *table) {
        size_t group = 0;
        while (!is_mixed(table, group)) {
            ++group;
        }
        return group;
    }

    static bool is_mixed(const uint8_t *table, size_t group) {
        const uint8_t *first = table + HEADER + RECORD * (group + 1);
        const size_t end = group + word(first - RECORD + 1);
        for (size_t i = group + 1; i < end; i += word(table + HEADER + RECORD * i + 1)) {
            if (is_rule(table + HEADER + RECORD * i) != is_rule(first)) {
                return true;
            }
        }
        return false;
    }
};

// What a reading of an expansion keeps: whether some node is on the last level, and so too deep once it is attached.
struct Expansion {
    bool last_level = false;

    explicit Expansion(const uint8_t *) {}

    void see(size_t level, size_t, const uint8_t *, bool) { last_level |= level == LEVELS - 1; }

    kolfsein_answer settled(const uint8_t *, size_t nodes) const {
        if (last_level) {
            return refused(KOLFSEIN_TOO_LARGE, 0);
        }
        return {KOLFSEIN_OK, 0, 0, nodes, 0};
    }
};

// Reads a table: refusals 1 to 8, then those of what is kept of its nodes, or the number of nodes.
template <class Kept>
inline kolfsein_answer read_keeping(const uint8_t *table, size_t length) {
    if (length < HEADER || length != word(table) + 2) {
        return refused(KOLFSEIN_LENGTH, 0);
    }
    if (table[2] != 1) {
        return refused(KOLFSEIN_VERSION, 0);
    }
    const size_t nodes = word(table + 6);
    if (nodes == 0 || nodes > MOST_NODES || length != HEADER + RECORD * nodes) {
        return refused(KOLFSEIN_NODE_COUNT, 0);
    }
    const uint8_t *maxima = table + 3;
    size_t ends[LEVELS + 1] = {nodes};  // where the open node of each level ends; level 0 is the table
    size_t depth = 0;
    Kept kept(table + HEADER);
    for (size_t i = 0; i < nodes; ++i) {
        const uint8_t *record = table + HEADER + RECORD * i;
        const uint8_t kind = record[0];
        if (kind > 5) {
            return refused(KOLFSEIN_KIND, i);
        }
        while (depth > 0 && ends[depth] <= i) {
            --depth;
        }
        const bool rule = is_rule(record);
        const size_t span = word(record + 1);
        if (span == 0 || (rule && span != 1) || (i == 0 && span != nodes) || i + span > ends[depth]) {
            return refused(KOLFSEIN_SPAN, i);
        }
        if (depth == LEVELS) {
            return refused(KOLFSEIN_LEVEL, i);
        }
        for (size_t field = 0; field < FIELDS; ++field) {
            const uint8_t low = record[5 + 2 * field];
            const uint8_t high = record[6 + 2 * field];
            if (std::max(low, high) > maxima[field]) {
                return refused(KOLFSEIN_RANGE, i);
            }
        }
        if (rule != (word(record + 3) != 0)) {
            return refused(KOLFSEIN_CARD, i);
        }
        kept.see(depth, i, record, rule);
        if (span > 1) {  // a node that holds nothing opens no level
            ends[++depth] = i + span;
        }
    }
    return kept.settled(table, nodes);
}

}  // namespace

kolfsein_answer read(const uint8_t *table, size_t length) { return read_keeping<Plain>(table, length); }

kolfsein_answer read_standard(const uint8_t *table, size_t length) { return read_keeping<Profile>(table, length); }

// Reads the base, then the expansion: refusals 17, 18, 19 and 11, or the bytes of both with zeros after them.
kolfsein_answer attach(const uint8_t *base, size_t base_len, const uint8_t *expansion, size_t expansion_len,
                       uint8_t *table, size_t room) {
    const auto refuse = [&](const kolfsein_answer &refusal) {
        std::memset(table, 0, room);
        return refusal;
    };
    const kolfsein_answer of_base = read(base, base_len);
    if (of_base.number != 0) {
        return refuse(of_base);
    }
    const kolfsein_answer of_expansion = read_keeping<Expansion>(expansion, expansion_len);
    const bool too_deep = of_expansion.number == KOLFSEIN_TOO_LARGE;
    if (of_expansion.number != 0 && !too_deep) {
        return refuse(of_expansion);
    }
    if (is_rule(base + HEADER)) {
        return refuse(refused(KOLFSEIN_BASE_IS_RULE, 0));
    }
    if (std::memcmp(base + 2, expansion + 2, 1 + FIELDS) != 0) {
        return refuse(refused(KOLFSEIN_HEADERS_DIFFER, 0));
    }
    const size_t nodes = of_base.count + of_expansion.count;
    if (too_deep || nodes > MOST_NODES) {
        return refuse(refused(KOLFSEIN_TOO_LARGE, 0));
    }
    const size_t length = HEADER + RECORD * nodes;
    if (length > room) {
        return refuse(refused(KOLFSEIN_ROOM, 0));
    }
    std::memcpy(table, base, base_len);
    std::memcpy(table + base_len, expansion + HEADER, expansion_len - HEADER);
    put_word(table, length - 2);
    put_word(table + 6, nodes);
    put_word(table + HEADER + 1, nodes);
    std::memset(table + length, 0, room - length);
    return {KOLFSEIN_OK, 0, 0, length, 0};
}

namespace {

// The subjects from one on, as a set: those from 64 on are in none.
uint64_t subjects_from(unsigned low) { return low > 63 ? 0 : ~uint64_t{0} << low; }

// The subjects in a range; where it is wrapped, those between its ends are the others.
uint64_t subjects_in(unsigned low, unsigned high) {
    const uint64_t between = subjects_from(low) ^ subjects_from(high + 1);
    return low <= high ? between : ~between;
}

// How many subjects a set has. For x86-64 without further options the compiler's own is a call.
size_t size_of(uint64_t subjects) {
    subjects -= subjects >> 1 & 0x5555555555555555u;
    subjects = (subjects & 0x3333333333333333u) + (subjects >> 2 & 0x3333333333333333u);
    subjects = (subjects + (subjects >> 4)) & 0x0F0F0F0F0F0F0F0Fu;
    return subjects * 0x0101010101010101u >> 56;
}

// Rules on a set of subjects that ask together, by a table of so many nodes that was read, into a list that is all 0.
inline kolfsein_answer ruled(const uint8_t *table, size_t nodes, uint64_t subjects, uint16_t resource, uint16_t action,
                             uint16_t *cards, size_t room) {
    const uint8_t *maxima = table + 3;
    if (subjects == 0 || (maxima[0] < 63 && subjects >> (maxima[0] + 1) != 0)) {
        return refused(KOLFSEIN_SUBJECTS, 0);
    }
    if (resource > maxima[1]) {
        return refused(KOLFSEIN_VALUE, 1);
    }
    if (action > maxima[2]) {
        return refused(KOLFSEIN_VALUE, 2);
    }
    // A group, the members for whom its target and every target above it hold, and its running decision.
    struct Group {
        size_t end;
        uint64_t members;
        uint8_t kind, running;
    };
    // The innermost open group, and those above it. The outermost stands for the table, and takes in the root's
    // decision.
    Group group = {nodes, subjects, 0, 0};
    Group above[LEVELS];
    size_t depth = 0;
    size_t count = 0;
    size_t i = 0;
    for (;;) {
        while (i < group.end) {
            const uint8_t *record = table + HEADER + RECORD * i;
            const size_t next = i + word(record + 1);
            if (!in_range(resource, record[7], record[8]) || !in_range(action, record[9], record[10])) {
                i = next;
                continue;
            }
            const uint64_t left = group.members & subjects_in(record[5], record[6]);
            if (left == 0) {
                i = next;
                continue;
            }
            const uint8_t kind = record[0];
            if (kind < 4) {
                above[depth++] = group;
                group = {next, left, kind, 0};
            } else {
                if (count < room) {
                    cards[count] = static_cast<uint16_t>(word(record + 3));
                }
                ++count;
                group.running = COMBINING[group.kind][group.running][kind - 3];
            }
            ++i;
        }
        if (depth == 0) {
            break;
        }
        const uint8_t decision = decided(group.running);
        group = above[--depth];
        group.running = COMBINING[group.kind][group.running][decision];
    }
    if (count > room) {
        std::memset(cards, 0, room * sizeof *cards);
        return refused(KOLFSEIN_LIST_TOO_SHORT, 0);
    }
    return {KOLFSEIN_OK, group.running, 0, count, size_of(subjects)};
}

// Rules after the table was read in some way, at each call.
template <class Read>
inline kolfsein_answer rule_after(Read read, const uint8_t *table, size_t length, uint64_t subjects, uint16_t resource,
                                  uint16_t action, uint16_t *cards, size_t room) {
    std::memset(cards, 0, room * sizeof *cards);
    const kolfsein_answer reading = read(table, length);
    if (reading.number != 0) {
        return reading;
    }
    return ruled(table, reading.count, subjects, resource, action, cards, room);
}

}  // namespace

kolfsein_answer rule(const uint8_t *table, size_t length, uint64_t subjects, uint16_t resource, uint16_t action,
                     uint16_t *cards, size_t room) {
    return rule_after(read, table, length, subjects, resource, action, cards, room);
}

kolfsein_answer rule_standard(const uint8_t *table, size_t length, uint64_t subjects, uint16_t resource,
                              uint16_t action, uint16_t *cards, size_t room) {
    return rule_after(read_standard, table, length, subjects, resource, action, cards, room);
}

namespace {

// Whether a diagram is sound: one pass, which marks where entries of which level start.
bool is_sound(const uint16_t *diagram, size_t length) {
    if (length < DIAGRAM_HEADER) {
        return false;
    }
    const size_t used = diagram[0];
    const uint16_t *maxima = diagram + 2;
    if (used < DIAGRAM_HEADER || used > length || used > MOST_PLACES || maxima[0] > 255 || maxima[1] > 255 ||
        maxima[2] > 255) {
        return false;
    }
    uint8_t marks[MOST_PLACES];  // one more than the level of the entry that starts there
    std::memset(marks, 0, used);
    size_t place = DIAGRAM_HEADER;
    while (place < used) {
        const size_t left = used - place;
        const uint16_t *entry = diagram + place;
        const size_t level = entry[0];
        size_t size;
        if (level == 0) {
            if (left < 3 || entry[1] > 3 || entry[2] > MOST_CARDS || left < 3u + entry[2]) {
                return false;
            }
            size = 3u + entry[2];
            bool zero = false;  // without a way out of the loop it runs on several cards at once
            for (size_t k = 3; k < size; ++k) {
                zero |= entry[k] == 0;
            }
            if (zero) {
                return false;
            }
        } else {
            if (level > FIELDS || left < 2 || left < 2 + 2 * size_t{entry[1]}) {
                return false;
            }
            size = 2 + 2 * size_t{entry[1]};
            const uint8_t below = level < FIELDS ? static_cast<uint8_t>(level + 2) : 1;
            size_t next = 0;
            for (size_t k = 2; k < size; k += 2) {
                if (entry[k] < next || entry[k + 1] >= place || marks[entry[k + 1]] != below) {
                    return false;
                }
                next = size_t{entry[k]} + 1;
            }
            if (next != size_t{maxima[level - 1]} + 1) {
                return false;
            }
        }
        marks[place] = static_cast<uint8_t>(level + 1);
        place += size;
    }
    return diagram[1] < used && marks[diagram[1]] == 2;
}

}  // namespace

// Rules on a request by a diagram that is sound: 9 and 10.
kolfsein_answer look_up_unchecked(const uint16_t *diagram, size_t, uint16_t subject, uint16_t resource, uint16_t action,
                                  uint16_t *cards, size_t room) {
    std::memset(cards, 0, room * sizeof *cards);
    const uint16_t values[FIELDS] = {subject, resource, action};
    for (size_t field = 0; field < FIELDS; ++field) {
        if (values[field] > diagram[2 + field]) {
            return refused(KOLFSEIN_VALUE, field);
        }
    }
    size_t place = diagram[1];
    for (const uint16_t value : values) {
        const uint16_t *edges = diagram + place + 2;
        size_t low = 0;
        size_t high = diagram[place + 1] - 1u;
        while (low < high) {
            const size_t middle = (low + high) / 2;
            if (edges[2 * middle] < value) {
                low = middle + 1;
            } else {
                high = middle;
            }
        }
        place = edges[2 * low + 1];
    }
    const size_t count = diagram[place + 2];
    if (count > room) {
        return refused(KOLFSEIN_LIST_TOO_SHORT, 0);
    }
    std::memcpy(cards, diagram + place + 3, count * sizeof *cards);
    return {KOLFSEIN_OK, static_cast<uint8_t>(diagram[place + 1]), 0, count, 0};
}

// Rules on a request by a diagram from anyone: 12, then 9 and 10.
kolfsein_answer look_up(const uint16_t *diagram, size_t length, uint16_t subject, uint16_t resource,
                        uint16_t action, uint16_t *cards, size_t room) {
    if (!is_sound(diagram, length)) {
        std::memset(cards, 0, room * sizeof *cards);
        return refused(KOLFSEIN_DIAGRAM, 0);
    }
    return look_up_unchecked(diagram, length, subject, resource, action, cards, room);
}

}  // namespace plain
