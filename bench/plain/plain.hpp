// What the library is measured against: the same calls in plain C++, with the same answers.
#pragma once

#include <array>
#include <cstddef>
#include <cstdint>

#include "kolfsein.h"

namespace plain {

constexpr size_t FIELDS = 3;
constexpr size_t HEADER = 8;
constexpr size_t RECORD = 11;
constexpr size_t MOST_NODES = 128;
constexpr size_t LEVELS = 8;
constexpr size_t DIAGRAM_HEADER = 2 + FIELDS;
constexpr size_t MOST_CARDS = KOLFSEIN_MOST_CARDS;
constexpr size_t MOST_PLACES = KOLFSEIN_MOST_PLACES;

// The four ways of combining, by group kind, running decision and the decision of a child that applies; a child that
// does not is never taken in. A running decision of 4 is none as well: only one applicable has it once a child has
// counted that gives none, since any further child that applies is one too many. The eight rows of a kind, of which the
// last ones are not met, are found by a shift.
constexpr uint8_t COMBINING[4][8][4] = {
    {{0, 1, 2, 3}, {1, 1, 1, 1}, {2, 2, 2, 2}, {3, 3, 3, 3}},
    {{4, 1, 2, 3}, {3, 3, 3, 3}, {3, 3, 3, 3}, {3, 3, 3, 3}, {3, 3, 3, 3}},
    {{0, 1, 2, 3}, {1, 1, 1, 1}, {2, 1, 2, 2}, {3, 1, 2, 3}},
    {{0, 1, 2, 2}, {1, 1, 2, 2}, {2, 2, 2, 2}, {2, 2, 2, 2}},
};

// What a group with this running decision gives.
inline uint8_t decided(uint8_t running) { return running & 3; }

inline kolfsein_answer refused(uint8_t number, size_t place) { return {number, 0, place, 0, 0}; }

// A number of two bytes.
inline size_t word(const uint8_t *at) { return static_cast<size_t>(at[0]) << 8 | at[1]; }

inline void put_word(uint8_t *at, size_t number) {
    at[0] = static_cast<uint8_t>(number >> 8);
    at[1] = static_cast<uint8_t>(number);
}

// Whether a value is in a range: from low up to high, or, where low is above high, from low upward or up to high.
// Counted from low on, with 0 after 255, it then comes no later than high.
inline bool in_range(uint8_t value, uint8_t low, uint8_t high) {
    return static_cast<uint8_t>(value - low) <= static_cast<uint8_t>(high - low);
}

// As kolfsein_read.
kolfsein_answer read(const uint8_t *table, size_t table_len);

// As kolfsein_rule: the table is read at each call.
kolfsein_answer rule(const uint8_t *table, size_t table_len, uint64_t subjects, uint16_t resource, uint16_t action,
                     uint16_t *cards, size_t cards_len);

// As kolfsein_read_standard.
kolfsein_answer read_standard(const uint8_t *table, size_t table_len);

// As kolfsein_rule_standard: the table is read at each call.
kolfsein_answer rule_standard(const uint8_t *table, size_t table_len, uint64_t subjects, uint16_t resource,
                              uint16_t action, uint16_t *cards, size_t cards_len);

// As kolfsein_attach: both tables are read at each call.
kolfsein_answer attach(const uint8_t *base, size_t base_len, const uint8_t *expansion, size_t expansion_len,
                       uint8_t *table, size_t table_len);

// As kolfsein_look_up: the diagram is checked at each call.
kolfsein_answer look_up(const uint16_t *diagram, size_t diagram_len, uint16_t subject, uint16_t resource,
                        uint16_t action, uint16_t *cards, size_t cards_len);

// The same of a diagram that is known to be sound.
kolfsein_answer look_up_unchecked(const uint16_t *diagram, size_t diagram_len, uint16_t subject, uint16_t resource,
                                  uint16_t action, uint16_t *cards, size_t cards_len);

// As kolfsein_build, by ruling on every request.
kolfsein_answer build_by_requests(const uint8_t *table, size_t table_len, uint16_t *diagram, size_t diagram_len);

// As kolfsein_build, by the sets of nodes that may still apply.
kolfsein_answer build_by_sets(const uint8_t *table, size_t table_len, uint16_t *diagram, size_t diagram_len);

}  // namespace plain
