// Tables that are changed at random, so that calls are compared on refusals too.
#pragma once

#include <array>
#include <cstddef>
#include <cstdint>

#include "common.hpp"

// How often each number is answered, 0 or a refusal's.
using Answered = std::array<size_t, KOLFSEIN_TOO_LARGE + 1>;

using Damage = void (*)(tables::Random &, tables::Bytes &);

// One byte becomes any.
inline void change_byte(tables::Random &random, tables::Bytes &bytes) {
    bytes[random.below(static_cast<unsigned>(bytes.size()))] = static_cast<uint8_t>(random.below(256));
}

// One node becomes a rule or a group of any kind, with a card that is right for it, or takes another span. The table is
// then often accepted, if not by the profile.
inline void change_node(tables::Random &random, tables::Bytes &bytes) {
    const unsigned nodes = bytes[6] * 256u + bytes[7];
    uint8_t *record = &bytes[plain::HEADER + plain::RECORD * random.below(nodes)];
    if (random.below(2) == 0) {
        record[2] = static_cast<uint8_t>(1 + random.below(4));
        return;
    }
    record[0] = static_cast<uint8_t>(random.below(6));
    record[3] = 0;
    record[4] = record[0] < 4 ? 0 : 7;
}

// A rule as the root.
inline Table one_rule() { return {"one rule", {0, 17, 1, 63, 31, 15, 0, 1, 4, 0, 1, 0, 7, 0, 63, 0, 31, 0, 15}}; }
