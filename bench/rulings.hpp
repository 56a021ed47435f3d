// Rulings by a table that several calls give: seeing that they agree, on refusals too.
#pragma once

#include <algorithm>
#include <cstddef>
#include <cstdint>
#include <vector>

#include "common.hpp"
#include "damage.hpp"

// The tables that rulings are timed on.
inline std::vector<Table> ruled_tables() {
    const Sizes sizes = {64, 32, 16};
    return {
        example("harbour"),
        any_ranges(5, sizes),
        any_ranges(30, sizes),
        example("rulebook"),
        part_ranges(128, sizes, 12),
        flat(128, sizes),
    };
}

// A joint request of which any subject and any value may be one over its maximum, and of no subject too.
inline tables::JointRequest any_request(tables::Random &random, const Table &table) {
    const unsigned subjects = std::min(table.bytes[3] + 2u, 64u);
    return {tables::some_subjects(random, random.below(subjects + 1), subjects),
            static_cast<uint16_t>(random.below(table.bytes[4] + 2u)),
            static_cast<uint16_t>(random.below(table.bytes[5] + 2u))};
}

// All calls must agree on a request, in the answer and in the list; the answer.
inline kolfsein_answer agreed(const std::vector<Rule> &calls, const tables::Bytes &table,
                              const tables::JointRequest &request, size_t room) {
    Numbers list(room, 1), other;
    const kolfsein_answer answer = ask(calls[0], table, request, list);
    for (size_t i = 1; i < calls.size(); ++i) {
        other.assign(room, 2);
        expect(same(answer, ask(calls[i], table, request, other)) && same(list, other), "a ruling");
    }
    return answer;
}

// The same on refusals: tables that were damaged, any subjects and values, and lists of any length.
inline Answered agreed_on_damaged(const std::vector<Rule> &calls, const Table &table, Damage damage) {
    tables::Random random(11);
    Answered answered = {};
    for (int i = 0; i < 5000; ++i) {
        tables::Bytes damaged = table.bytes;
        damage(random, damaged);
        const tables::JointRequest request = any_request(random, table);
        ++answered[agreed(calls, damaged, request, random.below(16)).number];
    }
    return answered;
}
