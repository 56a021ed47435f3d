// Attaching an expansion, against plain C++.
#include <cstddef>
#include <cstdint>
#include <cstdio>
#include <string>
#include <vector>

#include "common.hpp"
#include "damage.hpp"
#include "sections.hpp"

namespace {

// The most times as long as plain C++ that a call may take.
const double TARGET = 2;

const Sizes SIZES = {64, 32, 16};

struct Pair {
    Table base, expansion;

    size_t length() const { return base.bytes.size() + expansion.bytes.size() - plain::HEADER; }
};

kolfsein_answer attach(Attach call, const tables::Bytes &base, const tables::Bytes &expansion, tables::Bytes &table) {
    return call(base.data(), base.size(), expansion.data(), expansion.size(), table.data(), table.size());
}

// Both calls must agree, in the answer and in every byte lent; the answer.
kolfsein_answer agreed(const tables::Bytes &base, const tables::Bytes &expansion, size_t room) {
    tables::Bytes table(room, 1), other(room, 2);
    const kolfsein_answer answer = attach(kolfsein_attach, base, expansion, table);
    expect(same(answer, attach(plain::attach, base, expansion, other)) && same(table, other), "an attached table");
    return answer;
}

// Eight levels: seven groups, each in the one before, and in the last an empty group and two rules.
Table eight_levels() {
    Table table = {"eight levels", {0, 116, 1, 63, 31, 15, 0, 10}};
    for (unsigned node = 0; node < 10; ++node) {
        const uint8_t kind = node < 8 ? 0 : 4;
        const uint8_t span = static_cast<uint8_t>(node < 7 ? 10 - node : 1);
        const uint8_t card = node < 8 ? 0 : 7;
        table.bytes.insert(table.bytes.end(), {kind, 0, span, 0, card, 0, 63, 0, 31, 0, 15});
    }
    return table;
}

// On refusals too, each of which has to be met: all pairs of some tables, as they are and with one or both of the two
// damaged, into about as many bytes as are needed.
void expect_refusals() {
    const std::vector<Table> all = {
        example("harbour"),    one_rule(),      any_ranges(2, SIZES),   eight_levels(),
        any_ranges(64, SIZES), flat(65, SIZES), any_ranges(128, SIZES),
    };
    Answered answered = {};
    tables::Random random(17);
    for (const Table &base : all) {
        for (const Table &expansion : all) {
            const size_t length = Pair{base, expansion}.length();
            for (const size_t room : {size_t{0}, length - 1, length, length + 9}) {
                ++answered[agreed(base.bytes, expansion.bytes, room).number];
            }
            for (int i = 0; i < 5000; ++i) {
                Pair damaged = {base, expansion};
                const Damage damage = random.below(2) == 0 ? change_byte : change_node;
                const unsigned which = random.below(3);
                if (which != 0) {
                    damage(random, damaged.base.bytes);
                }
                if (which != 1) {
                    damage(random, damaged.expansion.bytes);
                }
                const size_t room = length - 4 + random.below(8);
                ++answered[agreed(damaged.base.bytes, damaged.expansion.bytes, room).number];
            }
        }
    }
    for (const size_t number : {0, 1, 2, 3, 4, 5, 6, 7, 8, 11, 17, 18, 19}) {
        expect(answered[number] > 0, "how often " + std::to_string(number) + " is met");
    }
}

void print_row(const Pair &pair, size_t room) {
    const tables::Bytes &base = pair.base.bytes, &expansion = pair.expansion.bytes;
    const kolfsein_answer answer = agreed(base, expansion, room);
    expect(answer.number == KOLFSEIN_OK && answer.count == pair.length(), "a table of both");
    tables::Bytes table(room);
    const auto attaching = [&](Attach call) {
        return repeating([call, &base, &expansion, &table] { return attach(call, base, expansion, table); });
    };
    const auto read_both = [&base, &expansion] {
        sink += read(kolfsein_read, base).count;
        return read(kolfsein_read, expansion);
    };
    const auto ns =
        timing::nanoseconds({attaching(kolfsein_attach), attaching(plain::attach), repeating(read_both)});
    const double ratio = ns[0] / ns[1];
    std::printf("| %s | %u | %s | %u | %zu | %zu | %.0f | %.0f | %.2f | %s | %.0f |\n", pair.base.name.c_str(),
                pair.base.nodes(), pair.expansion.name.c_str(), pair.expansion.nodes(), answer.count, room, ns[0],
                ns[1], ratio, met(ratio <= TARGET), ns[2]);
    std::fflush(stdout);
}

}  // namespace

void attach_section() {
    expect_refusals();
    std::printf("### Attaching an expansion\n\n"
                "Target: at most %g times plain C++.\n\n"
                "| Base | Nodes | Expansion | Nodes | Bytes written | Bytes lent | `kolfsein_attach`, ns | "
                "Plain C++, ns | Ratio | Target | `kolfsein_read` of both, ns |\n"
                "|---|--:|---|--:|--:|--:|--:|--:|--:|---|--:|\n",
                TARGET);
    const std::vector<Pair> pairs = {
        {example("harbour"), any_ranges(2, {3, 2, 2})},
        {any_ranges(40, SIZES), any_ranges(20, SIZES)},
        {example("rulebook"), any_ranges(40, {12, 20, 10})},
        {flat(64, SIZES), flat(64, SIZES)},
    };
    for (const Pair &pair : pairs) {
        if (pair.length() < KOLFSEIN_MOST_BYTES) {
            print_row(pair, pair.length());
        }
        print_row(pair, KOLFSEIN_MOST_BYTES);
        print_row(pair, 65536);
    }
    std::printf("\n");
}
