// The same function as binary decision diagrams, by BuDDy.
//
// A field's value is as many variables as its maximum needs, the highest bit first; subject, resource and action follow
// one another, as in the library's diagram, and are not reordered. Everything is made of the ranges by operations on
// BDDs: a node applies where its own ranges and all those above it hold. Two encodings of the rulings:
// - By rules: two BDDs for the decision, permit and deny (indeterminate is both, not applicable neither), combined
//   upward by the groups' ways, and one for each rule, which says where it matches. A ruling asks every one of them.
// - By terminals: the distinct rulings are numbered, and there is one BDD for each bit of the number. To number them,
//   the requests are split by one rule after another into those that it matches and those that it does not, and in the
//   end by the decision, which does not follow from the rules that match.
// The size of each is the number of nodes that its BDDs have together, shared ones once; in bytes, with the cards of
// the rules or the rulings by number, at two bytes for each card, decision and number of cards.
#pragma once

#include <bdd.h>

#include <algorithm>
#include <cstddef>
#include <cstdint>
#include <map>
#include <utility>
#include <vector>

#include "plain/parsed.hpp"
#include "tables.hpp"

namespace binary {

constexpr int BITS = 8;            // of a field
constexpr size_t NODE_BYTES = 20;  // of a node in BuDDy's table

// BuDDy, started once. Before a build that is timed its dead nodes and its caches are cleared.
class Package {
public:
    Package() {
        bdd_init(1 << 16, 1 << 14);
        bdd_setvarnum(BITS * static_cast<int>(plain::FIELDS));
        bdd_setmaxincrease(1 << 20);
        bdd_setcacheratio(4);
        bdd_gbc_hook(nullptr);
    }
    Package(const Package &) = delete;
    Package &operator=(const Package &) = delete;
    ~Package() { bdd_done(); }

    void clear() { bdd_gbc(); }
};

// A decision for each request.
struct Decision {
    bdd permit = bddfalse;
    bdd deny = bddfalse;
};

// A group's decision so far, and for only one applicable where a child has counted.
struct Running : Decision {
    bdd counted = bddfalse;

    // Takes in one more child, which counts where it applies.
    void take(uint8_t kind, const Decision &child, const bdd &counts) {
        const bdd permits = permit | child.permit;
        const bdd denies = deny | child.deny;
        switch (kind) {
        case 0: {  // first applicable
            const bdd open = !(permit | deny);
            permit |= open & child.permit;
            deny |= open & child.deny;
            break;
        }
        case 1: {  // only one applicable
            const bdd two = counted & counts;
            permit = permits | two;
            deny = denies | two;
            counted |= counts;
            break;
        }
        case 2: {  // permit overrides
            const bdd permitted = (permit - deny) | (child.permit - child.deny);
            const bdd denied = (deny - permit) | (child.deny - child.permit);
            permit = permitted | (permits - denied);
            deny = (denied | denies) - permitted;
            break;
        }
        default:  // deny overrides
            permit = permits - denies;
            deny = denies;
        }
    }
};

// The encoding by rules.
struct ByRules {
    Decision decision;
    std::vector<bdd> matches;  // of each rule, in table order

    size_t nodes() const {
        std::vector<bdd> all = matches;
        all.push_back(decision.permit);
        all.push_back(decision.deny);
        return static_cast<size_t>(bdd_anodecount(all.data(), static_cast<int>(all.size())));
    }

    size_t bytes() const { return NODE_BYTES * nodes() + 2 * matches.size(); }
};

class RulesBuilder {
public:
    explicit RulesBuilder(const plain::Parsed &table) : table_(table) {}

    ByRules build() {
        ByRules all;
        all.decision = decide(0, applying(0, bddtrue), all.matches);
        return all;
    }

private:
    // The requests whose value in a field is in a range, from the lowest bit up.
    bdd in_range(size_t field, unsigned low, unsigned high) const {
        bdd at_least = bddtrue;
        bdd at_most = bddtrue;
        for (int bit = 0; table_.maxima[field] >> bit != 0; ++bit) {
            const bdd set = bdd_ithvar(BITS * static_cast<int>(field) + BITS - 1 - bit);
            at_least = (low >> bit & 1) != 0 ? set & at_least : set | at_least;
            at_most = (high >> bit & 1) != 0 ? at_most | !set : at_most - set;
        }
        return low <= high ? at_least & at_most : at_least | at_most;
    }

    // The requests to which a node applies, of those to which its parent does.
    bdd applying(size_t i, const bdd &above) const {
        const plain::Node &node = table_.nodes[i];
        bdd applies = above;
        for (size_t field = 0; field < plain::FIELDS; ++field) {
            applies &= in_range(field, node.low[field], node.high[field]);
        }
        return applies;
    }

    // What a node gives, which applies to some requests.
    Decision decide(size_t i, const bdd &applies, std::vector<bdd> &matches) const {
        const plain::Node &node = table_.nodes[i];
        if (node.is_rule()) {
            matches.push_back(applies);
            Decision decision;
            (node.kind == 4 ? decision.permit : decision.deny) = applies;
            return decision;
        }
        Running running;
        for (size_t child = i + 1; child < node.end; child = table_.nodes[child].end) {
            const bdd counts = applying(child, applies);
            running.take(node.kind, decide(child, counts, matches), counts);
        }
        return running;
    }

    const plain::Parsed &table_;
};

// A ruling: its decision and its cards.
using Ruling = std::pair<uint8_t, std::vector<uint16_t>>;

// The encoding by terminals.
struct ByTerminals {
    std::vector<bdd> bits;
    std::vector<Ruling> rulings;  // by number

    size_t nodes() const { return static_cast<size_t>(bdd_anodecount(bits.data(), static_cast<int>(bits.size()))); }

    size_t bytes() const {
        size_t sum = NODE_BYTES * nodes();
        for (const Ruling &ruling : rulings) {
            sum += 2 * (2 + ruling.second.size());
        }
        return sum;
    }
};

class TerminalsBuilder {
public:
    TerminalsBuilder(const plain::Parsed &table, const ByRules &rules) : tests_(rules.matches) {
        for (size_t i = 0; i < table.count; ++i) {
            if (table.nodes[i].is_rule()) {
                cards_.push_back(table.nodes[i].card);
            }
        }
        tests_.push_back(rules.decision.permit);
        tests_.push_back(rules.decision.deny);
    }

    ByTerminals build() {
        ByTerminals all;
        all.bits = split(0, bddtrue, all.rulings);
        return all;
    }

private:
    // The bits of the terminals' numbers within some requests, which the tests before one do not tell apart.
    std::vector<bdd> split(size_t test, const bdd &requests, std::vector<Ruling> &rulings) {
        const uint8_t decision = ruling_.first;
        const size_t matched = ruling_.second.size();
        for (; test < tests_.size(); ++test) {
            const bdd passing = requests & tests_[test];
            if (passing == bddfalse) {
                continue;
            }
            if (passing == requests) {
                pass(test);
                continue;
            }
            std::vector<bdd> bits = split(test + 1, requests - passing, rulings);
            pass(test);
            const std::vector<bdd> others = split(test + 1, passing, rulings);
            back_to(decision, matched);
            bits.resize(std::max(bits.size(), others.size()), bddfalse);
            for (size_t bit = 0; bit < others.size(); ++bit) {
                bits[bit] |= others[bit];
            }
            return bits;
        }
        std::vector<bdd> bits;
        for (size_t number = number_of(ruling_, rulings); number != 0; number /= 2) {
            bits.push_back(number % 2 != 0 ? requests : bddfalse);
        }
        back_to(decision, matched);
        return bits;
    }

    // The ruling so far with what a test says where it passes: a card, or one of the two parts of the decision.
    void pass(size_t test) {
        if (test < cards_.size()) {
            ruling_.second.push_back(cards_[test]);
        } else {
            ruling_.first = static_cast<uint8_t>(ruling_.first + (test == cards_.size() ? 1 : 2));
        }
    }

    // The ruling so far as it was, with this decision and so many cards.
    void back_to(uint8_t decision, size_t matched) {
        ruling_.first = decision;
        ruling_.second.resize(matched);
    }

    size_t number_of(const Ruling &ruling, std::vector<Ruling> &rulings) {
        const auto found = numbers_.emplace(ruling, rulings.size());
        if (found.second) {
            rulings.push_back(ruling);
        }
        return found.first->second;
    }

    std::vector<bdd> tests_;       // where each rule matches, then where the decision has permit, and where deny
    std::vector<uint16_t> cards_;  // of each rule, in table order
    Ruling ruling_;                // of the tests so far
    std::map<Ruling, size_t> numbers_;
};

// Whether a request is among those of a BDD.
inline bool holds(const tables::Request &request, bdd requests) {
    while (requests != bddfalse && requests != bddtrue) {
        const int variable = bdd_var(requests);
        const unsigned value = request[static_cast<size_t>(variable / BITS)];
        requests = (value >> (BITS - 1 - variable % BITS) & 1) != 0 ? bdd_high(requests) : bdd_low(requests);
    }
    return requests == bddtrue;
}

inline Ruling ruling(const plain::Parsed &table, const ByRules &all, const tables::Request &request) {
    Ruling found;
    found.first = static_cast<uint8_t>((holds(request, all.decision.permit) ? 1 : 0) +
                                       (holds(request, all.decision.deny) ? 2 : 0));
    size_t rule = 0;
    for (size_t i = 0; i < table.count; ++i) {
        if (table.nodes[i].is_rule() && holds(request, all.matches[rule++])) {
            found.second.push_back(table.nodes[i].card);
        }
    }
    return found;
}

inline Ruling ruling(const ByTerminals &all, const tables::Request &request) {
    size_t number = 0;
    for (size_t bit = 0; bit < all.bits.size(); ++bit) {
        number += static_cast<size_t>(holds(request, all.bits[bit]) ? 1 : 0) << bit;
    }
    return all.rulings[number];
}

}  // namespace binary
