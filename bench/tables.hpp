// The inputs: tables and requests from a small generator with fixed seeds, so that every run has the same ones.
#pragma once

#include <algorithm>
#include <array>
#include <cstddef>
#include <cstdint>
#include <utility>
#include <vector>

namespace tables {

using Bytes = std::vector<uint8_t>;
using Request = std::array<uint16_t, 3>;

// A set of subjects that ask together, subject k as bit k, and a value for each other field.
struct JointRequest {
    uint64_t subjects;
    uint16_t resource, action;
};

// xorshift64*: the same numbers everywhere.
class Random {
public:
    explicit Random(uint64_t seed) : state_(seed * 0x9E3779B97F4A7C15u + 1) {}

    // A number below a bound.
    unsigned below(unsigned bound) {
        state_ ^= state_ >> 12;
        state_ ^= state_ << 25;
        state_ ^= state_ >> 27;
        return static_cast<unsigned>(((state_ * 0x2545F4914F6CDD1Du) >> 32) * bound >> 32);
    }

private:
    uint64_t state_;
};

struct Shape {
    unsigned nodes;
    std::array<unsigned, 3> sizes;  // how many values each field has
    std::array<unsigned, 3> parts;  // ranges begin and end where one of so many even parts of a field does
    uint64_t seed;
};

// Grows a table of some shape, node after node.
class Generator {
public:
    explicit Generator(const Shape &shape) : shape_(shape), random_(shape.seed) {}

    // Groups in groups, as a rulebook has them: a child narrows one or two of the ranges above it.
    Bytes nested() {
        header();
        grow(shape_.nodes, 1, whole());
        return std::move(bytes_);
    }

    // The same of the convention profile: a group holds rules alone or groups alone, and an only-one group no rule.
    Bytes nested_standard() {
        header();
        grow_standard(shape_.nodes, 1, whole());
        return std::move(bytes_);
    }

    // One group of rules.
    Bytes flat() {
        header();
        record(3, shape_.nodes, 0, whole());
        for (unsigned i = 1; i < shape_.nodes; ++i) {
            record(4 + random_.below(2), 1, ++cards_, narrowed(whole()));
        }
        return std::move(bytes_);
    }

private:
    // The parts of a field, from one up to and not including another.
    struct Range {
        unsigned from, to;
    };
    using Ranges = std::array<Range, 3>;

    Ranges whole() const { return {{{0, shape_.parts[0]}, {0, shape_.parts[1]}, {0, shape_.parts[2]}}}; }

    Ranges narrowed(Ranges ranges) {
        for (unsigned times = 1 + random_.below(2); times > 0; --times) {
            Range &range = ranges[random_.below(3)];
            const unsigned width = range.to - range.from;
            const unsigned narrower = 1 + random_.below(width);
            range.from += random_.below(width - narrower + 1);
            range.to = range.from + narrower;
        }
        return ranges;
    }

    void byte(unsigned value) { bytes_.push_back(static_cast<uint8_t>(value)); }

    void word(unsigned value) {
        byte(value >> 8);
        byte(value & 255);
    }

    void header() {
        word(6 + 11 * shape_.nodes);
        byte(1);
        for (unsigned size : shape_.sizes) {
            byte(size - 1);
        }
        word(shape_.nodes);
    }

    void record(unsigned kind, unsigned span, unsigned card, const Ranges &ranges) {
        byte(kind);
        word(span);
        word(card);
        for (unsigned field = 0; field < 3; ++field) {
            byte(ranges[field].from * shape_.sizes[field] / shape_.parts[field]);
            byte(ranges[field].to * shape_.sizes[field] / shape_.parts[field] - 1);
        }
    }

    // A node with all under it: span nodes in all.
    void grow(unsigned span, unsigned level, const Ranges &ranges) {
        if (span == 1) {
            record(4 + random_.below(2), 1, ++cards_, ranges);
            return;
        }
        record(random_.below(4), span, 0, ranges);
        unsigned left = span - 1;
        while (left > 0) {
            unsigned child = 1;
            if (level < 7 && left > 2 && random_.below(3) == 0) {
                child = 2 + random_.below(left - 1 < 24 ? left - 1 : 24);
            }
            grow(child, level + 1, narrowed(ranges));
            left -= child;
        }
    }

    // A group with all under it, span nodes in all: rules where they are few or on level 8, else groups.
    void grow_standard(unsigned span, unsigned level, const Ranges &ranges) {
        unsigned left = span - 1;
        if (left < 4 || level == 7) {
            static constexpr unsigned KINDS[] = {0, 2, 3};
            record(KINDS[random_.below(3)], span, 0, ranges);
            for (; left > 0; --left) {
                record(4 + random_.below(2), 1, ++cards_, narrowed(ranges));
            }
            return;
        }
        record(random_.below(4), span, 0, ranges);
        while (left > 0) {
            unsigned child = 2 + random_.below(left - 1 < 24 ? left - 1 : 24);
            if (left - child == 1) {
                ++child;  // no empty group
            }
            grow_standard(child, level + 1, narrowed(ranges));
            left -= child;
        }
    }

    Shape shape_;
    Random random_;
    Bytes bytes_;
    unsigned cards_ = 0;
};

// Requests within a table's maxima.
inline std::vector<Request> requests(const Bytes &table, size_t count, uint64_t seed) {
    Random random(seed);
    std::vector<Request> all(count);
    for (Request &request : all) {
        for (unsigned field = 0; field < 3; ++field) {
            request[field] = static_cast<uint16_t>(random.below(table[3 + field] + 1u));
        }
    }
    return all;
}

// How many subjects a set can have that is within a table's maximum.
inline unsigned most_subjects(const Bytes &table) { return std::min(table[3] + 1u, 64u); }

// So many of the subjects below a bound, at least as large and at most 64.
inline uint64_t some_subjects(Random &random, unsigned count, unsigned bound) {
    uint64_t subjects = 0;
    while (count > 0) {
        const uint64_t drawn = uint64_t{1} << random.below(bound);
        count -= (subjects & drawn) == 0;
        subjects |= drawn;
    }
    return subjects;
}

// Joint requests of so many subjects each, within a table's maxima.
inline std::vector<JointRequest> joint_requests(const Bytes &table, unsigned subjects, size_t count, uint64_t seed) {
    Random random(seed);
    std::vector<JointRequest> all(count);
    for (JointRequest &request : all) {
        request.subjects = some_subjects(random, subjects, most_subjects(table));
        request.resource = static_cast<uint16_t>(random.below(table[4] + 1u));
        request.action = static_cast<uint16_t>(random.below(table[5] + 1u));
    }
    return all;
}

}  // namespace tables
