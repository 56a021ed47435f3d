// The entries of a diagram that is built, as both builders enter them.
#pragma once

#include <algorithm>
#include <array>
#include <cstddef>
#include <cstdint>
#include <cstring>
#include <vector>

#include "plain/parsed.hpp"
#include "plain/plain.hpp"

namespace plain {

constexpr size_t NO_PLACE = SIZE_MAX;  // there was no room

// The entries in the room lent, with an index by hash that grows with them.
class Entries {
public:
    Entries(uint16_t *diagram, size_t length)
        : diagram_(diagram), room_(std::min(length, MOST_PLACES)), end_(DIAGRAM_HEADER), count_(0), slots_(256) {}

    size_t end() const { return end_; }

    // The place of an entry: of an equal one, or its own after the last.
    size_t enter(const uint16_t *entry, size_t size) {
        const uint32_t hashed = hash(entry, size);
        size_t slot = hashed & (slots_.size() - 1);
        while (slots_[slot].place != 0) {
            if (slots_[slot].hash == hashed && slots_[slot].size == size &&
                std::memcmp(diagram_ + slots_[slot].place, entry, size * sizeof *entry) == 0) {
                return slots_[slot].place;
            }
            slot = (slot + 1) & (slots_.size() - 1);
        }
        if (size > room_ - end_) {
            return NO_PLACE;
        }
        const size_t place = end_;
        std::memcpy(diagram_ + place, entry, size * sizeof *entry);
        slots_[slot] = {hashed, static_cast<uint16_t>(place), static_cast<uint16_t>(size)};
        end_ += size;
        if (2 * ++count_ > slots_.size()) {
            grow();
        }
        return place;
    }

private:
    struct Slot {
        uint32_t hash;
        uint16_t place, size;  // place 0: free
    };

    // Four numbers at a time.
    static uint32_t hash(const uint16_t *entry, size_t size) {
        uint64_t mixed = size;
        const auto mix = [&mixed](uint64_t four) {
            mixed = (mixed ^ four) * 0x9E3779B97F4A7C15u;
            mixed ^= mixed >> 32;
        };
        size_t k = 0;
        for (; k + 4 <= size; k += 4) {
            uint64_t four;
            std::memcpy(&four, entry + k, sizeof four);
            mix(four);
        }
        uint64_t rest = 0;
        for (; k < size; ++k) {
            rest = rest << 16 | entry[k];
        }
        mix(rest);
        return static_cast<uint32_t>(mixed);
    }

    void grow() {
        std::vector<Slot> before(4 * slots_.size());
        before.swap(slots_);
        for (const Slot &taken : before) {
            if (taken.place != 0) {
                size_t slot = taken.hash & (slots_.size() - 1);
                while (slots_[slot].place != 0) {
                    slot = (slot + 1) & (slots_.size() - 1);
                }
                slots_[slot] = taken;
            }
        }
    }

    uint16_t *diagram_;
    size_t room_, end_, count_;
    std::vector<Slot> slots_;
};

// A node that is being made: level, number of edges, and the edges so far.
class OpenNode {
public:
    explicit OpenNode(size_t field) : size_(2) { entry_[0] = static_cast<uint16_t>(field + 1); }

    // The values up to this one have this child; neighbours with one child share an edge.
    void extend(size_t last, size_t child) {
        if (size_ == 2 || entry_[size_ - 1] != child) {
            size_ += 2;
        }
        entry_[size_ - 2] = static_cast<uint16_t>(last);
        entry_[size_ - 1] = static_cast<uint16_t>(child);
    }

    size_t enter(Entries &entries) {
        entry_[1] = static_cast<uint16_t>(size_ / 2 - 1);
        return entries.enter(entry_.data(), size_);
    }

private:
    std::array<uint16_t, 2 + 2 * 256> entry_;
    size_t size_;
};

// A terminal that is being made: 0, decision, number of cards, and the cards so far.
class OpenTerminal {
public:
    void add(uint16_t card) { entry_[3 + count_++] = card; }

    size_t enter(Entries &entries, uint8_t decision) {
        entry_[0] = 0;
        entry_[1] = decision;
        entry_[2] = static_cast<uint16_t>(count_);
        return entries.enter(entry_.data(), 3 + count_);
    }

private:
    std::array<uint16_t, 3 + MOST_CARDS> entry_;
    size_t count_ = 0;
};

// Builds by a walk that enters everything and gives the root's place: refusals 1 to 8 and 11, or the diagram with zeros
// after it.
template <class Walk>
kolfsein_answer build(const uint8_t *table, size_t table_len, uint16_t *diagram, size_t diagram_len) {
    const auto refuse = [&](const kolfsein_answer &refusal) {
        std::memset(diagram, 0, diagram_len * sizeof *diagram);
        return refusal;
    };
    const kolfsein_answer reading = read(table, table_len);
    if (reading.number != 0) {
        return refuse(reading);
    }
    if (diagram_len < DIAGRAM_HEADER) {
        return refuse(refused(KOLFSEIN_ROOM, 0));
    }
    const Parsed parsed(table);
    Entries entries(diagram, diagram_len);
    const size_t root = Walk(parsed, entries).root();
    if (root == NO_PLACE) {
        return refuse(refused(KOLFSEIN_ROOM, 0));
    }
    const size_t used = entries.end();
    diagram[0] = static_cast<uint16_t>(used);
    diagram[1] = static_cast<uint16_t>(root);
    std::copy_n(parsed.maxima, FIELDS, diagram + 2);
    std::memset(diagram + used, 0, (diagram_len - used) * sizeof *diagram);
    return {KOLFSEIN_OK, 0, 0, used, 0};
}

}  // namespace plain
