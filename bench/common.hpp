// What the sections share: tables by name, the calls that are compared, and seeing that they agree.
#pragma once

#include <array>
#include <cstddef>
#include <cstdint>
#include <cstdio>
#include <cstdlib>
#include <cstring>
#include <fstream>
#include <iterator>
#include <string>
#include <vector>

#include "kolfsein.h"
#include "plain/plain.hpp"
#include "tables.hpp"
#include "timing.hpp"

using Numbers = std::vector<uint16_t>;
using Sizes = std::array<unsigned, 3>;

// The calls that are compared, by pointer: none is inlined where it is timed.
using Read = decltype(&kolfsein_read);
using Rule = decltype(&kolfsein_rule);
using Attach = decltype(&kolfsein_attach);
using LookUp = decltype(&kolfsein_look_up);
using Build = decltype(&kolfsein_build);

inline size_t sink;  // what is computed is used

[[noreturn]] inline void fail(const std::string &what) {
    std::fflush(stdout);
    std::fprintf(stderr, "bench: %s\n", what.c_str());
    std::exit(1);
}

inline void expect(bool holds, const std::string &what) {
    if (!holds) {
        fail("not the same: " + what);
    }
}

inline bool same(const kolfsein_answer &a, const kolfsein_answer &b) {
    return a.number == b.number && a.decision == b.decision && a.place == b.place && a.count == b.count &&
           a.subjects == b.subjects;
}

template <class Number>
bool same(const std::vector<Number> &a, const std::vector<Number> &b) {
    return a.size() == b.size() && std::memcmp(a.data(), b.data(), a.size() * sizeof a[0]) == 0;
}

// A time or a ratio, with three or more figures.
inline std::string figure(double number) {
    char text[32];
    std::snprintf(text, sizeof text, number < 10 ? "%.2f" : number < 100 ? "%.1f" : "%.0f", number);
    return text;
}

inline const char *met(bool holds) { return holds ? "met" : "missed"; }

// A table by name.
struct Table {
    std::string name;
    tables::Bytes bytes;

    unsigned nodes() const { return bytes[6] * 256u + bytes[7]; }

    std::string fields() const {
        return std::to_string(bytes[3] + 1) + " × " + std::to_string(bytes[4] + 1) + " × " +
               std::to_string(bytes[5] + 1);
    }

    // Requests within the maxima, the same in every run.
    std::vector<tables::Request> requests() const { return tables::requests(bytes, 4096, 7); }

    // The same for so many subjects together.
    std::vector<tables::JointRequest> joint_requests(unsigned subjects) const {
        return tables::joint_requests(bytes, subjects, 4096, 7);
    }
};

inline Table example(const std::string &name) {
    std::ifstream file("examples/" + name + ".table", std::ios::binary);
    if (!file) {
        fail("examples/" + name + ".table cannot be read");
    }
    return {"`" + name + "`", tables::Bytes(std::istreambuf_iterator<char>(file), {})};
}

// Nested groups whose ranges begin and end at any value.
inline Table any_ranges(unsigned nodes, const Sizes &sizes) {
    return {"nested, any", tables::Generator({nodes, sizes, sizes, 1}).nested()};
}

// Nested groups whose ranges begin and end where one of so many parts of a field does.
inline Table part_ranges(unsigned nodes, const Sizes &sizes, unsigned parts, uint64_t seed = 1) {
    return {"nested, " + std::to_string(parts) + " parts",
            tables::Generator({nodes, sizes, {parts, parts, parts}, seed}).nested()};
}

// The same of the convention profile, with any ranges.
inline Table any_standard(unsigned nodes, const Sizes &sizes) {
    return {"nested, any", tables::Generator({nodes, sizes, sizes, 1}).nested_standard()};
}

// All rules under one root, which the convention profile accepts too.
inline Table flat(unsigned nodes, const Sizes &sizes) {
    return {"flat, any", tables::Generator({nodes, sizes, sizes, 1}).flat()};
}

inline kolfsein_answer ask(Rule call, const tables::Bytes &table, const tables::JointRequest &request, Numbers &list) {
    return call(table.data(), table.size(), request.subjects, request.resource, request.action, list.data(),
                list.size());
}

inline kolfsein_answer ask(LookUp call, const Numbers &diagram, const tables::Request &request, Numbers &list) {
    return call(diagram.data(), diagram.size(), request[0], request[1], request[2], list.data(), list.size());
}

// One such call for each request, into the same list.
template <class Call, class Input, class Request>
timing::Candidate asking(Call call, const Input &input, const std::vector<Request> &requests, Numbers &list) {
    const auto batch = [call, &input, &requests, &list] {
        for (const Request &request : requests) {
            sink += ask(call, input, request, list).count;
        }
    };
    return {batch, requests.size(), {}};
}

// Many calls that are all the same.
template <class Call>
timing::Candidate repeating(Call call) {
    constexpr size_t CALLS = 1000;
    const auto batch = [call] {
        for (size_t i = 0; i < CALLS; ++i) {
            sink += call().count;
        }
    };
    return {batch, CALLS, {}};
}

inline kolfsein_answer read(Read call, const tables::Bytes &table) { return call(table.data(), table.size()); }

inline kolfsein_answer build(Build call, const Table &table, Numbers &diagram) {
    return call(table.bytes.data(), table.bytes.size(), diagram.data(), diagram.size());
}

inline timing::Candidate building(Build call, const Table &table, Numbers &diagram) {
    return {[call, &table, &diagram] { sink += build(call, table, diagram).count; }, 1, {}};
}

// The diagram of a table, by the quickest of the plain builders; empty where it does not fit.
inline Numbers diagram_of(const Table &table) {
    Numbers diagram(KOLFSEIN_MOST_PLACES);
    diagram.resize(build(plain::build_by_sets, table, diagram).count);
    return diagram;
}
