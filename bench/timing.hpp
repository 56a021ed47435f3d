// How long a call takes: the least of several rounds, in which the calls that are compared take turns. Time is that of
// the processor in this program, so that waiting for others is not counted.
#pragma once

#include <algorithm>
#include <cstddef>
#include <ctime>
#include <functional>
#include <vector>

namespace timing {

// One of the calls that are compared.
struct Candidate {
    std::function<void()> batch;         // some calls with inputs made beforehand
    size_t calls = 1;                    // how many they are
    std::function<void()> prepare = {};  // before each batch, not timed
};

// Seconds that this program has run.
inline double now() {
    timespec time;
    clock_gettime(CLOCK_PROCESS_CPUTIME_ID, &time);
    return static_cast<double>(time.tv_sec) + 1e-9 * static_cast<double>(time.tv_nsec);
}

// The seconds of a batch, on average over some of them.
inline double average(const Candidate &candidate, size_t batches) {
    double taken = 0;
    if (candidate.prepare) {
        for (size_t i = 0; i < batches; ++i) {
            candidate.prepare();
            const double start = now();
            candidate.batch();
            taken += now() - start;
        }
    } else {
        const double start = now();
        for (size_t i = 0; i < batches; ++i) {
            candidate.batch();
        }
        taken = now() - start;
    }
    return taken / static_cast<double>(batches);
}

// Nanoseconds per call of each. A first batch warms up, a second says how many make a round of 0.05 s; there are 20
// rounds, so that a second is measured in all. What takes over a second is measured once.
inline std::vector<double> nanoseconds(const std::vector<Candidate> &candidates) {
    constexpr double ROUND = 0.05;
    constexpr int ROUNDS = 20;
    std::vector<double> least;
    std::vector<size_t> batches;
    for (const Candidate &candidate : candidates) {
        double taken = average(candidate, 1);
        size_t count = 0;
        if (taken <= 1) {
            const double start = now();
            taken = average(candidate, 1);
            count = static_cast<size_t>(ROUND / (now() - start)) + 1;
        }
        least.push_back(taken);
        batches.push_back(count);
    }
    for (int round = 0; round < ROUNDS; ++round) {
        for (size_t i = 0; i < candidates.size(); ++i) {
            if (batches[i] > 0) {
                least[i] = std::min(least[i], average(candidates[i], batches[i]));
            }
        }
    }
    for (size_t i = 0; i < candidates.size(); ++i) {
        least[i] *= 1e9 / static_cast<double>(candidates[i].calls);
    }
    return least;
}

}  // namespace timing
