// Nanoseconds of an act: each is the least of all rounds.
#ifndef MEASURE_H
#define MEASURE_H

#include <algorithm>
#include <chrono>
#include <functional>

struct Measurement {
    std::function<bool()> act; // says whether it was done
    unsigned repeats;
    double best; // nanoseconds

    explicit Measurement(std::function<bool()> act) : act(act), repeats(1), best(1e18) {}

    double once()
    {
        auto begin = std::chrono::steady_clock::now();
        for (unsigned i = 0; i < repeats; i++)
            act();
        std::chrono::duration<double, std::nano> taken = std::chrono::steady_clock::now() - begin;
        return taken.count() / repeats;
    }

    // Sees that it is done, and finds how many of it take about a tenth of a millisecond.
    bool prepare()
    {
        if (!act())
            return false;
        double first = once();
        repeats = first > 100e3 ? 1 : static_cast<unsigned>(100e3 / first);
        return true;
    }

    void measure() { best = std::min(best, once()); }
};

#endif
