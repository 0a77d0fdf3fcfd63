// Random numbers that are a function of their seed.
#pragma once
#include <cstdint>
#include <random>

struct Dice {
    std::mt19937_64 engine;
    explicit Dice(uint64_t seed) : engine(seed * 0x9e3779b97f4a7c15u + 1) {}
    int roll(int low, int high) { return low + int(engine() % uint64_t(high - low + 1)); }
    bool chance(int percent) { return roll(1, 100) <= percent; }
};
