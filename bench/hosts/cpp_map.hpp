// A map in C++ from 64-bit keys to 64-bit values, whatever it is made of, for any threads at once.
#pragma once
#include <cstdint>

struct cpp_map {
    virtual ~cpp_map() = default;
    // Whether the key is present: then it has this value.
    virtual bool find(std::uint64_t key, std::uint64_t &value) = 0;
    // Whether the key was absent. A key that is present keeps its value.
    virtual bool insert(std::uint64_t key, std::uint64_t value) = 0;
    // Whether the key was present.
    virtual bool erase(std::uint64_t key) = 0;
};
