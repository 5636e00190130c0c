// The map of TBB of which keys may be erased while other threads use it. It is a hash map, so its keys have no order.
#include <oneapi/tbb/concurrent_hash_map.h>

#include "cpp_map.hpp"

namespace {

using Map = oneapi::tbb::concurrent_hash_map<std::uint64_t, std::uint64_t>;

class Hash final : public cpp_map {
    Map map;

    bool find(std::uint64_t key, std::uint64_t &value) override {
        Map::const_accessor found;
        if (!map.find(found, key))
            return false;
        value = found->second;
        return true;
    }
    bool insert(std::uint64_t key, std::uint64_t value) override { return map.insert({key, value}); }
    bool erase(std::uint64_t key) override { return map.erase(key); }
};

} // namespace

// A new map without keys.
extern "C" cpp_map *tbb_hash() noexcept { return new Hash; }
