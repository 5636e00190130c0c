// The calls in C by which a program in Rust uses a map in C++ of any kind.
#include "cpp_map.hpp"

extern "C" {

void cpp_map_free(cpp_map *map) noexcept { delete map; }

// Whether the key is present: then it has this value.
bool cpp_map_find(cpp_map *map, std::uint64_t key, std::uint64_t *value) noexcept { return map->find(key, *value); }

// Whether the key was absent. A key that is present keeps its value.
bool cpp_map_insert(cpp_map *map, std::uint64_t key, std::uint64_t value) noexcept { return map->insert(key, value); }

// Whether the key was present.
bool cpp_map_delete(cpp_map *map, std::uint64_t key) noexcept { return map->erase(key); }
}
