// Maps of libcds: the same kind of tree, EllenBinTreeMap, with hazard pointers or with a buffered RCU; and an AVL tree, BronsonAVLTreeMap,
// and a skip list, SkipListMap, both with that RCU. A thread that calls is attached to libcds until it ends.
#include <cds/init.h>
// The headers of the maps come after those of the ways to reclaim.
#include <cds/gc/hp.h>
#include <cds/urcu/general_buffered.h>

#include <cds/container/bronson_avltree_map_rcu.h>
#include <cds/container/ellen_bintree_map_hp.h>
#include <cds/container/ellen_bintree_map_rcu.h>
#include <cds/container/skip_list_map_rcu.h>
#include <functional>

#include "cpp_map.hpp"

namespace {

template <class Traits> struct Ascending : Traits { using less = std::less<std::uint64_t>; };
using Hazards = cds::gc::HP;
using Rcu = cds::urcu::gc<cds::urcu::general_buffered<>>;
template <class Reclaim>
using Ellen = cds::container::EllenBinTreeMap<Reclaim, std::uint64_t, std::uint64_t, Ascending<cds::container::ellen_bintree::traits>>;
using Avl = cds::container::BronsonAVLTreeMap<Rcu, std::uint64_t, std::uint64_t, Ascending<cds::container::bronson_avltree::traits>>;
using SkipList = cds::container::SkipListMap<Rcu, std::uint64_t, std::uint64_t, Ascending<cds::container::skip_list::traits>>;

// libcds is started before its other parts, and stays until the program ends.
struct Started {
    Started() { cds::Initialize(); }
    ~Started() { cds::Terminate(); }
};
struct Library {
    Started started;
    Hazards hazards{Ellen<Hazards>::c_nHazardPtrCount};
    Rcu rcu;
};
Library library;

struct Attached {
    Attached() { cds::threading::Manager::attachThread(); }
    ~Attached() { cds::threading::Manager::detachThread(); }
};

void attach() { static thread_local Attached attached; }

// Copies the value that a find has found: most maps tell it in a pair, and the AVL tree beside the key.
struct Copy {
    std::uint64_t &value;

    template <class Pair> void operator()(const Pair &pair) const { value = pair.second; }
    void operator()(std::uint64_t, std::uint64_t found) const { value = found; }
};

template <class Map> class Held final : public cpp_map {
    Map map;

    bool find(std::uint64_t key, std::uint64_t &value) override {
        attach();
        return map.find(key, Copy{value});
    }
    bool insert(std::uint64_t key, std::uint64_t value) override {
        attach();
        return map.insert(key, value);
    }
    bool erase(std::uint64_t key) override {
        attach();
        return map.erase(key);
    }

public:
    ~Held() override { attach(); }
};

template <class Map> cpp_map *held() {
    attach();
    return new Held<Map>;
}

} // namespace

extern "C" {

// New maps without keys.
cpp_map *libcds_ellen_hp() noexcept { return held<Ellen<Hazards>>(); }

cpp_map *libcds_ellen_rcu() noexcept { return held<Ellen<Rcu>>(); }

cpp_map *libcds_avl() noexcept { return held<Avl>(); }

cpp_map *libcds_skip_list() noexcept { return held<SkipList>(); }
}
