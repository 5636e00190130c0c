/* Threads of C++ over one elltree::map, which another thread renews all the time, and each member of the class. Ranges are those of a std::map,
   and beside changes of other keys, and so are the members and iterators that a std::map has too. */
#include "elltree_map.hpp"
#include <algorithm>
#include <atomic>
#include <cstdio>
#include <map>
#include <thread>
#include <type_traits>

#ifndef OPS
#define OPS 40000
#endif

static long wrong;

static void expect(bool is_so, const char *what) {
    if (!is_so)
        std::printf("not so: %s\n", what);
    wrong += !is_so;
}
#define EXPECT(it) expect(it, #it)

static elltree::map few_cards() {
    elltree_map_settings settings = ELLTREE_MAP_SETTINGS;
    settings.cards = 2000;
    return elltree::map({{0, 0}, {1, 0}}, settings);
}

/* Stands for no value. */
static const uint64_t NONE = UINT64_MAX;

/* Keys of its own beside a std::map, and two shared counters. */
static long work(elltree::map &map, uint64_t number, uint64_t threads) {
    std::map<uint64_t, uint64_t> own;
    uint64_t seed = 88172645463325252u + number * 7919;
    long differ = 0;
    for (uint64_t i = 0; i < OPS / threads; i++) {
        seed ^= seed << 13, seed ^= seed >> 7, seed ^= seed << 17;
        const uint64_t key = 100 + (seed >> 20) % 50 * threads + number;
        const auto at = own.find(key);
        const uint64_t there = at == own.end() ? NONE : at->second;
        switch (seed >> 40 & 3) {
        case 0:
            differ += map.put(key, i).value_or(NONE) != there;
            own[key] = i;
            break;
        case 1:
            differ += map.insert(key, i) != (there == NONE);
            own.emplace(key, i);
            break;
        case 2:
            differ += map.erase(key) == (there == NONE);
            own.erase(key);
            break;
        default:
            differ += map.get(key).value_or(NONE) != there;
        }
        map.fetch_add(0, 1);
        map.update(1, [](uint64_t value) { return value + 2; });
    }
    for (const auto &pair : own)
        differ += map.remove(pair.first) != pair.second;
    return differ;
}

static void share(uint64_t count) {
    elltree::map map = few_cards();
    std::vector<std::thread> threads;
    std::vector<long> differ(count * 16);
    for (uint64_t number = 0; number < count; number++)
        threads.emplace_back([&, number] { differ[number * 16] = work(map, number, count); });
    std::atomic<bool> done = false;
    std::thread renewing([&] {
        do
            map.renew();
        while (!done);
    });
    for (auto &thread : threads)
        thread.join();
    done = true;
    renewing.join();
    for (const long it : differ)
        wrong += it;
    EXPECT(map.get(0) == OPS / count * count && map.get(1) == 2 * (OPS / count * count));
    EXPECT(map.size() == 2 && map.pairs().size() == 2 && map.counts().renewals > 0);
    std::printf("%llu threads, %llu renewals\n", static_cast<unsigned long long>(count), static_cast<unsigned long long>(map.counts().renewals));
}

template <class F> static int32_t code_of(F f) {
    try {
        f();
    } catch (const elltree::refused &why) {
        return why.code();
    }
    return ELLTREE_YES;
}

static void members() {
    elltree::map map, other;
    uint64_t value = 1, sum = 0;
    EXPECT(map.empty() && !map.first() && map.insert(2, 20) && !map.insert(2, 21) && map.contains(2));
    EXPECT(map.compare_exchange(2, value, 22) == elltree::exchanged::other_value && value == 20);
    EXPECT(map.compare_exchange(2, value, 22) == elltree::exchanged::yes && map.compare_exchange(3, value, 1) == elltree::exchanged::absent);
    EXPECT(map.put(4, 40) == std::nullopt && map.put(4, 41) == 41 - 1 && map.fetch_add(5, 1) == std::nullopt);
    EXPECT(map.update(4, [&](uint64_t was) { return was + *map.get(2); }) == 41u && map.get(4) == 63u &&
           !map.update(5, [](uint64_t was) { return was; }));
    EXPECT(map.first()->key == 2 && map.last()->value == 63 && map.next_after(2)->key == 4 && map.last_before(4)->key == 2 && !map.next_at_least(5));
    map.for_each(0, UINT64_MAX, [&](uint64_t key, uint64_t of_key) { sum += key * of_key; });
    EXPECT(sum == 2 * 22 + 4 * 63);
    other = std::move(map);
    EXPECT(other.size() == 2 && other.remove(2) == 22u && !other.remove(2) && other.erase(4) && other.empty());
    EXPECT(code_of([&] { other.put(ELLTREE_KEY_MAX + 1, 0); }) == ELLTREE_BAD_KEY);
    const std::vector<elltree_pair> wrong_order{{2, 0}, {1, 0}};
    EXPECT(code_of([&] { elltree::map not_made(wrong_order); }) == ELLTREE_BAD_START);
    other.renew();
    EXPECT(std::string(elltree::refused(ELLTREE_NO_MEMORY).what()) == "out of memory");
}

/* A function that update calls may throw, and may change the key itself, after which it is called again. */
static void updates() {
    auto map = elltree::map::from_sorted({{1, 10}});
    int calls = 0;
    bool is_thrown = false;
    try {
        map.update(1, [](uint64_t) -> uint64_t { throw std::runtime_error("no"); });
    } catch (const std::runtime_error &) {
        is_thrown = true;
    }
    EXPECT(is_thrown && map.get(1) == 10u);
    EXPECT(map.update(1, [&](uint64_t was) { return calls++ || !map.put(1, 20) ? was + 1 : was; }) == 20u && map.get(1) == 21u && calls == 2);
    EXPECT(!map.update(1, [&](uint64_t) { return map.erase(1) ? 1u : 0u; }) && !map.get(1));
}

static void moves() {
    static_assert(std::is_nothrow_move_constructible_v<elltree::map> && std::is_nothrow_move_assignable_v<elltree::map>);
    static_assert(!std::is_copy_constructible_v<elltree::map> && !std::is_copy_assignable_v<elltree::map>);
    auto one = elltree::map::from_sorted({{1, 10}}), other = elltree::map::from_sorted({{2, 20}});
    swap(one, other);
    EXPECT(one.get(2) == 20u && other.get(1) == 10u);
    one = std::move(other);
    EXPECT(one.get(1) == 10u && one.size() == 1 && !other.native_handle() && code_of([&] { other.get(1); }) == ELLTREE_NULL);
    elltree::map &same = one;
    one = std::move(same);
    EXPECT(elltree_map_put(one.native_handle(), 3, 30, nullptr) == ELLTREE_NO && one.get(3) == 30u);
    other = elltree::map();
    EXPECT(other.empty() && other.insert(2, 20) && one.size() == 2);
}

static void composed() {
    elltree::map map;
    EXPECT(map.get_or_insert(2, 20) == std::make_pair(uint64_t(20), true) && map.get_or_insert(2, 21) == std::make_pair(uint64_t(20), false));
    map.extend({{1, 10}, {3, 30}});
    map.extend(std::map<uint64_t, uint64_t>{{4, 40}, {2, 22}});
    map.extend(std::vector<std::pair<uint64_t, uint64_t>>{{5, 50}});
    EXPECT(map.pop_first()->key == 1 && map.pop_last()->value == 50 && map.size() == 3 && map.get(2) == 22u);
    uint64_t expected = 21;
    EXPECT(map.remove_if(2, expected) == elltree::exchanged::other_value && expected == 22);
    EXPECT(map.remove_if(2, expected) == elltree::exchanged::yes && map.remove_if(2, expected) == elltree::exchanged::absent && expected == 22);
    map.clear();
    EXPECT(map.empty() && !map.pop_first() && !map.pop_last() && map.begin() == map.end());
    EXPECT(elltree::map::from_sorted({{1, 10}, {2, 20}}).size() == 2 && code_of([] {
                                                                            (void)elltree::map::from_sorted({{2, 0}, {2, 0}});
                                                                        }) == ELLTREE_BAD_START);
}

/* Keys that are too great are absent, and refused by calls that change keys. */
static void too_great() {
    for (const uint64_t key : {ELLTREE_KEY_MAX + 1, UINT64_MAX}) {
        auto map = elltree::map::from_sorted({{1, 10}, {ELLTREE_KEY_MAX, 60}});
        EXPECT(!map.get(key) && !map.contains(key) && !map.next_at_least(key) && !map.next_after(key) && map.last_before(key)->value == 60);
        EXPECT(map.range(key).begin() == map.end());
        EXPECT(code_of([&] { map.insert(key, 0); }) == ELLTREE_BAD_KEY && code_of([&] { map.get_or_insert(key, 0); }) == ELLTREE_BAD_KEY);
        uint64_t expected = 0;
        EXPECT(code_of([&] { map.remove_if(key, expected); }) == ELLTREE_BAD_KEY);
        EXPECT(code_of([&] { map.remove(key); }) == ELLTREE_BAD_KEY && code_of([&] { map.erase(key); }) == ELLTREE_BAD_KEY);
        EXPECT(code_of([&] { map.update(key, [](uint64_t was) { return was; }); }) == ELLTREE_BAD_KEY && map.size() == 2);
    }
}

/* Ranges of each length, from each key, show what a plain map has. */
static void ranges() {
    std::map<uint64_t, uint64_t> plain;
    elltree::map map;
    for (uint64_t key = 0; key < 1000; key += 5) {
        plain[key] = key * 3;
        map.insert(key, key * 3);
    }
    const auto is_pair = [](const elltree_pair &one, const auto &other) { return one.key == other.first && one.value == other.second; };
    for (uint64_t from = 0; from < 1010; from += 7)
        for (uint64_t upto = 0; upto < 1010; upto += 13) {
            const auto range = map.range(from, upto);
            const auto first = plain.lower_bound(from), last = plain.lower_bound(std::max(from, upto));
            if (!std::equal(range.begin(), range.end(), first, last, is_pair) ||
                std::distance(range.begin(), range.end()) != std::distance(first, last))
                wrong++;
        }
    EXPECT(std::equal(map.begin(), map.end(), plain.begin(), plain.end(), is_pair));
    auto at = map.range(11).begin();
    EXPECT(at->key == 15 && (at++)->key == 15 && at->key == 20 && (*++at).value == 75);
    for (auto [key, value] : map) /* the loop may change the map */
        EXPECT(map.erase(key) && value == key * 3);
    EXPECT(map.empty());
}

/* A list in braces may be in any order, and have a key twice, of which a std::map keeps the first. */
static void lists() {
    const elltree::map map{{3, 30}, {1, 10}, {2, 20}, {3, 31}};
    const std::map<uint64_t, uint64_t> plain{{3, 30}, {1, 10}, {2, 20}, {3, 31}};
    EXPECT(std::map(map.begin(), map.end()) == plain && map.size() == plain.size());
    elltree::map other = {{7, 70}};
    EXPECT(other.size() == 1 && other.at(7) == 70);
    other = {{8, 80}, {9, 90}};
    EXPECT(other.size() == 2 && !other.contains(7) && elltree::map{}.empty());
    elltree_map_settings settings = ELLTREE_MAP_SETTINGS;
    settings.cards = 500;
    EXPECT(elltree::map({{2, 20}, {1, 10}}, settings).at(1) == 10);
    EXPECT(code_of([] { elltree::map too_great{{1, 10}, {ELLTREE_KEY_MAX + 1, 0}}; }) == ELLTREE_BAD_KEY);
}

/* Whether an iterator, and those that ++ makes of it, are at the pairs of another. */
static bool is_alike(elltree::map::const_iterator it, const elltree::map &map, std::map<uint64_t, uint64_t>::const_iterator at,
                     const std::map<uint64_t, uint64_t> &plain) {
    while (it != map.end() && at != plain.end() && it->first == at->first && it->second == at->second)
        ++it, ++at;
    return it == map.end() && at == plain.end();
}

/* Members that a std::map has too answer as its do. */
static void as_of_a_std_map() {
    std::map<uint64_t, uint64_t> plain;
    elltree::map map;
    EXPECT(is_alike(map.find(0), map, plain.find(0), plain) && is_alike(map.lower_bound(0), map, plain.lower_bound(0), plain));
    for (uint64_t i = 0; i < 300; i++) {
        const uint64_t key = i * 37 % 101 * 3;
        EXPECT(map.insert_or_assign(key, i) == plain.insert_or_assign(key, i).second);
    }
    for (uint64_t key = 0; key < 310; key++) {
        EXPECT(map.count(key) == plain.count(key) && is_alike(map.find(key), map, plain.find(key), plain));
        EXPECT(is_alike(map.lower_bound(key), map, plain.lower_bound(key), plain));
        EXPECT(is_alike(map.upper_bound(key), map, plain.upper_bound(key), plain));
        bool is_absent = false;
        try {
            EXPECT(map.at(key) == plain.at(key));
        } catch (const std::out_of_range &) {
            is_absent = true;
        }
        EXPECT(is_absent == (plain.count(key) == 0));
    }
}

/* An iterator has a copy of its pair, and ++ reads the next pair as it is then, also where the iterator's own key is gone. */
static void positions() {
    elltree::map map{{1, 10}, {2, 20}, {3, 30}, {4, 40}, {5, 50}};
    auto at = map.find(1);
    map.put(1, 11), map.put(2, 21), map.erase(3), map.erase(1), map.put(5, 51);
    EXPECT(at->first == 1 && at->second == 10 && *at == std::make_pair(uint64_t(1), uint64_t(10)) && at == at);
    EXPECT((++at)->second == 21 && (at++)->key == 2 && at->first == 4 && at != map.find(2) && at == map.lower_bound(3) && at == map.upper_bound(2));
    map.put(6, 60);
    EXPECT((++at)->value == 51 && (++at)->second == 60 && ++at == map.end() && map.find(3) == map.end());
    if (auto it = map.find(4); it != map.end())
        map.put(it->first, it->second + 1);
    uint64_t sum = 0;
    for (auto it = map.lower_bound(4); it != map.end(); ++it)
        sum += it->second;
    for (const auto &pair : map)
        sum -= pair.second;
    const auto [key, value] = *map.find(4);
    EXPECT(sum == UINT64_MAX - 21 + 1 && key == 4 && value == 41 && map.contains(4));
    const std::vector<elltree_pair> in_c(map.begin(), map.end());
    EXPECT(in_c.size() == 4 && in_c.back().key == 6 && in_c.back().value == 60);
    for (const uint64_t great : {ELLTREE_KEY_MAX, ELLTREE_KEY_MAX + 1, UINT64_MAX})
        EXPECT(map.find(great) == map.end() && map.lower_bound(great) == map.end() && map.upper_bound(great) == map.end() && !map.count(great));
    map.put(ELLTREE_KEY_MAX, 7);
    EXPECT(map.lower_bound(7)->second == 7 && map.upper_bound(ELLTREE_KEY_MAX - 1)->second == 7 && map.upper_bound(ELLTREE_KEY_MAX) == map.end());
    EXPECT(map.find(ELLTREE_KEY_MAX)->first == ELLTREE_KEY_MAX && ++map.find(ELLTREE_KEY_MAX) == map.end());
    const elltree::map moved(std::move(map));
    EXPECT(code_of([&] { map.find(4); }) == ELLTREE_NULL && code_of([&] { map.lower_bound(4); }) == ELLTREE_NULL && moved.at(4) == 41);
}

/* Loops over all pairs beside a thread that changes every other key: the others are all shown, in order. */
static void range_beside_changes() {
    elltree::map map = few_cards();
    std::atomic<bool> done = false;
    for (uint64_t key = 0; key < 2000; key++)
        map.put(key, key);
    std::thread other([&] {
        for (uint64_t i = 0; i < OPS; i++)
            i % 4 < 2 ? (void)map.erase(i * 7 % 1000 * 2 + 1) : (void)map.put(i * 7 % 1000 * 2 + 1, i);
        done = true;
    });
    do {
        uint64_t steady = 0, last = 0;
        const auto look = [&](uint64_t key, uint64_t value) {
            wrong += steady && key <= last;
            steady += key % 2 == 0 && value == key;
            last = key;
        };
        for (auto [key, value] : map)
            look(key, value);
        EXPECT(steady == 1000);
        steady = 0;
        for (auto it = map.lower_bound(500); it != map.end(); ++it)
            look(it->first, it->second);
        EXPECT(steady == 750);
    } while (!done);
    other.join();
}

/* What docs/MAP.md shows. */
static void shown() {
    elltree::map map{{1, 10}, {2, 20}, {5, 50}};
    if (auto it = map.find(5); it != map.end())
        map.put(it->first, it->second + 1);
    auto [there, is_new] = map.get_or_insert(7, 70);
    for (auto [key, value] : map.range(2, 6)) // 2 is in it, and 6 is not
        map.put(key, value + 1);
    while (auto pair = map.pop_first())
        std::printf("%ju: %ju\n", uintmax_t(pair->key), uintmax_t(pair->value));
    EXPECT(there == 70 && is_new && map.empty());
}

int main() {
    members();
    updates();
    moves();
    shown();
    composed();
    too_great();
    ranges();
    lists();
    as_of_a_std_map();
    positions();
    range_beside_changes();
    share(4);
    share(32);
    std::printf("%ld wrong\n", wrong);
    return wrong != 0;
}
