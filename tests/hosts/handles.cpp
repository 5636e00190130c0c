// Each member of elltree::handle: what it answers, what it throws, and what a handle is after a move and a refusal.
#include "elltree.hpp"
#include <cstdio>
#include <string>
#include <type_traits>
#include <vector>

using elltree::exchanged;
using elltree::handle;

static_assert(sizeof(handle) == 128 && alignof(handle) == 128, "a handle has cache lines of its own");
static_assert(!std::is_copy_constructible_v<handle> && !std::is_copy_assignable_v<handle>, "a handle is not copied");
static_assert(std::is_nothrow_move_constructible_v<handle> && std::is_nothrow_move_assignable_v<handle> && std::is_nothrow_swappable_v<handle>);

namespace {

long wrong;

void expect(bool is_so, const char *what) {
    if (!is_so)
        std::printf("not so: %s\n", what);
    wrong += !is_so;
}
#define EXPECT(it) expect(it, #it)

template <class F> std::int32_t code_of(F f) {
    try {
        static_cast<void>(f());
    } catch (const elltree::refused &why) {
        return why.code();
    }
    return ELLTREE_YES;
}

// The keys of pairs, in a text.
std::string keys_of(const std::vector<elltree_pair> &pairs) {
    std::string all;
    for (const auto &pair : pairs)
        all += std::to_string(pair.key) + " ";
    return all;
}

void keys_and_values() {
    auto it = handle::open({{2, 20}, {4, 40}}, 1000);
    std::uint64_t value = 1;
    EXPECT(it.find(2) == 20u && !it.find(3) && it.look(4) == 40u && !it.look(ELLTREE_KEY_MAX));
    EXPECT(it.insert(3, 30) && !it.insert(3, 31) && it.find(3) == 30u && it.erase(3) && !it.erase(3));
    EXPECT(it.take(4) == 40u && !it.take(4));
    EXPECT(it.compare_exchange(2, value, 22) == exchanged::other_value && value == 20);
    EXPECT(it.compare_exchange(2, value, 22) == exchanged::yes && it.compare_exchange(3, value, 1) == exchanged::absent && value == 20);
    EXPECT(!it.put(6, 60) && it.put(6, 61) == 60u && it.fetch_add(6, 2) == 61u && it.fetch_add(6, UINT64_MAX) == 63u && !it.fetch_add(7, 1));
    EXPECT(it.find(6) == 62u && !it.find(7) && !it.find(UINT64_MAX));
    EXPECT(it.remove_if(6, value) == exchanged::other_value && value == 62 && it.remove_if(6, value) == exchanged::yes && !it.find(6));
    EXPECT(it.remove_if(6, value) == exchanged::absent && it.steps() > 0 && it.cards_left() < 1000);
}

void ranges() {
    std::vector<elltree_pair> start;
    for (std::uint64_t key = 0; key < 200; key++)
        start.push_back({2 * key, key});
    auto it = handle::open(start, 9);
    std::uint64_t count = 0, sum = 0;
    EXPECT(it.range().size() == 200 && it.range(1).size() == 199 && it.range()[199].value == 199);
    EXPECT(keys_of(it.range(10, 16)) == "10 12 14 " && it.range(9, 9).empty() && it.range(9, 3).empty());
    it.for_each(100, UINT64_MAX, [&](std::uint64_t key, std::uint64_t value) { sum += *it.find(key) - value, count++; });
    EXPECT(count == 150 && sum == 0);
    EXPECT(it.next_at_least(0)->key == 0 && it.next_at_least(3)->key == 4 && !it.next_at_least(399) && !it.next_at_least(UINT64_MAX));
    EXPECT(it.last_at_most(5)->key == 4 && it.last_at_most(UINT64_MAX)->value == 199 && it.erase(0) && !it.last_at_most(1));
}

void moves() {
    auto one = handle::open({}, 10);
    const handle *at = &one;
    handle other = std::move(one);
    EXPECT(!one && other && code_of([&] { one.find(1); }) == ELLTREE_CLOSED && other.insert(1, 10));
    one = handle::open({{2, 20}}, 10);
    swap(one, other);
    EXPECT(one.find(1) == 10u && other.find(2) == 20u && at == &one);
    one = std::move(other);
    EXPECT(!other && one.find(2) == 20u);
    handle &same = one;
    one = std::move(same);
    EXPECT(one.find(2) == 20u);
    other = one.another();
    one.reset();
    one.reset();
    EXPECT(!one && !handle() && other.find(2) == 20u && code_of([&] { return one.another(); }) == ELLTREE_CLOSED);
    EXPECT(elltree_insert(other.native_handle(), 3, 30, 9) == ELLTREE_YES && other.find(3) == 30u);
}

void refusals() {
    auto it = handle::open({{2, 20}}, 1), reader = it.another();
    std::uint64_t value = 7;
    EXPECT(code_of([] { return handle::open({}, 0); }) == ELLTREE_BAD_CARDS && code_of([] {
                                                                                   return handle::open({{UINT64_MAX, 0}}, 1);
                                                                               }) == ELLTREE_BAD_KEY);
    EXPECT(code_of([] { return handle::open({{2, 0}, {1, 0}}, 1); }) == ELLTREE_BAD_START);
    EXPECT(code_of([&] { it.insert(1, 1, 0); }) == ELLTREE_NO_TRIES && code_of([&] { it.insert(UINT64_MAX, 1); }) == ELLTREE_BAD_KEY);
    EXPECT(code_of([&] { it.take(UINT64_MAX); }) == ELLTREE_BAD_KEY && !it.find(UINT64_MAX) && !it.look(UINT64_MAX));
    EXPECT(it.insert(1, 10) && code_of([&] { it.erase(2); }) == ELLTREE_SPENT && code_of([&] { reader.put(3, 30); }) == ELLTREE_SPENT);
    EXPECT(code_of([&] { return it.compare_exchange(2, value, 8) == exchanged::other_value; }) == ELLTREE_YES && value == 20);
    EXPECT(code_of([&] { return it.compare_exchange(2, value, 8); }) == ELLTREE_SPENT && it.cards_left() == 0 && keys_of(reader.range()) == "1 2 ");
    EXPECT(std::string(elltree::refused(ELLTREE_BUSY).what()) == "something was in the way of each try");
}

} // namespace

int main() {
    keys_and_values();
    ranges();
    moves();
    refusals();
    std::printf("%ld wrong\n", wrong);
    return wrong != 0;
}
