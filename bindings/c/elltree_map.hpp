/* elltree::map: elltree_map.h as a class, for C++17. Any thread may call any member at any time, except the destructor, a move and swap. A refusal
   is thrown as elltree::refused, and refused memory as std::bad_alloc.

       elltree::map map{{1, 10}, {2, 20}}; // or empty
       .. any thread, at any time ..
       map.insert(7, 70);
       if (auto value = map.get(7))
           .. *value ..
       for (auto [key, value] : map.range(5, 10))
           .. 5 is in the range, and 10 is not ..

   A call that reads finds no key above ELLTREE_KEY_MAX, and one that changes keys refuses such a key with ELLTREE_BAD_KEY. elltree_map.h says more
   about each call, under the same name, except that erase is elltree_map_delete there, size elltree_map_len, and empty elltree_map_is_empty. find, at,
   count, lower_bound, upper_bound and insert_or_assign are for programs that have a std::map so far: their comments say how they differ from its. */
#ifndef ELLTREE_MAP_HPP
#define ELLTREE_MAP_HPP
#if __cplusplus < 201703L
#error "elltree_map.hpp needs C++17 or later: compile with -std=c++17"
#endif
#include "elltree_map.h"
#include <algorithm>
#include <array>
#include <cstddef>
#include <initializer_list>
#include <iterator>
#include <new>
#include <optional>
#include <stdexcept>
#include <string>
#include <utility>
#include <vector>

namespace elltree {

/* A pair that an iterator shows. Its key is first, as in a std::map, and key, as in an elltree_pair; its value is second and value. It is a copy,
   so what is assigned to it changes no map. */
struct entry : std::pair<uint64_t, uint64_t> {
    entry(const elltree_pair &it = {0, 0}) noexcept : std::pair<uint64_t, uint64_t>(it.key, it.value), key(it.key), value(it.value) {}
    operator elltree_pair() const noexcept { return {key, value}; }

    uint64_t key, value;
};

} // namespace elltree

/* An entry can be taken apart as a pair: auto [key, value] = *it. */
template <> struct std::tuple_size<elltree::entry> : std::tuple_size<std::pair<uint64_t, uint64_t>> {};
template <std::size_t at> struct std::tuple_element<at, elltree::entry> : std::tuple_element<at, std::pair<uint64_t, uint64_t>> {};

namespace elltree {

/* Says why a call was refused: code() is one of the negative codes of elltree_map.h, and what() is its text. */
class refused : public std::runtime_error {
public:
    explicit refused(int32_t code) : std::runtime_error(text(code)), code_(code) {}
    int32_t code() const noexcept { return code_; }

private:
    static std::string text(int32_t code) {
        char out[ELLTREE_TEXT_ROOM];
        return elltree_text(code, out, sizeof out);
    }
    int32_t code_;
};

/* What a compare_exchange or a remove_if did: it has changed the key, or found another value, or found the key absent. */
enum class exchanged { yes, other_value, absent };

namespace detail {

/* Returns whether a code is yes, and throws a refusal. */
inline bool is_yes(int32_t code) {
    if (code == ELLTREE_NO_MEMORY)
        throw std::bad_alloc();
    if (code < 0)
        throw refused(code);
    return code == ELLTREE_YES;
}

/* Returns the value that a call has written, if its code is yes. */
inline std::optional<uint64_t> told(int32_t code, const uint64_t &value) { return is_yes(code) ? std::optional<uint64_t>(value) : std::nullopt; }

/* Returns what an exchange did. */
inline exchanged exchanged_by(int32_t code) {
    if (code == ELLTREE_OTHER_VALUE)
        return exchanged::other_value;
    return is_yes(code) ? exchanged::yes : exchanged::absent;
}

} // namespace detail

class map {
public:
    /* Goes over pairs in the ascending order of their keys, in one pass, and has a copy of the pair at which it is. An iterator of begin() or of a
       range fetches some pairs at a time: each one was there at one moment since the iterator was made. One of find, lower_bound or upper_bound
       reads a pair when it comes to it. Other threads may change the map meanwhile, and so may the loop. An iterator must not outlive its map. */
    class const_iterator {
    public:
        using iterator_category = std::input_iterator_tag;
        using value_type = entry;
        using difference_type = std::ptrdiff_t;
        using pointer = const entry *;
        using reference = const entry &;

        /* Makes an iterator at the end of all ranges. */
        const_iterator() noexcept = default;

        reference operator*() const noexcept { return here_; }
        pointer operator->() const noexcept { return &here_; }
        const_iterator &operator++() {
            if (++at_ == count_)
                fetch();
            here_ = found_[at_];
            return *this;
        }
        const_iterator operator++(int) {
            const_iterator was = *this;
            ++*this;
            return was;
        }
        friend bool operator==(const const_iterator &one, const const_iterator &other) noexcept {
            return one.is_at_end() || other.is_at_end() ? one.is_at_end() == other.is_at_end() : one->key == other->key;
        }
        friend bool operator!=(const const_iterator &one, const const_iterator &other) noexcept { return !(one == other); }

    private:
        friend class map;
        static constexpr std::size_t one_pair = 1, few_pairs = 4;

        const_iterator(elltree_map *map, uint64_t from, uint64_t upto, std::size_t room) : map_(map), next_(from), upto_(upto), room_(room) {
            fetch();
            here_ = found_[at_];
        }
        /* Makes an iterator at a pair that was read, which goes on one pair at a time. */
        const_iterator(elltree_map *map, const elltree_pair &pair) noexcept
            : map_(map), next_(pair.key + 1), upto_(UINT64_MAX), count_(1), room_(one_pair), here_(pair) {}

        bool is_at_end() const noexcept { return at_ == count_; }
        void fetch() {
            at_ = count_ = 0;
            if (next_ < upto_)
                check(elltree_map_range(map_, next_, upto_, found_.data(), room_, &count_, &next_));
            if (room_ != one_pair)
                room_ = std::min(2 * room_, found_.size());
        }

        elltree_map *map_ = nullptr;
        uint64_t next_ = 0, upto_ = 0;   /* the keys that nobody has asked for yet */
        std::size_t at_ = 0, count_ = 0; /* where the iterator is among the pairs that it has fetched, and how many these are */
        std::size_t room_ = few_pairs;   /* how many it fetches next: few at first, so that a short range is cheap */
        std::array<elltree_pair, 32> found_ = {};
        entry here_;
    };

    /* The pairs of a range of keys. Each begin() goes over them anew. A range must not outlive its map. */
    class key_range {
    public:
        const_iterator begin() const { return {map_, from_, upto_, const_iterator::few_pairs}; }
        const_iterator end() const noexcept { return {}; }

    private:
        friend class map;
        key_range(elltree_map *map, uint64_t from, uint64_t upto) noexcept : map_(map), from_(from), upto_(upto) {}

        elltree_map *map_;
        uint64_t from_, upto_;
    };

    /* Makes an empty map. */
    map() { check(elltree_map_new(&map_)); }

    /* Makes a map with these pairs, whose keys ascend strictly. */
    explicit map(const std::vector<elltree_pair> &pairs, const elltree_map_settings &settings = {}) {
        check(elltree_map_from_sorted(&map_, pairs.data(), pairs.size(), &settings, sizeof settings));
    }

    /* Makes a map with the pairs of a list in braces, in any order. Of pairs with the same key it keeps the first, as a std::map does. */
    map(std::initializer_list<elltree_pair> pairs, const elltree_map_settings &settings = {}) : map(std::vector<elltree_pair>(), settings) {
        for (const auto &pair : pairs)
            insert(pair.key, pair.value);
    }
    [[nodiscard]] static map from_sorted(const std::vector<elltree_pair> &pairs, const elltree_map_settings &settings = {}) {
        return map(pairs, settings);
    }

    /* A map that was moved from may only be destroyed or be given another map: calls on it are refused with ELLTREE_NULL. */
    map(map &&other) noexcept : map_(std::exchange(other.map_, nullptr)) {}
    map &operator=(map &&other) noexcept {
        map(std::move(other)).swap(*this);
        return *this;
    }
    map(const map &) = delete;
    map &operator=(const map &) = delete;
    ~map() { (void)elltree_map_free(map_); }

    void swap(map &other) noexcept { std::swap(map_, other.map_); }

    /* Returns the map as elltree_map.h has it, for calls in C. */
    elltree_map *native_handle() const noexcept { return map_; }

    /* Returns the value of a key, if the key is present. */
    std::optional<uint64_t> get(uint64_t key) const {
        uint64_t value = 0;
        return told(elltree_map_get(map_, key, &value), value);
    }
    bool contains(uint64_t key) const { return get(key).has_value(); }

    /* Returns the value of a key, or 1 if a key is present and else 0, as a std::map does, but at returns a copy and no reference to the value in
       the map. at throws std::out_of_range if the key is absent. */
    uint64_t at(uint64_t key) const {
        const auto value = get(key);
        return value ? *value : throw std::out_of_range("elltree::map::at: the key is absent");
    }
    size_t count(uint64_t key) const { return contains(key); }

    /* Adds a key that is absent, and returns whether it was. A key that is present keeps its value. */
    bool insert(uint64_t key, uint64_t value) { return check(elltree_map_insert(map_, key, value)); }

    /* Stores a value in one atomic step, whether the key is present or absent, and returns the value that it had. */
    std::optional<uint64_t> put(uint64_t key, uint64_t value) {
        uint64_t was = 0;
        return told(elltree_map_put(map_, key, value, &was), was);
    }

    /* Stores a value as put does, and returns whether the key was absent. A std::map returns an iterator too. */
    bool insert_or_assign(uint64_t key, uint64_t value) { return !put(key, value); }

    /* Adds a key if it is absent, in one atomic step. Returns the value that the key has then, and whether it was added. */
    std::pair<uint64_t, bool> get_or_insert(uint64_t key, uint64_t value) {
        uint64_t there = 0;
        const bool is_added = check(elltree_map_get_or_insert(map_, key, value, &there));
        return {there, is_added};
    }

    /* Removes a key and returns the value that it had. No other call removed that value. erase returns whether the key was present. */
    std::optional<uint64_t> remove(uint64_t key) {
        uint64_t was = 0;
        return told(elltree_map_remove(map_, key, &was), was);
    }
    bool erase(uint64_t key) { return check(elltree_map_delete(map_, key)); }

    /* Stores the desired value of a key if its value is the expected one, in one atomic step. If it is another one, it is written to expected. */
    exchanged compare_exchange(uint64_t key, uint64_t &expected, uint64_t desired) {
        return detail::exchanged_by(elltree_map_compare_exchange(map_, key, &expected, desired));
    }

    /* Removes a key if its value is the expected one, in one atomic step. If it is another one, it is written to expected. */
    exchanged remove_if(uint64_t key, uint64_t &expected) { return detail::exchanged_by(elltree_map_remove_if(map_, key, expected, &expected)); }

    /* Adds to the value of a key in one atomic step, and returns the value that it had. An absent key stays absent. */
    std::optional<uint64_t> fetch_add(uint64_t key, uint64_t addend) {
        uint64_t was = 0;
        return told(elltree_map_fetch_add(map_, key, addend, &was), was);
    }

    /* Stores what f makes of the value of a key, in one atomic step, and returns the value that it had. An absent key stays absent. f is called
       again with the new value if another thread has changed it meanwhile. f may call the map, and it may throw, which ends the update. */
    template <class F> std::optional<uint64_t> update(uint64_t key, F f) {
        auto value = key > ELLTREE_KEY_MAX ? throw refused(ELLTREE_BAD_KEY) : get(key);
        auto said = exchanged::other_value;
        while (value && said == exchanged::other_value)
            said = compare_exchange(key, *value, f(std::as_const(*value)));
        return said == exchanged::absent ? std::nullopt : value;
    }

    /* Calls f(key, value) for the keys from one on and below another, in ascending order. This is no snapshot: each key is shown as it was at one
       moment of the call. f may call the map. */
    template <class F> void for_each(uint64_t from, uint64_t upto, F f) const {
        std::array<elltree_pair, 64> out;
        size_t count = 0;
        while (from < upto) {
            check(elltree_map_range(map_, from, upto, out.data(), out.size(), &count, &from));
            for (size_t i = 0; i < count; i++)
                f(out[i].key, out[i].value);
        }
    }

    /* Returns the pairs of the keys from one on and below another, ascending, for a loop: those that for_each shows. Without an end the range goes
       up to the last key. begin() and end() go over all pairs. */
    key_range range(uint64_t from = 0, uint64_t upto = UINT64_MAX) const noexcept { return {map_, from, upto}; }
    const_iterator begin() const { return range().begin(); }
    const_iterator end() const noexcept { return {}; }

    /* Returns an iterator at a key, or at the least key from one on, or above one, or end() if there is none. Unlike those of a std::map, it has a
       copy of the pair, which no other thread changes, and to which nothing can be assigned. ++ goes to the next key that is present then, also if
       its own key was removed meanwhile, and reads its value. A loop over many pairs is faster by range, which reads some at a time. */
    const_iterator find(uint64_t key) const {
        const auto value = get(key);
        return value ? const_iterator(map_, {key, *value}) : end();
    }
    const_iterator lower_bound(uint64_t key) const { return {map_, key, UINT64_MAX, const_iterator::one_pair}; }
    const_iterator upper_bound(uint64_t key) const { return lower_bound(key < ELLTREE_KEY_MAX ? key + 1 : UINT64_MAX); }

    /* Returns the pair of the least key from one on, or above one, or of the greatest key up to one, or below one. */
    std::optional<elltree_pair> next_at_least(uint64_t key) const { return found(elltree_map_next_at_least, key); }
    std::optional<elltree_pair> next_after(uint64_t key) const { return found(elltree_map_next_after, key); }
    std::optional<elltree_pair> last_at_most(uint64_t key) const { return found(elltree_map_last_at_most, key); }
    std::optional<elltree_pair> last_before(uint64_t key) const { return found(elltree_map_last_before, key); }
    std::optional<elltree_pair> first() const { return next_at_least(0); }
    std::optional<elltree_pair> last() const { return last_at_most(ELLTREE_KEY_MAX); }

    /* Removes the least key, or the greatest one, and returns its pair, which no other call removes. Each key that was passed over was absent at
       one moment of the call. */
    std::optional<elltree_pair> pop_first() { return popped(elltree_map_pop_first); }
    std::optional<elltree_pair> pop_last() { return popped(elltree_map_pop_last); }

    /* Returns how many keys are present: exactly, if no change is under way, and otherwise as many as the changes so far make. */
    size_t size() const {
        size_t count = 0;
        check(elltree_map_len(map_, &count));
        return count;
    }
    bool empty() const { return check(elltree_map_is_empty(map_)); }

    /* Stores pairs one after the other, in any order: those of a list in braces, or of a container whose pairs have a key and a value, as a
       std::map has. If one is refused, those before it are stored. */
    template <class Pairs> void extend(const Pairs &pairs) {
        for (const auto &[key, value] : pairs)
            put(key, value);
    }
    void extend(std::initializer_list<elltree_pair> pairs) { extend<std::initializer_list<elltree_pair>>(pairs); }

    /* Removes all keys, one after the other: other threads see some of them gone first. */
    void clear() {
        for (const auto &pair : *this)
            erase(pair.key);
    }

    /* Returns all pairs, ascending, as they are at one moment. Calls that change keys wait meanwhile. */
    std::vector<elltree_pair> pairs() const {
        std::vector<elltree_pair> out;
        size_t count = size();
        int32_t code;
        do {
            out.resize(count + count / 8); /* others may add some before the moment comes */
            code = elltree_map_pairs(map_, out.data(), out.size(), &count);
        } while (code == ELLTREE_NO_ROOM);
        check(code);
        out.resize(count);
        return out;
    }

    /* Renews all sections now, one after the other: those that have more cards than their keys need give cards back, and those that have few, as they
       were only filled, get more. */
    void renew() { check(elltree_map_renew(map_)); }

    /* Returns what has happened to the map so far. */
    elltree_map_counters counts() const {
        elltree_map_counters counts = {};
        check(elltree_map_counts(map_, &counts, sizeof counts));
        return counts;
    }

private:
    using search = int32_t(elltree_map *, uint64_t, uint64_t *, uint64_t *);

    static bool check(int32_t code) { return detail::is_yes(code); }
    static std::optional<uint64_t> told(int32_t code, const uint64_t &value) { return detail::told(code, value); }
    std::optional<elltree_pair> found(search *call, uint64_t key) const {
        elltree_pair pair = {0, 0};
        return check(call(map_, key, &pair.key, &pair.value)) ? std::optional<elltree_pair>(pair) : std::nullopt;
    }
    std::optional<elltree_pair> popped(int32_t (*pop)(elltree_map *, uint64_t *, uint64_t *)) {
        elltree_pair pair = {0, 0};
        return check(pop(map_, &pair.key, &pair.value)) ? std::optional<elltree_pair>(pair) : std::nullopt;
    }

    elltree_map *map_ = nullptr;
};

inline void swap(map &one, map &other) noexcept { one.swap(other); }

} // namespace elltree
#endif
