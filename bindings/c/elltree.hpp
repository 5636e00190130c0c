/* elltree::handle: a handle of elltree.h as a class, for C++17, for a program that counts cards itself; most programs want elltree::map. A handle can
   be moved but not copied, its destructor frees it, and it has cache lines of its own. A handle is in one call at a time, and each call writes to
   it, so no call is const. A refusal is thrown as elltree::refused, and refused memory as std::bad_alloc. A call that throws has changed nothing.

       auto first = elltree::handle::open({{2, 20}}, 100000); // pairs to start with, cards
       auto second = first.another();                         // for another thread
       second.insert(3, 30);
       if (auto value = first.find(3))
           .. *value ..

   elltree.h says more about each call, under the same name, except that erase is elltree_delete there. */
#ifndef ELLTREE_HPP
#define ELLTREE_HPP
#if __cplusplus < 201703L
#error "elltree.hpp needs C++17 or later: compile with -std=c++17"
#endif
#include "elltree.h"
#include "elltree_map.hpp"
#include <array>
#include <optional>
#include <utility>
#include <vector>

namespace elltree {

class alignas(128) handle {
public:
    /* How often a change is tried before it is refused with ELLTREE_BUSY, if the call does not say it. */
    static constexpr uint32_t usual_tries = 1000;

    /* Makes a handle that holds nothing, like one that was moved from: calls on it are refused with ELLTREE_CLOSED. */
    handle() noexcept = default;

    /* Opens a tree with these pairs, whose keys ascend strictly, and this number of cards. Returns its first handle. */
    [[nodiscard]] static handle open(const std::vector<elltree_pair> &start, uint64_t cards) {
        handle made;
        detail::is_yes(elltree_open(&made.raw_, start.data(), start.size(), cards));
        return made;
    }

    /* Opens a tree as open does, whose cards come back, for so many handles at a time. */
    [[nodiscard]] static handle open_reusing(const std::vector<elltree_pair> &start, uint64_t cards, uint32_t handles) {
        handle made;
        detail::is_yes(elltree_open_reusing(&made.raw_, start.data(), start.size(), cards, handles));
        return made;
    }

    handle(handle &&other) noexcept : raw_(std::exchange(other.raw_, elltree_handle{})) {}
    handle &operator=(handle &&other) noexcept {
        handle(std::move(other)).swap(*this);
        return *this;
    }
    handle(const handle &) = delete;
    handle &operator=(const handle &) = delete;
    ~handle() { reset(); }

    void swap(handle &other) noexcept { std::swap(raw_, other.raw_); }

    /* Ends the handle now, if it holds something. */
    void reset() noexcept { elltree_free(&raw_); }

    /* Returns whether the handle holds something. */
    explicit operator bool() const noexcept { return raw_.slot.is_open; }

    /* Returns the handle as elltree.h has it, for calls in C. */
    elltree_handle *native_handle() noexcept { return &raw_; }

    /* Makes a further handle of the same tree, for another thread. Make all of them from the first handle. */
    [[nodiscard]] handle another() {
        handle made;
        detail::is_yes(elltree_another(&raw_, &made.raw_));
        return made;
    }

    /* Returns the value of a key, if the key is present. */
    std::optional<uint64_t> find(uint64_t key) {
        uint64_t value = 0;
        return detail::told(elltree_find(&raw_, key, &value), value);
    }

    /* Returns the value of a key as find does, as it was at one moment of the call, by fewer steps. */
    std::optional<uint64_t> look(uint64_t key) {
        uint64_t value = 0;
        return detail::told(elltree_look(&raw_, key, &value), value);
    }

    /* Adds a key that is absent, and returns whether it was. A key that is present keeps its value. */
    bool insert(uint64_t key, uint64_t value, uint32_t tries = usual_tries) { return detail::is_yes(elltree_insert(&raw_, key, value, tries)); }

    /* Removes a key, and returns whether it was present. */
    bool erase(uint64_t key, uint32_t tries = usual_tries) { return detail::is_yes(elltree_delete(&raw_, key, tries)); }

    /* Removes a key as erase does, and returns the value that it had. No other call took that value. */
    std::optional<uint64_t> take(uint64_t key, uint32_t tries = usual_tries) {
        uint64_t taken = 0;
        return detail::told(elltree_take(&raw_, key, tries, &taken), taken);
    }

    /* Stores the desired value of a key if its value is the expected one, in one atomic step. If it is another one, it is written to expected. */
    exchanged compare_exchange(uint64_t key, uint64_t &expected, uint64_t desired, uint32_t tries = usual_tries) {
        return detail::exchanged_by(elltree_compare_exchange(&raw_, key, &expected, desired, tries));
    }

    /* Removes a key if its value is the expected one, in one atomic step. If it is another one, it is written to expected. */
    exchanged remove_if(uint64_t key, uint64_t &expected, uint32_t tries = usual_tries) {
        return detail::exchanged_by(elltree_remove_if(&raw_, key, &expected, tries));
    }

    /* Stores a value in one atomic step, whether the key is present or absent, and returns the value that it had. */
    std::optional<uint64_t> put(uint64_t key, uint64_t value, uint32_t tries = usual_tries) {
        uint64_t was = 0;
        return detail::told(elltree_put(&raw_, key, value, tries, &was), was);
    }

    /* Adds to the value of a key in one atomic step, and returns the value that it had. An absent key stays absent. */
    std::optional<uint64_t> fetch_add(uint64_t key, uint64_t addend, uint32_t tries = usual_tries) {
        uint64_t was = 0;
        return detail::told(elltree_fetch_add(&raw_, key, addend, tries, &was), was);
    }

    /* Calls f(key, value) for the keys from one on and below another, in ascending order. This is no snapshot: each key is shown as it was at one
       moment of the call. f may make calls on the handle. */
    template <class F> void for_each(uint64_t from, uint64_t upto, F f) {
        std::array<elltree_pair, 64> out;
        size_t count = 0;
        while (from < upto) {
            detail::is_yes(elltree_range(&raw_, from, upto, out.data(), out.size(), &count, &from));
            for (size_t i = 0; i < count; i++)
                f(out[i].key, out[i].value);
        }
    }

    /* Returns the pairs of the keys from one on and below another, as for_each shows them. Without an end the range goes up to the last key. */
    std::vector<elltree_pair> range(uint64_t from = 0, uint64_t upto = UINT64_MAX) {
        std::vector<elltree_pair> out;
        for_each(from, upto, [&](uint64_t key, uint64_t value) { out.push_back({key, value}); });
        return out;
    }

    /* Returns the pair of the least key from one on, or of the greatest key up to one. */
    std::optional<elltree_pair> next_at_least(uint64_t key) { return found(elltree_next_at_least, key); }
    std::optional<elltree_pair> last_at_most(uint64_t key) { return found(elltree_last_at_most, key); }

    /* Returns how many atomic steps were made through the handle, as elltree_steps counts them. */
    uint64_t steps() {
        uint64_t steps = 0;
        detail::is_yes(elltree_steps(&raw_, &steps));
        return steps;
    }

    /* Returns how many cards of the handle's tree are left, as it was at one moment of the call. In a tree whose cards come back it returns how many
       card numbers are left, of 2,305,843,009,213,693,951. */
    uint64_t cards_left() {
        uint64_t left = 0;
        detail::is_yes(elltree_cards_left(&raw_, &left));
        return left;
    }

private:
    using search = int32_t(elltree_handle *, uint64_t, uint64_t *, uint64_t *);

    std::optional<elltree_pair> found(search *call, uint64_t key) {
        elltree_pair pair = {0, 0};
        return detail::is_yes(call(&raw_, key, &pair.key, &pair.value)) ? std::optional<elltree_pair>(pair) : std::nullopt;
    }

    elltree_handle raw_ = ELLTREE_EMPTY;
};

inline void swap(handle &one, handle &other) noexcept { one.swap(other); }

} // namespace elltree
#endif
