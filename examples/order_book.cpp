// An order book: the keys of a map are prices, and their values are what is offered there. Threads place, move and cancel orders, and then they
// buy at the best price. Build and run it by
//     c++ -std=c++17 -pthread order_book.cpp $(pkg-config --cflags --libs elltree) && ./a.out
#include <algorithm>
#include <array>
#include <cinttypes>
#include <cstdio>
#include <elltree_map.hpp>
#include <exception>
#include <future>

namespace {
// One side of a book. Each level that is there has a quantity above 0.
class side {
public:
    // Adds a quantity above 0 to a level, and makes the level if it is absent. If another thread is faster, the loop adds to what that has made.
    void place(uint64_t price, uint64_t quantity) {
        while (!levels_.fetch_add(price, quantity) && !levels_.insert(price, quantity)) {
        }
    }

    // Takes up to this quantity from a level, and returns how much that was. A level that is used up is removed. If another thread has changed the
    // level meanwhile, nothing is taken, *there is what the level has now, and the loop tries again.
    uint64_t take(uint64_t price, uint64_t quantity) {
        auto there = levels_.get(price);
        while (there) {
            const uint64_t taken = std::min(*there, quantity);
            const auto said = taken == *there ? levels_.remove_if(price, *there) : levels_.compare_exchange(price, *there, *there - taken);
            if (said != elltree::exchanged::other_value)
                return said == elltree::exchanged::yes ? taken : 0;
        }
        return 0;
    }

    // Buys at the least prices, and returns what that costs. If there is not enough, it buys what is there.
    uint64_t buy(uint64_t quantity) {
        uint64_t cost = 0;
        for (auto best = levels_.first(); best && quantity > 0; best = levels_.first()) {
            const uint64_t taken = take(best->key, quantity); // this is 0 if other threads were faster
            quantity -= taken;
            cost += taken * best->key;
        }
        return cost;
    }

    const elltree::map &levels() const { return levels_; }

private:
    elltree::map levels_;
};

// Prints the best levels: those of the asks by an iterator, which goes up, and those of the bids by steps down from the last key.
void print_book(const side &bids, const side &asks) {
    auto ask = asks.levels().begin();
    for (int left = 3; ask != asks.levels().end() && left > 0; ++ask, left--)
        std::printf("ask %" PRIu64 ": %" PRIu64 "\n", ask->key, ask->value);
    auto bid = bids.levels().last();
    for (int left = 3; bid && left > 0; bid = bids.levels().last_before(bid->key), left--)
        std::printf("bid %" PRIu64 ": %" PRIu64 "\n", bid->key, bid->value);
}

// Places orders on both sides, moves every third ask to a higher price, and cancels every third bid. Returns how much it has canceled.
uint64_t make_orders(side &bids, side &asks, uint64_t number) {
    uint64_t canceled = 0;
    for (uint64_t i = 0; i < 3000; i++) {
        const uint64_t away = 1 + (7 * i + number) % 50, quantity = 1 + i % 5;
        bids.place(1000 - away, quantity);
        asks.place(1000 + away, quantity);
        if (i % 3 == 1)
            asks.place(1050 + away, asks.take(1000 + away, quantity));
        if (i % 3 == 2)
            canceled += bids.take(1000 - away, quantity);
    }
    return canceled;
}

// Calls f(0) to f(3) in four threads, and returns the sum of their results. What one of them throws is thrown here.
template <class F> uint64_t in_four_threads(F f) {
    std::array<std::future<uint64_t>, 4> threads;
    for (uint64_t number = 0; number < threads.size(); number++)
        threads[number] = std::async(std::launch::async, f, number);
    uint64_t sum = 0;
    for (auto &thread : threads)
        sum += thread.get();
    return sum;
}
} // namespace

int main() {
    try {
        side bids, asks;
        std::printf("%" PRIu64 " canceled\n", in_four_threads([&](uint64_t number) { return make_orders(bids, asks, number); }));
        print_book(bids, asks);
        std::printf("1000 bought for %" PRIu64 "\n", in_four_threads([&](uint64_t) { return asks.buy(250); }));
        print_book(bids, asks);
    } catch (const std::exception &why) { // elltree::refused, or std::bad_alloc
        std::fprintf(stderr, "%s\n", why.what());
        return 1;
    }
}
