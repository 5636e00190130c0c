// Two threads of C++, and then four, that insert and delete the same few keys of a tree: of each key, the inserts that answered
// yes are as many as the deletes that did, or one more where the key is present at the end. Then four threads add to one counter in each way that
// there is, beside one that puts a value: no addition is lost, and the put value is there each time.
#include "elltree.hpp"
#include <array>
#include <cstdio>
#include <random>
#include <thread>
#include <vector>

namespace {

constexpr std::uint64_t KEYS = 5;
constexpr int CALLS = 50000;
constexpr std::uint32_t TRIES = 100000;

struct Count {
    std::array<long, KEYS> more{};
    long wrong = 0;
};

std::vector<elltree::handle> open(std::size_t number, const std::vector<elltree_pair> &start) {
    std::vector<elltree::handle> handles;
    handles.push_back(elltree::handle::open(start, 400000));
    while (handles.size() < number)
        handles.push_back(handles[0].another());
    return handles;
}

Count work(elltree::handle &handle, std::uint64_t seed) {
    std::mt19937_64 random(seed);
    Count count;
    for (int i = 0; i < CALLS; i++) {
        const std::uint64_t key = random() % KEYS, value = random() / KEYS * KEYS + key;
        switch (random() % 3) {
        case 0:
            count.more[key] += handle.insert(key, value, TRIES);
            break;
        case 1:
            count.more[key] -= handle.erase(key, TRIES);
            break;
        default:
            count.wrong += handle.find(key).value_or(key) % KEYS != key;
        }
    }
    return count;
}

long run(std::size_t number) {
    auto handles = open(number, {});
    std::vector<Count> counts(number);
    std::vector<std::thread> threads;
    long wrong = 0, size = 0;
    for (std::size_t id = 0; id < number; id++)
        threads.emplace_back([&, id] { counts[id] = work(handles[id], id); });
    for (auto &thread : threads)
        thread.join();
    for (std::uint64_t key = 0; key < KEYS; key++) {
        long there = 0;
        for (const auto &count : counts)
            there += count.more[key];
        wrong += there != handles[0].look(key).has_value();
        size += there;
    }
    for (const auto &count : counts)
        wrong += count.wrong;
    std::printf("%zu threads, %ld keys at the end, %ld wrong\n", number, size, wrong);
    return wrong;
}

// Adds one by a find and as many exchanges as it takes.
bool exchange_one_more(elltree::handle &handle, std::uint64_t key) {
    auto value = handle.find(key);
    auto said = elltree::exchanged::other_value;
    while (value && said == elltree::exchanged::other_value)
        said = handle.compare_exchange(key, *value, *value + 1, TRIES);
    return said == elltree::exchanged::yes;
}

// Adds to the counter 0 by a sum and an exchange, and puts and finds the key 1.
long add(elltree::handle &handle, int additions) {
    long wrong = 0;
    for (int i = 0; i < additions; i++) {
        const auto was = handle.fetch_add(0, 1, TRIES);
        wrong += !was || !exchange_one_more(handle, 0) || handle.find(0) <= was;
        wrong += !handle.put(1, *was, TRIES) || !handle.look(1);
    }
    return wrong;
}

long count(std::size_t number, int additions) {
    auto handles = open(number, {{0, 0}, {1, 0}});
    std::vector<long> faults(number);
    std::vector<std::thread> threads;
    long wrong = 0;
    for (std::size_t id = 0; id < number; id++)
        threads.emplace_back([&, id] { faults[id] = add(handles[id], additions); });
    for (auto &thread : threads)
        thread.join();
    for (const long fault : faults)
        wrong += fault;
    const auto sum = handles[0].find(0);
    wrong += sum != 2 * number * static_cast<std::uint64_t>(additions);
    std::printf("%zu threads, the sum %llu, %ld wrong\n", number, static_cast<unsigned long long>(sum.value_or(0)), wrong);
    return wrong;
}

} // namespace

int main() {
    const long wrong = run(2) + run(4) + count(4, 3000);
    std::printf("%ld wrong\n", wrong);
    return wrong != 0;
}
