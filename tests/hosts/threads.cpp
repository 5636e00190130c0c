// Four threads of C++ on neighboring keys of one tree, each with keys of its own, and each answer compared with a std::map of the thread's.
#include "elltree.hpp"
#include <algorithm>
#include <cstdio>
#include <map>
#include <random>
#include <thread>
#include <vector>

namespace {

constexpr std::uint64_t THREADS = 4, KEYS = 1000;
constexpr int CALLS = 50000;
using Plain = std::map<std::uint64_t, std::uint64_t>;

long work(elltree::handle &handle, std::uint64_t id, Plain &plain) {
    std::mt19937_64 random(id);
    long wrong = 0;
    for (int i = 0; i < CALLS; i++) {
        const std::uint64_t key = random() % (KEYS / THREADS) * THREADS + id, value = random();
        const auto at = plain.find(key);
        const bool there = at != plain.end();
        switch (random() % 4) {
        case 0:
            wrong += handle.insert(key, value) == there;
            plain.emplace(key, value);
            break;
        case 1:
            wrong += handle.erase(key) != there;
            plain.erase(key);
            break;
        case 2:
            handle.look(random() % KEYS);
            break;
        default:
            wrong += handle.find(key) != (there ? std::optional(at->second) : std::nullopt);
        }
    }
    return wrong;
}

} // namespace

int main() {
    Plain plain[THREADS], all;
    std::vector<elltree_pair> start;
    std::vector<elltree::handle> handles;
    std::vector<std::thread> threads;
    long wrong[THREADS] = {}, sum = 0;
    for (std::uint64_t key = 0; key < KEYS; key += 3) {
        start.push_back({key, key + 7});
        plain[key % THREADS][key] = key + 7;
    }
    handles.push_back(elltree::handle::open(start, 400000));
    while (handles.size() < THREADS)
        handles.push_back(handles[0].another());
    for (std::uint64_t id = 0; id < THREADS; id++)
        threads.emplace_back([&, id] { wrong[id] = work(handles[id], id, plain[id]); });
    for (auto &thread : threads)
        thread.join();
    for (std::uint64_t id = 0; id < THREADS; id++) {
        sum += wrong[id];
        all.merge(plain[id]);
    }
    const auto same = [](const elltree_pair &one, const auto &other) { return one.key == other.first && one.value == other.second; };
    for (auto &handle : handles) {
        const auto pairs = handle.range();
        sum += !std::equal(pairs.begin(), pairs.end(), all.begin(), all.end(), same);
    }
    std::printf("%ld wrong\n", sum);
    return sum != 0;
}
