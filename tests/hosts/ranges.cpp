// Ranges in C++. One thread first, which changes keys at random and compares ranges, upwards and downwards, with a std::map. Then two threads that
// go over ranges beside three that insert, delete and exchange, each its own of the keys. Each key of a range is to be told as it was at a moment
// between the begin and the end of the range, by the begins and the ends of the changes.
#include "elltree.hpp"
#include <algorithm>
#include <array>
#include <atomic>
#include <cstdio>
#include <iterator>
#include <map>
#include <optional>
#include <random>
#include <thread>
#include <vector>

namespace {

constexpr std::uint64_t KEYS = 20, WRITERS = 3;
constexpr int CALLS = 3000, CHANGES = 12000;
constexpr std::uint32_t TRIES = 100000;

using Map = std::map<std::uint64_t, std::uint64_t>;
using Random = std::mt19937_64;

// The pairs of a range, all at once, or one by one from the last to the first.
Map pairs_up(elltree::handle &handle, std::uint64_t from, std::uint64_t upto) {
    Map all;
    for (const auto &pair : handle.range(from, upto))
        all.emplace_hint(all.end(), pair.key, pair.value);
    return all;
}

Map pairs_down(elltree::handle &handle, std::uint64_t from, std::uint64_t upto) {
    Map all;
    while (upto > from) {
        const auto pair = handle.last_at_most(upto - 1);
        if (!pair || pair->key < from)
            break;
        all.emplace(pair->key, pair->value);
        upto = pair->key;
    }
    return all;
}

long alone() {
    Random random(1);
    auto handle = elltree::handle::open({}, 4 * CALLS);
    Map model;
    long wrong = 0;
    for (std::uint64_t i = 0; i < CALLS; i++) {
        const std::uint64_t key = random() % KEYS, from = random() % KEYS, upto = random() % (KEYS + 1);
        if (random() % 2) {
            handle.put(key, i, TRIES);
            model[key] = i;
        } else {
            wrong += handle.erase(key, TRIES) != (model.erase(key) > 0);
        }
        const auto first = model.lower_bound(from);
        const Map wanted = from < upto ? Map(first, model.lower_bound(upto)) : Map();
        wrong += pairs_up(handle, from, upto) != wanted;
        wrong += pairs_down(handle, from, upto) != wanted;
        const auto next = handle.next_at_least(from);
        wrong += next.has_value() != (first != model.end()) || (next && (next->key != first->first || next->value != first->second));
    }
    std::printf("%d ranges of one thread, %ld wrong\n", CALLS, wrong);
    return wrong;
}

struct Change {
    std::uint64_t begun, ended;
    std::optional<std::uint64_t> left;
};

struct Scan {
    std::uint64_t begun, ended, from, upto;
    Map told;
};

// Of each key the changes in their order: one thread alone makes them. The first is the start, where every other key is present.
std::array<std::vector<Change>, KEYS> changes;
std::atomic<std::uint64_t> clock_of_all{1};
std::atomic<int> writing;

// Changes keys that nobody else changes, so that each answer is certain: how many are wrong.
long write_keys(elltree::handle &handle, std::uint64_t id) {
    Random random(id);
    long wrong = 0;
    for (std::uint64_t i = 0; i < CHANGES; i++) {
        const std::uint64_t key = random() % (KEYS / WRITERS) * WRITERS + id, value = i * KEYS + key, how = random() % 3;
        const std::optional<std::uint64_t> was = changes[key].back().left;
        std::uint64_t found = was.value_or(0);
        Change now{clock_of_all++, 0, value};
        bool is_changed = false;
        if (how == 0)
            is_changed = handle.insert(key, value, TRIES);
        else if (how == 1)
            is_changed = handle.compare_exchange(key, found, value, TRIES) == elltree::exchanged::yes;
        else
            is_changed = handle.erase(key, TRIES), now.left.reset();
        now.ended = clock_of_all++;
        wrong += is_changed != (how == 0 ? !was.has_value() : was.has_value());
        if (is_changed)
            changes[key].push_back(now);
    }
    writing--;
    return wrong;
}

std::vector<Scan> go_over(elltree::handle &handle, std::uint64_t id) {
    Random random(id);
    std::vector<Scan> scans;
    while (writing > 0 && scans.size() < 6000) {
        const std::uint64_t from = random() % KEYS, upto = from + random() % (KEYS - from + 1);
        Scan scan{clock_of_all++, 0, from, upto, {}};
        scan.told = random() % 2 ? pairs_up(handle, from, upto) : pairs_down(handle, from, upto);
        scan.ended = clock_of_all++;
        scans.push_back(scan);
    }
    return scans;
}

// Whether a key was so at a moment of a scan: some change left it so that had begun before the scan ended, and the next had not ended before it
// began.
bool may_be(std::uint64_t key, std::optional<std::uint64_t> told, const Scan &scan) {
    const auto &all = changes[key];
    auto change = std::partition_point(all.begin(), all.end(), [&](const Change &one) { return one.ended <= scan.begun; });
    for (change = std::prev(change); change != all.end() && change->begun < scan.ended; ++change)
        if (change->left == told)
            return true;
    return false;
}

long untrue(const Scan &scan) {
    long wrong = std::any_of(scan.told.begin(), scan.told.end(), [&](const auto &pair) { return pair.first < scan.from || pair.first >= scan.upto; });
    for (std::uint64_t key = scan.from; key < scan.upto; key++) {
        const auto there = scan.told.find(key);
        wrong += !may_be(key, there == scan.told.end() ? std::nullopt : std::optional(there->second), scan);
    }
    return wrong;
}

long beside_threads(std::size_t readers) {
    std::vector<elltree_pair> start;
    for (std::uint64_t key = 0; key < KEYS; key++) {
        const bool is_there = key % 2;
        changes[key] = {{0, 0, is_there ? std::optional(key) : std::nullopt}};
        if (is_there)
            start.push_back({key, key});
    }
    std::vector<elltree::handle> handles;
    std::vector<long> faults(WRITERS);
    std::vector<std::vector<Scan>> scans(readers);
    std::vector<std::thread> threads;
    long wrong = 0, number = 0;
    handles.push_back(elltree::handle::open(start, 400000));
    while (handles.size() < WRITERS + readers)
        handles.push_back(handles[0].another());
    writing = WRITERS;
    for (std::size_t id = 0; id < WRITERS; id++)
        threads.emplace_back([&, id] { faults[id] = write_keys(handles[id], id); });
    for (std::size_t id = 0; id < readers; id++)
        threads.emplace_back([&, id] { scans[id] = go_over(handles[WRITERS + id], WRITERS + id); });
    for (auto &thread : threads)
        thread.join();
    for (const long fault : faults)
        wrong += fault;
    for (const auto &made : scans)
        for (const auto &scan : made)
            wrong += untrue(scan), number++;
    std::printf("%ld ranges beside %d threads, %ld wrong\n", number, static_cast<int>(WRITERS), wrong);
    return wrong;
}

} // namespace

int main() {
    const long wrong = alone() + beside_threads(2);
    std::printf("%ld wrong\n", wrong);
    return wrong != 0;
}
