// The program in C++ of docs/HANDLES.md: four threads count together, each through a handle of its own.
#include <cstdio>
#include <elltree.hpp>
#include <thread>
#include <vector>

int main() {
    std::vector<elltree::handle> handles;
    handles.push_back(elltree::handle::open({{7, 0}}, 100000)); // pairs to start with, cards
    while (handles.size() < 4)
        handles.push_back(handles.front().another());
    std::vector<std::thread> threads;
    for (auto &handle : handles)
        threads.emplace_back([&handle] {
            for (int i = 0; i < 1000; i++)
                handle.fetch_add(7, 1, 100000); // a try is lost only where another thread gets ahead
        });
    for (auto &thread : threads)
        thread.join();
    const auto sum = handles.front().find(7);
    std::printf("%llu\n", static_cast<unsigned long long>(sum.value_or(0)));
    return sum == 4000u ? 0 : 1;
}
