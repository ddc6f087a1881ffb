// The lines of kfifo_work.hpp and docs/WORK.md that are in no other program: a search in a tree of folders, by all
// workers, until the name is found.
#include "kfifo_work.hpp"

#include <array>
#include <atomic>
#include <cstdio>
#include <exception>
#include <string>

namespace {

struct Folder {
    Folder(std::string where, int of) : path(std::move(where)), depth(of) {}
    std::string path;
    int depth;
};

} // namespace

int main() {
    constexpr int deepest = 9;
    const std::string wanted = "/abbabab";
    std::array<int, 4> looked_at{};
    std::atomic<int> found{0};
    kfifo::work::Options options;
    options.threads = 4;
    options.k = 4; // one of the 4 oldest tasks is begun next
    auto report = kfifo::work::run<Folder>(
        {Folder("/", 0)},
        [&](const Folder &folder, auto &more) {
            looked_at[more.worker()]++;
            if (folder.path == wanted) {
                found++;
                more.stop();
            }
            if (more.is_stopped()) return;
            if (folder.depth == deepest) return;
            more.emplace(folder.path + "a", folder.depth + 1);
            Folder next(folder.path + "b", folder.depth + 1);
            if (folder.depth % 2)
                more.give(std::move(next));
            else
                more.give(next);
        },
        options);

    std::uint64_t all = 0;
    for (int folders : looked_at) all += static_cast<std::uint64_t>(folders);
    std::printf("looked at %llu folders, and %zu are left\n", static_cast<unsigned long long>(all), report.left.size());
    return found == 1 && all == report.done() && !report.left.empty() ? 0 : 1;
}
