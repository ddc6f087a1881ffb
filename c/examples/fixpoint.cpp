// A fixpoint: the parts of a graph that hang together. Each vertex has a label, at first its own number. A task is a
// vertex whose label fell: it lowers the labels of its neighbours. When no label falls any more, each part has the
// least number of its vertices for a label, whatever order the tasks came in.
#include "kfifo_work.hpp"

#include <atomic>
#include <cstdint>
#include <cstdio>
#include <exception>
#include <numeric>
#include <random>
#include <vector>

#ifdef FEWER
constexpr std::uint32_t vertices = 5000;
#else
constexpr std::uint32_t vertices = 300000;
#endif

using Graph = std::vector<std::vector<std::uint32_t>>; // the neighbours of each vertex

// As many edges as there are vertices: one large part, and many small ones.
Graph random_graph() {
    std::mt19937 random(65);
    Graph neighbours(vertices);
    for (std::uint32_t i = 0; i < vertices; i++) {
        auto one = static_cast<std::uint32_t>(random() % vertices),
             other = static_cast<std::uint32_t>(random() % vertices);
        neighbours[one].push_back(other);
        neighbours[other].push_back(one);
    }
    return neighbours;
}

// Lowers a label, and says whether it was greater.
bool lower(std::atomic<std::uint32_t> &label, std::uint32_t to) {
    std::uint32_t is = label.load();
    while (to < is)
        if (label.compare_exchange_weak(is, to)) return true;
    return false;
}

// The least vertex of each one's part, by a plain search.
std::vector<std::uint32_t> search(const Graph &graph) {
    std::vector<std::uint32_t> least(vertices, vertices), open;
    for (std::uint32_t first = 0; first < vertices; first++) {
        if (least[first] != vertices) continue;
        least[first] = first;
        open.assign(1, first);
        while (!open.empty()) {
            std::uint32_t vertex = open.back();
            open.pop_back();
            for (std::uint32_t next : graph[vertex]) {
                if (least[next] != vertices) continue;
                least[next] = first;
                open.push_back(next);
            }
        }
    }
    return least;
}

int main() {
    try {
        Graph graph = random_graph();
        std::vector<std::atomic<std::uint32_t>> labels(vertices);
        std::vector<std::uint32_t> all(vertices);
        std::iota(all.begin(), all.end(), 0U);
        for (std::uint32_t vertex : all) labels[vertex] = vertex;

        auto report = kfifo::work::run<std::uint32_t>(all, [&](std::uint32_t vertex, auto &more) {
            std::uint32_t label = labels[vertex];
            for (std::uint32_t next : graph[vertex])
                if (lower(labels[next], label)) more.give(next);
        });

        auto wanted = search(graph);
        std::size_t wrong = 0, parts = 0;
        for (std::uint32_t vertex : all) {
            wrong += labels[vertex] != wanted[vertex];
            parts += wanted[vertex] == vertex;
        }
        std::printf("%u vertices in %zu parts; %zu workers did %.2f tasks a vertex, and %zu labels are wrong\n",
                    static_cast<unsigned>(vertices), parts, report.workers.size(),
                    static_cast<double>(report.done()) / vertices, wrong);
        return wrong != 0;
    } catch (const std::exception &error) {
        std::fprintf(stderr, "the run ended: %s\n", error.what());
        return 1;
    }
}
