// A spanning tree of a random graph, by threads that share one queue of vertices. A thread takes a vertex, claims each
// neighbour that nobody has claimed yet, and puts it into the queue; where the queue refuses it, the thread goes on
// with that vertex itself. The arguments are the queue (a name of queues.hpp), k (of kfifo and segmented alone), the
// capacity, the threads, the vertices and the edges. It prints the vertices that were reached, a second; status 1 where
// the tree is none.
#include "queues.hpp"

#include <algorithm>
#include <atomic>
#include <chrono>
#include <cstdio>
#include <cstdlib>
#include <random>
#include <thread>

namespace {

using Vertex = std::uint32_t;

// A graph whose vertices are 1, 2, .., so that 0 can be none: the neighbours of v stand from first[v] to first[v + 1].
struct Graph {
    std::vector<std::size_t> first;
    std::vector<Vertex> neighbours;

    std::size_t vertices() const { return first.size() - 2; }
    const Vertex *begin(Vertex v) const { return neighbours.data() + first[v]; }
    const Vertex *end(Vertex v) const { return neighbours.data() + first[v + 1]; }
};

// That many edges, each between two vertices that are drawn at random.
Graph random_graph(std::size_t vertices, std::size_t edges) {
    std::mt19937 random(1);
    std::uniform_int_distribution<Vertex> draw(1, Vertex(vertices));
    std::vector<std::pair<Vertex, Vertex>> ends(edges);
    for (auto &[one, other] : ends) one = draw(random), other = draw(random);
    Graph graph;
    graph.first.assign(vertices + 2, 0);
    for (auto [one, other] : ends) graph.first[one + 1]++, graph.first[other + 1]++;
    for (std::size_t v = 1; v < graph.first.size(); v++) graph.first[v] += graph.first[v - 1];
    graph.neighbours.resize(2 * edges);
    std::vector<std::size_t> next = graph.first;
    for (auto [one, other] : ends) graph.neighbours[next[one]++] = other, graph.neighbours[next[other]++] = one;
    return graph;
}

// How many vertices a thread has claimed, and with how many it is done. Only the thread itself writes them.
struct alignas(128) Tally {
    std::atomic<std::size_t> claimed{0}, finished{0};

    static void add(std::atomic<std::size_t> &count) {
        count.store(count.load(std::memory_order_relaxed) + 1, std::memory_order_release);
    }
};

struct Tree {
    const Graph &graph;
    std::vector<std::atomic<Vertex>> parents;
    std::vector<Tally> tallies;

    Tree(const Graph &graph, std::size_t threads) : graph(graph), parents(graph.vertices() + 1), tallies(threads) {
        for (auto &parent : parents) parent.store(0, std::memory_order_relaxed);
    }

    bool claim(Vertex v, Vertex parent) {
        Vertex none = 0;
        return parents[v].load(std::memory_order_relaxed) == 0 && parents[v].compare_exchange_strong(none, parent);
    }

    // Whether no claimed vertex is left. All that are finished are counted first: what was claimed by then was claimed
    // for good, so where the counts agree there was a moment with nothing left, and then nothing can come any more.
    bool is_done() const {
        std::size_t finished = 0, claimed = 0;
        for (const Tally &tally : tallies) finished += tally.finished.load(std::memory_order_acquire);
        for (const Tally &tally : tallies) claimed += tally.claimed.load(std::memory_order_acquire);
        return finished == claimed;
    }

    // Whether each vertex that can be reached from the root has a parent, and each parent is a neighbour.
    bool is_spanning(Vertex root) const {
        std::vector<bool> reached(graph.vertices() + 1);
        std::vector<Vertex> left{root};
        reached[root] = true;
        while (!left.empty()) {
            Vertex v = left.back();
            left.pop_back();
            for (const Vertex *w = graph.begin(v); w != graph.end(v); w++)
                if (!reached[*w]) reached[*w] = true, left.push_back(*w);
        }
        for (Vertex v = 1; v <= graph.vertices(); v++) {
            Vertex parent = parents[v].load();
            if ((parent != 0) != reached[v]) return false;
            bool is_edge = std::find(graph.begin(v), graph.end(v), parent) != graph.end(v);
            if (parent != 0 && v != root && !is_edge) return false;
        }
        return true;
    }
};

template <typename Queue> void work(Queue &queue, Tree &tree, std::size_t thread) {
    typename Queue::Attached attached;
    Tally &tally = tree.tallies[thread];
    std::vector<Vertex> own;
    for (;;) {
        Vertex v = queue.pop(thread);
        if (v == 0 && tree.is_done()) return;
        if (v == 0) continue;
        own.push_back(v);
        while (!own.empty()) {
            Vertex u = own.back();
            own.pop_back();
            for (const Vertex *w = tree.graph.begin(u); w != tree.graph.end(u); w++) {
                if (!tree.claim(*w, u)) continue;
                Tally::add(tally.claimed);
                if (!queue.push(thread, *w)) own.push_back(*w);
            }
            Tally::add(tally.finished);
        }
    }
}

template <typename Queue> int run(Queue &queue, std::size_t threads, const Graph &graph) {
    Tree tree(graph, threads);
    const Vertex root = 1;
    tree.claim(root, root);
    Tally::add(tree.tallies[0].claimed);
    if (!queue.push(0, root)) return 1;
    auto began = std::chrono::steady_clock::now();
    std::vector<std::thread> running;
    for (std::size_t thread = 0; thread < threads; thread++)
        running.emplace_back([&, thread] { work(queue, tree, thread); });
    for (std::thread &thread : running) thread.join();
    std::chrono::duration<double> spent = std::chrono::steady_clock::now() - began;
    if (!tree.is_spanning(root)) {
        std::puts("this is no spanning tree");
        return 1;
    }
    std::size_t reached = 0;
    for (const Tally &tally : tree.tallies) reached += tally.finished.load();
    std::printf("%.0f\n", double(reached) / spent.count());
    return 0;
}

} // namespace

int main(int count, char **words) {
    if (count != 7) return 2;
    auto number = [&](int place) { return std::size_t(std::strtoull(words[place], nullptr, 10)); };
    const std::size_t threads = number(4), vertices = number(5);
    if (threads == 0 || vertices == 0 || vertices > KFIFO_MAX_ITEM) return 2;
    const Graph graph = random_graph(vertices, number(6));
    return bench::with_queue(words[1], std::uint32_t(number(2)), number(3), threads,
                             [&](auto &queue) { return run(queue, threads, graph); });
}
