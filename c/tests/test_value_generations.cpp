// A queue of values in C++ whose generations change all the time, since it has few versions: each value comes out once
// and is destroyed once, those of a producer in order up to the bound, also where handles change threads, and where the
// queue is closed or goes in the middle of a change.
#include "kfifo.hpp"

#include <algorithm>
#include <atomic>
#include <cstdio>
#include <cstring>
#include <memory>
#include <optional>
#include <string>
#include <thread>
#include <utility>
#include <vector>

// How many values each producer gives, and by how many calls each run of threads that are stopped is longer.
#ifdef FEWER
constexpr std::uint64_t EACH = 2000;
constexpr long STEP = 400;
#else
constexpr std::uint64_t EACH = 40000;
constexpr long STEP = 40;
#endif

namespace {

std::atomic<int> failures{0};
std::uint64_t times = 1; // how many times as much is done

void expect(bool holds, const char *what) {
    if (!holds && failures++ < 20) std::fprintf(stderr, "%s\n", what);
}

// Counts how many are alive. It can be moved and not copied.
struct Parcel {
    static std::atomic<long> alive;
    explicit Parcel(std::uint64_t what) : number(new std::uint64_t(what)) { alive++; }
    Parcel(Parcel &&other) noexcept : number(std::move(other.number)) { alive++; }
    Parcel &operator=(Parcel &&) noexcept = default;
    ~Parcel() { alive--; }
    std::unique_ptr<std::uint64_t> number;
};

std::atomic<long> Parcel::alive{0};

using Parcels = kfifo::ValueQueue<Parcel>;

// A queue whose generations have that many versions, and a reserve of half of them.
Parcels few_versions(std::uint32_t k, std::uint32_t segments, std::size_t threads, std::uint64_t last) {
    return Parcels(k, k * segments, threads, {last, last / 2, 1});
}

// Whether an opening with these versions throws an Error with this status.
bool refuses(kfifo_status status, kfifo::Options options) {
    try {
        Parcels(1, 2, 1, options);
    } catch (const kfifo::Error &error) {
        return error.status() == status;
    }
    return false;
}

void refusals() {
    expect(refuses(KFIFO_BAD_LAST, {1, 0, 1}) && refuses(KFIFO_BAD_LAST, {KFIFO_LAST + 1, 0, 1}),
           "the greatest version is not 2 to 2^40 - 1");
    expect(refuses(KFIFO_BAD_RESERVE, {8, 8, 1}) && refuses(KFIFO_BAD_RESERVE, {KFIFO_LAST, UINT64_MAX, 1}),
           "the reserve is not below the greatest version");
}

// With k = 1 and one thread values come out in order through all changes; what is left comes back in order, or is
// destroyed with the queue.
void in_order() {
    for (std::uint64_t last = 24; last <= 64; last += 8)
        for (std::uint64_t rounds = 0; rounds < 40; rounds++) {
            Parcels queue = few_versions(1, 16, 2, last);
            std::uint64_t next = 0, oldest = 0;
            {
                auto first = queue.handle(), second = queue.handle();
                for (std::uint64_t i = 0; i < rounds + 50; i++) {
                    expect(first.emplace(next++) == kfifo::Put::done, "a value in order");
                    expect(second.give(Parcel(next++)) == kfifo::Put::done, "another value in order");
                    for (; oldest + 1 < next; oldest++) {
                        auto taken = (i % 2 ? first : second).take();
                        expect(taken.value && *taken.value->number == oldest, "the oldest value");
                    }
                }
                while (next < oldest + 12) expect(first.emplace(next++) == kfifo::Put::done, "a value to be left");
            }
            expect(Parcel::alive == 12, "values that are left in several generations");
            if (rounds % 2) {
                std::vector<Parcel> left = queue.close();
                expect(left.size() == 12, "how many values a close gives back");
                for (std::size_t i = 0; i < left.size(); i++)
                    expect(*left[i].number == oldest + i, "a close gives back what is left in its order");
            }
        }
    expect(Parcel::alive == 0, "values of all generations are destroyed once");
}

// A queue that does not renew itself wears out, and a close gives back what is left.
void does_not_renew() {
    Parcels queue(1, 8, 1, {40, 0, 1});
    std::uint64_t given = 0, taken = 0;
    {
        auto handle = queue.handle();
        auto put = kfifo::Put::done;
        auto miss = kfifo::Miss::empty;
        while (put == kfifo::Put::done && miss == kfifo::Miss::empty && given < 1000) {
            put = handle.emplace(given);
            if (put == kfifo::Put::done) given++;
            auto got = handle.take();
            miss = got.value ? kfifo::Miss::empty : got.why;
            if (got.value) taken++;
        }
        expect(put == kfifo::Put::worn || miss == kfifo::Miss::worn, "a queue that does not renew itself wears out");
    }
    std::vector<Parcel> left = queue.close();
    expect(left.size() == given - taken && Parcel::alive == long(left.size()), "what is left of a worn queue");
}

// A handle that is destroyed goes back to the queue. It stays in the generation of its last call, as that of a thread
// that makes no calls, and whoever asks for a handle next goes on with it. So at whatever moment of a change that is,
// what the handle gave comes out in order, and so does what it gives when it is in use again.
void handles_that_go() {
    for (std::uint64_t moment = 0; moment < 150; moment++) {
        Parcels queue = few_versions(1, 8, 2, 64);
        std::optional<Parcels::Handle> goes(queue.handle());
        auto stays = queue.handle();
        std::uint64_t next = 0, oldest = 0;
        const auto pairs = [&](Parcels::Handle &gives, Parcels::Handle &takes, std::uint64_t count) {
            for (std::uint64_t i = 0; i < count; i++) {
                expect(gives.emplace(next++) == kfifo::Put::done, "a value near a handle that goes");
                if (next < 5) continue;
                auto taken = takes.take();
                expect(taken.value && *taken.value->number == oldest++, "the order near a handle that goes");
            }
        };
        pairs(*goes, stays, moment);
        goes.reset();
        pairs(stays, stays, 200);
        goes.emplace(queue.handle());
        pairs(*goes, stays, 25);
        pairs(stays, *goes, 25);
        expect(Parcel::alive == long(next - oldest), "values near a handle that goes");
    }
    expect(Parcel::alive == 0, "values near handles that go are destroyed once");
}

// ---- Many threads ----

// Which values of each producer a thread has taken last: the greatest of their indices, in descending order.
class Order {
  public:
    Order(std::uint64_t producers, std::size_t most) : bound(most), greatest(producers) {}

    // Notes an index that was taken. Returns whether no more than `bound` greater ones of its producer came before it.
    bool note(std::uint64_t producer, std::uint64_t index) {
        std::vector<std::uint64_t> &of = greatest.at(producer);
        auto place = std::find_if(of.begin(), of.end(), [=](std::uint64_t it) { return it < index; });
        if (place - of.begin() > std::ptrdiff_t(bound)) return false;
        of.insert(place, index);
        if (of.size() > bound + 1) of.pop_back();
        return true;
    }

  private:
    std::size_t bound;
    std::vector<std::vector<std::uint64_t>> greatest;
};

// How many threads do what.
struct Roles {
    std::size_t give, take, do_both;
    std::size_t threads() const { return give + take + do_both; }
    std::size_t producers() const { return give + do_both; }
};

constexpr std::uint32_t K = 4;

// What the threads of a run share. The reserve is 16 versions for each thread: more than those inside, and what is
// under way, need.
struct Run {
    Run(const Roles &of, bool does_sleep)
        : roles(of), sleeps(does_sleep), queue(few_versions(K, 8, of.threads(), 32 * of.threads())), each(EACH * times),
          seen(of.producers() * each), left(of.producers() * each) {}

    const Roles roles;
    const bool sleeps;
    Parcels queue;
    const std::uint64_t each; // values of each producer
    std::vector<std::atomic<unsigned char>> seen;
    std::atomic<std::uint64_t> left, inside{0};
    std::atomic<bool> has_ended{false}; // a call answered what will not change
};

// A thread of a run: it gives the values of its producer, takes those of all, or both, one after the other.
class Worker {
  public:
    Worker(Run &of, std::uint64_t number, bool does_give, bool does_take)
        : run(of), producer(number), takes(does_take), handle(a_handle()), left(does_give ? of.each : 0),
          order(of.roles.producers(), std::max<std::size_t>(K, of.roles.threads()) - 1) {}

    void work() {
        while (!run.has_ended && (left != 0 || (takes && run.left != 0))) {
            if (left != 0) give_one();
            if (takes && run.left != 0) take_one();
        }
    }

  private:
    // Gives the next value, unless there are many inside: with few versions the places of generations would run out.
    void give_one() {
        if (run.inside.fetch_add(1) >= 16) {
            run.inside--;
            std::this_thread::yield();
            return;
        }
        Parcel parcel(producer * run.each + run.each - left);
        auto put = run.sleeps ? handle->give_wait(std::move(parcel)) : handle->give(std::move(parcel));
        if (put == kfifo::Put::done) {
            if (--left % 1000 == 0) change_handle();
            return;
        }
        expect(parcel.number != nullptr, "a refused value is still there");
        run.inside--;
        go_on(kfifo::may_retry(put), kfifo::text(put));
    }

    void take_one() {
        auto taken = run.sleeps ? handle->take_for(std::chrono::milliseconds(1)) : handle->take();
        if (!taken.value) {
            go_on(taken.why == kfifo::Miss::timed_out || kfifo::may_retry(taken.why), kfifo::text(taken.why));
            return;
        }
        const std::uint64_t number = *taken.value->number;
        run.seen[number]++;
        expect(order.note(number / run.each, number % run.each), "no more than the bound overtake a value");
        run.inside--;
        run.left--;
    }

    std::unique_ptr<Parcels::Handle> a_handle() { return std::make_unique<Parcels::Handle>(run.queue.handle()); }

    // Hands the handle back, and goes on with another one, or the same again.
    void change_handle() {
        handle.reset();
        handle = a_handle();
    }

    void go_on(bool may_go_on, const char *why) {
        expect(may_go_on, why);
        if (!may_go_on) {
            run.has_ended = true;
            run.queue.finish();
        }
        std::this_thread::yield();
    }

    Run &run;
    std::uint64_t producer;
    bool takes;
    std::unique_ptr<Parcels::Handle> handle;
    std::uint64_t left; // how many it still gives
    Order order;
};

void threads(const Roles &roles, bool sleeps) {
    Run run(roles, sleeps);
    std::vector<std::thread> all;
    for (std::size_t i = 0; i < roles.threads(); i++)
        all.emplace_back([&run, &roles, i] {
            const bool gives = i < roles.producers(), takes = i >= roles.give;
            Worker(run, i, gives, takes).work();
        });
    for (std::thread &thread : all) thread.join();
    bool once = true;
    for (auto &count : run.seen) once = once && count == 1;
    expect(once, "each value comes out once");
    expect(Parcel::alive == 0, "each value is destroyed once");
    expect(run.queue.close().empty(), "nothing is left");
}

// ---- Threads that stop anywhere ----

// What a thread did until it was stopped.
struct Story {
    std::vector<std::uint64_t> given, taken;
};

// Gives while there is room, and then takes some. So there are many values inside, also when generations change. It
// stops once all threads have made that many calls.
Story give_and_take(Parcels::Handle handle, std::uint64_t thread, std::atomic<long> &calls) {
    Story story;
    std::uint64_t next = thread << 32;
    while (calls > 0) {
        auto put = kfifo::Put::done;
        while (put == kfifo::Put::done && calls-- > 0) {
            put = handle.emplace(next);
            if (put == kfifo::Put::done) story.given.push_back(next++);
        }
        expect(kfifo::may_retry(put) || put == kfifo::Put::done, kfifo::text(put));
        for (std::uint64_t i = 0; i < 3 + thread && calls-- > 0; i++) {
            auto taken = handle.take();
            if (taken.value)
                story.taken.push_back(*taken.value->number);
            else
                expect(kfifo::may_retry(taken.why), kfifo::text(taken.why));
        }
    }
    return story;
}

// Four threads that are stopped after that many calls in all.
Story stopped_after(Parcels &queue, long calls_of_all) {
    std::atomic<long> calls{calls_of_all};
    Story stories[4];
    std::vector<std::thread> all;
    for (std::uint64_t i = 0; i < 4; i++)
        all.emplace_back([&stories, &calls, i, handle = queue.handle()]() mutable {
            stories[i] = give_and_take(std::move(handle), i, calls);
        });
    for (std::thread &thread : all) thread.join();
    Story sum;
    for (const Story &story : stories) {
        sum.given.insert(sum.given.end(), story.given.begin(), story.given.end());
        sum.taken.insert(sum.taken.end(), story.taken.begin(), story.taken.end());
    }
    return sum;
}

// The queue is closed, or goes, while it has values of several generations: what came out before and what a close gives
// back is each value once. It had several generations where more was left than one has cells.
void stops_anywhere(bool closes) {
    constexpr std::uint32_t k = 2, segments = 8, threads = 4,
                            cells = k * segments + threads * kfifo::detail::spare_cells;
    constexpr long LEAST = 20, NUMBERS = 7980, ROUNDS = NUMBERS / STEP + 1;
    std::size_t most = 0;
    // Where threads take turns on few processors, values of several generations are seldom left. So it goes on until
    // some are, for forty times as many rounds at most.
    for (long round = 0; round < ROUNDS || (most <= cells && round < 40 * ROUNDS); round++) {
        const long calls = LEAST + round * STEP % NUMBERS;
        Parcels queue = few_versions(k, segments, threads, 4 * cells);
        Story story = stopped_after(queue, calls);
        const std::size_t inside = story.given.size() - story.taken.size();
        expect(std::size_t(Parcel::alive) == inside, "values that are left where threads stop");
        most = std::max(most, inside);
        if (!closes) continue;
        for (const Parcel &parcel : queue.close()) story.taken.push_back(*parcel.number);
        std::sort(story.given.begin(), story.given.end());
        std::sort(story.taken.begin(), story.taken.end());
        expect(story.given == story.taken, "what came out and what is left is each value once");
    }
    expect(most > cells, "values of several generations are left");
    expect(Parcel::alive == 0, "values of a queue that ends in the middle of a change are destroyed once");
}

} // namespace

int main(int count, char **words) {
    if (count > 1 && !std::strcmp(words[1], "--long")) times = 20;
    refusals();
    in_order();
    does_not_renew();
    handles_that_go();
    for (bool closes : {false, true}) stops_anywhere(closes);
    for (bool sleeps : {false, true})
        for (const Roles &roles : {Roles{1, 1, 0}, {2, 2, 0}, {0, 0, 4}, {1, 1, 2}, {8, 8, 0}, {4, 4, 8}})
            threads(roles, sleeps);
    std::puts(failures ? "generations of values in C++ fail"
                       : "generations in C++ that change all the time: each value came out and was destroyed once");
    return failures != 0;
}
