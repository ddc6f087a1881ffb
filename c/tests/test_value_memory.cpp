// The memory of a queue of values in C++: how much a queue takes, that one that grows gives it back, that a thread
// which is slow finds its cell and its value where they were however often the generation changed, and what each
// refused request for memory comes to.
#include "kfifo.hpp"

#include <cstdio>
#include <cstdlib>
#include <malloc.h>
#include <string>
#include <thread>
#include <vector>

namespace {

int failures = 0;

void expect(bool holds, const char *what) {
    if (holds) return;
    std::fprintf(stderr, "%s\n", what);
    failures++;
}

// The bytes that the library and C++ have, their requests so far, and those that are refused: from the first of these
// numbers on, and before the second.
std::atomic<long> bytes{0}, requests{0};
std::atomic<long> refused_from{-1}, refused_until{-1};

bool is_refused() {
    long number = requests++;
    return number >= refused_from && number < refused_until;
}

// Refuses as many requests, after so many others. None: as before.
void refuse(long after, long many) {
    refused_from = requests + after;
    refused_until = refused_from + many;
}
void refuse_none() { refused_until = -1; }

constexpr long ALL = 1000000000;

} // namespace

extern "C" {
void *__real_malloc(std::size_t size);
void *__real_realloc(void *block, std::size_t size);
void __real_free(void *block);

// The linker hands the library's calls of malloc, realloc and free to these.
void *__wrap_malloc(std::size_t size) {
    if (is_refused()) return nullptr;
    void *block = __real_malloc(size);
    bytes += long(malloc_usable_size(block));
    return block;
}

void *__wrap_realloc(void *block, std::size_t size) {
    if (is_refused()) return nullptr;
    bytes -= long(malloc_usable_size(block));
    void *other = __real_realloc(block, size);
    bytes += long(malloc_usable_size(other));
    return other;
}

void __wrap_free(void *block) {
    bytes -= long(malloc_usable_size(block));
    __real_free(block);
}
}

// Not inline, since the compiler would else warn of a block that one of them takes and another gives back.
__attribute__((noinline)) void *operator new(std::size_t size) {
    if (void *block = std::malloc(size ? size : 1)) return block;
    throw std::bad_alloc();
}
__attribute__((noinline)) void operator delete(void *block) noexcept { std::free(block); }
__attribute__((noinline)) void operator delete(void *block, std::size_t) noexcept { std::free(block); }

namespace {

// A value that says whether it is whole.
struct Whole {
    explicit Whole(std::uint64_t what) : number(what) {
        for (std::uint64_t &word : copies) word = what;
    }
    bool is(std::uint64_t what) const {
        for (std::uint64_t word : copies)
            if (word != what) return false;
        return number == what;
    }
    std::uint64_t number, copies[7];
};

static_assert(sizeof(Whole) == 64, "the size of the values below");

using Queue = kfifo::ValueQueue<Whole>;

// ---- How much ----

void sizes() {
    struct {
        std::size_t threads;
        long most;
    } all[] = {{2, 150000}, {4, 150000}, {16, 350000}, {64, 600000}};
    for (auto of : all) {
        long before = bytes;
        {
            Queue queue(16, 1024, of.threads);
            std::vector<Queue::Handle> handles;
            for (std::size_t i = 0; i < of.threads; i++) handles.push_back(queue.handle());
            for (int round = 0; round < 3; round++) {
                std::uint64_t given = 0;
                while (handles[given % of.threads].emplace(given) == kfifo::Put::done) given++;
                expect(given >= 1024, "a queue has room for as many values as it was opened for");
                for (std::uint64_t i = 0; i < given; i++)
                    expect(handles[(i + std::uint64_t(round)) % of.threads].take().value.has_value(), "a value");
            }
            std::printf("%zu threads: %ld bytes\n", of.threads, bytes - before);
            expect(bytes - before < of.most, "a queue takes more memory than it should");
        }
        expect(bytes == before, "a queue gives its memory back");
    }
}

// ---- Growth ----

// Grows from a few values to that many, and back, round after round.
void grows(std::uint64_t values) {
    long before = bytes;
    {
        kfifo::Options options;
        options.grows = 100;
        Queue queue(16, 1024, 2, options);
        long opened = bytes - before;
        auto giver = queue.handle(), taker = queue.handle();
        for (int round = 0; round < 3; round++) {
            for (std::uint64_t i = 0; i < 8; i++)
                expect(giver.emplace(i) == kfifo::Put::done && taker.take().value->is(i), "a queue that is small");
            for (std::uint64_t i = 0; i < values; i++)
                expect(giver.emplace(i) == kfifo::Put::done, "a queue that grows");
            expect(bytes - before > long(values * sizeof(Whole)), "values take memory");
            std::uint64_t sum = 0;
            for (std::uint64_t i = 0; i < values; i++) {
                auto taken = taker.take();
                bool is_near = taken.value && taken.value->is(taken.value->number) && taken.value->number + 16 > i &&
                               taken.value->number < i + 16;
                expect(is_near, "the values of a queue that grew come in their order, but for k - 1");
                sum += taken.value ? taken.value->number : 0;
            }
            expect(sum == values * (values - 1) / 2, "each value came out once");
            // Both handles go on to the newest generation.
            expect(giver.emplace(1) == kfifo::Put::done && giver.take().value && !taker.take().value, "the last value");
            expect(bytes - before < 2 * opened, "a queue that is small again gives the memory back");
        }
        while (giver.emplace(1) == kfifo::Put::done) values++;
        expect(giver.emplace(1) == kfifo::Put::full, "a queue with as many generations as it may have is full");
    }
    expect(bytes == before, "a queue that grew gives its memory back");
}

// Where there is no memory to grow, a give says so, and the queue grows once there is some.
void grows_without_memory() {
    long before = bytes;
    for (long after = 0;; after++) {
        kfifo::Options options;
        options.grows = 3;
        Queue queue(4, 32, 2, options);
        auto giver = queue.handle(), taker = queue.handle();
        std::uint64_t given = 0, taken = 0;
        refuse(after, ALL);
        kfifo::Put why = giver.emplace(given);
        for (; why == kfifo::Put::done; why = giver.emplace(given)) given++;
        refuse_none();
        std::uint64_t first = given;
        while (giver.emplace(given) == kfifo::Put::done) given++;
        expect(given >= 3 * 32, "a queue with memory grows");
        bool grew = first == given;
        expect(why == (grew ? kfifo::Put::full : kfifo::Put::no_memory), "why a queue took no more");
        while (taker.take().value) taken++;
        expect(taken == given, "what a queue without memory took comes out");
        if (grew) break;
        expect(after < 1000, "a growth asks for memory");
    }
    expect(bytes == before, "a queue that could not grow gives its memory back");
}

// ---- Slow threads ----

// Versions that are soon used up.
kfifo::Options few_versions() {
    kfifo::Options options;
    options.last = 64;
    options.reserve = 32;
    return options;
}

// A value whose constructor makes calls.
struct Late {
    template <typename Call> Late(std::uint64_t what, Call call) : whole(what) { call(); }
    Late(Late &&other) noexcept = default;
    Whole whole;
};

// The generation changes so often while a value is made in its cell. It is given all the same, once.
void slow_gives(bool grows) {
    long before = bytes;
    for (int changes : {0, 1, 2, 3, 50}) {
        kfifo::Options options = few_versions();
        if (grows) options.grows = 4;
        kfifo::ValueQueue<Late> queue(1, 8, 3, options);
        auto slow = queue.handle(), first = queue.handle(), second = queue.handle();
        auto nothing = [] {};
        const auto pairs = [&] {
            for (std::uint64_t i = 0; i < std::uint64_t(changes) * 40; i++) {
                expect(first.emplace(i, nothing) == kfifo::Put::done, "a value while another one is made");
                auto taken = second.take();
                expect(taken.value && taken.value->whole.is(i), "that value");
            }
        };
        for (std::uint64_t round = 0; round < 20; round++) {
            expect(slow.emplace(1000 + round, pairs) == kfifo::Put::done, "a value that was made slowly");
            auto taken = (round % 2 ? first : second).take();
            expect(taken.value && taken.value->whole.is(1000 + round), "comes out whole");
            expect(!first.take().value && !second.take().value, "and once");
        }
    }
    expect(bytes == before, "a queue with slow gives gives its memory back");
}

// A container that makes calls while the value is still in its cell.
template <typename Call> struct Slow {
    Call call;
    std::vector<Whole> values;
    void push_back(Whole &&value) {
        call();
        values.push_back(value);
    }
};

// The same while a value is read.
void slow_takes() {
    long before = bytes;
    {
        Queue queue(1, 8, 3, few_versions());
        auto slow = queue.handle(), first = queue.handle(), second = queue.handle();
        const auto pairs = [&] {
            for (std::uint64_t i = 0; i < 500; i++) {
                expect(first.emplace(i) == kfifo::Put::done, "a value while another one is read");
                auto taken = second.take();
                expect(taken.value && taken.value->is(i), "that value");
            }
        };
        Slow<decltype(pairs)> out{pairs, {}};
        for (std::uint64_t round = 0; round < 20; round++) {
            expect(first.emplace(1000 + round) == kfifo::Put::done, "a value that will be read slowly");
            expect(slow.take_up_to(1, out).taken == 1 && out.values.back().is(1000 + round), "comes out whole");
        }
    }
    expect(bytes == before, "a queue with slow takes gives its memory back");
}

// A value that a take could not copy stays with its handle, where it is.
struct Stubborn {
    static bool throws;
    explicit Stubborn(std::uint64_t what) : whole(what) {}
    Stubborn(const Stubborn &other) : whole(other.whole) {
        if (throws) throw 1;
    }
    Whole whole;
};

bool Stubborn::throws = false;

void kept_values() {
    long before = bytes;
    for (bool closed : {false, true}) {
        kfifo::ValueQueue<Stubborn> queue(1, 8, 3, few_versions());
        {
            auto slow = queue.handle(), first = queue.handle(), second = queue.handle();
            expect(first.emplace(77) == kfifo::Put::done, "a value that will be kept");
            Stubborn::throws = true;
            try {
                (void)slow.take();
                expect(false, "a copy that throws");
            } catch (int) {
            }
            Stubborn::throws = false;
            for (std::uint64_t i = 0; i < 2000; i++)
                expect(first.emplace(i) == kfifo::Put::done && second.take().value->whole.is(i), "other values");
            if (!closed) expect(slow.take().value->whole.is(77), "the value that was kept");
        }
        auto left = queue.close();
        expect(closed ? left.size() == 1 && left[0].whole.is(77) : left.empty(), "a value that was kept until the end");
    }
    expect(bytes == before, "a queue with a value that is kept gives its memory back");
}

// ---- Refused requests ----

void openings() {
    long before = bytes;
    for (long after = 0;; after++) {
        refuse(after, 1);
        auto opened = Queue::try_open(4, 32, 3);
        refuse_none();
        if (opened.queue) break;
        expect(opened.status == KFIFO_NO_MEMORY, "an opening without memory");
        expect(bytes == before, "an opening without memory keeps none");
        expect(after < 10000, "an opening asks for memory");
    }
    bool has_thrown = false;
    refuse(2, ALL);
    try {
        Queue queue(4, 32, 3);
    } catch (const std::bad_alloc &) {
        has_thrown = true;
    }
    refuse_none();
    expect(has_thrown && bytes == before, "an opening that throws");
}

// A change of generations that is refused some memory is made later, and no value is lost.
void changes() {
    long before = bytes;
    for (long many : {1L, 2L, 5L})
        for (long after = 0; after < 60; after++) {
            Queue queue(1, 8, 2, few_versions());
            auto giver = queue.handle(), taker = queue.handle();
            refuse(after, many);
            for (std::uint64_t i = 0; i < 400; i++) {
                expect(giver.emplace(i) == kfifo::Put::done, "a give while memory is refused");
                auto taken = taker.take();
                expect(taken.value && taken.value->is(i), "a take while memory is refused");
            }
            refuse_none();
        }
    expect(bytes == before, "queues whose changes were refused give their memory back");
}

// Where no change gets memory, the queue is worn out, and a close gives back what is left, as soon as there is some.
void worn() {
    long before = bytes;
    for (long after = 0;; after++) {
        Queue queue(1, 8, 1, few_versions());
        std::uint64_t given = 0, taken = 0;
        {
            auto handle = queue.handle();
            refuse(0, ALL);
            auto put = kfifo::Put::done;
            for (; put == kfifo::Put::done && given < 1000; given++) {
                put = handle.emplace(given);
                if (given < 8 || put != kfifo::Put::done) continue;
                auto got = handle.take();
                expect(got.value ? got.value->is(taken) : got.why == kfifo::Miss::worn, "a queue that wears out");
                taken += got.value.has_value();
            }
            expect(put == kfifo::Put::worn && --given > taken, "a queue without memory wears out");
        }
        refuse(after, ALL);
        std::vector<Whole> left;
        bool failed = false;
        try {
            left = queue.close();
        } catch (const std::bad_alloc &) {
            failed = true;
        }
        refuse_none();
        if (failed) {
            try {
                left = queue.close();
            } catch (const std::bad_alloc &) {
                expect(false, "a further close");
            }
        }
        bool in_order = left.size() <= given - taken && (failed || left.size() == given - taken);
        for (std::size_t i = 0; in_order && i < left.size(); i++) in_order = left[i].is(taken + i);
        expect(in_order, "a close of a queue that is worn out gives back what is left, in its order");
        if (!failed) break;
        expect(after < 1000, "a close asks for memory");
    }
    expect(bytes == before, "a queue that was worn out gives its memory back");
}

// A close for whose vector there is no memory loses nothing: further ones go on.
void closes() {
    long before = bytes;
    for (long after = 0; after < 6; after++) {
        Queue queue(1, 64, 2);
        for (std::uint64_t i = 0; i < 50; i++) expect(queue.handle().emplace(i) == kfifo::Put::done, "a value");
        std::vector<Whole> left;
        int failed = 0;
        for (bool goes_on = true; goes_on;) {
            refuse(after, 1);
            try {
                left = queue.close();
                goes_on = false;
            } catch (const std::bad_alloc &) {
                failed++;
            }
            refuse_none();
            if (after == 0 && failed == 3) after = 1;
        }
        bool in_order = left.size() == 50;
        for (std::size_t i = 0; in_order && i < left.size(); i++) in_order = left[i].is(i);
        expect(in_order && failed > 0, "a close that had no memory before gives all back");
    }
    expect(bytes == before, "queues that were closed give their memory back");
}

} // namespace

int main() {
    sizes();
    grows(100000);
    grows_without_memory();
    for (bool grows : {false, true}) slow_gives(grows);
    slow_takes();
    kept_values();
    openings();
    changes();
    worn();
    closes();
    std::puts(failures ? "the memory of queues of values fails in C++"
                       : "the memory of queues of values in C++: as much as it should be, and no value is lost");
    return failures != 0;
}
