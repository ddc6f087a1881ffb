// A queue of values in C++ by types of all kinds: over-aligned, without a default constructor, that can only be moved,
// only be copied, not be assigned, or throw when they are copied or moved. Each object that was made is destroyed once,
// whatever the queue answers, also where the queue is worn out or cannot be closed. And no call allocates.
#include "test_counted.hpp"

#include <algorithm>
#include <cstdio>
#include <cstdlib>
#include <functional>
#include <string>
#include <thread>

// How many values each producer gives.
#ifdef FEWER
#define EACH 2000
#else
#define EACH 50000
#endif

namespace {

// Requests for memory by C++ so far.
std::atomic<long> requests{0};

// What the library's closes of queues come to, and what loses the cells that are left.
kfifo_status closes = KFIFO_DONE;
std::function<void(const kfifo_cell_at &)> loses;

} // namespace

// Not inline, since the compiler would else warn of a block that one of them takes and another gives back.
__attribute__((noinline)) void *operator new(std::size_t size) {
    requests++;
    if (void *block = std::malloc(size ? size : 1)) return block;
    throw std::bad_alloc();
}
__attribute__((noinline)) void operator delete(void *block) noexcept { std::free(block); }
__attribute__((noinline)) void operator delete(void *block, std::size_t) noexcept { std::free(block); }

// A block with an alignment of its own has that one and no greater one, so that one that is too small is seen.
__attribute__((noinline)) void *operator new(std::size_t size, std::align_val_t alignment) {
    requests++;
    std::size_t align = static_cast<std::size_t>(alignment);
    void *block = std::aligned_alloc(2 * align, (size / (2 * align) + 2) * (2 * align));
    if (block) return static_cast<char *>(block) + align;
    throw std::bad_alloc();
}
__attribute__((noinline)) void operator delete(void *block, std::align_val_t alignment) noexcept {
    std::free(static_cast<char *>(block) - static_cast<std::size_t>(alignment));
}
__attribute__((noinline)) void operator delete(void *block, std::size_t, std::align_val_t alignment) noexcept {
    operator delete(block, alignment);
}

// The linker hands the library's closes to this function.
extern "C" {
std::uint32_t __real_kfifo_c_close_cells(kfifo_handle *handles, std::size_t threads, kfifo_left *left);

std::uint32_t __wrap_kfifo_c_close_cells(kfifo_handle *handles, std::size_t threads, kfifo_left *left) {
    if (closes == KFIFO_NO_MEMORY) return closes;
    std::uint32_t status = __real_kfifo_c_close_cells(handles, threads, left);
    if (closes == KFIFO_DONE) return status;
    kfifo_cell_at cell{};
    while (kfifo_c_next_left(left, &cell) == KFIFO_DONE) loses(cell);
    kfifo_c_free_left(left);
    return closes;
}
}

namespace {

// Which can only be moved.
struct Moved : Counted {
    using Counted::Counted;
    Moved(Moved &&) = default;
    Moved &operator=(Moved &&) = default;
};

// Which can only be copied, and cannot be assigned.
struct Copied : Counted {
    explicit Copied(int what) : Counted(what), once(what) {}
    Copied(const Copied &) = default;
    const int once;
};

// Which can only be moved, and cannot be assigned: a queue cannot hand it back.
struct Fixed : Counted {
    explicit Fixed(int what) : Counted(what), once(what) {}
    Fixed(Fixed &&) = default;
    const int once;
};

// Which lies on lines of the cache of its own, and says where it does not.
struct alignas(128) Aligned : Counted {
    explicit Aligned(int what) : Counted(what) { look(); }
    Aligned(Aligned &&other) noexcept : Counted(std::move(other)) { look(); }
    Aligned &operator=(Aligned &&) = default;
    void look() const {
        if (reinterpret_cast<std::uintptr_t>(this) % 128 != 0) wrong++;
    }
};

// ---- Each kind ----

// A full queue gives back what it refuses, also by calls that wait.
template <typename T> void refused() {
    using namespace std::chrono_literals;
    {
        kfifo::ValueQueue<T> queue(1, 2, 1);
        auto handle = queue.handle();
        expect(handle.give(T(1)) == kfifo::Put::done && handle.emplace(2) == kfifo::Put::done, "two values");
        const int more = fill(handle);
        T third(3);
        expect(handle.give(std::move(third)) == kfifo::Put::full && third.is(3), "a value that is refused");
        expect(handle.give_for(std::move(third), 1ms) == kfifo::Put::timed_out && third.is(3),
               "a value that is refused after a time");
        expect(handle.give_until(std::move(third), std::chrono::steady_clock::now()) == kfifo::Put::timed_out &&
                   third.is(3),
               "a value that is refused at a time");
        expect(handle.emplace(4) == kfifo::Put::full, "a value that was made in vain");
        expect(Counted::alive == 3 + more, "a value that was refused is nowhere else");
        auto taken = handle.take();
        expect(taken.value && taken.value->is(1), "the first value");
        expect(handle.give(std::move(third)) == kfifo::Put::done, "a value that was refused before");
        taken.value.reset();
        expect(Counted::alive == 3 + more, "what was taken is not in the queue");
        queue.finish();
        T late(5);
        expect(handle.give(std::move(late)) == kfifo::Put::finished && late.is(5), "a value after the end");
        expect(handle.give_wait(std::move(late)) == kfifo::Put::finished && late.is(5),
               "a value after the end that would wait");
        auto second = handle.take_wait();
        expect(second.value && second.value->is(2), "the second value");
        for (int i = 0; i < more; i++) expect(handle.take_wait().value->is(0), "values in their order");
        auto rest = handle.take_wait();
        expect(rest.value && rest.value->is(3), "the last value");
        expect(handle.take_wait().why == kfifo::Miss::finished, "the end");
    }
    balanced("a queue that refuses");
}

// Values that are left come out of a close in their order, or are destroyed with the queue.
template <typename T> void left() {
    for (bool closed : {false, true}) {
        kfifo::ValueQueue<T> queue(1, 8, 2);
        {
            auto handle = queue.handle();
            for (int i = 0; i < 7; i++) expect(handle.emplace(i) == kfifo::Put::done, "a value to be left");
            expect(handle.take().value->is(0), "a value that is not left");
        }
        expect(Counted::alive == 6, "values left");
        if (closed) {
            auto rest = queue.close();
            bool in_order = rest.size() == 6;
            for (std::size_t i = 0; i < rest.size(); i++) in_order = in_order && rest[i].is(int(i) + 1);
            expect(in_order && Counted::alive == 6, "a close gives back what is left in its order");
            expect(refuses([&] { (void)queue.close(); }), "a second close");
        }
    }
    balanced("values that are left");
}

// A queue whose versions are used up.
template <typename T> void worn() {
    for (bool closed : {false, true}) {
        kfifo::ValueQueue<T> queue(1, 2, 1, {3, 0, 1});
        std::vector<int> inside;
        int next = 0;
        {
            auto handle = queue.handle();
            auto put = kfifo::Put::done;
            for (; put != kfifo::Put::worn && next < 100; next++) {
                T value(next);
                put = handle.give(std::move(value));
                if (put == kfifo::Put::done)
                    inside.push_back(next);
                else
                    expect(value.is(next), "a value that a worn queue refused");
                if (inside.size() < 2) continue;
                auto taken = handle.take();
                if (taken.value) inside.erase(inside.begin());
            }
            expect(put == kfifo::Put::worn && handle.emplace(1) == kfifo::Put::worn, "a worn queue");
            T value(next);
            expect(handle.give_wait(std::move(value)) == kfifo::Put::worn && value.is(next),
                   "no wait for a worn queue");
        }
        expect(Counted::alive == long(inside.size()) && !inside.empty(), "what is in a worn queue");
        if (closed) {
            auto rest = queue.close();
            bool same = rest.size() == inside.size();
            for (std::size_t i = 0; same && i < rest.size(); i++) same = rest[i].is(inside[i]);
            expect(same, "a close gives back what is in a worn queue");
        }
    }
    balanced("a worn queue");
}

// Of a queue that is worn out the library says what is left, which may need memory. What it has none for is still
// there, and comes out of a further close. What it loses is gone, but for what came out before.
template <typename T> void closed_without_memory() {
    loses = [](const kfifo_cell_at &cell) { kfifo::detail::value_in<T>(cell).~T(); };
    for (kfifo_status status : {KFIFO_NO_MEMORY, KFIFO_LOST}) {
        kfifo::ValueQueue<T> queue(1, 4, 1, {6, 0, 1});
        int given = 0;
        while (queue.handle().emplace(given) == kfifo::Put::done) given++;
        closes = status;
        for (int i = 0; i < 3; i++) {
            bool failed = false;
            try {
                (void)queue.close();
            } catch (const std::bad_alloc &) {
                failed = true;
            }
            expect(failed || (status == KFIFO_LOST && i > 0), "a close without memory");
            expect(refuses([&] { (void)queue.handle(); }), "a handle after a close without memory");
            if (!failed) break;
        }
        closes = KFIFO_DONE;
        if (status == KFIFO_LOST) continue;
        auto rest = queue.close();
        bool in_order = given > 0 && rest.size() == std::size_t(given);
        for (std::size_t i = 0; in_order && i < rest.size(); i++) in_order = rest[i].is(int(i));
        expect(in_order, "what a close with memory gives back");
    }
    balanced("a close without memory");
}

template <typename T> void every() {
    refused<T>();
    left<T>();
    worn<T>();
}

// A type that a queue cannot hand back: it is made in its cell.
void fixed() {
    {
        kfifo::ValueQueue<Fixed> queue(1, 2, 1);
        auto handle = queue.handle();
        expect(handle.emplace(1) == kfifo::Put::done && handle.emplace(2) == kfifo::Put::done, "values made in cells");
        const int more = fill(handle);
        expect(handle.emplace(3) == kfifo::Put::full && Counted::alive == 2 + more, "one that was made in vain");
        auto taken = handle.take();
        expect(taken.value && taken.value->is(1) && taken.value->once == 1, "a value that cannot be assigned");
        handle.finish();
        int count = 0;
        for (Fixed &&value : handle.values()) count += value.once ? value.once : 1;
        expect(count == 2 + more, "a range of values that cannot be assigned");
    }
    balanced("a type that cannot be assigned");
}

// ---- Where the cells are ----

// A value that notes where it is made.
template <std::size_t size, std::size_t alignment> struct Placed {
    static std::vector<std::uintptr_t> all;
    Placed() { all.push_back(reinterpret_cast<std::uintptr_t>(this)); }
    Placed(Placed &&) noexcept {}
    alignas(alignment) char bytes[size];
};

template <std::size_t size, std::size_t alignment> std::vector<std::uintptr_t> Placed<size, alignment>::all;

// Each cell has a place of its own, at a multiple of the alignment, and they lie side by side.
template <std::size_t size, std::size_t alignment> void places() {
    using Value = Placed<size, alignment>;
    {
        kfifo::ValueQueue<Value> queue(16, 300, 3);
        auto handle = queue.handle();
        while (handle.emplace() == kfifo::Put::done) continue;
    }
    std::sort(Value::all.begin(), Value::all.end());
    bool is_right = Value::all.size() == 3 * (100 + kfifo::detail::spare_cells);
    for (std::size_t i = 0; i < Value::all.size(); i++)
        is_right = is_right && Value::all[i] % alignment == 0 && Value::all[i] == Value::all[0] + i * sizeof(Value);
    expect(is_right, "each cell has a place of its own");
}

void all_places() {
    places<1, 1>();
    places<3, 1>();
    places<12, 4>();
    places<16, 8>();
    places<48, 16>();
    places<32, 32>();
    places<130, 64>();
    places<1, 128>();
    places<5000, 4096>();
}

// ---- Memory ----

struct Small {
    std::uint64_t first, second;
};

// What a caller does first.
int first_calls() {
    kfifo::ValueQueue<std::string> queue(1, 512, 2); // k, capacity, threads
    auto giver = queue.handle(), taker = queue.handle();
    if (giver.give("first") != kfifo::Put::done) return 1;
    if (giver.emplace(3, 'x') != kfifo::Put::done) return 1;
    kfifo::TakenValue<std::string> taken = taker.take();
    std::string word = taken.value.value_or("none yet");
    return word == "first" && taker.take().value == "xxx" ? 0 : 2;
}

void no_requests() {
    kfifo::ValueQueue<Small> queue(1, 8, 2);
    auto giver = queue.handle(), taker = queue.handle();
    long before = requests;
    for (std::uint64_t i = 0; i < 1000; i++) {
        expect(giver.give(Small{i, 1}) == kfifo::Put::done, "a give");
        auto taken = taker.take_wait();
        expect(taken.value && taken.value->first == i, "a take");
    }
    expect(requests == before, "no call allocates");
}

// ---- Many threads ----

// 48 bytes, with memory of its own.
struct Record {
    std::uint64_t number;
    std::string text;
    std::uint64_t again;
};

static_assert(sizeof(Record) == 48, "the size of a record");

Record made(std::uint64_t number, const Record *) {
    return {number, "a text that is too long to lie in the string: " + std::to_string(number), number};
}
Aligned made(std::uint64_t number, const Aligned *) { return Aligned(int(number)); }
Throwing made(std::uint64_t number, const Throwing *) { return Throwing(int(number)); }

std::uint64_t number_of(const Record &value) {
    bool is_whole = value.again == value.number && value.text == made(value.number, &value).text;
    return is_whole ? value.number : UINT64_MAX;
}
std::uint64_t number_of(const Counted &value) { return std::uint64_t(*value.number); }

template <typename T> void threads(std::size_t pairs) {
    kfifo::ValueQueue<T> queue(4, 16, 2 * pairs);
    std::vector<std::atomic<unsigned char>> seen(pairs * EACH);
    std::atomic<std::size_t> still_giving{pairs};
    std::vector<std::thread> all;
    for (std::size_t pair = 0; pair < pairs; pair++) {
        all.emplace_back([&, pair, handle = queue.handle()]() mutable {
            for (std::uint64_t i = 0; i < EACH; i++) {
                T value = made(pair * EACH + i, static_cast<const T *>(nullptr));
                // Half of them sleep, and half of them look again.
                if (i % 2)
                    expect(handle.give_wait(std::move(value)) == kfifo::Put::done, "a give that waits");
                else
                    while (handle.give(std::move(value)) != kfifo::Put::done) std::this_thread::yield();
            }
            if (--still_giving == 0) handle.finish();
        });
        all.emplace_back([&, handle = queue.handle()]() mutable {
            for (T &&value : handle.values()) {
                std::uint64_t number = number_of(value);
                if (number < seen.size()) seen[number]++;
            }
        });
    }
    for (std::thread &thread : all) thread.join();
    bool once = true;
    for (auto &times : seen) once = once && times == 1;
    expect(once, "each value comes out whole, and once");
    balanced("many threads");
}

} // namespace

int main() {
    every<Plain>();
    every<Moved>();
    every<Throwing>();
    every<MovedThrowing>();
    every<Copied>();
    every<Aligned>();
    closed_without_memory<Plain>();
    closed_without_memory<Moved>();
    closed_without_memory<Throwing>();
    fixed();
    all_places();
    expect(first_calls() == 0, "the first calls");
    no_requests();
    for (std::size_t pairs = 1; pairs <= 4; pairs *= 2) {
        threads<Record>(pairs);
        threads<Aligned>(pairs);
        threads<Throwing>(pairs);
    }
    std::puts(failures ? "types of all kinds fail in C++"
                       : "types of all kinds in C++: each object was destroyed once, and no value was lost");
    return failures;
}
