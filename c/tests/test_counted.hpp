// For tests: values that count how many of them are alive and throw where they are told to.
#ifndef TEST_COUNTED_HPP
#define TEST_COUNTED_HPP

#include "kfifo.hpp"

#include <atomic>
#include <cstdint>
#include <cstdio>
#include <memory>
#include <utility>

inline int failures = 0;

inline void expect(bool holds, const char *what) {
    if (!holds) {
        std::fprintf(stderr, "%s\n", what);
        failures++;
    }
}

struct Thrown {};

// What the types below are made of: it counts the objects that are alive, and throws where it was told to.
struct Counted {
    static constexpr std::uint64_t whole = 0x7768'6f6c'6521'2121;
    static inline std::atomic<long> alive{0}, wrong{0};
    static inline long throw_after = -1; // how many more objects are made before one throws; below 0 none does

    explicit Counted(int what) : number((may_throw(), new int(what))), is_whole(whole) { alive++; }
    Counted(const Counted &other) : number((may_throw(), other.copy())), is_whole(whole) { alive++; }
    Counted(Counted &&other) noexcept : number(std::move(other.number)), is_whole(whole) { alive++; }
    Counted &operator=(const Counted &other) {
        number.reset(other.copy());
        return *this;
    }
    Counted &operator=(Counted &&other) noexcept {
        number = std::move(other.number);
        return *this;
    }
    // An object that is destroyed twice, or was never made, is not whole.
    ~Counted() {
        if (is_whole != whole) wrong++;
        is_whole = 0;
        alive--;
    }

    static void may_throw() {
        if (throw_after >= 0 && throw_after-- == 0) throw Thrown();
    }
    int *copy() const { return number ? new int(*number) : nullptr; }
    bool is(int what) const { return is_whole == whole && number && *number == what; }

    std::unique_ptr<int> number;
    std::uint64_t is_whole;
};

// Whose moves do not throw, and which can be copied.
struct Plain : Counted {
    using Counted::Counted;
};

// Whose copies and moves throw. A move that throws loses the number.
struct Throwing : Counted {
    using Counted::Counted;
    Throwing(const Throwing &) = default;
    Throwing(Throwing &&other) noexcept(false) : Counted(std::move(other)) { may_throw(); }
    Throwing &operator=(const Throwing &) = default;
    Throwing &operator=(Throwing &&other) noexcept(false) {
        Counted::operator=(std::move(other));
        may_throw();
        return *this;
    }
};

// Which can only be moved. A move that throws leaves both as they were.
struct MovedThrowing : Counted {
    using Counted::Counted;
    MovedThrowing(MovedThrowing &&other) noexcept(false) : Counted((may_throw(), std::move(other))) {}
    MovedThrowing &operator=(MovedThrowing &&other) noexcept(false) {
        may_throw();
        Counted::operator=(std::move(other));
        return *this;
    }
};

// Whether a call throws Thrown when it has made that many objects.
template <typename Call> bool throws(long after, Call call) {
    Counted::throw_after = after;
    bool has_thrown = false;
    try {
        call();
    } catch (const Thrown &) {
        has_thrown = true;
    }
    Counted::throw_after = -1;
    return has_thrown;
}

template <typename Call> bool refuses(Call call) {
    try {
        call();
    } catch (const kfifo::Error &error) {
        return error.status() == KFIFO_BAD_CALL;
    }
    return false;
}

// Afterwards nothing is left.
inline void balanced(const char *what) {
    expect(Counted::alive == 0 && Counted::wrong == 0, what);
    Counted::alive = Counted::wrong = 0;
}

// Makes values with number 0 until the queue is full. Returns how many.
template <typename Handle> int fill(Handle &handle) {
    int given = 0;
    while (handle.emplace(0) == kfifo::Put::done) given++;
    return given;
}

#endif
