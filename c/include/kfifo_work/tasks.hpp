// A task as a value of the queue: in its 64 bits, or in a node that they lead to.
#ifndef KFIFO_WORK_TASKS_HPP
#define KFIFO_WORK_TASKS_HPP

#include "../kfifo.hpp"

#include <cstddef>
#include <cstdint>
#include <cstring>
#include <memory>
#include <mutex>
#include <new>
#include <type_traits>
#include <utility>

namespace kfifo::work {

namespace detail {

constexpr std::size_t line = 64;

constexpr std::size_t rounded_up(std::size_t size, std::size_t to) { return (size + to - 1) / to * to; }

// A free node. The first of a chain also leads to the next chain.
struct Link {
    Link *next, *chain;
};

// Chains of free nodes that a worker has too many of, for those that have none.
class Chains {
  public:
    void put(Link *chain) {
        std::lock_guard<std::mutex> lock(mutex);
        chain->chain = first;
        first = chain;
    }
    Link *get() {
        std::lock_guard<std::mutex> lock(mutex);
        Link *chain = first;
        if (chain) first = chain->chain;
        return chain;
    }

  private:
    std::mutex mutex;
    Link *first = nullptr;
};

// Tasks of any type, in nodes: what one worker makes and destroys them with. Only its own thread calls it.
template <typename Task, bool fits> class Carrier {
  public:
    Carrier() = default;
    Carrier(const Carrier &) = delete;
    Carrier &operator=(const Carrier &) = delete;
    ~Carrier() {
        while (blocks) {
            std::byte *block = blocks;
            std::memcpy(&blocks, block + each * node, sizeof blocks);
            ::operator delete(block, alignment);
        }
    }

    void shares(Chains &with) { chains = &with; }

    // Makes a task. What its constructor throws comes out, and so does std::bad_alloc: then there is none.
    template <typename... Arguments> std::uint64_t make(Arguments &&...arguments) {
        Link *place = get();
        KFIFO_TRY { ::new (static_cast<void *>(place)) Task(std::forward<Arguments>(arguments)...); }
        KFIFO_CATCH {
            put(::new (static_cast<void *>(place)) Link);
            KFIFO_THROW_AGAIN;
        }
        return KFIFO_CAST_POINTER(std::uintptr_t, place);
    }

    // Hands the task to `use`, and destroys it after that, also where it throws.
    template <typename Use> void take(std::uint64_t word, Use use) {
        void *place = KFIFO_CAST_POINTER(void *, static_cast<std::uintptr_t>(word));
        Held held{*this, place};
        use(std::move(*std::launder(static_cast<Task *>(place))));
    }

  private:
    static constexpr std::size_t alignment_of = alignof(Task) > alignof(Link) ? alignof(Task) : alignof(Link);
    static constexpr std::size_t node =
        rounded_up(sizeof(Task) > sizeof(Link) ? sizeof(Task) : sizeof(Link), alignment_of);
    // Nodes of a block, and of a chain. Blocks have lines of the cache of their own, and so has each worker at first.
    static constexpr std::size_t each = node >= 4096 ? 1 : node <= 64 ? 64 : 4096 / node;
    static constexpr std::size_t size = rounded_up(each * node + sizeof(std::byte *), line);
    static constexpr std::align_val_t alignment{alignof(Task) > line ? alignof(Task) : line};

    struct Held {
        Carrier &carrier;
        void *place;
        ~Held() {
            std::launder(static_cast<Task *>(place))->~Task();
            carrier.put(::new (place) Link);
        }
    };

    Link *get() {
        if (!free) {
            free = spare ? spare : chains->get();
            spare = nullptr;
            if (!free) free = make_block();
            count = each;
        }
        Link *place = free;
        free = place->next;
        count--;
        return place;
    }

    void put(Link *place) {
        if (count == each) {
            if (spare) chains->put(spare);
            spare = free;
            free = nullptr;
            count = 0;
        }
        place->next = free;
        free = place;
        count++;
    }

    // A chain of new nodes. The block ends with the address of the one before.
    Link *make_block() {
        auto *block = static_cast<std::byte *>(::operator new(size, alignment));
        std::memcpy(block + each * node, &blocks, sizeof blocks);
        blocks = block;
        Link *first = nullptr;
        for (std::size_t i = each; i-- > 0;) first = ::new (static_cast<void *>(block + i * node)) Link{first, nullptr};
        return first;
    }

    Chains *chains = nullptr;
    Link *free = nullptr, *spare = nullptr; // `free` has `count` nodes, and `spare` is a whole chain or none
    std::size_t count = 0;
    std::byte *blocks = nullptr;
};

// Tasks that are values themselves.
template <typename Task> class Carrier<Task, true> {
  public:
    void shares(Chains &) {}

    template <typename... Arguments> std::uint64_t make(Arguments &&...arguments) {
        Task task(std::forward<Arguments>(arguments)...);
        std::uint64_t word = 0;
        std::memcpy(&word, static_cast<const void *>(std::addressof(task)), sizeof task);
        return word;
    }

    template <typename Use> void take(std::uint64_t word, Use use) {
        alignas(Task) std::byte place[sizeof(Task)];
        std::memcpy(place, &word, sizeof(Task));
        use(std::move(*std::launder(reinterpret_cast<Task *>(place))));
    }
};

template <typename Task>
constexpr bool fits_in_word = std::is_trivially_copyable_v<Task> && sizeof(Task) <= sizeof(std::uint64_t);

} // namespace detail

} // namespace kfifo::work

#endif
