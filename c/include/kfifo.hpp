// The proved k-FIFO queue, for C++17. docs/C.md says how to build and link it.
//
// Its parts lie in the folder kfifo: answers.hpp has what calls answer and throw, items.hpp the queue of items,
// value_queue.hpp and value_handle.hpp the queue of values of any type.
#ifndef KFIFO_HPP
#define KFIFO_HPP

// Where the compiler does not optimise, a second call by a handle while one runs is reported on stderr, and the program
// aborts: kfifo.h says how. Where that was included before, it has decided.
#if !defined(KFIFO_H) && !defined(NDEBUG) && !defined(__OPTIMIZE__) && !defined(KFIFO_DEBUG)
#define KFIFO_DEBUG
#endif

#include "kfifo.h"
#include "kfifo_many.h"
#include "kfifo_wait.h"

#include "kfifo/answers.hpp"
#include "kfifo/items.hpp"
#include "kfifo/value_queue.hpp"
#include "kfifo/value_handle.hpp"
#include "kfifo_many.hpp"

#endif
