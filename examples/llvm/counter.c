// Atomic operations, a volatile variable, and one of each thread.
#include <stdatomic.h>

static atomic_int users;
volatile int stopped;
_Thread_local long visits = 1;

int enter(int most)
{
    int seen = atomic_load_explicit(&users, memory_order_relaxed);
    while (!stopped && seen < most)
        if (atomic_compare_exchange_weak(&users, &seen, seen + 1)) {
            visits++;
            return 1;
        }
    return 0;
}

void leave(void)
{
    atomic_fetch_sub(&users, 1);
    atomic_thread_fence(memory_order_release);
}
