/* Stamps and locks: the order of what several threads do.
 *
 * Each record has a stamp, a number that grows with each one of a process. What was read has the stamp of the moment
 * before the program gets it, what was written that of the moment before it was handed over, and it is recorded once
 * it is known how much was taken. So in the order of stamps nothing comes before what caused it, whatever the
 * threads do. A record before each write says, where the program is killed in it, that some bytes may have been sent
 * that aren't recorded.
 */
#include "preload.h"

#include <sched.h>
#include <sys/syscall.h>
#include <time.h>
#include <unistd.h>

static __thread int kept_thread;
static _Atomic uint64_t last_stamp;

int this_thread(void)
{
    if (kept_thread == 0)
        kept_thread = (int)syscall(SYS_gettid);
    return kept_thread;
}

void forget_thread(void)
{
    kept_thread = 0;
}

static uint64_t read_clock(clockid_t clock)
{
    struct timespec now;
    clock_gettime(clock, &now);
    return (uint64_t)now.tv_sec * 1000000000u + (uint64_t)now.tv_nsec;
}

uint64_t clock_now(void)
{
    return read_clock(CLOCK_MONOTONIC);
}

uint64_t time_of_stamp(uint64_t stamp)
{
    return read_clock(CLOCK_REALTIME) - (clock_now() - stamp);
}

uint64_t next_stamp(void)
{
    uint64_t now = clock_now(), last = atomic_load(&last_stamp), next;
    do
        next = now > last ? now : last + 1;
    while (!atomic_compare_exchange_weak(&last_stamp, &last, next));
    return next;
}

bool lock(atomic_int *held)
{
    int holder = 0, self = this_thread();
    while (!atomic_compare_exchange_weak(held, &holder, self)) {
        if (holder == self)
            return false;
        holder = 0;
        sched_yield();
    }
    return true;
}

void unlock(atomic_int *held)
{
    atomic_store(held, 0);
}
