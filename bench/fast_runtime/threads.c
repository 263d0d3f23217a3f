/* Two instances of one module, each used by a thread of its own at the same time, with W2C_RT_THREADS: calls, traps of all kinds that come
 * back to the thread's own setjmp, growth, and memories and tables that are given back and made anew. Each thread gets what the first
 * one got alone. */
#include <pthread.h>
#include <setjmp.h>
#include <stdio.h>
#include <string.h>
#include "first.h"
#include "second.h"

#define ROUNDS 200

static _Thread_local jmp_buf *back;
static _Thread_local u32 trap;

void w2c_trap(u32 k) {
    trap = k;
    longjmp(*back, 1);
}

struct instance {
    void (*init)(void);
    w2c_mem *(*memory)(void);
    w2c_tab *(*table)(void);
    u32 *(*calls)(void);
    u32 (*work)(u32, u32), (*fib)(u32), (*load)(u32), (*divide)(u32), (*empty)(void), (*grow)(u32);
    void (*down)(u32);
};
#define INSTANCE(M) \
    { w2cZ_##M##Z_i, w2cZ_##M##Z_mZ_memory, w2cZ_##M##Z_tZ_table, w2cZ_##M##Z_vZ_calls, w2cZ_##M##Z_fZ_work, w2cZ_##M##Z_fZ_fib, \
      w2cZ_##M##Z_fZ_load, w2cZ_##M##Z_fZ_divide, w2cZ_##M##Z_fZ_empty, w2cZ_##M##Z_fZ_grow, w2cZ_##M##Z_fZ_down }
static const struct instance instances[2] = {INSTANCE(first), INSTANCE(second)};

enum { LOAD, DIVIDE, DOWN, EMPTY };

/* The trap of a call, 0 where it ended. */
static u32 trap_of(const struct instance *i, int what, u32 x) {
    jmp_buf here;
    back = &here;
    trap = 0;
    if (setjmp(here) == 0) {
        switch (what) {
        case LOAD: i->load(x); break;
        case DIVIDE: i->divide(x); break;
        case DOWN: i->down(x); break;
        default: i->empty();
        }
    } else {
        w2c_depth = 0;
    }
    return trap;
}

/* A sum over all that the unit gives; the round's number in front of a first wrong trap is the answer's highest bits. */
static u64 run(const struct instance *i) {
    u64 sum = 0;
    u32 k;
    for (k = 0; k < ROUNDS; k++) {
        u32 pages = k % 3;
        i->init();
        sum = sum * 31 + i->work(16000, k);
        sum = sum * 31 + i->fib(12);
        sum = sum * 31 + i->grow(pages);
        if (trap_of(i, LOAD, 65536 * (1 + pages) - 3) != 2 || trap_of(i, LOAD, 65536 * (1 + pages) - 4) != 0) return (u64)(k + 1) << 40 | 1;
        if (trap_of(i, LOAD, 4000000000u) != 2 || trap_of(i, DIVIDE, 0) != 3 || trap_of(i, EMPTY, 0) != 6) return (u64)(k + 1) << 40 | 2;
        if (trap_of(i, DOWN, 1023) != 0 || trap_of(i, DOWN, 1024) != 8 || w2c_depth != 0) return (u64)(k + 1) << 40 | 3;
        sum = sum * 31 + i->work(1000, k) + *i->calls();
        w2c_mem_free(i->memory());
        w2c_tab_free(i->table());
    }
    return sum;
}

struct job {
    const struct instance *instance;
    u64 sum;
};

static void *thread(void *given) {
    struct job *job = (struct job *)given;
    job->sum = run(job->instance);
    return 0;
}

int main(void) {
    struct job jobs[2] = {{&instances[0], 0}, {&instances[1], 0}};
    pthread_t threads[2];
    u64 alone = run(&instances[0]);
    int k;
    for (k = 0; k < 2; k++)
        if (pthread_create(&threads[k], 0, thread, &jobs[k])) return 2;
    for (k = 0; k < 2; k++) pthread_join(threads[k], 0);
    printf("%llx alone, %llx and %llx beside each other\n", (unsigned long long)alone, (unsigned long long)jobs[0].sum, (unsigned long long)jobs[1].sum);
    return alone != jobs[0].sum || alone != jobs[1].sum;
}
