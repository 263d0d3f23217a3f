/* Four instances of busy.wasm in four threads at once. Units and runtime are compiled with -DW2C_RT_THREADS, so each thread has its own
 * count of active functions; what else a unit has is its own. A trap comes back to the thread that it is of. */
#include <pthread.h>
#include <setjmp.h>
#include <stdio.h>
#include "a.h"
#include "b.h"
#include "c.h"
#include "d.h"

struct instance {
    const char *name;
    void (*init)(void);
    u32 (*deep)(u32);
    u32 (*primes)(u32);
    u32 wrong;
    u32 trapped;
};

static _Thread_local jmp_buf back;
static _Thread_local u32 trapped;

void w2c_trap(u32 kind) {
    trapped = kind;
    longjmp(back, 1);
}

/* The number of the trap that a call of `deep` ends with, or 0. */
static u32 trap_of_deep(struct instance *it, u32 n) {
    u32 depth = w2c_depth;
    trapped = 0;
    if (setjmp(back) == 0) {
        it->deep(n);
    } else {
        w2c_depth = depth;
    }
    return trapped;
}

static void *run(void *argument) {
    struct instance *it = argument;
    u32 i;
    it->init();
    for (i = 0; i < 200; i++) {
        if (trap_of_deep(it, 1023) != 0) it->wrong++;
        if (trap_of_deep(it, 1024) == 8) it->trapped++;
        if (it->primes(10000 + i % 2) != 1229) it->wrong++;
    }
    return NULL;
}

#define INSTANCE(x) {#x, x##_i, x##_fZ_deep, x##_fZ_primes, 0, 0}

int main(void) {
    static struct instance all[4] = {INSTANCE(a), INSTANCE(b), INSTANCE(c), INSTANCE(d)};
    pthread_t threads[4];
    int i, wrong = 0;
    for (i = 0; i < 4; i++)
        if (pthread_create(&threads[i], NULL, run, &all[i])) return 2;
    for (i = 0; i < 4; i++) {
        pthread_join(threads[i], NULL);
        printf("%s: %lu wrong, %lu of 200 traps\n", all[i].name, (unsigned long)all[i].wrong, (unsigned long)all[i].trapped);
        if (all[i].wrong || all[i].trapped != 200) wrong = 1;
    }
    return wrong;
}
