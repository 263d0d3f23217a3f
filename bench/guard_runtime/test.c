/* Tries the guard runtime: every load and store of a unit at every place around the ends of its memory, of which it must trap with 2
 * exactly those that touch a byte behind the length; what else a trap must leave right; other faults, which are not its own; and
 * memories that are given back. `test chain` sets a handler of SIGSEGV before the unit's init, `test once` one that is to be called once, and
 * `test own` one behind it. GUARDED is 0 where the checks are in C. */
#if !defined(_GNU_SOURCE)
#define _GNU_SOURCE
#endif
#include <fenv.h>
#include <pthread.h>
#include <setjmp.h>
#include <signal.h>
#include <stdio.h>
#include <stdlib.h>
#include <string.h>
#include <sys/mman.h>
#include <sys/resource.h>
#include <sys/wait.h>
#include <unistd.h>
#if defined(__cplusplus)
extern "C" {
#endif
#include "names.h"
#include "reach.h"
void w2cZ_hostZ_fZ_tell(u32);
#if defined(__cplusplus)
}
#endif

/* Whether globals at a trap are exactly as they are to be. Memories always are. */
#if defined(W2C_RT_EXACT) || !GUARDED
#define EXACT 1
#else
#define EXACT 0
#endif

/* No variable changes between a setjmp and its longjmp here. */
#if defined(__GNUC__) && !defined(__clang__)
#pragma GCC diagnostic ignored "-Wclobbered"
#endif
static jmp_buf back;
static volatile u32 trap, told;
static volatile u64 got;
static unsigned bad, tried, trapped;

#if defined(__cplusplus)
extern "C" {
#endif
void w2c_trap(u32 k) {
    trap = k;
    longjmp(back, 1);
}
void w2c_want(void) { _exit(55); }
void w2cZ_hostZ_fZ_tell(u32 k) { told = told * 10 + k; }
#if defined(__cplusplus)
}
#endif

static void check(int right, const char *what) {
    tried++;
    if (!right) {
        bad++;
        printf("wrong: %s\n", what);
    }
}

/* The trap of a call, 0 where it ended. */
#define TRAP_OF(call) (trap = 0, setjmp(back) == 0 ? (void)(call) : (void)(w2c_depth = 0), trap)

static const struct access {
    const char *name;
    u32 width, offset;
    u32 (*load32)(u32);
    u64 (*load64)(u32);
    void (*store32)(u32, u32);
    void (*store64)(u32, u64);
} all[] = {
#include "accesses.h"
};

static void make(const struct access *a, u32 place) {
    if (a->load32) got = a->load32(place);
    else if (a->load64) got = a->load64(place);
    else if (a->store32) a->store32(place, 0x5a5a5a5au);
    else a->store64(place, 0x5a5a5a5a5a5a5a5aull);
}

static u32 trap_of_access(const struct access *a, u32 place) { return TRAP_OF(make(a, place)); }

static void try_at(const struct access *a, u32 place) {
    w2c_mem *m = w2cZ_reachZ_mZ_memory();
    u64 first = (u64)place + a->offset;
    u32 wanted = first + a->width > m->len ? 2 : 0, is;
    static u8 last[8];
    u32 depth = w2c_depth;
    if (m->len) memcpy(last, m->bytes + m->len - 8, 8);
    is = trap_of_access(a, place);
    tried++;
    trapped += is == 2;
    if (is != wanted || w2c_depth != depth) {
        bad++;
        printf("wrong: %s at %u: trap %u, wanted %u\n", a->name, place, is, wanted);
    }
    if (is == 2 && m->len && memcmp(m->bytes + m->len - 8, last, 8) != 0) {
        bad++;
        printf("wrong: %s at %u wrote before it trapped\n", a->name, place);
    }
}

/* Around the ends of the memory and of its pages, of 2^31 and of 2^32, by the place and by the place with the offset. */
static void try_all(void) {
    u64 len = w2cZ_reachZ_mZ_memory()->len;
    u64 ends[8] = {0, len, len - 65536, 65536, 131072, 262144, 1ull << 31, 1ull << 32};
    unsigned k, n;
    for (k = 0; k < sizeof all / sizeof *all; k++)
        for (n = 0; n < 8; n++) {
            int d;
            for (d = -10; d <= 10; d++) {
                try_at(&all[k], (u32)(ends[n] + (u64)(long long)d));
                try_at(&all[k], (u32)(ends[n] - all[k].offset + (u64)(long long)d));
            }
        }
}

static int caught;
static sigjmp_buf fault;
static void own_handler(int number, siginfo_t *info, void *context) {
    (void)number;
    (void)context;
    caught = info->si_addr == (void *)64 ? 1 : 2;
    siglongjmp(fault, 1);
}
static void plain_handler(int number) {
    (void)number;
    caught = 1;
    siglongjmp(fault, 1);
}
static void later_handler(int number, siginfo_t *info, void *context) {
    if (w2c_guard(number, info, context)) return;
    own_handler(number, info, context);
}

static void set_handler(void (*handler)(int, siginfo_t *, void *)) {
    struct sigaction a;
    memset(&a, 0, sizeof a);
    a.sa_sigaction = handler;
    a.sa_flags = SA_SIGINFO;
    sigaction(SIGSEGV, &a, 0);
}
static void set_handler_once(void (*handler)(int)) {
    struct sigaction a;
    memset(&a, 0, sizeof a);
    a.sa_handler = handler;
    a.sa_flags = SA_RESETHAND;
    sigaction(SIGSEGV, &a, 0);
}

/* How a child ends: the number of the signal that it ends by, or 1000 and its status. */
static int child(void (*what)(void)) {
    int status;
    pid_t pid;
    fflush(stdout);
    pid = fork();
    if (pid == 0) {
        what();
        _exit(7);
    }
    waitpid(pid, &status, 0);
    return WIFSIGNALED(status) ? WTERMSIG(status) : 1000 + WEXITSTATUS(status);
}
static int *volatile nowhere = (int *)64;
static int *volatile low = (int *)(1 << 30);
static void touch_null(void) { *(volatile int *)nowhere = 1; }
/* Not a trap of a unit, though one could be taken for the other. */
static void touch_low(void) {
    if (TRAP_OF(*(volatile int *)low = 1)) _exit(3);
}
static u8 *was;
static void touch_was(void) {
    if (TRAP_OF(*(volatile u8 *)(was + 300000) = 1)) _exit(3);
}
static void raise_it(void) { raise(SIGSEGV); }
static void touch_kept(void) {
    w2c_mem *m = w2cZ_reachZ_mZ_memory();
    mprotect(m->bytes, 4096, PROT_NONE);
    ((volatile u8 *)m->bytes)[7] = 1;
}
static void touch_other(void) {
    volatile char *p = (volatile char *)mmap(0, 65536, PROT_NONE, MAP_PRIVATE | MAP_ANONYMOUS, -1, 0);
    p[0] = 1;
}
static void unit_in_child(void) { _exit((int)TRAP_OF(got = w2cZ_reachZ_fZ_i32_load(4000000000u)) + 40); }
static void without_space(void) {
    static w2c_mem m;
    struct rlimit limit = {1u << 28, 1u << 28};
    setrlimit(RLIMIT_AS, &limit);
    w2c_mem_new(&m, 1, 1);
}
/* A loop that ends by a trap alone: it must not be left out, nor go round without it. */
static void spin_in_child(void) {
    alarm(20);
    if (TRAP_OF(w2cZ_reachZ_fZ_spin(4000000000u, 1)) == 2 && TRAP_OF(w2cZ_reachZ_fZ_spin_load(4000000000u, 1)) == 2) _exit(40);
}

static void *in_thread(void *other) {
    stack_t s;
    unsigned k;
    if (other) {
        memset(&s, 0, sizeof s);
        s.ss_sp = other;
        s.ss_size = 65536;
        sigaltstack(&s, 0);
    }
    for (k = 0; k < 1000; k++) check(TRAP_OF(got = w2cZ_reachZ_fZ_i64_load(262144u + k)) == 2, "a trap in a thread");
    return 0;
}

static void try_threads(void) {
    static char other[65536];
    pthread_t thread;
    pthread_create(&thread, 0, in_thread, 0);
    pthread_join(thread, 0);
    pthread_create(&thread, 0, in_thread, other);
    pthread_join(thread, 0);
}

/* With the stack pointer at each distance from 64, and a rounding of floating-point numbers that the host chose. */
static void try_at_depth(u32 k) {
    volatile char here[8];
    here[0] = here[7] = 1;
    if (k) {
        try_at_depth(k - 1);
        here[0]++;
        return;
    }
    fesetround(FE_UPWARD);
    check(TRAP_OF(got = w2cZ_reachZ_fZ_i32_load(4000000000u)) == 2, "a trap on a stack");
    check(fegetround() == FE_UPWARD, "the rounding of floating-point numbers");
    fesetround(FE_TONEAREST);
}

static void try_state(u32 inside, u32 outside) {
    void (*const between[2])(u32) = {w2cZ_reachZ_fZ_between, w2cZ_reachZ_fZ_between_stores};
    volatile unsigned k;
    for (k = 0; k < 6; k++) {
        w2c_mem *m = w2cZ_reachZ_mZ_memory();
        check(TRAP_OF(between[k % 2](inside)) == 0, "between two stores, inside");
        memset(m->bytes, 0, 4);
        *w2cZ_reachZ_vZ_g() = 0;
        w2cZ_reachZ_fZ_hide(0);
        check(TRAP_OF(between[k % 2](outside)) == 2, "between two stores");
        check(m->bytes[0] == 1, "the store before is made, and that behind is not");
        check(!EXACT || *w2cZ_reachZ_vZ_g() == 1, "the global before is set, and that behind is not");
        check(!EXACT || w2cZ_reachZ_fZ_hidden() == 1, "the global that is not exported");
        check(TRAP_OF(w2cZ_reachZ_fZ_between_fills()) == 2 && m->bytes[0] == 1 && m->bytes[63] == 1, "between two fills");
    }
}

static void try_order(void) {
    const u32 out = 300000;
    check(TRAP_OF(w2cZ_reachZ_fZ_dead(262141)) == 2, "a load that is not wanted");
    check(TRAP_OF(w2cZ_reachZ_fZ_dead(262140)) == 0, "a load that is not wanted, inside");
    check(TRAP_OF(got = w2cZ_reachZ_fZ_before_div(out, 0)) == 2, "2 before 3");
    check(TRAP_OF(got = w2cZ_reachZ_fZ_before_div(0, 0)) == 3, "3");
    check(TRAP_OF(got = w2cZ_reachZ_fZ_behind_div(out, 0)) == 3, "3 before 2");
    check(TRAP_OF(got = w2cZ_reachZ_fZ_behind_div(out, 1)) == 2, "2 behind a division");
    check(TRAP_OF(got = w2cZ_reachZ_fZ_before_call(out, 1)) == 2, "2 before 1");
    check(TRAP_OF(got = w2cZ_reachZ_fZ_before_call(0, 1)) == 1, "1");
    check(TRAP_OF(got = w2cZ_reachZ_fZ_behind_call(out, 1)) == 1, "1 before 2");
    check(TRAP_OF(got = w2cZ_reachZ_fZ_behind_call(out, 0)) == 2, "2 behind a call");
    check(TRAP_OF(w2cZ_reachZ_fZ_store_before_call(out, 1)) == 2, "2 of a store before 1");
    check(TRAP_OF(w2cZ_reachZ_fZ_store_behind_call(out, 1)) == 1, "1 before 2 of a store");
    told = 0;
    check(TRAP_OF(w2cZ_reachZ_fZ_tells(out)) == 2 && told == 1, "calls of the host before a load");
    told = 0;
    check(TRAP_OF(w2cZ_reachZ_fZ_tells(8)) == 0 && told == 123, "calls of the host, inside");
    check(TRAP_OF(got = w2cZ_reachZ_fZ_write_on(262000)) == 2, "a loop of stores");
    check(w2cZ_reachZ_mZ_memory()->bytes[262143] == 119, "the stores of a loop before its trap");
}

static void try_other_traps(void) {
    w2c_mem *m = w2cZ_reachZ_mZ_memory();
    check(TRAP_OF(w2cZ_reachZ_fZ_copy(262140, 0, 5)) == 2 && TRAP_OF(w2cZ_reachZ_fZ_copy(262140, 0, 4)) == 0, "copy");
    check(TRAP_OF(w2cZ_reachZ_fZ_copy(0, 262140, 5)) == 2 && TRAP_OF(w2cZ_reachZ_fZ_copy(0, 4294967295u, 0)) == 2, "copy from");
    check(TRAP_OF(w2cZ_reachZ_fZ_fill(262140, 7, 5)) == 2 && m->bytes[262140] != 7 && TRAP_OF(w2cZ_reachZ_fZ_fill(262140, 7, 4)) == 0, "fill");
    check(TRAP_OF(got = w2cZ_reachZ_fZ_indirect(0)) == 0 && got == 1, "a call by the table");
    check(TRAP_OF(got = w2cZ_reachZ_fZ_indirect(1)) == 7 && TRAP_OF(got = w2cZ_reachZ_fZ_indirect(2)) == 6 && TRAP_OF(got = w2cZ_reachZ_fZ_indirect(3)) == 5, "traps of the table");
    check(TRAP_OF(got = w2cZ_reachZ_fZ_deep(1000)) == 2, "1,001 functions active");
    check(TRAP_OF(got = w2cZ_reachZ_fZ_deep(1024)) == 8, "1,025 functions active");
}

/* Another fault's handler, before and behind traps of the unit. */
static void try_chain(const char *how) {
    const unsigned times = strcmp(how, "once") == 0 ? 1 : 3;
    volatile unsigned k;
    for (k = 0; k < times; k++) {
        caught = 0;
        if (sigsetjmp(fault, 1) == 0) touch_null();
        check(caught == 1, "the other handler");
        check(TRAP_OF(got = w2cZ_reachZ_fZ_i32_load(262141)) == 2, "a trap behind it");
        if (times == 1) break;
        caught = 0;
        if (sigsetjmp(fault, 1) == 0) touch_other();
        check(caught == 2, "the other handler, no memory's place");
        check(TRAP_OF(got = w2cZ_reachZ_fZ_i32_load(262141)) == 2, "a trap behind it");
    }
    if (times == 1) check(child(touch_null) == SIGSEGV, "a handler that was to be called once");
}

static void try_default(void) {
    check(child(touch_null) == SIGSEGV, "the default at null");
    check(child(touch_other) == SIGSEGV, "the default at another place");
    check(child(raise_it) == SIGSEGV, "the default of a signal that is sent");
    check(child(touch_kept) == SIGSEGV, "a place inside that the host closed");
    check(child(unit_in_child) == 1000 + 42, "a trap in a child");
    check(child(spin_in_child) == 1000 + 40, "a loop that ends by a trap");
#if !defined(SANITIZED)
    check(child(without_space) == 1000 + 55, "want of address space");
#endif
}

/* A memory that is given back is no one's place, and another may lie there; the unit begins anew by its init. */
static void try_again(int alone) {
    w2c_mem *m = w2cZ_reachZ_mZ_memory();
    static w2c_mem others[3];
    unsigned k;
    was = m->bytes;
    for (k = 0; k < 3; k++) w2c_mem_new(&others[k], k, k);
    w2c_mem_free(&others[1]);
    w2c_mem_free(&others[1]);
    w2c_mem_free(m);
    check(m->len == 0 && m->bytes == 0, "a memory that was given back");
    if (alone) {
        check(child(touch_low) == SIGSEGV, "the default at a low place, when a memory was given back");
        check(child(touch_was) == SIGSEGV, "the default where a memory was");
    }
#if !defined(SANITIZED)
    {
        unsigned char there;
        check(mincore(was, 4096, &there) != 0, "its place");
    }
#endif
    w2c_tab_free(w2cZ_reachZ_tZ_table());
    for (k = 0; k < 50; k++) {
        w2c_mem_new(&others[1], 1, 1);
        others[1].bytes[65535] = 1;
        w2c_mem_free(&others[1]);
    }
    w2cZ_reachZ_i();
    check(w2cZ_reachZ_fZ_size() == 1 && w2cZ_reachZ_fZ_hidden() == 0 && *w2cZ_reachZ_vZ_g() == 0, "a unit that begins anew");
    check(TRAP_OF(got = w2cZ_reachZ_fZ_i32_load(65533)) == 2 && TRAP_OF(got = w2cZ_reachZ_fZ_i32_load(65532)) == 0 && got == 0, "its memory");
    check(TRAP_OF(got = w2cZ_reachZ_fZ_indirect(0)) == 0 && got == 1, "its table");
    w2c_mem_free(&others[0]);
    w2c_mem_free(&others[2]);
}

int main(int count, char **words) {
    const char *how = count > 1 ? words[1] : "alone";
    const int alone = strcmp(how, "alone") == 0;
    w2c_mem *m;
    unsigned k;
    sigset_t old;
    if (strcmp(how, "chain") == 0) set_handler(own_handler);
    if (strcmp(how, "once") == 0) set_handler_once(plain_handler);
    w2cZ_reachZ_i();
    if (strcmp(how, "own") == 0) set_handler(later_handler);
    m = w2cZ_reachZ_mZ_memory();
    for (k = 0; k < count_named; k++) check((all_named[k].length(m) == ~(u64)0) == (GUARDED && all_named[k].access), all_named[k].name);
    try_all();
    check(w2cZ_reachZ_fZ_size() == 1, "size");
    for (k = 1; k < 4; k++) {
        memset(m->bytes, (int)k, (size_t)m->len);
        check(w2cZ_reachZ_fZ_grow(1) == k, "growth");
        check(w2cZ_reachZ_fZ_size() == k + 1, "size behind a growth");
        check(m->bytes[m->len - 65536] == 0 && m->bytes[m->len - 1] == 0 && m->bytes[0] == k, "bytes behind a growth");
        try_all();
    }
    check(w2cZ_reachZ_fZ_grow(1) == 4294967295u && w2cZ_reachZ_fZ_size() == 4, "growth past the maximum");
    try_order();
    try_state(100, 300000);
    try_other_traps();
    for (k = 0; k < 20; k++) try_at_depth(k);
    sigprocmask(SIG_BLOCK, 0, &old);
    check(!sigismember(&old, SIGSEGV), "no signal stays blocked");
    if (alone) try_default();
    else try_chain(how);
    try_threads();
    try_again(alone);
    printf("%s: %u checks, %u of them traps of accesses, %u wrong\n", how, tried, trapped, bad);
    return bad != 0;
}
