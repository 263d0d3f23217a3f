/* What of the guard runtime is not inline: the count of active functions, memories and tables that are made, grow and are given back, the
 * texts of traps, and the handler of SIGSEGV that makes trap 2 of an access behind a memory's length.
 *
 * A place is the sum of two u32, so an access ends below 2^33 + 8. Of each memory so much address space is kept, which may not be
 * touched, and its first len bytes are then given. Its bytes never move.
 *
 * The handler does not call w2c_trap: it has the thread go on in w2c_trap(2u) when it returns, as if the access had been the call. So
 * w2c_trap runs on the thread's own stack, with the signals blocked that were blocked at the access, and may do all that it may do
 * behind a check in C: print, exit, or longjmp to a setjmp that saves no mask. */
#if !defined(_GNU_SOURCE)
#define _GNU_SOURCE
#endif
#include <sched.h>
#include <signal.h>
#include <stdio.h>
#include <stdlib.h>
#include <string.h>
#include <sys/mman.h>
#include <ucontext.h>
#include "w2c_rt.h"

#define PAGE 65536u
#define MOST_PAGES 16384u
/* 2^33 and a page, which is a multiple of the system's pages also where these have 64 KiB. */
#define KEPT_BYTES (((size_t)1 << 33) + PAGE)

W2C_RT_THREAD_LOCAL u32 w2c_depth;

const char *w2c_trap_text(u32 k) {
    static const char *const texts[] = {
        "no trap", "unreachable", "memory out of bounds", "division by zero", "integer overflow", "table out of bounds",
        "empty element", "signature differs", "call depth", "import limits", "segment out of bounds", "host trap"};
    return texts[k < sizeof texts / sizeof *texts ? k : 0];
}

/* The memories that are there: bytes is null in a node whose memory was given back, until another memory takes it. Nodes are never
 * freed, and len is set before bytes: so the handler may read the list in any thread at any time. What it reads of the memory that its
 * own thread uses stands; a place in that is in no other. */
struct kept {
    u8 *bytes;
    u64 len;
    struct kept *next;
};
static struct kept *all_kept;

static u8 *first_of(struct kept *k) { return __atomic_load_n(&k->bytes, __ATOMIC_ACQUIRE); }

static struct kept *kept_at(uintptr_t place) {
    struct kept *k = __atomic_load_n(&all_kept, __ATOMIC_ACQUIRE);
    for (; k; k = k->next) {
        uintptr_t first = (uintptr_t)first_of(k);
        if (first && place - first < KEPT_BYTES) return k;
    }
    return 0;
}

static void go_on_in_trap(ucontext_t *context) {
#if defined(__x86_64__)
    greg_t *r = context->uc_mcontext.gregs;
    /* As a call leaves it, with the access as the place that was called from, for whoever shows the stack. That overwrites what the
     * function of the access had below its stack pointer, which is left for good. Further down the signal's frame may begin. */
    uintptr_t top = ((uintptr_t)r[REG_RSP] & ~(uintptr_t)15) - 8;
    *(uintptr_t *)top = (uintptr_t)r[REG_RIP];
    r[REG_RSP] = (greg_t)top;
    r[REG_RDI] = 2;
    r[REG_EFL] &= ~(greg_t)0x400; /* strings upwards, as a call wants it */
    r[REG_RIP] = (greg_t)(uintptr_t)w2c_trap;
#else
    context->uc_mcontext.regs[30] = context->uc_mcontext.pc;
    context->uc_mcontext.regs[0] = 2;
    context->uc_mcontext.pc = (uintptr_t)w2c_trap;
    context->uc_mcontext.pstate &= ~(uint64_t)0xc00; /* no branch that wants a landing pad of its kind */
#endif
}

int w2c_guard(int number, void *info, void *context) {
    const siginfo_t *i = (const siginfo_t *)info;
    struct kept *k;
    /* A signal that was sent has no place. */
    if (number != SIGSEGV || i->si_code <= 0) return 0;
    k = kept_at((uintptr_t)i->si_addr);
    if (!k || (uintptr_t)i->si_addr - (uintptr_t)first_of(k) < __atomic_load_n(&k->len, __ATOMIC_RELAXED)) return 0;
    go_on_in_trap((ucontext_t *)context);
    return 1;
}

/* What was to happen at SIGSEGV before. */
static struct sigaction before;

static void at_signal(int number, siginfo_t *info, void *context) {
    struct sigaction then = before;
    if (w2c_guard(number, info, context)) return;
    if (!(then.sa_flags & SA_SIGINFO) && (then.sa_handler == SIG_DFL || then.sa_handler == SIG_IGN)) {
        /* One that was sent is ignored where it was to be. Otherwise the program ends by it: at the same access once more, or now. */
        if (then.sa_handler == SIG_IGN && info->si_code <= 0) return;
        signal(number, SIG_DFL);
        if (info->si_code <= 0) raise(number);
        return;
    }
    if (then.sa_flags & SA_RESETHAND) {
        before.sa_flags = 0;
        before.sa_handler = SIG_DFL;
    }
    /* The earlier handler, with the signals blocked that it asked for; when it returns, those of the access come back. */
    sigprocmask(SIG_BLOCK, &then.sa_mask, 0);
    if (then.sa_flags & SA_NODEFER) {
        sigset_t own;
        sigemptyset(&own);
        sigaddset(&own, number);
        sigprocmask(SIG_UNBLOCK, &own, 0);
    }
    if (then.sa_flags & SA_SIGINFO) then.sa_sigaction(number, info, context);
    else then.sa_handler(number);
}

/* On the thread's other stack where it has one (sigaltstack), else on its own. */
static void handle(void) {
    struct sigaction action;
    memset(&action, 0, sizeof action);
    action.sa_sigaction = at_signal;
    action.sa_flags = SA_SIGINFO | SA_ONSTACK;
    sigemptyset(&action.sa_mask);
    if (sigaction(SIGSEGV, 0, &before) || sigaction(SIGSEGV, &action, 0)) {
        perror("sigaction");
        abort();
    }
}

/* Enters a memory into the list, and sets the handler before the first one. Answers 0 where memory is wanting. Threads that make
 * memories do so one after another. */
static int keep(u8 *bytes, u64 len) {
    static char busy;
    struct kept *k;
    while (__atomic_test_and_set(&busy, __ATOMIC_ACQUIRE)) sched_yield();
    if (!all_kept) handle();
    for (k = all_kept; k && first_of(k); k = k->next) {}
    if (k) {
        __atomic_store_n(&k->len, len, __ATOMIC_RELAXED);
        __atomic_store_n(&k->bytes, bytes, __ATOMIC_RELEASE);
    } else {
        k = (struct kept *)malloc(sizeof *k);
        if (k) {
            k->bytes = bytes;
            k->len = len;
            k->next = all_kept;
            __atomic_store_n(&all_kept, k, __ATOMIC_RELEASE);
        }
    }
    __atomic_clear(&busy, __ATOMIC_RELEASE);
    return k != 0;
}

static int give(u8 *bytes, u64 from, u64 to) { return to <= from || !mprotect(bytes + from, (size_t)(to - from), PROT_READ | PROT_WRITE); }

void w2c_mem_new(w2c_mem *m, u32 min, u64 max) {
    u64 len = (u64)min * PAGE;
    void *bytes = mmap(0, KEPT_BYTES, PROT_NONE, MAP_PRIVATE | MAP_ANONYMOUS, -1, 0);
    if (bytes == MAP_FAILED) w2c_want();
    if (!give((u8 *)bytes, 0, len) || !keep((u8 *)bytes, len)) {
        munmap(bytes, KEPT_BYTES);
        w2c_want();
    }
    m->bytes = (u8 *)bytes;
    m->len = len;
    m->max = max;
}

u32 w2c_mem_grow(w2c_mem *m, u32 d) {
    u64 old = m->len / PAGE, most = m->max < MOST_PAGES ? m->max : MOST_PAGES;
    if (old + d > most) return 4294967295u;
    if (d) {
        u64 len = (old + d) * PAGE;
        struct kept *k = kept_at((uintptr_t)m->bytes);
        if (!give(m->bytes, m->len, len)) w2c_want();
        m->len = len;
        if (k) __atomic_store_n(&k->len, len, __ATOMIC_RELAXED);
    }
    return (u32)old;
}

void w2c_mem_free(w2c_mem *m) {
    struct kept *k = m->bytes ? kept_at((uintptr_t)m->bytes) : 0;
    /* Out of the list first: what stands there next may be another's. */
    if (k) __atomic_store_n(&k->bytes, (u8 *)0, __ATOMIC_RELEASE);
    if (k) munmap(m->bytes, KEPT_BYTES);
    m->bytes = 0;
    m->len = m->max = 0;
}

void w2c_tab_new(w2c_tab *t, u32 len, u64 max) {
    w2c_elem *elems = (w2c_elem *)calloc(len ? len : 1, sizeof(w2c_elem));
    if (!elems) w2c_want();
    t->elems = elems;
    t->len = len;
    t->max = max;
}

void w2c_tab_free(w2c_tab *t) {
    free(t->elems);
    t->elems = 0;
    t->len = t->max = 0;
}
