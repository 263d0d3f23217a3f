/* What the fast and the guard runtime have for hosts beside the primitives: memories and tables that are given back, the texts of traps, and a
 * w2c_want of the host's own, which is called where memory is wanting and leaves all as it was. */
#include <setjmp.h>
#include <stdio.h>
#include <string.h>
#include "w2c_rt.h"
#if defined(__linux__)
#include <sys/resource.h>
#endif

#define NONE 4294967296ull

static jmp_buf back;
static int wrong;

void w2c_trap(u32 k) { longjmp(back, (int)k); }
void w2c_want(void) { longjmp(back, 100); }

static void check(int right, const char *what) {
    if (right) return;
    wrong = 1;
    printf("wrong: %s\n", what);
}

static void texts(void) {
    check(strcmp(w2c_trap_text(1), "unreachable") == 0 && strcmp(w2c_trap_text(2), "memory out of bounds") == 0, "the first texts");
    check(strcmp(w2c_trap_text(8), "call depth") == 0 && strcmp(w2c_trap_text(11), "host trap") == 0, "the last texts");
    check(strcmp(w2c_trap_text(0), "no trap") == 0 && strcmp(w2c_trap_text(12), "no trap") == 0 && strcmp(w2c_trap_text(4294967295u), "no trap") == 0, "no trap");
}

static void given_back(void) {
    static w2c_mem m;
    static w2c_tab t;
    u32 k;
    w2c_mem_free(&m);
    w2c_tab_free(&t);
    for (k = 0; k < 2000; k++) {
        w2c_mem_new(&m, k % 3, k % 2 ? NONE : 4);
        check(m.len == k % 3 * 65536ull, "a memory that is made anew");
        check(w2c_mem_grow(&m, 1) == k % 3, "its growth");
        check(m.bytes[0] == 0 && m.bytes[m.len - 1] == 0, "its bytes");
        m.bytes[0] = m.bytes[m.len - 1] = 1;
        w2c_mem_free(&m);
        check(m.bytes == 0 && w2c_mem_len(&m) == 0 && w2c_mem_max(&m) == 0, "a memory that was given back");
        w2c_tab_new(&t, k % 5, NONE);
        check(w2c_tab_len(&t) == k % 5, "a table that is made anew");
        if (k % 5) w2c_tab_set(&t, k % 5 - 1, (w2c_fn)texts, 7);
        w2c_tab_free(&t);
        check(t.elems == 0 && w2c_tab_len(&t) == 0 && w2c_tab_max(&t) == 0, "a table that was given back");
    }
}

/* The memory is made before the address space has a limit, and stays as it was where its growth wants more. */
static void wanting(void) {
#if defined(__linux__) && !defined(SANITIZED)
    static w2c_mem m, none;
    struct rlimit limit;
    volatile int wanted = 0, k;
    if (getrlimit(RLIMIT_AS, &limit)) return;
    limit.rlim_cur = 1u << 28;
    if (setrlimit(RLIMIT_AS, &limit)) return;
    if (setjmp(back) == 0) w2c_mem_new(&none, 8192, NONE);
    else wanted++;
    check(wanted == 1 && none.len == 0 && none.bytes == 0, "a memory for which there is no room");
    limit.rlim_cur = limit.rlim_max;
    setrlimit(RLIMIT_AS, &limit);
    w2c_mem_new(&none, 1, NONE);
    check(none.len == 65536, "the same, where there is room");
    w2c_mem_free(&none);
#if !defined(W2C_RT_GUARDED)
    limit.rlim_cur = 1u << 28;
    setrlimit(RLIMIT_AS, &limit);
    w2c_mem_new(&m, 1, NONE);
    for (k = 0; k < 8; k++) {
        m.bytes[65536 * k] = (u8)(k + 1);
        check(w2c_mem_grow(&m, 1) == (u32)k + 1, "growth within a limit");
    }
    if (setjmp(back) == 0) w2c_mem_grow(&m, 8192);
    else wanted++;
    check(wanted == 2 && m.len == 65536 * 9, "growth for which there is no room");
    for (k = 0; k < 8; k++) check(m.bytes[65536 * k] == k + 1, "the bytes of a memory that did not grow");
    w2c_mem_free(&m);
    limit.rlim_cur = limit.rlim_max;
    setrlimit(RLIMIT_AS, &limit);
#else
    (void)k;
    (void)m;
#endif
#endif
}

int main(void) {
    texts();
    given_back();
    wanting();
    return wrong;
}
