/* The guard runtime: the names and meanings of the fast runtime's header, for 64-bit Linux on x86-64 and aarch64, gcc and clang. Each memory
 * has 8 GiB and 64 KiB of address space to itself, of which the bytes behind its length may not be touched; so units' loads and
 * stores need no check of bounds in C, and one that touches such a byte ends in trap 2 (w2c_rt.c).
 *
 * Put this folder before any other that has a w2c_rt.h (-I), and compile units, with -O1 or more, together with all C files of it; a
 * host with a w2c_trap or a w2c_want of its own leaves that file out. With -O0 all is as right, and slower. Nothing is proved of it.
 *
 * How: the helpers of units that load and store begin with `n = w2c_mem_len(m); if ((a + 4ull) > n) goto T;`. In them, and in nothing
 * else, w2c_mem_len gives the greatest u64, so that the compiler drops the comparison. Anywhere else it gives the length.
 *
 * W2C_RT_EXACT keeps globals at a trap exactly as they are to be. W2C_RT_CHECKS leaves the checks to C; units with and without it
 * may be linked. W2C_RT_THREADS and W2C_RT_OPERATORS are those of the fast runtime. docs/RUNTIMES.md says more of each. */
#ifndef W2C_RT_H
#define W2C_RT_H
#include <limits.h>
#include <stdint.h>

#if UINT_MAX != 0xffffffff || ULLONG_MAX != 0xffffffffffffffff
#error "units are written for an int of 32 bits and a long long of 64"
#endif
#if !defined(__linux__) || !(defined(__x86_64__) || defined(__aarch64__)) || !defined(__LP64__) || !defined(__GNUC__)
#error "this header wants gcc or clang, and 64-bit Linux on x86-64 or aarch64: take the fast runtime elsewhere"
#endif
#if __BYTE_ORDER__ != __ORDER_LITTLE_ENDIAN__
#error "this header wants a little-endian machine: take the fast runtime elsewhere"
#endif

/* All of a program (units, runtime, hosts) is compiled with W2C_RT_THREADS, or nothing of it: otherwise it does not link. */
#if defined(W2C_RT_THREADS)
#define W2C_RT_THREAD_LOCAL __thread
#else
#define W2C_RT_THREAD_LOCAL
#endif

#if defined(__cplusplus)
extern "C" {
#endif

typedef uint8_t u8;
typedef uint32_t u32;
typedef uint64_t u64;
typedef void (*w2c_fn)(void);
typedef struct { u8 *bytes; u64 len; u64 max; } w2c_mem;
typedef struct { w2c_fn fn; u64 sig; } w2c_elem;
typedef struct { w2c_elem *elems; u64 len; u64 max; } w2c_tab;

/* How many functions of units are active: of the program, or with W2C_RT_THREADS of the thread. */
extern W2C_RT_THREAD_LOCAL u32 w2c_depth;
/* Ends the run. It must not return: exit, longjmp or abort. It is never called out of a signal handler (w2c_rt.c). */
__attribute__((noreturn, cold)) void w2c_trap(u32);
/* What a trap is called: "unreachable" of 1 to "host trap" of 11, and "no trap" of any other number. */
const char *w2c_trap_text(u32);
/* Is called where the system gives no memory or address space. It must not return, either. What was to be made or to grow is as it was. */
__attribute__((noreturn, cold)) void w2c_want(void);

void w2c_mem_new(w2c_mem *, u32, u64);
u32 w2c_mem_grow(w2c_mem *, u32);
void w2c_tab_new(w2c_tab *, u32, u64);
/* For hosts, when no unit runs that uses it: give back what a memory or table holds, and leave it as one that was not made. */
void w2c_mem_free(w2c_mem *);
void w2c_tab_free(w2c_tab *);

/* For hosts that handle SIGSEGV themselves and set their handler behind the first w2c_mem_new: call this first, with what the handler was
 * given. Where the signal came of a place behind a memory's length, it answers 1, and the handler must return: the thread then goes
 * on in w2c_trap(2u). Otherwise it answers 0 and has done nothing. */
int w2c_guard(int signal, void *info, void *context);

static inline u64 w2c_mem_len(w2c_mem *m) { return m->len; }
static inline u64 w2c_mem_max(w2c_mem *m) { return m->max; }

/* A unit that is compiled as C++ keeps its checks. */
#if !defined(W2C_RT_CHECKS) && !defined(__cplusplus)
#define W2C_RT_GUARDED
#endif

#if defined(W2C_RT_GUARDED)
/* The helpers that load and store: all that take a length to check an access, but copy_memory and fill_memory, which check many bytes at
 * once, and for which no guard is large enough. A compiler knows at -O1 which of the names __func__ is. */
#define W2C_RT_ACCESS(f) \
    (W2C_RT_IS(f, "i32_load") || W2C_RT_IS(f, "i32_load8_s") || W2C_RT_IS(f, "i32_load8_u") || W2C_RT_IS(f, "i32_load16_s") || \
     W2C_RT_IS(f, "i32_load16_u") || W2C_RT_IS(f, "i64_load") || W2C_RT_IS(f, "i64_load8_s") || W2C_RT_IS(f, "i64_load8_u") || \
     W2C_RT_IS(f, "i64_load16_s") || W2C_RT_IS(f, "i64_load16_u") || W2C_RT_IS(f, "i64_load32_s") || W2C_RT_IS(f, "i64_load32_u") || \
     W2C_RT_IS(f, "i32_store") || W2C_RT_IS(f, "i32_store8") || W2C_RT_IS(f, "i32_store16") || W2C_RT_IS(f, "i64_store") || \
     W2C_RT_IS(f, "i64_store8") || W2C_RT_IS(f, "i64_store16") || W2C_RT_IS(f, "i64_store32"))
#define W2C_RT_IS(f, name) (sizeof(f) == sizeof(name) && !__builtin_memcmp(f, name, sizeof(name)))
/* `(w2c_mem_len)(m)` is the length in every function. */
#define w2c_mem_len(m) (W2C_RT_ACCESS(__func__) ? ~(u64)0 : (w2c_mem_len)(m))
#endif

/* An access is made, and may trap, also where what it loads is not wanted and what it stores is never loaded: so it is volatile, or an asm
 * takes what was loaded, or might read what was stored. By clang volatile is the faster; by gcc it takes an instruction more, and
 * the asm does not. Either way the memories at a trap are as they are to be. With W2C_RT_EXACT the globals are, too: all that was
 * written before an access stands when it is made, and nothing of what comes behind. */
#if defined(W2C_RT_GUARDED) && (defined(W2C_RT_EXACT) || defined(__clang__))
/* Volatile accesses keep their order whatever their types are. So they need not be said to alias all others, and where they are not, a
 * compiler need not load m->bytes again behind each store. */
#if defined(W2C_RT_EXACT)
#define W2C_RT_ORDER __asm__ volatile("" ::: "memory")
#define W2C_RT_PLACED __attribute__((packed, may_alias))
#else
#define W2C_RT_ORDER ((void)0)
#define W2C_RT_PLACED __attribute__((packed))
#endif
/* aarch64 may write a part of a store that then faults in the next page. A load of the last byte faults first. */
#if defined(W2C_RT_EXACT) && defined(__aarch64__)
#define W2C_RT_TOUCH(m, last) ((void)*(volatile u8 *)((m)->bytes + (last)))
#else
#define W2C_RT_TOUCH(m, last) ((void)0)
#endif
typedef struct W2C_RT_PLACED { uint16_t v; } w2c_rt_2;
typedef struct W2C_RT_PLACED { u32 v; } w2c_rt_4;
typedef struct W2C_RT_PLACED { u64 v; } w2c_rt_8;
static inline u32 w2c_get1(w2c_mem *m, u64 a) { u32 v; W2C_RT_ORDER; v = *(volatile u8 *)(m->bytes + a); W2C_RT_ORDER; return v; }
static inline u32 w2c_get2(w2c_mem *m, u64 a) { u32 v; W2C_RT_ORDER; v = ((volatile w2c_rt_2 *)(m->bytes + a))->v; W2C_RT_ORDER; return v; }
static inline u32 w2c_get4(w2c_mem *m, u64 a) { u32 v; W2C_RT_ORDER; v = ((volatile w2c_rt_4 *)(m->bytes + a))->v; W2C_RT_ORDER; return v; }
static inline u64 w2c_get8(w2c_mem *m, u64 a) { u64 v; W2C_RT_ORDER; v = ((volatile w2c_rt_8 *)(m->bytes + a))->v; W2C_RT_ORDER; return v; }
static inline void w2c_put1(w2c_mem *m, u64 a, u32 v) { W2C_RT_ORDER; *(volatile u8 *)(m->bytes + a) = (u8)v; W2C_RT_ORDER; }
static inline void w2c_put2(w2c_mem *m, u64 a, u32 v) { W2C_RT_ORDER; W2C_RT_TOUCH(m, a + 1); ((volatile w2c_rt_2 *)(m->bytes + a))->v = (uint16_t)v; W2C_RT_ORDER; }
static inline void w2c_put4(w2c_mem *m, u64 a, u32 v) { W2C_RT_ORDER; W2C_RT_TOUCH(m, a + 3); ((volatile w2c_rt_4 *)(m->bytes + a))->v = v; W2C_RT_ORDER; }
static inline void w2c_put8(w2c_mem *m, u64 a, u64 v) { W2C_RT_ORDER; W2C_RT_TOUCH(m, a + 7); ((volatile w2c_rt_8 *)(m->bytes + a))->v = v; W2C_RT_ORDER; }
#else
#if defined(W2C_RT_GUARDED)
#define W2C_RT_LOADED(v) __asm__ volatile("" : : "r"(v))
/* An array of unknown length: the store may have been into it, and keeps its address in one instruction. */
#define W2C_RT_STORED(bytes) __asm__ volatile("" : : "m"(*(const u8(*)[])(bytes)))
#else
#define W2C_RT_LOADED(v) ((void)0)
#define W2C_RT_STORED(bytes) ((void)0)
#endif
static inline u32 w2c_get1(w2c_mem *m, u64 a) { u8 v = m->bytes[a]; W2C_RT_LOADED(v); return v; }
static inline u32 w2c_get2(w2c_mem *m, u64 a) { uint16_t v; __builtin_memcpy(&v, m->bytes + a, 2); W2C_RT_LOADED(v); return v; }
static inline u32 w2c_get4(w2c_mem *m, u64 a) { u32 v; __builtin_memcpy(&v, m->bytes + a, 4); W2C_RT_LOADED(v); return v; }
static inline u64 w2c_get8(w2c_mem *m, u64 a) { u64 v; __builtin_memcpy(&v, m->bytes + a, 8); W2C_RT_LOADED(v); return v; }
static inline void w2c_put1(w2c_mem *m, u64 a, u32 v) { u8 *bytes = m->bytes; bytes[a] = (u8)v; W2C_RT_STORED(bytes); }
static inline void w2c_put2(w2c_mem *m, u64 a, u32 v) { u8 *bytes = m->bytes; uint16_t low = (uint16_t)v; __builtin_memcpy(bytes + a, &low, 2); W2C_RT_STORED(bytes); }
static inline void w2c_put4(w2c_mem *m, u64 a, u32 v) { u8 *bytes = m->bytes; __builtin_memcpy(bytes + a, &v, 4); W2C_RT_STORED(bytes); }
static inline void w2c_put8(w2c_mem *m, u64 a, u64 v) { u8 *bytes = m->bytes; __builtin_memcpy(bytes + a, &v, 8); W2C_RT_STORED(bytes); }
#endif

static inline u64 w2c_tab_len(w2c_tab *t) { return t->len; }
static inline u64 w2c_tab_max(w2c_tab *t) { return t->max; }
static inline u64 w2c_tab_sig(w2c_tab *t, u64 i) { return t->elems[i].sig; }
static inline w2c_fn w2c_tab_fn(w2c_tab *t, u64 i) { return t->elems[i].fn; }
static inline void w2c_tab_set(w2c_tab *t, u64 i, w2c_fn f, u64 sig) { t->elems[i].fn = f; t->elems[i].sig = sig; }

#if defined(W2C_RT_GUARDED)
#define W2C_RT_MOVED __asm__ volatile("" ::: "memory")
#endif
#if defined(W2C_RT_OPERATORS) && !defined(__cplusplus)
#include "w2c_rt_operators.h"
#endif

#if defined(__cplusplus)
}
#endif
#endif
