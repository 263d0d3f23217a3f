/* The fast runtime: the names and meanings of the header that `wasm2c --runtime` writes, as inline functions, and some that hosts may
 * want. Put this folder before any other that has a w2c_rt.h (-I), and compile units together with all C files of it; a host with
 * a w2c_trap or a w2c_want of its own leaves that file out. Nothing is proved of it.
 *
 * W2C_RT_THREADS counts the active functions of each thread apart. W2C_RT_OPERATORS takes the compiler's own operators for units' helpers
 * (w2c_rt_operators.h). docs/RUNTIMES.md says more of each, and of the other runtimes. */
#ifndef W2C_RT_H
#define W2C_RT_H
#include <limits.h>
#include <stdint.h>
#include <string.h>

#if UINT_MAX != 0xffffffff || ULLONG_MAX != 0xffffffffffffffff
#error "units are written for an int of 32 bits and a long long of 64"
#endif

/* An access of 2, 4 or 8 bytes is one memcpy where the machine is known to be little-endian. Elsewhere, and where
 * W2C_RT_BYTEWISE is defined, it goes byte by byte, which any order of bytes allows. */
#if !defined(W2C_RT_BYTEWISE)
#if defined(__BYTE_ORDER__) && defined(__ORDER_LITTLE_ENDIAN__)
#if __BYTE_ORDER__ != __ORDER_LITTLE_ENDIAN__
#define W2C_RT_BYTEWISE
#endif
#elif !defined(_WIN32)
#define W2C_RT_BYTEWISE
#endif
#endif

#if defined(__cplusplus)
#define W2C_RT_NORETURN [[noreturn]]
#elif defined(__STDC_VERSION__) && __STDC_VERSION__ >= 202311L
#define W2C_RT_NORETURN [[noreturn]]
#elif defined(__STDC_VERSION__) && __STDC_VERSION__ >= 201112L
#define W2C_RT_NORETURN _Noreturn
#else
#error "this header wants C11 or C++11"
#endif

/* All of a program (units, runtime, hosts) is compiled with W2C_RT_THREADS, or nothing of it: otherwise it does not link. The thread_local
 * of C++ asks for a function that C does not define, __thread does not. */
#if !defined(W2C_RT_THREADS)
#define W2C_RT_THREAD_LOCAL
#elif defined(__cplusplus) && defined(__GNUC__)
#define W2C_RT_THREAD_LOCAL __thread
#elif defined(__cplusplus) || (defined(__STDC_VERSION__) && __STDC_VERSION__ >= 202311L)
#define W2C_RT_THREAD_LOCAL thread_local
#else
#define W2C_RT_THREAD_LOCAL _Thread_local
#endif

#if defined(__cplusplus)
extern "C" {
#endif

typedef uint8_t u8;
typedef uint32_t u32;
typedef uint64_t u64;
typedef void (*w2c_fn)(void);
/* kept is the runtime's own: how many bytes of address space it holds for the memory. */
typedef struct { u8 *bytes; u64 len; u64 max; u64 kept; } w2c_mem;
typedef struct { w2c_fn fn; u64 sig; } w2c_elem;
typedef struct { w2c_elem *elems; u64 len; u64 max; } w2c_tab;

/* How many functions of units are active: of the program, or with W2C_RT_THREADS of the thread. */
extern W2C_RT_THREAD_LOCAL u32 w2c_depth;
/* Ends the run. It must not return: exit, longjmp or abort. */
W2C_RT_NORETURN void w2c_trap(u32);
/* What a trap is called: "unreachable" of 1 to "host trap" of 11, and "no trap" of any other number. */
const char *w2c_trap_text(u32);
/* Is called where the system gives no memory or address space. It must not return, either. What was to be made or to grow is as it was. */
W2C_RT_NORETURN void w2c_want(void);

void w2c_mem_new(w2c_mem *, u32, u64);
u32 w2c_mem_grow(w2c_mem *, u32);
void w2c_tab_new(w2c_tab *, u32, u64);
/* For hosts, when no unit runs that uses it: give back what a memory or table holds, and leave it as one that was not made. */
void w2c_mem_free(w2c_mem *);
void w2c_tab_free(w2c_tab *);

static inline u64 w2c_mem_len(w2c_mem *m) { return m->len; }
static inline u64 w2c_mem_max(w2c_mem *m) { return m->max; }

/* What is loaded is kept in a register under gcc, which else compares it where it stands, and that takes some processors longer. */
#if defined(__GNUC__) && !defined(__clang__)
#define W2C_RT_LOADED(v) __asm__ volatile("" : : "r"(v))
#else
#define W2C_RT_LOADED(v) ((void)0)
#endif
static inline u32 w2c_get1(w2c_mem *m, u64 a) { u32 v = m->bytes[a]; W2C_RT_LOADED(v); return v; }
static inline void w2c_put1(w2c_mem *m, u64 a, u32 v) { m->bytes[a] = (u8)v; }

#if defined(W2C_RT_BYTEWISE)
static inline u32 w2c_get2(w2c_mem *m, u64 a) { return w2c_get1(m, a) | w2c_get1(m, a + 1) << 8; }
static inline u32 w2c_get4(w2c_mem *m, u64 a) { return w2c_get2(m, a) | w2c_get2(m, a + 2) << 16; }
static inline u64 w2c_get8(w2c_mem *m, u64 a) { return w2c_get4(m, a) | (u64)w2c_get4(m, a + 4) << 32; }
static inline void w2c_put2(w2c_mem *m, u64 a, u32 v) { w2c_put1(m, a, v); w2c_put1(m, a + 1, v >> 8); }
static inline void w2c_put4(w2c_mem *m, u64 a, u32 v) { w2c_put2(m, a, v); w2c_put2(m, a + 2, v >> 16); }
static inline void w2c_put8(w2c_mem *m, u64 a, u64 v) { w2c_put4(m, a, (u32)v); w2c_put4(m, a + 4, (u32)(v >> 32)); }
#else
static inline u32 w2c_get2(w2c_mem *m, u64 a) { uint16_t v; memcpy(&v, m->bytes + a, 2); W2C_RT_LOADED(v); return v; }
static inline u32 w2c_get4(w2c_mem *m, u64 a) { u32 v; memcpy(&v, m->bytes + a, 4); W2C_RT_LOADED(v); return v; }
static inline u64 w2c_get8(w2c_mem *m, u64 a) { u64 v; memcpy(&v, m->bytes + a, 8); W2C_RT_LOADED(v); return v; }
static inline void w2c_put2(w2c_mem *m, u64 a, u32 v) { uint16_t low = (uint16_t)v; memcpy(m->bytes + a, &low, 2); }
static inline void w2c_put4(w2c_mem *m, u64 a, u32 v) { memcpy(m->bytes + a, &v, 4); }
static inline void w2c_put8(w2c_mem *m, u64 a, u64 v) { memcpy(m->bytes + a, &v, 8); }
#endif

static inline u64 w2c_tab_len(w2c_tab *t) { return t->len; }
static inline u64 w2c_tab_max(w2c_tab *t) { return t->max; }
static inline u64 w2c_tab_sig(w2c_tab *t, u64 i) { return t->elems[i].sig; }
static inline w2c_fn w2c_tab_fn(w2c_tab *t, u64 i) { return t->elems[i].fn; }
static inline void w2c_tab_set(w2c_tab *t, u64 i, w2c_fn f, u64 sig) { t->elems[i].fn = f; t->elems[i].sig = sig; }

#if defined(W2C_RT_OPERATORS) && !defined(__cplusplus)
#include "w2c_rt_operators.h"
#endif

#if defined(__cplusplus)
}
#endif
#endif
