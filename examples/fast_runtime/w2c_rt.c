/* What of the fast runtime is not inline: the count of active functions, memories and tables that are made, grow and are given back,
 * and the texts of traps.
 *
 * On 64-bit systems with mmap a memory's greatest size is kept free for it in the address space when it is made, and to grow is to
 * be given more of that: its bytes never move. Where the address space has a limit (RLIMIT_AS, `ulimit -v`) or has no such room, no more
 * is kept than the memory has, so that it does not take what others need, and a memory that grows may move. On other systems, and where
 * W2C_RT_REALLOC is defined, it grows by realloc. */
#if defined(__linux__) && !defined(_GNU_SOURCE)
#define _GNU_SOURCE
#endif
#if !defined(_DEFAULT_SOURCE)
#define _DEFAULT_SOURCE
#endif
#if !defined(_DARWIN_C_SOURCE)
#define _DARWIN_C_SOURCE
#endif
#include <stdlib.h>
#include "w2c_rt.h"

#if !defined(W2C_RT_REALLOC) && (UINTPTR_MAX <= 0xffffffff || !(defined(__unix__) || defined(__APPLE__)))
#define W2C_RT_REALLOC
#endif
#if !defined(W2C_RT_REALLOC)
#include <sys/mman.h>
#include <sys/resource.h>
#endif

#define PAGE 65536u
#define MOST_PAGES 16384u

W2C_RT_THREAD_LOCAL u32 w2c_depth;

const char *w2c_trap_text(u32 k) {
    static const char *const texts[] = {
        "no trap", "unreachable", "memory out of bounds", "division by zero", "integer overflow", "table out of bounds",
        "empty element", "signature differs", "call depth", "import limits", "segment out of bounds", "host trap"};
    return texts[k < sizeof texts / sizeof *texts ? k : 0];
}

static u64 most_pages(u64 max) { return max < MOST_PAGES ? max : MOST_PAGES; }

#if defined(W2C_RT_REALLOC)

static void first_bytes(w2c_mem *m, u64 len, u64 max) {
    u64 kept = len ? len : 1;
    (void)max;
    m->bytes = (u8 *)calloc((size_t)kept, 1);
    if (!m->bytes) w2c_want();
    m->kept = kept;
}

static void more_bytes(w2c_mem *m, u64 len) {
    u8 *bytes = (u8 *)realloc(m->bytes, (size_t)len);
    if (!bytes) w2c_want();
    memset(bytes + m->len, 0, (size_t)(len - m->len));
    m->bytes = bytes;
    m->kept = len;
}

static void no_bytes(w2c_mem *m) { free(m->bytes); }

#else

/* A place of so many bytes that may not be touched yet; a null pointer where there is none. */
static u8 *place(u64 size) {
    void *bytes = mmap(0, (size_t)size, PROT_NONE, MAP_PRIVATE | MAP_ANONYMOUS, -1, 0);
    return bytes == MAP_FAILED ? 0 : (u8 *)bytes;
}

static int give(u8 *bytes, u64 from, u64 to) { return to <= from || !mprotect(bytes + from, (size_t)(to - from), PROT_READ | PROT_WRITE); }

static int is_limited(void) {
#if defined(RLIMIT_AS)
    struct rlimit limit;
    return getrlimit(RLIMIT_AS, &limit) || limit.rlim_cur != RLIM_INFINITY;
#else
    return 0;
#endif
}

static void first_bytes(w2c_mem *m, u64 len, u64 max) {
    u64 least = len ? len : PAGE, kept = most_pages(max) * PAGE;
    u8 *bytes;
    if (kept < least || is_limited()) kept = least;
    bytes = place(kept);
    if (!bytes && kept > least) bytes = place(kept = least);
    if (!bytes) w2c_want();
    if (!give(bytes, 0, len)) {
        munmap(bytes, (size_t)kept);
        w2c_want();
    }
    m->bytes = bytes;
    m->kept = kept;
}

/* Another place for a memory that has all of its own; the new bytes behind its length are given, or may not be touched yet. */
static void move(w2c_mem *m, u64 size) {
#if defined(__linux__)
    void *bytes = mremap(m->bytes, (size_t)m->kept, (size_t)size, MREMAP_MAYMOVE);
    if (bytes == MAP_FAILED) w2c_want();
    m->bytes = (u8 *)bytes;
#else
    u8 *bytes = place(size);
    if (!bytes) w2c_want();
    if (!give(bytes, 0, m->len)) {
        munmap(bytes, (size_t)size);
        w2c_want();
    }
    memcpy(bytes, m->bytes, (size_t)m->len);
    munmap(m->bytes, (size_t)m->kept);
    m->bytes = bytes;
#endif
    m->kept = size;
}

static void more_bytes(w2c_mem *m, u64 len) {
    if (len > m->kept) move(m, len);
    if (!give(m->bytes, m->len, len)) w2c_want();
}

static void no_bytes(w2c_mem *m) { munmap(m->bytes, (size_t)m->kept); }

#endif

void w2c_mem_new(w2c_mem *m, u32 min, u64 max) {
    u64 len = (u64)min * PAGE;
    first_bytes(m, len, max);
    m->len = len;
    m->max = max;
}

u32 w2c_mem_grow(w2c_mem *m, u32 d) {
    u64 old = m->len / PAGE;
    if (old + d > most_pages(m->max)) return 4294967295u;
    if (d) {
        u64 len = (old + d) * PAGE;
        more_bytes(m, len);
        m->len = len;
    }
    return (u32)old;
}

void w2c_mem_free(w2c_mem *m) {
    if (m->kept) no_bytes(m);
    m->bytes = 0;
    m->len = m->max = m->kept = 0;
}

void w2c_tab_new(w2c_tab *t, u32 len, u64 max) {
    w2c_elem *elems = (w2c_elem *)calloc(len ? len : 1, sizeof(w2c_elem));
    if (!elems) w2c_want();
    t->elems = elems;
    t->len = len;
    t->max = max;
}

void w2c_tab_free(w2c_tab *t) {
    free(t->elems);
    t->elems = 0;
    t->len = t->max = 0;
}
