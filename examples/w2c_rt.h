#ifndef W2C_RT_H
#define W2C_RT_H
#include <stdint.h>
typedef uint8_t u8;
typedef uint32_t u32;
typedef uint64_t u64;
typedef void (*w2c_fn)(void);
typedef struct { u8 *bytes; u64 len; u64 max; } w2c_mem;
typedef struct { w2c_fn fn; u64 sig; } w2c_elem;
typedef struct { w2c_elem *elems; u64 len; u64 max; } w2c_tab;
extern u32 w2c_depth;
void w2c_trap(u32);
void w2c_mem_new(w2c_mem *, u32, u64);
u64 w2c_mem_len(w2c_mem *);
u64 w2c_mem_max(w2c_mem *);
u32 w2c_mem_grow(w2c_mem *, u32);
u32 w2c_get1(w2c_mem *, u64);
u32 w2c_get2(w2c_mem *, u64);
u32 w2c_get4(w2c_mem *, u64);
u64 w2c_get8(w2c_mem *, u64);
void w2c_put1(w2c_mem *, u64, u32);
void w2c_put2(w2c_mem *, u64, u32);
void w2c_put4(w2c_mem *, u64, u32);
void w2c_put8(w2c_mem *, u64, u64);
void w2c_tab_new(w2c_tab *, u32, u64);
u64 w2c_tab_len(w2c_tab *);
u64 w2c_tab_max(w2c_tab *);
u64 w2c_tab_sig(w2c_tab *, u64);
w2c_fn w2c_tab_fn(w2c_tab *, u64);
void w2c_tab_set(w2c_tab *, u64, w2c_fn, u64);
#endif
