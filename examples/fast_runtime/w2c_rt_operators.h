/* W2C_RT_OPERATORS: the compiler's own operators in the place of those helpers of units whose form compilers do not see through, or not all
 * of them: arithmetic shifts, signed comparisons and divisions, counts of bits, and bytes that are copied and filled, which become one
 * memmove and one memset. Nothing is proved of it, and it takes from what is proved of a unit: that is said of the helpers that the
 * unit defines, and here it does not call these.
 *
 * A helper's name is a macro, which looks at an argument. In a call that is the name of a variable, and what is called is the function of
 * this file. In the definition it begins with u32 or u64, and the definition stays as it is, unused. A call of any other form (an
 * expression there, as wasm2c never writes it) does not compile. The table at the end is the only place that has the helpers' names. */
#ifndef W2C_RT_OPERATORS_H
#define W2C_RT_OPERATORS_H

#if !defined(__GNUC__)
#error "W2C_RT_OPERATORS wants gcc or clang"
#endif

/* gcc and clang say of signed numbers what C leaves open: a conversion wraps around, and >> copies the sign. */
static inline u32 w2c_rt_i32_shr_s(u32 x, u32 y) { return (u32)((int32_t)x >> (y % 32)); }
static inline u64 w2c_rt_i64_shr_s(u64 x, u64 y) { return (u64)((int64_t)x >> (y % 64)); }
static inline u32 w2c_rt_i32_lt_s(u32 x, u32 y) { return (int32_t)x < (int32_t)y; }
static inline u32 w2c_rt_i32_gt_s(u32 x, u32 y) { return (int32_t)x > (int32_t)y; }
static inline u32 w2c_rt_i32_le_s(u32 x, u32 y) { return (int32_t)x <= (int32_t)y; }
static inline u32 w2c_rt_i32_ge_s(u32 x, u32 y) { return (int32_t)x >= (int32_t)y; }
static inline u32 w2c_rt_i64_lt_s(u64 x, u64 y) { return (int64_t)x < (int64_t)y; }
static inline u32 w2c_rt_i64_gt_s(u64 x, u64 y) { return (int64_t)x > (int64_t)y; }
static inline u32 w2c_rt_i64_le_s(u64 x, u64 y) { return (int64_t)x <= (int64_t)y; }
static inline u32 w2c_rt_i64_ge_s(u64 x, u64 y) { return (int64_t)x >= (int64_t)y; }

static inline u32 w2c_rt_i32_div_s(u32 x, u32 y) {
    if (y == 0) w2c_trap(3u);
    if (x == (u32)1 << 31 && y == ~(u32)0) w2c_trap(4u);
    return (u32)((int32_t)x / (int32_t)y);
}
static inline u64 w2c_rt_i64_div_s(u64 x, u64 y) {
    if (y == 0) w2c_trap(3u);
    if (x == (u64)1 << 63 && y == ~(u64)0) w2c_trap(4u);
    return (u64)((int64_t)x / (int64_t)y);
}
static inline u32 w2c_rt_i32_rem_s(u32 x, u32 y) {
    if (y == 0) w2c_trap(3u);
    return y == ~(u32)0 ? 0 : (u32)((int32_t)x % (int32_t)y);
}
static inline u64 w2c_rt_i64_rem_s(u64 x, u64 y) {
    if (y == 0) w2c_trap(3u);
    return y == ~(u64)0 ? 0 : (u64)((int64_t)x % (int64_t)y);
}

static inline u32 w2c_rt_i32_clz(u32 x) { return x ? (u32)__builtin_clz(x) : 32; }
static inline u64 w2c_rt_i64_clz(u64 x) { return x ? (u64)__builtin_clzll(x) : 64; }
static inline u32 w2c_rt_i32_ctz(u32 x) { return x ? (u32)__builtin_ctz(x) : 32; }
static inline u64 w2c_rt_i64_ctz(u64 x) { return x ? (u64)__builtin_ctzll(x) : 64; }
static inline u32 w2c_rt_i32_popcnt(u32 x) { return (u32)__builtin_popcount(x); }
static inline u64 w2c_rt_i64_popcnt(u64 x) { return (u64)__builtin_popcountll(x); }
static inline u64 w2c_rt_i64_extend_i32_s(u32 x) { return (u64)(int64_t)(int32_t)x; }

/* (w2c_mem_len) is the function, where a runtime has a macro of that name. W2C_RT_MOVED keeps these in order with accesses that may trap. */
#if !defined(W2C_RT_MOVED)
#define W2C_RT_MOVED ((void)0)
#endif
static inline void w2c_rt_copy(w2c_mem *m, u32 to, u32 from, u32 n) {
    u64 len = (w2c_mem_len)(m);
    if ((u64)to + n > len || (u64)from + n > len) w2c_trap(2u);
    W2C_RT_MOVED;
    __builtin_memmove(m->bytes + to, m->bytes + from, n);
    W2C_RT_MOVED;
}
static inline void w2c_rt_fill(w2c_mem *m, u32 to, u32 value, u32 n) {
    if ((u64)to + n > (w2c_mem_len)(m)) w2c_trap(2u);
    W2C_RT_MOVED;
    __builtin_memset(m->bytes + to, (int)(value & 255), n);
    W2C_RT_MOVED;
}

/* W2C_RT_HELPER(x, name, own) is `own` in a call with the argument x, and `name`, said to be unused, in the definition. */
#define W2C_RT_HELPER(x, name, own) W2C_RT_CHOICE(W2C_RT_OF_##x)(__attribute__((unused)) name, own)
#define W2C_RT_OF_u32 0, W2C_RT_DEFINED,
#define W2C_RT_OF_u64 0, W2C_RT_DEFINED,
#define W2C_RT_CHOICE(...) W2C_RT_JOIN(W2C_RT_OF_, W2C_RT_PICK(__VA_ARGS__, W2C_RT_CALLED, 0))
#define W2C_RT_OF_W2C_RT_CALLED(name, own) own
#define W2C_RT_OF_W2C_RT_DEFINED(name, own) name
#define W2C_RT_PICK(...) W2C_RT_SECOND(__VA_ARGS__)
#define W2C_RT_SECOND(a, b, ...) b
#define W2C_RT_JOIN(a, b) W2C_RT_JOIN_(a, b)
#define W2C_RT_JOIN_(a, b) a##b

#define i32_shr_s(x, y) W2C_RT_HELPER(x, i32_shr_s, w2c_rt_i32_shr_s)(x, y)
#define i64_shr_s(x, y) W2C_RT_HELPER(x, i64_shr_s, w2c_rt_i64_shr_s)(x, y)
#define i32_lt_s(x, y) W2C_RT_HELPER(x, i32_lt_s, w2c_rt_i32_lt_s)(x, y)
#define i32_gt_s(x, y) W2C_RT_HELPER(x, i32_gt_s, w2c_rt_i32_gt_s)(x, y)
#define i32_le_s(x, y) W2C_RT_HELPER(x, i32_le_s, w2c_rt_i32_le_s)(x, y)
#define i32_ge_s(x, y) W2C_RT_HELPER(x, i32_ge_s, w2c_rt_i32_ge_s)(x, y)
#define i64_lt_s(x, y) W2C_RT_HELPER(x, i64_lt_s, w2c_rt_i64_lt_s)(x, y)
#define i64_gt_s(x, y) W2C_RT_HELPER(x, i64_gt_s, w2c_rt_i64_gt_s)(x, y)
#define i64_le_s(x, y) W2C_RT_HELPER(x, i64_le_s, w2c_rt_i64_le_s)(x, y)
#define i64_ge_s(x, y) W2C_RT_HELPER(x, i64_ge_s, w2c_rt_i64_ge_s)(x, y)
#define i32_div_s(x, y) W2C_RT_HELPER(x, i32_div_s, w2c_rt_i32_div_s)(x, y)
#define i64_div_s(x, y) W2C_RT_HELPER(x, i64_div_s, w2c_rt_i64_div_s)(x, y)
#define i32_rem_s(x, y) W2C_RT_HELPER(x, i32_rem_s, w2c_rt_i32_rem_s)(x, y)
#define i64_rem_s(x, y) W2C_RT_HELPER(x, i64_rem_s, w2c_rt_i64_rem_s)(x, y)
#define i32_clz(x) W2C_RT_HELPER(x, i32_clz, w2c_rt_i32_clz)(x)
#define i64_clz(x) W2C_RT_HELPER(x, i64_clz, w2c_rt_i64_clz)(x)
#define i32_ctz(x) W2C_RT_HELPER(x, i32_ctz, w2c_rt_i32_ctz)(x)
#define i64_ctz(x) W2C_RT_HELPER(x, i64_ctz, w2c_rt_i64_ctz)(x)
#define i32_popcnt(x) W2C_RT_HELPER(x, i32_popcnt, w2c_rt_i32_popcnt)(x)
#define i64_popcnt(x) W2C_RT_HELPER(x, i64_popcnt, w2c_rt_i64_popcnt)(x)
#define i64_extend_i32_s(x) W2C_RT_HELPER(x, i64_extend_i32_s, w2c_rt_i64_extend_i32_s)(x)
#define copy_memory(m, x, y, z) W2C_RT_HELPER(x, copy_memory, w2c_rt_copy)(m, x, y, z)
#define fill_memory(m, x, y, z) W2C_RT_HELPER(x, fill_memory, w2c_rt_fill)(m, x, y, z)
#endif
