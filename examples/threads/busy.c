/* What build_wasm.sh compiles to busy.wasm: a recursion, and a sieve in the module's memory. */
typedef unsigned int u32;
typedef unsigned char u8;

#define EXPORT(name) __attribute__((export_name(name)))
#define ROOM 100000u

static u8 composite[ROOM];

/* The call of itself is not the last thing that it does, so it stays a call. */
EXPORT("deep") u32 deep(u32 n) { return n == 0 ? 0 : deep(n - 1) * 3 + n; }

/* How many primes there are below n. */
EXPORT("primes") u32 primes(u32 n) {
    u32 i, k, count = 0;
    if (n > ROOM) __builtin_trap();
    for (i = 0; i < n; i++) composite[i] = 0;
    for (i = 2; i < n; i++) {
        if (composite[i]) continue;
        count++;
        for (k = 2 * i; k < n; k += i) composite[k] = 1;
    }
    return count;
}
