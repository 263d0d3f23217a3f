/* Seven stubs for what the C library of wasi-libc asks of a system: there is no environment, it is always the same time, and no file is
 * open. Define WASI_MODULE, the module's name in symbols, before you include this in one C file of the host. */
#include <string.h>

#define WASI_JOIN(a, b, c) a##b##c
#define WASI_MEMORY(module) WASI_JOIN(w2cZ_, module, Z_mZ_memory)
#define WASI(result, name, parameters)                          \
    result w2cZ_wasi_snapshot_preview1Z_fZ_##name parameters;   \
    result w2cZ_wasi_snapshot_preview1Z_fZ_##name parameters

/* The bytes at a place of the module's memory: a trap of the host if they do not lie in it. */
static u8 *wasi_at(u32 place, u32 length) {
    w2c_mem *memory = WASI_MEMORY(WASI_MODULE)();
    if ((u64)place + length > memory->len) w2c_trap(11u);
    return memory->bytes + place;
}

/* 8 is "no such descriptor", 0 is "done". */
WASI(u32, environ_sizes_get, (u32 count, u32 size)) {
    memset(wasi_at(count, 4), 0, 4);
    memset(wasi_at(size, 4), 0, 4);
    return 0;
}
WASI(u32, environ_get, (u32 names, u32 bytes)) { (void)names; (void)bytes; return 0; }
WASI(u32, clock_time_get, (u32 clock, u64 precision, u32 time)) {
    (void)clock; (void)precision;
    memset(wasi_at(time, 8), 0, 8);
    return 0;
}
WASI(u32, fd_close, (u32 file)) { (void)file; return 8; }
WASI(u32, fd_seek, (u32 file, u64 offset, u32 whence, u32 place)) { (void)file; (void)offset; (void)whence; (void)place; return 8; }
WASI(u32, fd_write, (u32 file, u32 parts, u32 count, u32 written)) { (void)file; (void)parts; (void)count; (void)written; return 8; }
WASI(void, proc_exit, (u32 code)) { (void)code; w2c_trap(11u); }
