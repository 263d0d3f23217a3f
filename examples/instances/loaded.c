/* As many instances as the command line says, made while the program runs, each in a thread of its own. An instance is a shared library
 * of the unit and the runtime; each is loaded from a copy of the file, since a file is loaded once. The library is linked with
 * -Bsymbolic, so each instance has its own w2c_depth. Linux and glibc. */
#define _GNU_SOURCE
#include <dlfcn.h>
#include <pthread.h>
#include <stdio.h>
#include <stdlib.h>
#include <string.h>
#include <unistd.h>
#include "w2c_rt.h"

struct instance {
    pthread_t thread;
    u64 number;
    u64 total;
    u64 said;
    void (*init)(void);
    u64 (*add)(u64);
    w2c_mem *(*memory)(void);
};

void w2cZ_hostZ_fZ_say(u32 text, u32 length);

/* All instances call the same host function, which is the program's. This is the instance that the thread runs. */
static _Thread_local struct instance *current;

void w2cZ_hostZ_fZ_say(u32 text, u32 length) {
    w2c_mem *memory = current->memory();
    if ((u64)text + length > memory->len) w2c_trap(11u);
    current->said += length;
}

static void fail(const char *what) {
    fprintf(stderr, "%s\n", what);
    exit(1);
}

/* C has no cast from an object's address to a function's; POSIX says that this way works. */
static void find(void *library, const char *symbol, void *function) {
    void *address = dlsym(library, symbol);
    if (!address) fail(dlerror());
    memcpy(function, &address, sizeof address);
}

static void copy(const char *from, FILE *to) {
    static char bytes[65536];
    size_t length;
    FILE *file = fopen(from, "rb");
    if (!file) fail(from);
    while ((length = fread(bytes, 1, sizeof bytes, file)) != 0) fwrite(bytes, 1, length, to);
    fclose(file);
}

static void load(struct instance *it, const char *path) {
    char name[] = "/tmp/instance.XXXXXX";
    FILE *file = fdopen(mkstemp(name), "wb");
    void *library;
    if (!file) fail(name);
    copy(path, file);
    if (fclose(file)) fail(name);
    library = dlopen(name, RTLD_NOW | RTLD_LOCAL);
    unlink(name);
    if (!library) fail(dlerror());
    find(library, "w2cZ_tallyZ_i", &it->init);
    find(library, "w2cZ_tallyZ_fZ_add", &it->add);
    find(library, "w2cZ_tallyZ_mZ_memory", &it->memory);
}

static void *run(void *argument) {
    u64 i;
    current = argument;
    current->init();
    for (i = 0; i < 100000; i++) current->total = current->add(current->number);
    return NULL;
}

int main(int count, char **words) {
    int i, all = count > 2 ? atoi(words[2]) : 0, wrong = 0;
    struct instance *instances = calloc(all > 0 ? (size_t)all : 1, sizeof *instances);
    if (all < 1 || !instances) fail("loaded LIBRARY COUNT");
    for (i = 0; i < all; i++) {
        instances[i].number = (u64)i + 1;
        load(&instances[i], words[1]);
    }
    for (i = 0; i < all; i++)
        if (pthread_create(&instances[i].thread, NULL, run, &instances[i])) fail("no thread");
    for (i = 0; i < all; i++) {
        pthread_join(instances[i].thread, NULL);
        if (instances[i].total != 100000 * instances[i].number || !instances[i].said) wrong = 1;
        if (i < 4) printf("instance %d: %llu\n", i + 1, (unsigned long long)instances[i].total);
    }
    printf("%d instances: %s\n", all, wrong ? "WRONG" : "right");
    return wrong;
}
