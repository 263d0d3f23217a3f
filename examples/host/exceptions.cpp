// The host of host.c in another form: a trap is an exception of C++. It unwinds the host's functions and the unit's, which are compiled
// with -fexceptions for that, and destructors of the host run.
#include <cstdio>
#include <exception>
#include <functional>

extern "C" {
#include "guest.h"
void w2cZ_hostZ_fZ_say(u32 text, u32 length);
u64 w2cZ_hostZ_fZ_weight(u32 article);
u32 w2cZ_hostZ_fZ_next(void);
}

namespace {

const char *const traps[12] = {
    "none", "unreachable", "memory out of bounds", "division by zero", "integer overflow", "table out of bounds", "empty element",
    "signature differs", "call depth", "import limits", "segment out of bounds", "host trap",
};

class Trap : public std::exception {
    u32 kind;

public:
    explicit Trap(u32 kind) : kind(kind) {}
    const char *what() const noexcept override { return traps[kind]; }
};

int alive;

// Something that must be given back, also when a trap passes through.
struct Held {
    Held() { alive++; }
    ~Held() { alive--; }
    Held(const Held &) = delete;
    Held &operator=(const Held &) = delete;
};

u32 articles_left;

void call(const char *what, const std::function<u64()> &function) {
    u32 depth = w2c_depth;
    try {
        Held held;
        std::printf("%s = %llu\n", what, static_cast<unsigned long long>(function()));
    } catch (const Trap &trap) {
        w2c_depth = depth;
        std::printf("%s: trap, %s\n", what, trap.what());
    }
}

} // namespace

extern "C" void w2c_trap(u32 kind) { throw Trap(kind); }

extern "C" void w2cZ_hostZ_fZ_say(u32 text, u32 length) {
    w2c_mem *memory = w2cZ_guestZ_mZ_memory();
    if (static_cast<u64>(text) + length > memory->len) w2c_trap(11u);
    std::fwrite(memory->bytes + text, 1, length, stdout);
}

// This function's object stands between the trap and the handler, with functions of the unit on both sides of the call.
extern "C" u64 w2cZ_hostZ_fZ_weight(u32 article) {
    Held held;
    if (article > 9) w2c_trap(11u);
    return 1000000000ull * article + article;
}

extern "C" u32 w2cZ_hostZ_fZ_next(void) { return articles_left ? articles_left-- : 0; }

int main() {
    w2cZ_guestZ_i();
    articles_left = 4;
    call("weigh", [] { return w2cZ_guestZ_fZ_weigh(); });
    call("share", [] { return u64(w2cZ_guestZ_fZ_share(17, 5)); });
    call("share", [] { return u64(w2cZ_guestZ_fZ_share(17, 0)); });
    articles_left = 12;
    call("weigh", [] { return w2cZ_guestZ_fZ_weigh(); });
    call("deep", [] { return u64(w2cZ_guestZ_fZ_deep(1023)); });
    call("deep", [] { return u64(w2cZ_guestZ_fZ_deep(1024)); });
    std::printf("alive: %d, depth: %lu\n", alive, static_cast<unsigned long>(w2c_depth));
    return alive || w2c_depth;
}
