// `seamless_open` and `seamless_resume` ask the processor first: the library is compiled for x86-64-v2, and an older one stops at the first
// instruction that it does not know.
#include "seamless.h"

// The library's own, which is proved.
uint32_t seamless_make(const seamless_setup *setup, seamless_node *node);
uint32_t seamless_remake(const seamless_setup *setup, const uint8_t *octets, size_t count, seamless_node *node);

static int is_new_enough(void) {
#ifdef __x86_64__
    return __builtin_cpu_supports("sse4.2") && __builtin_cpu_supports("popcnt");
#else
    return 1;
#endif
}

uint32_t seamless_open(const seamless_setup *setup, seamless_node *node) {
    return is_new_enough() ? seamless_make(setup, node) : SEAMLESS_PROCESSOR;
}

uint32_t seamless_resume(const seamless_setup *setup, const uint8_t *octets, size_t count, seamless_node *node) {
    return is_new_enough() ? seamless_remake(setup, octets, count, node) : SEAMLESS_PROCESSOR;
}
