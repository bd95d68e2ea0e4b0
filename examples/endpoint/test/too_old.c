// seamless_open, as it answers on a processor that the library can't run on.
#include "seamless.h"

uint32_t __wrap_seamless_open(const seamless_setup *setup, seamless_node *node);

uint32_t __wrap_seamless_open(const seamless_setup *setup, seamless_node *node) {
    (void)setup;
    (void)node;
    return SEAMLESS_PROCESSOR;
}
