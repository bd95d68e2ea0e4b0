// Four nodes at work on four threads, made and freed by a fifth.
#include "seamless.h"

#include <pthread.h>
#include <stdio.h>
#include <string.h>

enum { NODES = 4, FRAMES = 20000 };

static struct work {
    seamless_node node;
    unsigned long up;
} works[NODES];

static void *run(void *at) {
    struct work *work = at;
    uint8_t octets[66] = {2, 0, 0, 0, 0, 1, 2, 0, 0, 0, 0, 2, 8, 0}, buffer[SEAMLESS_MAX_FRAME];
    memcpy(octets + 60, (uint8_t[]){0, 0, 0xa0, 0x34, 0x88, 0xfb}, 6);
    for (unsigned i = 0; i < FRAMES; i++) {
        octets[60] = (uint8_t)(i >> 8);
        octets[61] = (uint8_t)i;
        for (uint32_t port = SEAMLESS_A; port <= SEAMLESS_B; port++) {
            octets[62] = port == SEAMLESS_A ? 0xa0 : 0xb0;
            seamless_receive(&work->node, port, octets, sizeof octets, i / 64);
            work->up += seamless_take(&work->node, SEAMLESS_H, buffer, sizeof buffer) != 0;
        }
    }
    return NULL;
}

int main(void) {
    pthread_t threads[NODES];
    seamless_setup setup = {.mac = {2, 0, 0, 0, 0, 1}, .fixed_key = 1};
    for (int i = 0; i < NODES; i++)
        if (seamless_open(&setup, &works[i].node) || pthread_create(&threads[i], NULL, run, &works[i]))
            return 1;
    int wrong = 0;
    for (int i = 0; i < NODES; i++) {
        pthread_join(threads[i], NULL);
        wrong |= works[i].up != FRAMES;
        wrong |= seamless_close(&works[i].node) != 0;
    }
    return wrong;
}
