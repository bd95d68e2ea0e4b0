// What libFuzzer calls with octets, or a program that tells what comes of files (-DTELL): a line for each, its name and its number.
// FUZZ names the entry of crates/sr_fuzz: node, script, network, capture, audit, merge or snapshot.
#include <signal.h>
#include <stdint.h>
#include <stdio.h>
#include <stdlib.h>
#include <string.h>
#include <sys/time.h>
#include <unistd.h>

uint64_t fuzz_node(const uint8_t *octets, size_t size);
uint64_t fuzz_script(const uint8_t *octets, size_t size);
uint64_t fuzz_network(const uint8_t *octets, size_t size);
uint64_t fuzz_capture(const uint8_t *octets, size_t size);
uint64_t fuzz_audit(const uint8_t *octets, size_t size);
uint64_t fuzz_merge(const uint8_t *octets, size_t size);
uint64_t fuzz_snapshot(const uint8_t *octets, size_t size);

static const struct {
    const char *name;
    uint64_t (*call)(const uint8_t *, size_t);
} ENTRIES[] = {
    {"node", fuzz_node},
    {"script", fuzz_script},
    {"network", fuzz_network},
    {"capture", fuzz_capture},
    {"audit", fuzz_audit},
    {"merge", fuzz_merge},
    {"snapshot", fuzz_snapshot},
};

static uint64_t (*entry)(const uint8_t *, size_t);

// Finds the entry that is named.
static void begin(void) {
    const char *name = getenv("FUZZ");
    for (size_t at = 0; at < sizeof ENTRIES / sizeof *ENTRIES; at++)
        if (name && !strcmp(name, ENTRIES[at].name))
            entry = ENTRIES[at].call;
    if (!entry) {
        fprintf(stderr, "FUZZ names no entry\n");
        exit(2);
    }
}

#ifdef TELL
int main(int count, char **names) {
    static uint8_t octets[1 << 22];
    begin();
    for (int at = 1; at < count; at++) {
        FILE *file = fopen(names[at], "rb");
        if (!file) {
            perror(names[at]);
            return 1;
        }
        size_t size = fread(octets, 1, sizeof octets, file);
        fclose(file);
        const char *name = strrchr(names[at], '/');
        printf("%s %016llx\n", name ? name + 1 : names[at], (unsigned long long)entry(octets, size));
    }
    return 0;
}
#else
// How many inputs were begun and ended, and how many when this was looked at last. It is odd within an input.
static volatile uint64_t turns, seen;
static volatile int looks;

// Looks each half second of the processor's time whether an input still runs. What else the machine does costs none of it.
static void look(int signal) {
    static const char slow[] = "an input takes over a second\n";
    (void)signal;
    if (turns != seen || turns % 2 == 0) {
        seen = turns;
        looks = 0;
    } else if (++looks >= 2) {
        ssize_t told = write(2, slow, sizeof slow - 1);
        (void)told;
        abort();
    }
}

int LLVMFuzzerInitialize(int *count, char ***words) {
    static const struct itimerval half = {{0, 500000}, {0, 500000}};
    (void)count;
    (void)words;
    begin();
    signal(SIGVTALRM, look);
    return setitimer(ITIMER_VIRTUAL, &half, NULL);
}

int LLVMFuzzerTestOneInput(const uint8_t *octets, size_t size) {
    turns++;
    // A slice of no octets has an address too.
    if (size && !entry(octets, size))
        abort();
    turns++;
    return 0;
}
#endif
