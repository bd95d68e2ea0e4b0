// seamless-endpoint: frames go between interfaces and a node of libseamless. seamless-endpoint --help tells how it is called.
#include "endpoint.h"

#include <errno.h>
#include <fcntl.h>
#include <signal.h>
#include <stdarg.h>
#include <stdlib.h>
#include <string.h>
#include <sys/epoll.h>
#include <sys/random.h>
#include <sys/signalfd.h>
#include <sys/timerfd.h>
#include <time.h>
#include <unistd.h>

// Behind the ports, what the loop waits for: time, and a signal to end.
enum { TICK = PORTS, SIGNAL, SOURCES };

enum { TICK_MS = 100, NODE_REBOOT_INTERVAL_MS = 500 };

static options told;
static seamless_node node = SEAMLESS_CLOSED_NODE;
static port ports[PORTS];
static batch incoming, outgoing;

static void complain(const char *form, va_list words, const char *more) {
    fputs("seamless-endpoint: ", stderr);
    vfprintf(stderr, form, words);
    fprintf(stderr, more ? ": %s\n" : "\n", more);
}

_Noreturn void fail(const char *form, ...) {
    va_list words;
    va_start(words, form);
    complain(form, words, NULL);
    va_end(words);
    exit(1);
}

_Noreturn void fail_with_errno(const char *form, ...) {
    const char *more = strerror(errno);
    va_list words;
    va_start(words, form);
    complain(form, words, more);
    va_end(words);
    exit(1);
}

static uint64_t milliseconds(void) {
    struct timespec now;
    clock_gettime(CLOCK_MONOTONIC, &now);
    return (uint64_t)now.tv_sec * 1000 + (uint64_t)now.tv_nsec / 1000000;
}

static void open_node(void) {
    if (seamless_abi() != SEAMLESS_ABI)
        fail("this is libseamless of interface %u, and interface %d is wanted", seamless_abi(), SEAMLESS_ABI);
    if (getrandom(told.setup.key, sizeof told.setup.key, 0) != sizeof told.setup.key)
        fail_with_errno("the system gives no random octets");
    const uint32_t answer = seamless_open(&told.setup, &node);
    if (answer == SEAMLESS_PROCESSOR)
        fail("the processor is too old: it takes x86-64-v2, with SSE4.2 and POPCNT");
    if (answer)
        fail("the node can't be made: fault %u of seamless.h", answer);
}

// A node that starts again under its old numbers is silent until others have forgotten them. Its ports are not open yet, so that no
// frame waits there meanwhile.
static void keep_silent(void) {
    const struct timespec interval = {.tv_nsec = NODE_REBOOT_INTERVAL_MS * 1000000L};
    nanosleep(&interval, NULL);
}

static void open_ports(void) {
    for (uint32_t at = SEAMLESS_A; at < PORTS; at++)
        if (told.names[at])
            open_port(&ports[at], told.names[at]);
    open_host(&ports[SEAMLESS_H], told.names[SEAMLESS_H], told.setup.mac);
}

static int open_timer(void) {
    const struct timespec often = {.tv_nsec = TICK_MS * 1000000L};
    const struct itimerspec from_now_on = {.it_interval = often, .it_value = {.tv_nsec = 1}};
    const int timer = timerfd_create(CLOCK_MONOTONIC, TFD_NONBLOCK | TFD_CLOEXEC);
    if (timer < 0 || timerfd_settime(timer, 0, &from_now_on, NULL))
        fail_with_errno("there is no timer");
    return timer;
}

// SIGINT and SIGTERM come as what can be read. Standard output that nobody reads any more ends no node.
static int open_signals(void) {
    sigset_t ending;
    sigemptyset(&ending);
    sigaddset(&ending, SIGINT);
    sigaddset(&ending, SIGTERM);
    sigprocmask(SIG_BLOCK, &ending, NULL);
    signal(SIGPIPE, SIG_IGN);
    const int signals = signalfd(-1, &ending, SFD_NONBLOCK | SFD_CLOEXEC);
    if (signals < 0)
        fail_with_errno("there is no file of signals");
    return signals;
}

static int wait_for(int timer, int signals) {
    const int all = epoll_create1(EPOLL_CLOEXEC);
    for (uint32_t at = 0; at < SOURCES; at++) {
        struct epoll_event event = {.events = EPOLLIN, .data.u32 = at};
        if (at < PORTS && !ports[at].name)
            continue;
        if (epoll_ctl(all, EPOLL_CTL_ADD, at == TICK ? timer : at == SIGNAL ? signals : ports[at].file, &event))
            fail_with_errno("the ports can't be waited for");
    }
    return all;
}

// Takes out what waits at a port, and sends it.
static void give(uint32_t at) {
    while (seamless_waiting(&node, at)) {
        for (outgoing.count = 0; outgoing.count < BATCH; outgoing.count++) {
            uint8_t *octets = outgoing.octets[outgoing.count];
            const size_t count = seamless_take(&node, at, octets, ROOM);
            if (!count)
                break;
            outgoing.frames[outgoing.count] = (struct iovec){octets, count};
        }
        if (!outgoing.count)
            return;
        write_batch(&ports[at], &outgoing);
    }
}

static void give_all(void) {
    for (uint32_t at = 0; at < PORTS; at++)
        if (ports[at].name)
            give(at);
}

// What came in at a port goes through the node. What it refuses it has counted.
static void pass(uint32_t at, uint64_t now) {
    if (!read_batch(&ports[at], &incoming))
        fail("the interface '%s' is gone", ports[at].name);
    for (size_t each = 0; each < incoming.count; each++) {
        const struct iovec *frame = &incoming.frames[each];
        if (at == SEAMLESS_H)
            seamless_send(&node, frame->iov_base, frame->iov_len, now);
        else
            seamless_receive(&node, at, frame->iov_base, frame->iov_len, now);
    }
    give_all();
}

static void tick(int timer, uint64_t now) {
    static uint64_t next;
    uint64_t turns;
    if (read(timer, &turns, sizeof turns) < 0)
        return;
    seamless_tick(&node, now);
    give_all();
    for (uint32_t at = SEAMLESS_A; at < PORTS; at++)
        if (ports[at].name)
            mind_port(&ports[at]);
    if (told.stats && now >= next) {
        offer_stats(&told, &node, ports);
        next = now + told.stats * 1000ULL;
    }
    flush_stats();
}

static void run(int all, int timer) {
    for (;;) {
        struct epoll_event events[SOURCES];
        const int found = epoll_wait(all, events, SOURCES, -1);
        const uint64_t now = milliseconds();
        for (int each = 0; each < found; each++) {
            const uint32_t at = events[each].data.u32;
            if (at == SIGNAL)
                return;
            if (at == TICK)
                tick(timer, now);
            else
                pass(at, now);
        }
    }
}

int main(int count, char **words) {
    told = read_options(count, words);
    open_node();
    const int signals = open_signals(), timer = open_timer();
    keep_silent();
    open_ports();
    drop_privileges();
    const int all = wait_for(timer, signals), flags = fcntl(STDOUT_FILENO, F_GETFL);
    fcntl(STDOUT_FILENO, F_SETFL, flags | O_NONBLOCK);
    fprintf(stderr, "seamless-endpoint: %s runs\n", ROLES[told.setup.role]);
    run(all, timer);
    fcntl(STDOUT_FILENO, F_SETFL, flags);
    write_stats(stderr, &told, &node, ports);
    return seamless_close(&node) != 0;
}
