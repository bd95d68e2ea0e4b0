// seamless-endpoint: a PRP or HSR node, or a RedBox, in user space. Interfaces are its ports, a TAP interface is its host.
#ifndef ENDPOINT_HEADER
#define ENDPOINT_HEADER

#include "seamless.h"

#include <stdbool.h>
#include <stdio.h>
#include <sys/socket.h>
#include <sys/uio.h>

enum { PORTS = 4 };

extern const char *const ROLES[];

// options.c: what the command line says.
typedef struct options {
    seamless_setup setup;
    const char *names[PORTS];  // the interface of each port, NULL where the role has none
    unsigned stats;            // seconds from one line of figures to the next, 0 for none
} options;

// Ends with status 2 and a sentence where the command line is none, and with 0 where it asks for help.
options read_options(int count, char **words);

// batch.c: some frames of one port, in memory of their own.
enum { BATCH = 64, ROOM = 2048, CONTROL = 64 };

typedef struct batch {
    size_t count;
    struct iovec frames[BATCH];
    struct mmsghdr messages[BATCH];
    uint8_t octets[BATCH][ROOM];
    union {
        size_t aligned;
        char octets[CONTROL];
    } control[BATCH];
} batch;

// ports.c: a port of the node, an interface with a packet socket or the TAP of the host.
typedef struct port {
    const char *name;  // NULL where the role has no such port
    int file;
    int index;            // of the interface that the socket is bound to
    uint64_t unsent;      // frames that the kernel did not take, as where the interface is down
    uint64_t missed;      // frames that the kernel dropped, as too many waited
    uint64_t unfinished;  // frames whose checksum their sender left to its interface, as through a virtual wire
} port;

// Each ends with status 1 and a sentence where the port can't be had.
void open_port(port *port, const char *name);
void open_host(port *port, const char *name, const uint8_t mac[6]);

// Whether frames go in and out at the interface, as far as the kernel knows.
bool is_running(const port *port);

// Binds the port anew where its interface was removed and is there again, and adds to what the kernel counted.
void mind_port(port *port);

// Reads what waits at a port, at most BATCH frames. Answers false where the interface is gone for good.
bool read_batch(port *port, batch *batch);

// Writes the frames. Those that the kernel does not take are lost there, and counted.
void write_batch(port *port, batch *batch);

// privileges.c: keeps CAP_NET_RAW alone, which packet sockets take, and becomes nobody where it was root.
void drop_privileges(void);

// stats.c: figures of a node as a line of JSON.
void write_stats(FILE *to, const options *options, seamless_node *node, const port ports[PORTS]);

// Hands a line to standard output, unless the one before still waits for its reader; what waits goes on by flush_stats. Neither waits.
void offer_stats(const options *options, seamless_node *node, const port ports[PORTS]);
void flush_stats(void);

// main.c: ends with status 1 and a sentence; with_errno tells what the kernel said too.
_Noreturn void fail(const char *form, ...) __attribute__((format(printf, 1, 2)));
_Noreturn void fail_with_errno(const char *form, ...) __attribute__((format(printf, 1, 2)));

#endif
