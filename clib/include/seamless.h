// seamless: one PRP or HSR node (IEC 62439-3:2021, clauses 4 and 5). Octets come in at its ports, and octets go out at them. The library
// opens no interface, starts no thread and reads no clock: the caller hands it frames and times. Each call's answer is proved of it; that
// seamless_take answers 0 only for the reasons that stand there is tested.
//
// What the caller owes, which no proof sees:
//   1. A handle begins as SEAMLESS_CLOSED_NODE (or zeroed), and is changed by the calls alone. It is not used as a copy.
//   2. No pointer is NULL, also where its length is 0, and each points to what its type or its length says, which no other argument shares.
//   3. A node belongs to one thread at a time. It may go from one to another (by a lock, or by a start or join of a thread). Two nodes have
//      nothing in common.
//   4. No call is made from a signal handler, or from the forked child of a process with threads.
//   5. malloc, realloc and free are those of one allocator, and align as the C standard says.
//
// Times are in milliseconds of any steady clock. One that is less than an earlier one counts as that one.
// Frames are whole Ethernet frames without the frame check sequence, at most SEAMLESS_MAX_FRAME octets.
//
// On x86-64 the library takes a processor of x86-64-v2, with SSE4.2 and POPCNT (any since 2009). seamless_open asks for it.
//
// With Linux net/hsr at the other end: it sends from each slave under that slave's own address, so its two slaves need one address, or
// other nodes take it for two and hand up each of its frames twice. Its supervision frames have to go to 01-15-4E-00-01-00
// ("supervision 0"): those to another last octet are group frames to this node, which hands them up and learns nothing of them.
#ifndef SEAMLESS_NODE_HEADER
#define SEAMLESS_NODE_HEADER

#include <stddef.h>
#include <stdint.h>

#ifdef __cplusplus
extern "C" {
#endif

// The interface that this header describes. seamless_abi answers that of the library: where they differ, open no node.
#define SEAMLESS_ABI 2

// The version of the library that this header came with: 10000 for the first number, 100 for the second, 1 for the third. seamless_version
// answers that of the library that is linked.
#define SEAMLESS_VERSION 1100
#define SEAMLESS_VERSION_TEXT "0.11.0"

// The most octets of a frame that goes out.
#define SEAMLESS_MAX_FRAME 1524

// The most octets of a frame that the host sends, or that comes in at the interlink without a tag or a trailer.
#define SEAMLESS_MAX_PLAIN 1518

// How many frames wait at a port at most.
#define SEAMLESS_MAX_WAITING 256

// How many other nodes are known, how many alarms are kept, and how many addresses a RedBox for SANs stands for, at most.
#define SEAMLESS_MAX_NODES 1024
#define SEAMLESS_MAX_ALARMS 64
#define SEAMLESS_MAX_PROXIED 256

// The most octets of a snapshot: 7, and for each of 1024 sources 784 where a node remembers 1024 numbers of each, 1552 where it remembers 2048.
#define SEAMLESS_MAX_SNAPSHOT 1589255

// A handle of a node, in the caller's memory: NULL where it is closed.
typedef struct seamless_node {
    void *at;
} seamless_node;

// What a handle is before it is opened, and again once it is closed.
#define SEAMLESS_CLOSED_NODE {NULL}

// What a node is: the roles of IEC 62439-3 clauses 4 and 5.
enum {
    SEAMLESS_DANP = 0,        // a doubly attached node of a PRP network
    SEAMLESS_DANH = 1,        // a doubly attached node of an HSR ring
    SEAMLESS_REDBOX_SAN = 2,  // a RedBox between a ring and nodes that know no redundancy
    SEAMLESS_REDBOX_PRP = 3,  // a RedBox between a ring and one LAN of a PRP network
    SEAMLESS_REDBOX_HSR = 4   // a RedBox between two rings
};

// The ports of a node. H is the host, C the interlink of a RedBox. What comes in at C of a node that is no RedBox goes nowhere, and
// nothing goes out there.
enum { SEAMLESS_H = 0, SEAMLESS_A = 1, SEAMLESS_B = 2, SEAMLESS_C = 3 };

// Why a call does nothing. No call changes the node where it answers one of these (but what is counted of a frame that is refused).
enum {
    SEAMLESS_UNREAD = 257,       // the octets are no frame that the port takes, or that the host may send
    SEAMLESS_UNTAGGED = 258,     // the frame has no tag, and the port asks for one
    SEAMLESS_TABLE_FULL = 259,   // 1024 other sources were heard within 400 ms
    SEAMLESS_OUTBOX_FULL = 260,  // SEAMLESS_MAX_WAITING frames wait at a port that would get this one
    SEAMLESS_NO_MEMORY = 261,    // malloc or realloc answered NULL
    SEAMLESS_ARGUMENT = 262,     // a role, mode, width, LAN, network, key, port, index or address that there is not
    SEAMLESS_CLOSED = 263,       // the handle is closed, or was never opened
    SEAMLESS_OPEN = 264,         // the handle is open already
    SEAMLESS_SNAPSHOT = 265,     // the octets are no snapshot
    SEAMLESS_APART = 267,        // what two nodes have noted of a source is 32768 numbers apart, so that neither is ahead
    SEAMLESS_PROCESSOR = 268     // the processor is older than x86-64-v2
};

// Whether an answer is one of the above.
#define SEAMLESS_FAILED(answer) ((answer) > 256)

// The frame that came in was sent by this node. It goes nowhere.
#define SEAMLESS_OWN 16

// What a new node is told.
typedef struct seamless_setup {
    uint8_t mac[6];     // its address
    uint8_t role;       // SEAMLESS_DANP, ..
    uint8_t mode;       // 0 for mode H, 1 for mode X: in mode X a frame goes to no ring port at which a copy of it came in
    uint8_t width;      // how many numbers of each source it remembers: 0 for 1024, 1 for 2048
    uint8_t lan;        // for SEAMLESS_REDBOX_PRP: the LAN at the interlink, 0 for A and 1 for B
    uint8_t net;        // for SEAMLESS_REDBOX_PRP: the number of the network, 1 to 6
    uint8_t fixed_key;  // 0; or 1 for a key that anyone can know, for tests and where nobody chooses addresses
    uint8_t key[32];    // where fixed_key is 0: octets of the system's random source (getrandom), not all 0. They place addresses in
                        // tables, so that nobody can choose ones that meet there. No answer depends on them
} seamless_setup;

// What is told of another node.
typedef struct seamless_node_entry {
    uint8_t mac[6];      // its address
    uint8_t redbox[6];   // the RedBox that it stands behind, where has_redbox is 1, and else zeros
    uint8_t has_redbox;  // 0 or 1
    uint32_t age_a;      // milliseconds since it was heard at port A; 2147483647: never
    uint32_t age_b;      // milliseconds since it was heard at port B; 2147483647: never
    uint16_t seq_a;      // the number of its last numbered frame at port A; 0 too where there was none
    uint16_t seq_b;      // the number of its last numbered frame at port B; 0 too where there was none
} seamless_node_entry;

// An alarm.
typedef struct seamless_alarm_entry {
    uint8_t mac[6];  // the node that it is of
    uint8_t kind;    // 1: the node is heard, but not at this port. 2: it was silent for 60000 ms and is forgotten
    uint8_t port;    // where kind is 1: SEAMLESS_A or SEAMLESS_B
    uint64_t at;     // when, in milliseconds
} seamless_alarm_entry;

// An address that a RedBox stands for.
typedef struct seamless_proxied_entry {
    uint8_t mac[6];  // the address
    uint64_t at;     // when it was last heard at the interlink, in milliseconds
} seamless_proxied_entry;

// Where a program stands that asks for alarms again and again. It begins zeroed, and is changed by seamless_alarms_since alone.
typedef struct seamless_cursor {
    uint64_t number;  // the number of the next alarm that it wants: they are numbered from 0, in the order in which they were raised
    uint64_t missed;  // how many of those that it wanted are not kept any more
    uint64_t count;   // how many it was told
} seamless_cursor;

// What was counted at a port since the node was opened, by calls at it. Each count stays at its greatest value.
typedef struct seamless_counters_entry {
    uint64_t received;     // frames that came in, those that were refused too; at port H those that the host sent
    uint64_t sent;         // frames that were taken out
    uint64_t wrong_lan;    // frames that came in with the other LAN's trailer: a sign that two cables are exchanged
    uint64_t unread;       // refused with SEAMLESS_UNREAD
    uint64_t untagged;     // refused with SEAMLESS_UNTAGGED
    uint64_t table_full;   // refused with SEAMLESS_TABLE_FULL
    uint64_t outbox_full;  // refused with SEAMLESS_OUTBOX_FULL
    uint64_t no_memory;    // refused with SEAMLESS_NO_MEMORY
    uint64_t own;          // frames that came back: answered SEAMLESS_OWN
} seamless_counters_entry;

// The structs are laid out as the library lays them out.
#ifdef __cplusplus
#define SEAMLESS_LAID_OUT(type, size) static_assert(sizeof(type) == (size), #type)
#else
#define SEAMLESS_LAID_OUT(type, size) _Static_assert(sizeof(type) == (size), #type)
#endif
SEAMLESS_LAID_OUT(seamless_node, sizeof(void *));
SEAMLESS_LAID_OUT(seamless_setup, 44);
SEAMLESS_LAID_OUT(seamless_node_entry, 28);
SEAMLESS_LAID_OUT(seamless_alarm_entry, 16);
SEAMLESS_LAID_OUT(seamless_proxied_entry, 16);
SEAMLESS_LAID_OUT(seamless_cursor, 24);
SEAMLESS_LAID_OUT(seamless_counters_entry, 72);

// The number of the interface of the library.
uint32_t seamless_abi(void);

// The version of the library, as SEAMLESS_VERSION is made.
uint32_t seamless_version(void);

// Makes a node, which the handle keeps then. Answers 0, or SEAMLESS_OPEN, SEAMLESS_ARGUMENT, SEAMLESS_NO_MEMORY or SEAMLESS_PROCESSOR: then
// the handle stays as it was.
uint32_t seamless_open(const seamless_setup *setup, seamless_node *node);

// Makes a node as seamless_open does, that goes on with the record of duplicates of a snapshot: after a restart it hands up no second copy
// of what was handed up before. Its time is the greatest at which a source of the snapshot was heard, and sources that were silent for
// 400 ms by then are left out. A snapshot of a node of the other width is read at the width of the setup: of more numbers the oldest are
// left out, and of fewer the others count as not seen. Answers what seamless_open does, or SEAMLESS_SNAPSHOT.
uint32_t seamless_resume(const seamless_setup *setup, const uint8_t *octets, size_t count, seamless_node *node);

// Frees the node of a handle, which is closed then. Answers 0, or SEAMLESS_CLOSED.
uint32_t seamless_close(seamless_node *node);

// Octets come in at port A, B or C. Answers the set of the outlets that got the frame, bit 1 << port for each (0: nobody gets it, as a
// second copy), or SEAMLESS_OWN, or a fault.
uint32_t seamless_receive(seamless_node *node, uint32_t port, const uint8_t *octets, size_t count, uint64_t now);

// The host sends a frame. Its source is the node's address; a RedBox for SANs takes it at port C instead. Answers 0 or a fault.
uint32_t seamless_send(seamless_node *node, const uint8_t *octets, size_t count, uint64_t now);

// Time passes. Call it at least twice a second: every 2000 ms the node sends a supervision frame, and it forgets what is old.
// Answers 0 or a fault.
uint32_t seamless_tick(seamless_node *node, uint64_t now);

// Takes the first frame that waits at a port, as octets for this port. Answers how many octets it has. 0: nothing waits, or the buffer is
// too short, or malloc answered NULL, and then it still waits and the buffer stays. A buffer of SEAMLESS_MAX_FRAME octets is never too
// short. 0 too of a closed handle, and of no such port.
size_t seamless_take(seamless_node *node, uint32_t port, uint8_t *buffer, size_t capacity);

// How many frames wait at a port. 0 of a closed handle, and of no such port.
size_t seamless_waiting(seamless_node *node, uint32_t port);

// The greatest time that the node was handed, in milliseconds. 0 of a closed handle.
uint64_t seamless_time(seamless_node *node);

// What was counted at a port. Answers 0, SEAMLESS_ARGUMENT where there is no such port, or SEAMLESS_CLOSED: then the entry stays.
uint32_t seamless_counters(seamless_node *node, uint32_t port, seamless_counters_entry *entry);

// What is told of another node that was heard less than 60000 ms ago, by its place in the order of first hearing. Answers 0,
// SEAMLESS_ARGUMENT where there are fewer, SEAMLESS_NO_MEMORY or SEAMLESS_CLOSED: then the entry stays.
uint32_t seamless_node_at(seamless_node *node, size_t index, seamless_node_entry *entry);

// What is told of the node with this address. Answers 0, SEAMLESS_ARGUMENT where it was not heard for 60000 ms, or SEAMLESS_CLOSED: then
// the entry stays. It allocates nothing.
uint32_t seamless_node_of(seamless_node *node, const uint8_t mac[6], seamless_node_entry *entry);

// What is told of all other nodes that were heard less than 60000 ms ago, in the order of first hearing, into an array of this capacity:
// as many as there is room for. Their count is how many they are, also where there is less room. Answers 0, SEAMLESS_NO_MEMORY or
// SEAMLESS_CLOSED: then array and count stay. It takes one walk, where seamless_node_at takes one for each index.
uint32_t seamless_nodes(seamless_node *node, seamless_node_entry *entries, size_t capacity, size_t *count);

// An alarm, the oldest first; at most SEAMLESS_MAX_ALARMS are kept. Answers 0, SEAMLESS_ARGUMENT where there are fewer, SEAMLESS_NO_MEMORY
// or SEAMLESS_CLOSED: then the entry stays.
uint32_t seamless_alarm_at(seamless_node *node, size_t index, seamless_alarm_entry *entry);

// All alarms that are kept, the oldest first, as seamless_nodes tells of nodes.
uint32_t seamless_alarms(seamless_node *node, seamless_alarm_entry *entries, size_t capacity, size_t *count);

// The alarms from the cursor's number on that are kept, the oldest first, into an array of this capacity: as many as there is room for.
// The cursor moves behind them, so that the next call goes on there: with a cursor that began zeroed, and calls until its count is less
// than the capacity, each alarm is told once. Its `missed` is how many alarms from its number on are not kept any more: more than
// SEAMLESS_MAX_ALARMS were raised since. (Where one call raises more than so many, the first of them are not counted.) Answers 0,
// SEAMLESS_NO_MEMORY or SEAMLESS_CLOSED: then array and cursor stay.
uint32_t seamless_alarms_since(seamless_node *node, seamless_cursor *cursor, seamless_alarm_entry *entries, size_t capacity);

// The addresses that the node stands for beside its own, which it heard at its interlink less than 60000 ms ago, in the order of first
// hearing, as seamless_nodes tells of nodes; at most SEAMLESS_MAX_PROXIED. There are none but at SEAMLESS_REDBOX_SAN.
uint32_t seamless_proxied(seamless_node *node, seamless_proxied_entry *entries, size_t capacity, size_t *count);

// One of these addresses, by its place. Answers 0, SEAMLESS_ARGUMENT where there are fewer, SEAMLESS_NO_MEMORY or SEAMLESS_CLOSED: then the
// entry stays. Each call copies the node, so that seamless_proxied is the one for all.
uint32_t seamless_proxied_at(seamless_node *node, size_t index, seamless_proxied_entry *entry);

// What the node has noted of each source, as octets, at the front of a buffer of this capacity, where there is room for all; else the
// buffer stays. The count is how many octets they are, either way, so that a call with capacity 0 asks for it; SEAMLESS_MAX_SNAPSHOT are
// never too few. Answers 0, SEAMLESS_NO_MEMORY or SEAMLESS_CLOSED: then buffer and count stay. The octets are the same on every machine.
uint32_t seamless_snapshot(seamless_node *node, uint8_t *octets, size_t capacity, size_t *count);

// Takes over what the snapshot of another node says, as a standby does: what both have noted of each source is joined, at the later of both
// times. Sources that were silent for 400 ms by then are left out. A snapshot of the other width is read as seamless_resume reads it.
// Answers 0, SEAMLESS_SNAPSHOT, SEAMLESS_TABLE_FULL where both together have over 1024 sources, SEAMLESS_APART, SEAMLESS_NO_MEMORY or
// SEAMLESS_CLOSED: then the node stays.
uint32_t seamless_absorb(seamless_node *node, const uint8_t *octets, size_t count);

#ifdef __cplusplus
}
#endif

#endif
