// Figures of a node, a line of JSON each time.
#include "endpoint.h"

#include <inttypes.h>
#include <stdlib.h>
#include <sys/resource.h>
#include <unistd.h>

// What is told of a port at which a node was never heard.
enum { NEVER = 2147483647 };

static const char *const PORT_NAMES[PORTS] = {"H", "A", "B", "C"};

static void write_mac(FILE *to, const char *name, const uint8_t mac[6]) {
    fprintf(to, "\"%s\":\"%02x:%02x:%02x:%02x:%02x:%02x\"", name, mac[0], mac[1], mac[2], mac[3], mac[4], mac[5]);
}

// A name may have octets that stand for something in JSON.
static void write_name(FILE *to, const char *name) {
    putc('"', to);
    for (; *name; name++) {
        const unsigned char octet = (unsigned char)*name;
        fprintf(to, octet < ' ' || octet == '"' || octet == '\\' ? "\\u%04x" : "%c", octet);
    }
    putc('"', to);
}

static void write_port(FILE *to, uint32_t at, seamless_node *node, const port *port) {
    seamless_counters_entry counts = {0};
    seamless_counters(node, at, &counts);
    fprintf(to, "{\"port\":\"%s\",\"interface\":", PORT_NAMES[at]);
    write_name(to, port->name);
    fprintf(to, ",\"running\":%s", is_running(port) ? "true" : "false");
    const struct {
        const char *name;
        uint64_t count;
    } all[] = {{"received", counts.received},       {"sent", counts.sent - port->unsent},  {"unsent", port->unsent},
               {"missed", port->missed},            {"unfinished", port->unfinished},      {"wrong_lan", counts.wrong_lan},
               {"unread", counts.unread},           {"untagged", counts.untagged},         {"table_full", counts.table_full},
               {"outbox_full", counts.outbox_full}, {"no_memory", counts.no_memory},       {"own", counts.own}};
    for (size_t each = 0; each < sizeof all / sizeof *all; each++)
        fprintf(to, ",\"%s\":%" PRIu64, all[each].name, all[each].count);
    putc('}', to);
}

static void write_age(FILE *to, const char *name, uint32_t age) {
    if (age == NEVER)
        fprintf(to, ",\"%s\":null", name);
    else
        fprintf(to, ",\"%s\":%" PRIu32, name, age);
}

static void write_nodes(FILE *to, seamless_node *node) {
    seamless_node_entry entry;
    for (size_t at = 0; !seamless_node_at(node, at, &entry); at++) {
        fputs(at ? ",{" : "{", to);
        write_mac(to, "mac", entry.mac);
        putc(',', to);
        if (entry.has_redbox)
            write_mac(to, "redbox", entry.redbox);
        else
            fputs("\"redbox\":null", to);
        write_age(to, "age_a", entry.age_a);
        write_age(to, "age_b", entry.age_b);
        fprintf(to, ",\"seq_a\":%u,\"seq_b\":%u}", entry.seq_a, entry.seq_b);
    }
}

static void write_alarms(FILE *to, seamless_node *node) {
    seamless_alarm_entry alarm;
    for (size_t at = 0; !seamless_alarm_at(node, at, &alarm); at++) {
        const bool is_ring_error = alarm.kind == 1;
        fprintf(to, "%s{\"alarm\":\"%s\",", at ? "," : "", is_ring_error ? "RingError" : "NodeDown");
        write_mac(to, "mac", alarm.mac);
        if (is_ring_error)
            fprintf(to, ",\"port\":\"%s\"", PORT_NAMES[alarm.port % PORTS]);
        fprintf(to, ",\"at\":%" PRIu64 "}", alarm.at);
    }
}

void write_stats(FILE *to, const options *options, seamless_node *node, const port ports[PORTS]) {
    struct rusage used;
    getrusage(RUSAGE_SELF, &used);
    fprintf(to, "{\"role\":\"%s\",", ROLES[options->setup.role]);
    write_mac(to, "mac", options->setup.mac);
    fprintf(to, ",\"now\":%" PRIu64 ",\"user_us\":%lld,\"system_us\":%lld,\"ports\":[", seamless_time(node),
            used.ru_utime.tv_sec * 1000000LL + used.ru_utime.tv_usec, used.ru_stime.tv_sec * 1000000LL + used.ru_stime.tv_usec);
    const char *between = "";
    for (uint32_t at = 0; at < PORTS; at++) {
        if (!ports[at].name)
            continue;
        fputs(between, to);
        write_port(to, at, node, &ports[at]);
        between = ",";
    }
    fputs("],\"nodes\":[", to);
    write_nodes(to, node);
    fputs("],\"alarms\":[", to);
    write_alarms(to, node);
    fputs("]}\n", to);
}

// The line that waits for its reader, from the first octet that is not written.
static char *line;
static size_t length, written;

void offer_stats(const options *options, seamless_node *node, const port ports[PORTS]) {
    flush_stats();
    if (line)
        return;
    FILE *to = open_memstream(&line, &length);
    if (!to)
        return;
    write_stats(to, options, node, ports);
    // Without memory there is no line this time.
    if (fclose(to)) {
        free(line);
        line = NULL;
    }
    flush_stats();
}

void flush_stats(void) {
    if (!line)
        return;
    const ssize_t more = write(STDOUT_FILENO, line + written, length - written);
    written += more < 0 ? 0 : (size_t)more;
    if (written < length)
        return;
    free(line);
    line = NULL;
    written = 0;
}
