// The command line.
#include "endpoint.h"

#include <getopt.h>
#include <limits.h>
#include <net/if.h>
#include <stdarg.h>
#include <stdlib.h>
#include <string.h>

const char *const ROLES[] = {"danp", "danh", "san", "prp", "hsr", NULL};
static const char *const MODES[] = {"h", "x", NULL};
static const char *const WINDOWS[] = {"1024", "2048", NULL};
static const char *const LANS[] = {"a", "b", NULL};

static const char HELP[] =
    "seamless-endpoint --role ROLE --mac M --a IF --b IF [--c IF] --host TAP [OPTION..]\n"
    "\n"
    "A PRP or HSR node, or a RedBox, on interfaces of this machine. It makes the interface TAP, with the address M, through which the\n"
    "machine speaks as the node's host, and runs until SIGTERM or SIGINT, when it writes its figures to standard error.\n"
    "\n"
    "  --role ROLE      danp or danh, a node of a PRP network or of an HSR ring; or a RedBox between a ring and what is at --c:\n"
    "                   san, nodes that know no redundancy; prp, a LAN of a PRP network; hsr, a RedBox of another ring\n"
    "  --mac M          the address of the node, as 02:00:00:00:00:01\n"
    "  --a IF, --b IF   the interfaces that are its ports A and B, and --c IF the interlink of a RedBox: up, and with no address\n"
    "  --host TAP       the name of the interface that it makes\n"
    "  --mode MODE      h, or x: no copy goes back to the side from which one came\n"
    "  --window COUNT   how many numbers of each source it remembers: 1024 or 2048\n"
    "  --lan LAN        of a RedBox of role prp: the LAN at its interlink, a or b\n"
    "  --net NET        of a RedBox of role prp: the number of the PRP network, 1 to 6\n"
    "  --stats SECONDS  writes its figures to standard output so often, each time a line of JSON\n";

static _Noreturn void misused(const char *form, ...) __attribute__((format(printf, 1, 2)));

static _Noreturn void misused(const char *form, ...) {
    va_list words;
    fputs("seamless-endpoint: ", stderr);
    va_start(words, form);
    vfprintf(stderr, form, words);
    va_end(words);
    fputs(" (--help tells more)\n", stderr);
    exit(2);
}

// The place of a word in a list that NULL ends.
static uint8_t place(const char *option, const char *word, const char *const list[], const char *wanted) {
    for (uint8_t at = 0; list[at]; at++)
        if (!strcmp(word, list[at]))
            return at;
    misused("--%s takes %s, and not '%s'", option, wanted, word);
}

static unsigned number(const char *option, const char *word, unsigned least, unsigned greatest) {
    char *end;
    unsigned long value = strtoul(word, &end, 10);
    if (*word < '0' || *word > '9' || *end || value < least || value > greatest)
        misused("--%s takes a number from %u to %u, and not '%s'", option, least, greatest, word);
    return (unsigned)value;
}

static void read_mac(const char *word, uint8_t mac[6]) {
    int used = 0;
    if (strspn(word, "0123456789abcdefABCDEF:") != 17 || word[17] ||
        sscanf(word, "%2hhx:%2hhx:%2hhx:%2hhx:%2hhx:%2hhx%n", mac, mac + 1, mac + 2, mac + 3, mac + 4, mac + 5, &used) != 6 ||
        used != 17)
        misused("--mac takes an address as 02:00:00:00:00:01, and not '%s'", word);
    if (mac[0] & 1)
        misused("--mac takes the address of one node, and %s is a group's", word);
    if (!memcmp(mac, (uint8_t[6]){0}, 6))
        misused("--mac takes the address of a node, and not all zeros");
}

static const char *interface(const char *option, const char *word) {
    if (!*word || strlen(word) >= IFNAMSIZ || strpbrk(word, "/ %") || !strcmp(word, ".") || !strcmp(word, ".."))
        misused("--%s takes the name of an interface, and not '%s'", option, word);
    return word;
}

// What a role takes and what it does not, once all options are read.
static void judge(const options *read, const bool given[]) {
    static const char *const NEEDED[] = {"role", "mac", "host", "a", "b", NULL};
    static const char LETTERS[] = "rmHab";
    for (size_t at = 0; NEEDED[at]; at++)
        if (!given[(unsigned char)LETTERS[at]])
            misused("--%s is missing", NEEDED[at]);
    const uint8_t role = read->setup.role;
    const bool is_box = role >= SEAMLESS_REDBOX_SAN;
    if (is_box && !read->names[SEAMLESS_C])
        misused("--c is missing, the interlink of a RedBox");
    if (!is_box && read->names[SEAMLESS_C])
        misused("--c is the interlink of a RedBox, and %s has none", ROLES[role]);
    if (role != SEAMLESS_REDBOX_PRP && (given['l'] || given['n']))
        misused("--lan and --net are for the role prp alone");
    if (role == SEAMLESS_REDBOX_PRP && !(given['l'] && given['n']))
        misused("--lan and --net are missing, which the role prp takes");
    for (size_t one = 0; one < PORTS; one++)
        for (size_t other = one + 1; other < PORTS; other++)
            if (read->names[one] && read->names[other] && !strcmp(read->names[one], read->names[other]))
                misused("'%s' can be one port only", read->names[one]);
}

options read_options(int count, char **words) {
    static const struct option LONG[] = {
        {"role", required_argument, NULL, 'r'},   {"mac", required_argument, NULL, 'm'},   {"a", required_argument, NULL, 'a'},
        {"b", required_argument, NULL, 'b'},      {"c", required_argument, NULL, 'c'},     {"host", required_argument, NULL, 'H'},
        {"mode", required_argument, NULL, 'x'},   {"window", required_argument, NULL, 'w'}, {"lan", required_argument, NULL, 'l'},
        {"net", required_argument, NULL, 'n'},    {"stats", required_argument, NULL, 's'}, {"help", no_argument, NULL, 'h'},
        {NULL, 0, NULL, 0}};
    options read = {.setup = {.net = 1}};
    bool given[UCHAR_MAX + 1] = {false};
    int at, letter;
    // ':' at the head: no text of the C library's own.
    while ((letter = getopt_long(count, words, ":", LONG, &at)) != -1) {
        if (letter == '?' && optopt)
            misused("'-%c' is no option", optopt);
        if (letter == '?')
            misused("'%s' is no option", words[optind - 1]);
        if (letter == ':')
            misused("'%s' takes a word behind it", words[optind - 1]);
        const char *name = LONG[at].name;
        if (given[letter])
            misused("--%s is there twice", name);
        given[letter] = true;
        switch (letter) {
        case 'r': read.setup.role = place(name, optarg, ROLES, "danp, danh, san, prp or hsr"); break;
        case 'm': read_mac(optarg, read.setup.mac); break;
        case 'a': read.names[SEAMLESS_A] = interface(name, optarg); break;
        case 'b': read.names[SEAMLESS_B] = interface(name, optarg); break;
        case 'c': read.names[SEAMLESS_C] = interface(name, optarg); break;
        case 'H': read.names[SEAMLESS_H] = interface(name, optarg); break;
        case 'x': read.setup.mode = place(name, optarg, MODES, "h or x"); break;
        case 'w': read.setup.width = place(name, optarg, WINDOWS, "1024 or 2048"); break;
        case 'l': read.setup.lan = place(name, optarg, LANS, "a or b"); break;
        case 'n': read.setup.net = (uint8_t)number(name, optarg, 1, 6); break;
        case 's': read.stats = number(name, optarg, 1, 86400); break;
        default:
            fputs(HELP, stdout);
            exit(0);
        }
    }
    if (optind < count)
        misused("'%s' is no option", words[optind]);
    judge(&read, given);
    return read;
}
