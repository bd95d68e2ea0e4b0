// Ports: interfaces with packet sockets, and the TAP of the host.
#include "endpoint.h"

#include <arpa/inet.h>
#include <errno.h>
#include <fcntl.h>
#include <linux/ethtool.h>
#include <linux/if_packet.h>
#include <linux/if_tun.h>
#include <linux/sockios.h>
#include <net/ethernet.h>
#include <net/if.h>
#include <net/if_arp.h>
#include <string.h>
#include <sys/ioctl.h>
#include <unistd.h>

// A tag or a trailer has six octets, for which a frame of the host leaves room.
enum { HOST_MTU = ETH_DATA_LEN - 6, SOCKET_ROOM = 4 << 20, VLAN_TAG = 4, ADDRESSES = 12 };

static struct ifreq request_of(const char *name) {
    struct ifreq request = {.ifr_flags = 0};
    strncpy(request.ifr_name, name, IFNAMSIZ - 1);
    return request;
}

// Asks an interface by ethtool. Answers 0 where it knows no such thing.
static uint32_t ask(int file, const char *name, uint32_t command, uint32_t data) {
    struct ethtool_value value = {.cmd = command, .data = data};
    struct ifreq request = request_of(name);
    request.ifr_data = (void *)&value;
    return ioctl(file, SIOCETHTOOL, &request) ? 0 : value.data;
}

// Frames that the kernel joins to larger ones are none of the network, and a trailer would stand in the midst of them. An interface
// that can't join any has nothing to turn off.
static void turn_joining_off(int file, const char *name) {
    ask(file, name, ETHTOOL_SGRO, 0);
    const uint32_t flags = ask(file, name, ETHTOOL_GFLAGS, 0);
    if (flags & ETH_FLAG_LRO)
        ask(file, name, ETHTOOL_SFLAGS, flags & ~(uint32_t)ETH_FLAG_LRO);
}

// Sets what is told by a file of the kernel, of one digit. A container may let it be read alone; one that is not there is of a protocol
// that this kernel lacks.
static void set(const char *protocol, const char *name, const char *setting, char digit) {
    char path[128], found;
    snprintf(path, sizeof path, "/proc/sys/net/%s/conf/%s/%s", protocol, name, setting);
    int file = open(path, O_RDONLY | O_CLOEXEC);
    if (file < 0)
        return;
    const bool is_set = read(file, &found, 1) == 1 && found == digit;
    close(file);
    if (is_set)
        return;
    file = open(path, O_WRONLY | O_CLOEXEC);
    if (file < 0 || write(file, &digit, 1) != 1)
        fail_with_errno("%s can't be set to %c, so that the machine itself takes nothing at '%s'", path, digit, name);
    close(file);
}

// What comes in at a port is the node's. The machine would see each copy too, since a trailer is padding to it: hand up what is for all a
// second time, and answer for its addresses under that of the port.
static void keep_from_machine(const char *name) {
    set("ipv4", name, "arp_ignore", '8');
    set("ipv4", name, "rp_filter", '1');
    set("ipv6", name, "disable_ipv6", '1');
}

// Lets the socket take all frames that come in at the interface, and none that go out there.
static int bind_port(const port *port, int index) {
    const struct packet_mreq promiscuous = {.mr_ifindex = index, .mr_type = PACKET_MR_PROMISC};
    const struct sockaddr_ll address = {.sll_family = AF_PACKET, .sll_protocol = htons(ETH_P_ALL), .sll_ifindex = index};
    if (bind(port->file, (const struct sockaddr *)&address, sizeof address))
        return -1;
    return setsockopt(port->file, SOL_PACKET, PACKET_ADD_MEMBERSHIP, &promiscuous, sizeof promiscuous);
}

void open_port(port *port, const char *name) {
    const int one = 1, room = SOCKET_ROOM;
    struct ifreq request = request_of(name);
    // Of no protocol until it is bound, so that no frame of another interface comes in.
    *port = (struct port){.name = name, .file = socket(AF_PACKET, SOCK_RAW | SOCK_NONBLOCK | SOCK_CLOEXEC, 0)};
    if (port->file < 0 && (errno == EPERM || errno == EACCES))
        fail("a packet socket takes CAP_NET_RAW: run it as root, or as a service");
    if (port->file < 0)
        fail_with_errno("there is no packet socket");
    if (ioctl(port->file, SIOCGIFINDEX, &request))
        fail("there is no interface '%s'", name);
    port->index = request.ifr_ifindex;
    if (ioctl(port->file, SIOCGIFHWADDR, &request) || request.ifr_hwaddr.sa_family != ARPHRD_ETHER)
        fail("'%s' is no Ethernet interface", name);
    turn_joining_off(port->file, name);
    keep_from_machine(name);
    if (setsockopt(port->file, SOL_PACKET, PACKET_IGNORE_OUTGOING, &one, sizeof one) ||
        setsockopt(port->file, SOL_PACKET, PACKET_AUXDATA, &one, sizeof one) || bind_port(port, port->index))
        fail_with_errno("no frames can be had of '%s'", name);
    // Where more room is refused, that of the system stays.
    (void)setsockopt(port->file, SOL_SOCKET, SO_RCVBUFFORCE, &room, sizeof room);
    (void)setsockopt(port->file, SOL_SOCKET, SO_SNDBUFFORCE, &room, sizeof room);
}

void open_host(port *port, const char *name, const uint8_t mac[6]) {
    const int any = socket(AF_INET, SOCK_DGRAM | SOCK_CLOEXEC, 0);
    struct ifreq request = request_of(name);
    *port = (struct port){.name = name, .file = open("/dev/net/tun", O_RDWR | O_NONBLOCK | O_CLOEXEC)};
    if (port->file < 0 || any < 0)
        fail_with_errno("/dev/net/tun, which makes the interface of the host, can't be opened");
    request.ifr_flags = IFF_TAP | IFF_NO_PI;
    if (ioctl(port->file, TUNSETIFF, &request)) {
        if (errno == EPERM)
            fail("the interface '%s' takes CAP_NET_ADMIN: run it as root, or as a service", name);
        if (errno == EBUSY || errno == EINVAL)
            fail("there is an interface '%s' already", name);
        fail_with_errno("the interface '%s' can't be made", name);
    }
    request.ifr_hwaddr.sa_family = ARPHRD_ETHER;
    memcpy(request.ifr_hwaddr.sa_data, mac, 6);
    if (ioctl(any, SIOCSIFHWADDR, &request))
        fail_with_errno("'%s' does not take the address", name);
    request.ifr_mtu = HOST_MTU;
    if (ioctl(any, SIOCSIFMTU, &request))
        fail_with_errno("'%s' does not take an MTU of %d", name, HOST_MTU);
    request.ifr_flags = IFF_UP | IFF_BROADCAST | IFF_MULTICAST;
    if (ioctl(any, SIOCSIFFLAGS, &request))
        fail_with_errno("'%s' can't be brought up", name);
    close(any);
}

// The TAP answers no such question at its file.
static bool is_host(const port *port) {
    return !port->index;
}

bool is_running(const port *port) {
    struct ifreq request = request_of(port->name);
    return is_host(port) || (!ioctl(port->file, SIOCGIFFLAGS, &request) && request.ifr_flags & IFF_RUNNING);
}

void mind_port(port *port) {
    struct tpacket_stats stats;
    socklen_t size = sizeof stats;
    struct ifreq request = request_of(port->name);
    if (is_host(port))
        return;
    if (!getsockopt(port->file, SOL_PACKET, PACKET_STATISTICS, &stats, &size))
        port->missed += stats.tp_drops;
    if (ioctl(port->file, SIOCGIFINDEX, &request) || request.ifr_ifindex == port->index)
        return;
    if (!bind_port(port, request.ifr_ifindex))
        port->index = request.ifr_ifindex;
}

// Puts back the VLAN tag that the kernel took out of a frame and tells of beside it. There is room before the octets.
static void put_back(port *port, struct msghdr *message, struct iovec *frame) {
    for (struct cmsghdr *at = CMSG_FIRSTHDR(message); at; at = CMSG_NXTHDR(message, at)) {
        struct tpacket_auxdata about;
        if (at->cmsg_level != SOL_PACKET || at->cmsg_type != PACKET_AUXDATA)
            continue;
        memcpy(&about, CMSG_DATA(at), sizeof about);
        port->unfinished += !!(about.tp_status & TP_STATUS_CSUMNOTREADY);
        if (!(about.tp_status & TP_STATUS_VLAN_VALID) || frame->iov_len < ADDRESSES)
            continue;
        const uint16_t type = (about.tp_status & TP_STATUS_VLAN_TPID_VALID) ? about.tp_vlan_tpid : ETH_P_8021Q;
        const uint16_t tag[2] = {htons(type), htons(about.tp_vlan_tci)};
        uint8_t *octets = frame->iov_base;
        memmove(octets - VLAN_TAG, octets, ADDRESSES);
        memcpy(octets - VLAN_TAG + ADDRESSES, tag, VLAN_TAG);
        *frame = (struct iovec){octets - VLAN_TAG, frame->iov_len + VLAN_TAG};
    }
}

static bool read_host(port *port, batch *batch) {
    for (batch->count = 0; batch->count < BATCH; batch->count++) {
        uint8_t *octets = batch->octets[batch->count];
        const ssize_t got = read(port->file, octets, ROOM);
        if (got < 0)
            return errno == EAGAIN;
        batch->frames[batch->count] = (struct iovec){octets, (size_t)got};
    }
    return true;
}

bool read_batch(port *port, batch *batch) {
    if (is_host(port))
        return read_host(port, batch);
    for (size_t at = 0; at < BATCH; at++) {
        // Of a longer frame this is more than any port takes, so that the node refuses it.
        batch->frames[at] = (struct iovec){batch->octets[at] + VLAN_TAG, ROOM - VLAN_TAG};
        batch->messages[at].msg_hdr = (struct msghdr){
            .msg_iov = &batch->frames[at], .msg_iovlen = 1, .msg_control = &batch->control[at], .msg_controllen = CONTROL};
    }
    // A port that goes down answers ENETDOWN once, and has frames again when it is up.
    const int got = recvmmsg(port->file, batch->messages, BATCH, MSG_DONTWAIT, NULL);
    batch->count = got < 0 ? 0 : (size_t)got;
    for (size_t at = 0; at < batch->count; at++) {
        batch->frames[at].iov_len = batch->messages[at].msg_len;
        put_back(port, &batch->messages[at].msg_hdr, &batch->frames[at]);
    }
    return true;
}

static void write_host(port *port, const batch *batch) {
    for (size_t at = 0; at < batch->count; at++)
        port->unsent += write(port->file, batch->frames[at].iov_base, batch->frames[at].iov_len) < 0;
}

void write_batch(port *port, batch *batch) {
    if (is_host(port)) {
        write_host(port, batch);
        return;
    }
    for (size_t at = 0; at < batch->count; at++)
        batch->messages[at].msg_hdr = (struct msghdr){.msg_iov = &batch->frames[at], .msg_iovlen = 1};
    for (size_t done = 0; done < batch->count;) {
        const int sent = sendmmsg(port->file, batch->messages + done, (unsigned)(batch->count - done), MSG_DONTWAIT);
        port->unsent += sent < 0;
        done += sent < 0 ? 1 : (size_t)sent;
    }
}
