#define _DEFAULT_SOURCE
#include "packets.h"

#include <arpa/inet.h>
#include <errno.h>
#include <net/if.h>
#include <net/route.h>
#include <netinet/in.h>
#include <netinet/ip.h>
#include <string.h>
#include <sys/ioctl.h>
#include <sys/socket.h>

static int sending = -1;

/* The loopback goes up, and whatever is sent leaves by it. */
static bool way_out(int asking) {
    char loopback[] = "lo";
    struct ifreq up = {.ifr_flags = IFF_UP};
    struct rtentry way = {.rt_flags = RTF_UP, .rt_dev = loopback};
    memcpy(up.ifr_name, loopback, sizeof loopback);
    way.rt_dst.sa_family = way.rt_genmask.sa_family = way.rt_gateway.sa_family = AF_INET; /* any address */
    return ioctl(asking, SIOCSIFFLAGS, &up) == 0 && ioctl(asking, SIOCADDRT, &way) == 0;
}

bool packets_ready(void) {
    int asking = socket(AF_INET, SOCK_DGRAM, 0);
    sending = socket(AF_INET, SOCK_RAW, IPPROTO_RAW); /* which is given packets with their header */
    return asking >= 0 && sending >= 0 && way_out(asking);
}

int packets_answer(const struct tcam_key *key) {
    struct {
        struct iphdr head;
        uint16_t ports[2];
        uint32_t rest[4];
    } packet = {.head = {.version = 4, .ihl = 5, .ttl = 1, .protocol = key->protocol}};
    struct sockaddr_in to = {.sin_family = AF_INET, .sin_addr.s_addr = htonl(key->destination)};
    packet.head.tot_len = htons(sizeof packet);
    packet.head.saddr = htonl(key->source);
    packet.head.daddr = htonl(key->destination);
    packet.ports[0] = htons(key->source_port);
    packet.ports[1] = htons(key->destination_port);
    ssize_t sent = sendto(sending, &packet, sizeof packet, 0, (struct sockaddr *)&to, sizeof to);
    if (sent == (ssize_t)sizeof packet) return SENT;
    return sent < 0 && errno == EPERM ? REFUSED : -1;
}
