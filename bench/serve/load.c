/* Loads a UDP server on the loopback and prints how many replies a second come back.
 *
 *     load ddt|dns|echo ADDRESS PORT SECONDS WINDOW ITEMS
 *
 * ddt    DDT Map-Requests for [I]10.0.0.1, with an I below ITEMS that is drawn by lot, and a counter as nonce
 * dns    queries for the address of dI.example, with such an I, and a counter as number
 * echo   64 bytes
 *
 * At most WINDOW requests are outstanding. Those that are outstanding count as lost where no reply comes for 100 ms. It
 * sends to 127.0.0.0/8 alone, and ends after at most 60 seconds. */
#define _GNU_SOURCE
#include <arpa/inet.h>
#include <netinet/in.h>
#include <poll.h>
#include <stdint.h>
#include <stdio.h>
#include <stdlib.h>
#include <string.h>
#include <sys/socket.h>
#include <time.h>

enum {
    BATCH = 32,
    MOST_BYTES = 2048,
    RESOLVER = 0x7f000035,   /* 127.0.0.53, where the requests come from */
    EID = 0x0a000001,        /* 10.0.0.1 */
    CONTROL_PORT = 4342,
    AFI_IPV4 = 1,
    AFI_LCAF = 16387,
    INNER_HEADERS = 28,      /* IPv4 and UDP */
};

enum mode { DDT, DNS, ECHO };

struct messages {
    uint8_t bytes[BATCH][MOST_BYTES];
    struct iovec parts[BATCH];
    struct mmsghdr headers[BATCH];
};

struct counts {
    uint64_t sent, received, lost, bytes;
};

static double now(void)
{
    struct timespec time;
    clock_gettime(CLOCK_MONOTONIC, &time);
    return (double)time.tv_sec + (double)time.tv_nsec / 1e9;
}

static void put16(uint8_t *at, uint32_t value)
{
    at[0] = (uint8_t)(value >> 8);
    at[1] = (uint8_t)value;
}

static void put32(uint8_t *at, uint32_t value)
{
    put16(at, value >> 16);
    put16(at + 2, value);
}

/* The sum of 16-bit words, for a checksum of IP. */
static uint32_t sum(const uint8_t *bytes, size_t count)
{
    uint32_t total = 0;
    for (size_t at = 0; at < count; at += 2)
        total += (uint32_t)bytes[at] << 8 | (at + 1 < count ? bytes[at + 1] : 0);
    return total;
}

static uint32_t checksum(uint32_t total)
{
    while (total >> 16)
        total = (total & 0xffff) + (total >> 16);
    uint32_t value = ~total & 0xffff;
    return value ? value : 0xffff;
}

/* Writes an EID with its AFI: an address, or one of an instance as an LCAF of type 2. */
static size_t put_eid(uint8_t *at, uint32_t instance)
{
    if (instance == 0) {
        put16(at, AFI_IPV4);
        put32(at + 2, EID);
        return 6;
    }
    put16(at, AFI_LCAF);
    put16(at + 2, 0);
    put16(at + 4, 2 << 8);
    put16(at + 6, 10);
    put32(at + 8, instance);
    put16(at + 12, AFI_IPV4);
    put32(at + 14, EID);
    return 18;
}

/* Writes a Map-Request for one IPv4 EID of an instance, with one ITR-RLOC. */
static size_t put_map_request(uint8_t *at, uint64_t nonce, uint32_t instance)
{
    at[0] = 0x10;
    at[3] = 1;
    put32(at + 4, (uint32_t)(nonce >> 32));
    put32(at + 8, (uint32_t)nonce);
    put16(at + 14, AFI_IPV4);
    put32(at + 16, RESOLVER);
    at[21] = 32;
    return 22 + put_eid(at + 22, instance);
}

/* Writes an encapsulated DDT Map-Request: the ECM header with the bit D, IPv4, UDP, the Map-Request. */
static size_t put_ddt_request(uint8_t *at, uint64_t nonce, uint32_t instance)
{
    uint8_t *ip = at + 4, *udp = ip + 20;
    memset(at, 0, 128);
    at[0] = 0x84;
    size_t length = INNER_HEADERS + put_map_request(udp + 8, nonce, instance);
    ip[0] = 0x45;
    put16(ip + 2, (uint32_t)length);
    ip[8] = 64;
    ip[9] = IPPROTO_UDP;
    put32(ip + 12, RESOLVER);
    put32(ip + 16, EID);
    put16(ip + 10, checksum(sum(ip, 20)));
    put16(udp, CONTROL_PORT);
    put16(udp + 2, CONTROL_PORT);
    put16(udp + 4, (uint32_t)length - 20);
    put16(udp + 6, checksum(sum(ip + 12, 8) + IPPROTO_UDP + ((uint32_t)length - 20) + sum(udp, length - 20)));
    return 4 + length;
}

static size_t put_dns_query(uint8_t *at, uint64_t number, uint32_t item)
{
    char name[16];
    int length = snprintf(name, sizeof name, "d%u", item);
    memset(at, 0, 12);
    put16(at, (uint32_t)number);
    at[5] = 1;
    uint8_t *rest = at + 12;
    *rest++ = (uint8_t)length;
    memcpy(rest, name, (size_t)length);
    rest += length;
    memcpy(rest, "\7example", 9);
    put16(rest + 9, 1);
    put16(rest + 11, 1);
    return (size_t)(rest + 13 - at);
}

static size_t put_request(enum mode mode, uint8_t *at, uint64_t number, uint32_t item)
{
    switch (mode) {
    case DDT:
        return put_ddt_request(at, number, item);
    case DNS:
        return put_dns_query(at, number, item);
    default:
        return 64;
    }
}

static void lay_out(struct messages *messages)
{
    memset(messages, 0, sizeof *messages);
    for (int place = 0; place < BATCH; place++) {
        messages->parts[place] = (struct iovec){messages->bytes[place], MOST_BYTES};
        messages->headers[place].msg_hdr.msg_iov = &messages->parts[place];
        messages->headers[place].msg_hdr.msg_iovlen = 1;
    }
}

/* Sends so many requests, for items drawn by lot. */
static void send_requests(int socket, enum mode mode, int count, uint32_t items, struct counts *counts)
{
    static struct messages requests;
    static uint32_t lot = 1;
    lay_out(&requests);
    for (int place = 0; place < count; place++) {
        lot = lot * 1664525u + 1013904223u;
        uint64_t number = counts->sent + (uint64_t)place + 1;
        requests.parts[place].iov_len = put_request(mode, requests.bytes[place], number, (lot >> 8) % items);
    }
    int sent = sendmmsg(socket, requests.headers, (unsigned)count, 0);
    if (sent > 0)
        counts->sent += (uint64_t)sent;
}

/* Takes the replies that are there. */
static void take_replies(int socket, struct counts *counts)
{
    static struct messages replies;
    lay_out(&replies);
    int taken = BATCH;
    while (taken == BATCH) {
        taken = recvmmsg(socket, replies.headers, BATCH, MSG_DONTWAIT, 0);
        for (int place = 0; place < taken; place++)
            counts->bytes += replies.headers[place].msg_len;
        counts->received += taken > 0 ? (uint64_t)taken : 0;
    }
}

static void load(int socket, enum mode mode, double end, uint64_t window, uint32_t items, struct counts *counts)
{
    struct pollfd polled = {socket, POLLIN, 0};
    while (now() < end) {
        uint64_t room = window - (counts->sent - counts->received - counts->lost);
        if (room > 0)
            send_requests(socket, mode, room < BATCH ? (int)room : BATCH, items, counts);
        if (poll(&polled, 1, 100) == 0)
            counts->lost = counts->sent - counts->received;
        else
            take_replies(socket, counts);
    }
}

static int connected(const char *address, int port)
{
    struct sockaddr_in to = {.sin_family = AF_INET, .sin_port = htons((uint16_t)port)};
    struct sockaddr_in from = {.sin_family = AF_INET, .sin_addr.s_addr = htonl(RESOLVER)};
    int room = 4 << 20, made = socket(AF_INET, SOCK_DGRAM, 0);
    if (inet_pton(AF_INET, address, &to.sin_addr) != 1 || ntohl(to.sin_addr.s_addr) >> 24 != 127)
        return -1;
    setsockopt(made, SOL_SOCKET, SO_RCVBUF, &room, sizeof room);
    setsockopt(made, SOL_SOCKET, SO_SNDBUF, &room, sizeof room);
    if (bind(made, (void *)&from, sizeof from) || connect(made, (void *)&to, sizeof to))
        return -1;
    return made;
}

int main(int count, char **words)
{
    if (count != 7) {
        fprintf(stderr, "usage: load ddt|dns|echo ADDRESS PORT SECONDS WINDOW ITEMS\n");
        return 2;
    }
    enum mode mode = strcmp(words[1], "ddt") == 0 ? DDT : strcmp(words[1], "dns") == 0 ? DNS : ECHO;
    double seconds = atof(words[4]), begin = now();
    int socket = connected(words[2], atoi(words[3]));
    if (socket < 0 || !(seconds <= 60)) {
        fprintf(stderr, "load: no loopback address, no socket, or more than 60 seconds\n");
        return 1;
    }
    struct counts counts = {0};
    load(socket, mode, begin + seconds, strtoull(words[5], NULL, 10), (uint32_t)strtoul(words[6], NULL, 10), &counts);
    double took = now() - begin;
    printf("%.0f replies/s, %lu sent, %lu replies, %lu lost, %.1f bytes a reply\n", (double)counts.received / took,
           counts.sent, counts.received, counts.lost,
           counts.received ? (double)counts.bytes / (double)counts.received : 0.0);
    return 0;
}
