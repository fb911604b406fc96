/* Loads a resolver on the loopback and judges each answer.
 *
 *     lookups lisp RESOLVER ITEMS SECONDS WINDOW ITR ETR [once|again]
 *     lookups dns RESOLVER ITEMS SECONDS WINDOW ITR [once]
 *
 * lisp   an ITR at the address ITR asks a LISP Map-Resolver at UDP port 4342 for random identifiers of ITEMS. A line of
 *        ITEMS has the instance, the first IPv4 address and the length of a block, `registered`, `not-registered` or
 *        `hole`, and the length of the outcome's prefix. A negative Map-Reply has to have that prefix and its TTL. For a
 *        registered site the request has to come to the address ETR byte for byte. One request of ten is for an
 *        instance that no item has, where WINDOW ends in a plus sign: all of it has to be a hole.
 * dns    queries at port 53 for the addresses of random names of ITEMS, a name a line
 * once   each item is asked for once, in order, and not at random
 * again  a request without an answer is sent again each second, as it was, ten times at most
 *
 * At most WINDOW requests are outstanding. One without an answer for 8 seconds is lost; with `again`, one without an
 * answer a second after it was sent for the last time. Each minute, and at the end, a line says how many were asked,
 * answered, sent again, lost and answered wrongly, and what the slowest answer took. The status is 1 if any was wrong,
 * if none was right, or, with `again`, if one is lost. */
#define _GNU_SOURCE
#include <arpa/inet.h>
#include <netinet/in.h>
#include <poll.h>
#include <signal.h>
#include <stdbool.h>
#include <stdint.h>
#include <stdio.h>
#include <stdlib.h>
#include <string.h>
#include <sys/socket.h>
#include <time.h>

enum {
    PLACES = 1 << 16,
    MOST_BYTES = 2048,
    MOST_ITEMS = 1 << 20,
    CONTROL_PORT = 4342,
    DNS_PORT = 53,
    AFI_IPV4 = 1,
    AFI_LCAF = 16387,
    MAP_REPLY = 2,
    FIRST_FREE_INSTANCE = 1 << 20,
    MOST_SENT_AGAIN = 10,
};

/* Seconds: for an answer, for an answer with `again`, and between two looks at what waits. */
static const double PATIENCE = 8, PATIENCE_AGAIN = 1, LOOK = 0.25;

/* Set by SIGINT, which ends a run as its time does. */
static volatile sig_atomic_t is_over;

static void end(int signal)
{
    (void)signal;
    is_over = 1;
}

enum outcome { REGISTERED, NOT_REGISTERED, HOLE };

struct item {
    uint32_t instance, address;
    int length, outcome_length;
    enum outcome outcome;
    char name[64];
};

/* A request that is outstanding. */
struct asked {
    uint64_t nonce;
    uint32_t instance, address;
    const struct item *item;
    double since, sent;
    int again;
    bool waits;
};

struct counts {
    uint64_t asked, answered[3], again, lost, wrong, strays;
    double slowest;
};

struct run {
    bool is_dns, is_once, is_again, has_free;
    int itr, etr, port;
    uint32_t itr_address;
    struct item *items;
    size_t count, next, window, waiting;
    uint64_t nonce;
    double looked;
    struct asked table[PLACES];
    struct counts counts;
};

static double now(void)
{
    struct timespec time;
    clock_gettime(CLOCK_MONOTONIC, &time);
    return (double)time.tv_sec + (double)time.tv_nsec / 1e9;
}

static void put16(uint8_t *at, uint32_t value)
{
    at[0] = (uint8_t)(value >> 8);
    at[1] = (uint8_t)value;
}

static void put32(uint8_t *at, uint32_t value)
{
    put16(at, value >> 16);
    put16(at + 2, value);
}

static uint32_t get16(const uint8_t *at)
{
    return (uint32_t)at[0] << 8 | at[1];
}

static uint32_t get32(const uint8_t *at)
{
    return get16(at) << 16 | get16(at + 2);
}

static uint64_t get64(const uint8_t *at)
{
    return (uint64_t)get32(at) << 32 | get32(at + 4);
}

static uint32_t sum(const uint8_t *bytes, size_t count)
{
    uint32_t total = 0;
    for (size_t at = 0; at < count; at += 2)
        total += (uint32_t)bytes[at] << 8 | (at + 1 < count ? bytes[at + 1] : 0);
    return total;
}

static uint32_t checksum(uint32_t total)
{
    while (total >> 16)
        total = (total & 0xffff) + (total >> 16);
    uint32_t value = ~total & 0xffff;
    return value ? value : 0xffff;
}

static uint32_t mask_of(int length)
{
    return length ? ~0u << (32 - length) : 0;
}

/* Writes an address with its AFI, outside instance 0 as an LCAF of type 2. */
static size_t put_eid(uint8_t *at, uint32_t instance, uint32_t address)
{
    size_t before = 0;
    if (instance) {
        put16(at, AFI_LCAF);
        put16(at + 2, 0);
        put16(at + 4, 2 << 8);
        put16(at + 6, 10);
        put32(at + 8, instance);
        before = 12;
    }
    put16(at + before, AFI_IPV4);
    put32(at + before + 2, address);
    return before + 6;
}

/* Writes an ITR's Encapsulated Map-Request (RFC 9301, sections 5.2 and 5.8), its bit D clear. */
static size_t put_request(uint8_t *at, const struct run *run, const struct asked *asked)
{
    uint8_t *ip = at + 4, *udp = ip + 20, *request = udp + 8;
    memset(at, 0, 128);
    at[0] = 0x80;
    request[0] = 0x10;
    request[3] = 1;
    put32(request + 4, (uint32_t)(asked->nonce >> 32));
    put32(request + 8, (uint32_t)asked->nonce);
    put16(request + 14, AFI_IPV4);
    put32(request + 16, run->itr_address);
    request[21] = 32;
    size_t length = 8 + 22 + put_eid(request + 22, asked->instance, asked->address);
    ip[0] = 0x45;
    put16(ip + 2, (uint32_t)length + 20);
    ip[8] = 64;
    ip[9] = IPPROTO_UDP;
    put32(ip + 12, run->itr_address);
    put32(ip + 16, asked->address);
    put16(ip + 10, checksum(sum(ip, 20)));
    put16(udp, (uint32_t)run->port);
    put16(udp + 2, CONTROL_PORT);
    put16(udp + 4, (uint32_t)length);
    put16(udp + 6, checksum(sum(ip + 12, 8) + IPPROTO_UDP + (uint32_t)length + sum(udp, length)));
    return 4 + 20 + length;
}

/* Writes a query for the IPv4 address of a name; its number is the lower half of the nonce's. */
static size_t put_query(uint8_t *at, const struct asked *asked)
{
    const char *label = asked->item->name;
    uint8_t *rest = at + 12;
    memset(at, 0, 12);
    put16(at, (uint32_t)asked->nonce);
    at[2] = 1;
    at[5] = 1;
    while (*label) {
        size_t length = strcspn(label, ".");
        *rest++ = (uint8_t)length;
        memcpy(rest, label, length);
        rest += length;
        label += length + (label[length] == '.');
    }
    *rest = 0;
    put16(rest + 1, 1);
    put16(rest + 3, 1);
    return (size_t)(rest + 5 - at);
}

static uint32_t lot(void)
{
    static uint64_t state = 88172645463325252u;
    state ^= state << 13;
    state ^= state >> 7;
    state ^= state << 17;
    return (uint32_t)(state >> 16);
}

/* The next identifier, or none where each was asked for. */
static bool choose(struct run *run, struct asked *asked)
{
    if (run->is_once && run->next == run->count)
        return false;
    asked->item = &run->items[run->is_once ? run->next++ : lot() % run->count];
    asked->instance = asked->item->instance;
    asked->address = asked->item->address | (lot() & ~mask_of(asked->item->length));
    if (run->has_free && lot() % 10 == 0) {
        asked->item = NULL;
        asked->instance = FIRST_FREE_INSTANCE + lot() % 100000000;
    }
    return true;
}

static void send_request(struct run *run, struct asked *asked)
{
    uint8_t bytes[MOST_BYTES];
    size_t length = run->is_dns ? put_query(bytes, asked) : put_request(bytes, run, asked);
    (void)!send(run->itr, bytes, length, 0);
    asked->sent = now();
}

static bool ask(struct run *run)
{
    // Half of the places are free at least.
    while (run->table[run->nonce % PLACES].waits)
        run->nonce++;
    struct asked *asked = &run->table[run->nonce % PLACES];
    if (!choose(run, asked))
        return false;
    asked->nonce = run->nonce++;
    asked->again = 0;
    asked->waits = true;
    run->waiting++;
    run->counts.asked++;
    send_request(run, asked);
    asked->since = asked->sent;
    return true;
}

/* The outstanding request of a nonce, which is answered so. */
static struct asked *answered(struct run *run, uint64_t nonce)
{
    struct asked *asked = &run->table[nonce % PLACES];
    if (!asked->waits || (run->is_dns ? (uint16_t)asked->nonce != nonce : asked->nonce != nonce)) {
        run->counts.strays++;
        return NULL;
    }
    double took = now() - asked->since;
    if (took > run->counts.slowest)
        run->counts.slowest = took;
    asked->waits = false;
    run->waiting--;
    return asked;
}

/* Whether a negative Map-Reply says what is demanded: the outcome's prefix, and 15 minutes, or 1. */
static bool is_right(const struct asked *asked, const uint8_t *bytes, ssize_t length)
{
    enum outcome outcome = asked->item ? asked->item->outcome : HOLE;
    int mask = asked->item ? asked->item->outcome_length : 0;
    uint8_t eid[18];
    size_t size = put_eid(eid, asked->instance, asked->address & mask_of(mask));
    return outcome != REGISTERED && length == (ssize_t)(22 + size) && bytes[0] >> 4 == MAP_REPLY && bytes[3] == 1
        && get32(bytes + 12) == (outcome == HOLE ? 15 : 1) && bytes[16] == 0 && bytes[17] == mask
        && memcmp(bytes + 22, eid, size) == 0;
}

static void take_reply(struct run *run, const uint8_t *bytes, ssize_t length)
{
    struct asked *asked = NULL;
    if (length >= 12)
        asked = answered(run, run->is_dns ? get16(bytes) : get64(bytes + 4));
    if (!asked)
        return;
    if (run->is_dns ? (bytes[3] & 15) == 0 || (bytes[3] & 15) == 3 : is_right(asked, bytes, length))
        run->counts.answered[asked->item ? asked->item->outcome : HOLE]++;
    else
        run->counts.wrong++;
}

/* What comes to an ETR: the ITR's request as it was sent, and the resolver's own, which has another nonce. */
static void take_request(struct run *run, const uint8_t *bytes, ssize_t length)
{
    uint8_t sent[MOST_BYTES];
    struct asked *asked;
    if (length < 44 || get32(bytes + 4 + 12) != run->itr_address || !(asked = answered(run, get64(bytes + 36))))
        return;
    bool is_owed = asked->item && asked->item->outcome == REGISTERED;
    if (is_owed && (size_t)length == put_request(sent, run, asked) && memcmp(sent, bytes, (size_t)length) == 0)
        run->counts.answered[REGISTERED]++;
    else
        run->counts.wrong++;
}

static void take_all(struct run *run, int socket, void (*take)(struct run *, const uint8_t *, ssize_t))
{
    uint8_t bytes[MOST_BYTES];
    ssize_t length;
    while ((length = recv(socket, bytes, sizeof bytes, MSG_DONTWAIT)) >= 0)
        take(run, bytes, length);
}

/* Sends again, or gives up, what has waited for too long. */
static void lose(struct run *run)
{
    double time = now();
    if (time - run->looked < LOOK)
        return;
    run->looked = time;
    for (size_t place = 0; place < PLACES; place++) {
        struct asked *asked = &run->table[place];
        if (!asked->waits || time - asked->sent < (run->is_again ? PATIENCE_AGAIN : PATIENCE))
            continue;
        if (run->is_again && asked->again < MOST_SENT_AGAIN) {
            asked->again++;
            run->counts.again++;
            send_request(run, asked);
        } else {
            asked->waits = false;
            run->waiting--;
            run->counts.lost++;
        }
    }
}

static uint64_t all_answered(const struct counts *counts)
{
    return counts->answered[REGISTERED] + counts->answered[NOT_REGISTERED] + counts->answered[HOLE];
}

static void report(const struct run *run, double took)
{
    const struct counts *counts = &run->counts;
    printf("%.0f s, %.0f answers/s: asked %lu, registered %lu, not registered %lu, holes %lu, again %lu, lost %lu, "
           "wrong %lu, strays %lu, slowest %.1f s\n", took, (double)all_answered(counts) / took, counts->asked,
           counts->answered[REGISTERED], counts->answered[NOT_REGISTERED], counts->answered[HOLE], counts->again,
           counts->lost, counts->wrong, counts->strays, counts->slowest);
    fflush(stdout);
}

static void load(struct run *run, double seconds)
{
    struct pollfd polled[2] = {{run->itr, POLLIN, 0}, {run->etr, POLLIN, 0}};
    double begin = now(), told = begin;
    bool has_more = true;
    while (!is_over && now() - begin < seconds && (has_more || run->waiting)) {
        while (has_more && run->waiting < run->window)
            has_more = ask(run);
        poll(polled, run->etr < 0 ? 1 : 2, 100);
        take_all(run, run->itr, take_reply);
        if (run->etr >= 0)
            take_all(run, run->etr, take_request);
        lose(run);
        if (now() - told >= 60) {
            report(run, now() - begin);
            told = now();
        }
    }
    report(run, now() - begin);
}

/* A socket at an address and a port, connected to another where one is given. */
static int socket_at(const char *address, int port, const char *peer, int peer_port)
{
    struct sockaddr_in at = {.sin_family = AF_INET, .sin_port = htons((uint16_t)port)};
    struct sockaddr_in to = {.sin_family = AF_INET, .sin_port = htons((uint16_t)peer_port)};
    int room = 4 << 20, made = socket(AF_INET, SOCK_DGRAM, 0);
    setsockopt(made, SOL_SOCKET, SO_RCVBUFFORCE, &room, sizeof room);
    if (inet_pton(AF_INET, address, &at.sin_addr) != 1 || ntohl(at.sin_addr.s_addr) >> 24 != 127
        || bind(made, (void *)&at, sizeof at))
        return -1;
    if (peer && (inet_pton(AF_INET, peer, &to.sin_addr) != 1 || connect(made, (void *)&to, sizeof to)))
        return -1;
    return made;
}

static bool read_item(struct run *run, const char *line, struct item *item)
{
    char address[32], outcome[32];
    struct in_addr first;
    if (run->is_dns)
        return sscanf(line, "%63s", item->name) == 1;
    if (sscanf(line, "%u %31s %d %31s %d", &item->instance, address, &item->length, outcome, &item->outcome_length) != 5
        || inet_pton(AF_INET, address, &first) != 1)
        return false;
    item->address = ntohl(first.s_addr);
    item->outcome = strcmp(outcome, "registered") == 0 ? REGISTERED
        : strcmp(outcome, "not-registered") == 0 ? NOT_REGISTERED : HOLE;
    return true;
}

static bool read_items(struct run *run, const char *path)
{
    char line[256];
    FILE *file = fopen(path, "r");
    run->items = calloc(MOST_ITEMS, sizeof *run->items);
    while (file && run->count < MOST_ITEMS && fgets(line, sizeof line, file))
        if (!read_item(run, line, &run->items[run->count++]))
            return false;
    return run->count > 0;
}

int main(int count, char **words)
{
    static struct run run = {.etr = -1, .nonce = 1};
    struct sockaddr_in mine;
    socklen_t size = sizeof mine;
    run.is_dns = count > 1 && strcmp(words[1], "dns") == 0;
    int most = run.is_dns ? 8 : 9;
    if (count != most && count != most - 1) {
        fprintf(stderr, "usage: lookups lisp|dns RESOLVER ITEMS SECONDS WINDOW ITR [ETR] [once|again]\n");
        return 2;
    }
    run.is_again = count == most && strcmp(words[most - 1], "again") == 0;
    run.is_once = count == most && !run.is_again;
    run.window = strtoull(words[5], NULL, 10);
    run.has_free = strchr(words[5], '+') != NULL;
    run.itr = socket_at(words[6], 0, words[2], run.is_dns ? DNS_PORT : CONTROL_PORT);
    if (!run.is_dns)
        run.etr = socket_at(words[7], CONTROL_PORT, NULL, 0);
    if (run.itr < 0 || (!run.is_dns && run.etr < 0) || !read_items(&run, words[3]) || run.window > PLACES / 2) {
        fprintf(stderr, "lookups: no loopback address, no socket, no items, or too many outstanding\n");
        return 1;
    }
    signal(SIGINT, end);
    getsockname(run.itr, (void *)&mine, &size);
    run.port = ntohs(mine.sin_port);
    run.itr_address = ntohl(mine.sin_addr.s_addr);
    load(&run, atof(words[4]));
    return run.counts.wrong || !all_answered(&run.counts) || (run.is_again && run.counts.lost);
}
