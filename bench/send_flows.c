// send_flows PORT RATE COUNT RECORDS: sends IPFIX messages of so many records of three fields to a port of 127.0.0.1 over
// UDP, so many a second, in bursts of a millisecond, with a template in the first and in every 10,000th, and prints the
// seconds that it took. Sequence numbers are right. RATE times 5 is the most that COUNT may be.
#define _GNU_SOURCE
#include <arpa/inet.h>
#include <stdint.h>
#include <stdio.h>
#include <stdlib.h>
#include <string.h>
#include <sys/socket.h>
#include <time.h>

enum { BURST = 256, LONGEST = 1472, AGAIN = 10000 };

static const uint8_t TEMPLATE[20] = {0, 2, 0, 20, 1, 0, 0, 3, 0, 8, 0, 4, 0, 12, 0, 4, 0, 1, 0, 8};

static double now(void) {
    struct timespec t;
    clock_gettime(CLOCK_MONOTONIC, &t);
    return t.tv_sec + t.tv_nsec / 1e9;
}

static uint8_t *put(uint8_t *at, uint64_t value, int octets) {
    for (int i = octets - 1; i >= 0; i--, value >>= 8) at[i] = (uint8_t)value;
    return at + octets;
}

static uint64_t draw(void) {
    static uint64_t state = 88172645463325252ull;
    state ^= state << 13, state ^= state >> 7, state ^= state << 17;
    return state;
}

// Writes message number `number`, and answers its length.
static size_t write_message(uint8_t *to, long number, int records) {
    uint8_t *at = put(put(put(put(to, 10, 2), 0, 2), 1700000000 + number / 100000, 4), (uint64_t)number * records, 4);
    at = put(at, 1, 4);
    if (number % AGAIN == 0) memcpy(at, TEMPLATE, sizeof TEMPLATE), at += sizeof TEMPLATE;
    at = put(put(at, 256, 2), 4 + 16 * records, 2);
    for (int i = 0; i < records; i++) at = put(put(at, draw(), 8), draw() >> (24 + (draw() & 31)), 8);
    put(to + 2, at - to, 2);
    return at - to;
}

int main(int count, char **words) {
    if (count != 5) return 1;
    double rate = atof(words[2]);
    long wanted = atol(words[3]);
    int records = atoi(words[4]);
    if (wanted > 5 * rate || records < 1 || 40 + 16 * records > LONGEST) return 1;
    struct sockaddr_in to = {.sin_family = AF_INET, .sin_port = htons(atoi(words[1]))};
    to.sin_addr.s_addr = htonl(INADDR_LOOPBACK);
    int from = socket(AF_INET, SOCK_DGRAM, 0);
    if (from < 0 || connect(from, (struct sockaddr *)&to, sizeof to)) return 1;
    static uint8_t messages[BURST][LONGEST];
    static struct iovec pieces[BURST];
    static struct mmsghdr burst[BURST];
    for (int i = 0; i < BURST; i++) burst[i].msg_hdr = (struct msghdr){.msg_iov = &pieces[i], .msg_iovlen = 1};
    long sent = 0;
    double begin = now();
    while (sent < wanted) {
        long due = (long)((now() - begin) * rate) - sent;
        if (due > wanted - sent) due = wanted - sent;
        for (; due > 0; due -= BURST) {
            int size = due < BURST ? due : BURST;
            for (int i = 0; i < size; i++) pieces[i] = (struct iovec){messages[i], write_message(messages[i], sent + i, records)};
            for (int done = 0; done < size;) {
                int more = sendmmsg(from, burst + done, size - done, 0);
                if (more < 0) return 1;
                done += more;
            }
            sent += size;
        }
        nanosleep(&(struct timespec){0, 500000}, NULL);
    }
    printf("%.3f\n", now() - begin);
    return 0;
}
