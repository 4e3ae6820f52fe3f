// send_datagrams PORT RATE SECONDS OCTETS: sends datagrams of so many octets to a port of 127.0.0.1, so many a second, in
// bursts of a millisecond, and prints how many were sent.
#define _GNU_SOURCE
#include <arpa/inet.h>
#include <stdio.h>
#include <stdlib.h>
#include <string.h>
#include <sys/socket.h>
#include <time.h>

enum { BURST = 512, LONGEST = 65507 };

static double now(void) {
    struct timespec t;
    clock_gettime(CLOCK_MONOTONIC, &t);
    return t.tv_sec + t.tv_nsec / 1e9;
}

int main(int count, char **words) {
    if (count != 5) return 1;
    double rate = atof(words[2]), seconds = atof(words[3]);
    size_t octets = strtoul(words[4], NULL, 10);
    if (seconds > 5 || octets > LONGEST) return 1;
    static char datagram[LONGEST];
    struct sockaddr_in to = {.sin_family = AF_INET, .sin_port = htons(atoi(words[1]))};
    to.sin_addr.s_addr = htonl(INADDR_LOOPBACK);
    int from = socket(AF_INET, SOCK_DGRAM, 0);
    if (from < 0 || connect(from, (struct sockaddr *)&to, sizeof to)) return 1;
    struct iovec piece = {datagram, octets};
    static struct mmsghdr burst[BURST];
    for (int i = 0; i < BURST; i++) burst[i].msg_hdr = (struct msghdr){.msg_iov = &piece, .msg_iovlen = 1};
    long sent = 0;
    double begin = now();
    for (double spent = 0; spent < seconds; spent = now() - begin) {
        for (long due = (long)(spent * rate) - sent; due > 0;) {
            int done = sendmmsg(from, burst, due < BURST ? due : BURST, 0);
            if (done < 0) return 1;
            sent += done;
            due -= done;
        }
        nanosleep(&(struct timespec){0, 500000}, NULL);
    }
    printf("%ld\n", sent);
    return 0;
}
