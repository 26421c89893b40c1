/* Sends datagrams to a port of 127.0.0.1: flood PORT SIZE RATE SECONDS FROM PORTS HEAD
 *
 * RATE datagrams a second, or as many as go where it is 0, of SIZE bytes that begin with HEAD (hexadecimal) and go on with zeros, for SECONDS, at most 30.
 * They come from PORTS ports, or from the one port FROM where that isn't 0. It says how many it sent. Used by flood.py. */
#define _GNU_SOURCE
#include <arpa/inet.h>
#include <stdio.h>
#include <stdlib.h>
#include <string.h>
#include <sys/socket.h>
#include <time.h>

#define MOST_PORTS 256
#define AT_ONCE 32
#define MOST_SECONDS 30
#define MOST_BYTES 65507

static char bytes[MOST_BYTES];

static double now(void) {
    struct timespec time;
    clock_gettime(CLOCK_MONOTONIC, &time);
    return (double)time.tv_sec + 1e-9 * (double)time.tv_nsec;
}

static struct sockaddr_in at(int port) {
    struct sockaddr_in address = {.sin_family = AF_INET, .sin_port = htons((unsigned short)port)};
    address.sin_addr.s_addr = htonl(INADDR_LOOPBACK);
    return address;
}

static int opened(int from) {
    struct sockaddr_in address = at(from);
    int fd = socket(AF_INET, SOCK_DGRAM | SOCK_NONBLOCK, 0);
    if (fd < 0 || bind(fd, (struct sockaddr *)&address, sizeof address) < 0) {
        perror("flood");
        exit(1);
    }
    return fd;
}

int main(int count, char **words) {
    if (count != 8) return 2;
    size_t size = strtoul(words[2], NULL, 10), head = strlen(words[7]) / 2;
    double rate = atof(words[3]), seconds = atof(words[4]);
    int from = atoi(words[5]), ports = from != 0 ? 1 : atoi(words[6]), fds[MOST_PORTS];
    if (size > MOST_BYTES || head > size || seconds > MOST_SECONDS || ports < 1 || ports > MOST_PORTS) return 2;
    for (size_t place = 0; place < head; place++) sscanf(words[7] + 2 * place, "%2hhx", (unsigned char *)bytes + place);
    for (int place = 0; place < ports; place++) fds[place] = opened(from);
    struct sockaddr_in target = at(atoi(words[1]));
    struct iovec piece = {bytes, size};
    struct mmsghdr many[AT_ONCE];
    memset(many, 0, sizeof many);
    for (int place = 0; place < AT_ONCE; place++) {
        many[place].msg_hdr.msg_name = &target;
        many[place].msg_hdr.msg_namelen = sizeof target;
        many[place].msg_hdr.msg_iov = &piece;
        many[place].msg_hdr.msg_iovlen = 1;
    }
    double begin = now();
    long sent = 0;
    for (int place = 0; now() < begin + seconds; place = (place + 1) % ports) {
        long due = rate > 0 ? (long)(rate * (now() - begin)) - sent : AT_ONCE;
        if (due < 1) {
            struct timespec nap = {0, 200000};
            nanosleep(&nap, NULL);
            continue;
        }
        int went = sendmmsg(fds[place], many, due < AT_ONCE ? (unsigned)due : AT_ONCE, 0);
        if (went > 0) sent += went;
    }
    printf("%ld\n", sent);
    return 0;
}
