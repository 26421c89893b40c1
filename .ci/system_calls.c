/* A library that stands before the C library for a program's calls of the system: it writes down each call, and lets planned ones fail or do less.
 *
 *   CALLS_LOG=FILE       a line for each call: its name, its descriptor, what is said of it, and what it gave, a negative error or a number
 *   CALLS_FAIL=NAME:N    the N-th call of this name fails with EIO. Of pread, pwrite and fsync the key file's calls and its folder's count alone
 *   CALLS_SHORT=NAME:N   the N-th call of this name moves less: a read and a write one half, a send one byte less
 *   CALLS_CLOCK=A,B,..   the readings of the clock since 1970, in nanoseconds; `-` is one that fails. The last stands
 *
 * .ci/system_calls.py says what it is for. Standard input and output are the only descriptors whose reads and writes are seen. */
#define _GNU_SOURCE
#include <arpa/inet.h>
#include <errno.h>
#include <fcntl.h>
#include <netinet/in.h>
#include <stdarg.h>
#include <stdio.h>
#include <stdlib.h>
#include <string.h>
#include <sys/epoll.h>
#include <sys/file.h>
#include <sys/socket.h>
#include <sys/syscall.h>
#include <time.h>
#include <unistd.h>

#define MOST_NAMES 16

static const char *names[MOST_NAMES];
static long counts[MOST_NAMES];

/* the line goes to the log as all calls go to the system, so it isn't seen */
static void tell(const char *form, ...) {
    static int file = -2;
    char line[256];
    int before = errno;
    if (file == -2) {
        const char *path = getenv("CALLS_LOG");
        file = path == NULL ? -1 : (int)syscall(SYS_openat, AT_FDCWD, path, O_WRONLY | O_CREAT | O_APPEND | O_CLOEXEC, 0600);
    }
    va_list words;
    va_start(words, form);
    int length = vsnprintf(line, sizeof line, form, words);
    va_end(words);
    if (file >= 0) syscall(SYS_write, file, line, (size_t)length);
    errno = before;
}

/* which call of this name this is, counted from 1 */
static long next_of(const char *name) {
    int place = 0;
    while (place < MOST_NAMES - 1 && names[place] != NULL && strcmp(names[place], name) != 0) place++;
    names[place] = name;
    return ++counts[place];
}

static int is_planned(const char *variable, const char *name, long number) {
    const char *plan = getenv(variable);
    size_t length = strlen(name);
    return plan != NULL && strncmp(plan, name, length) == 0 && plan[length] == ':' && atol(plan + length + 1) == number;
}

static long gave(long result) { return result < 0 ? -errno : result; }

int open(const char *path, int flags, ...) {
    va_list words;
    va_start(words, flags);
    mode_t mode = (flags & O_CREAT) ? va_arg(words, mode_t) : 0;
    va_end(words);
    int result = (int)syscall(SYS_openat, AT_FDCWD, path, flags, mode);
    tell("open %d %s %ld\n", result, path, gave(result));
    return result;
}

int flock(int fd, int operation) {
    int result = (int)syscall(SYS_flock, fd, operation);
    tell("flock %d %d %ld\n", fd, operation, gave(result));
    return result;
}

ssize_t pread(int fd, void *into, size_t size, off_t at) {
    long number = next_of("pread");
    ssize_t result = -1;
    if (is_planned("CALLS_FAIL", "pread", number)) errno = EIO;
    else result = syscall(SYS_pread64, fd, into, is_planned("CALLS_SHORT", "pread", number) ? size / 2 : size, at);
    tell("pread %d %ld:%zu %ld\n", fd, (long)at, size, gave(result));
    return result;
}

ssize_t pwrite(int fd, const void *from, size_t size, off_t at) {
    long number = next_of("pwrite");
    ssize_t result = -1;
    if (is_planned("CALLS_FAIL", "pwrite", number)) errno = EIO;
    else result = syscall(SYS_pwrite64, fd, from, is_planned("CALLS_SHORT", "pwrite", number) && size > 1 ? size / 2 : size, at);
    tell("pwrite %d %ld:%zu %ld\n", fd, (long)at, size, gave(result));
    return result;
}

int fsync(int fd) {
    int result = -1;
    if (is_planned("CALLS_FAIL", "fsync", next_of("fsync"))) errno = EIO;
    else result = (int)syscall(SYS_fsync, fd);
    tell("fsync %d - %ld\n", fd, gave(result));
    return result;
}

ssize_t write(int fd, const void *from, size_t size) {
    ssize_t result = syscall(SYS_write, fd, from, size);
    if (fd == 1) tell("write %d - %ld\n", fd, gave(result));
    return result;
}

int bind(int fd, const struct sockaddr *address, socklen_t length) {
    const struct sockaddr_in *in = (const struct sockaddr_in *)address;
    int result = (int)syscall(SYS_bind, fd, address, length);
    tell("bind %d %s:%d %ld\n", fd, inet_ntoa(in->sin_addr), ntohs(in->sin_port), gave(result));
    return result;
}

int connect(int fd, const struct sockaddr *address, socklen_t length) {
    const struct sockaddr_in *in = (const struct sockaddr_in *)address;
    int result = (int)syscall(SYS_connect, fd, address, length);
    tell("connect %d %s:%d %ld\n", fd, inet_ntoa(in->sin_addr), ntohs(in->sin_port), gave(result));
    return result;
}

ssize_t sendto(int fd, const void *from, size_t size, int flags, const struct sockaddr *address, socklen_t length) {
    const struct sockaddr_in *in = (const struct sockaddr_in *)address;
    long number = next_of("sendto");
    ssize_t result = -1;
    if (is_planned("CALLS_FAIL", "sendto", number)) errno = EIO;
    else result = syscall(SYS_sendto, fd, from, is_planned("CALLS_SHORT", "sendto", number) ? size - 1 : size, flags, address, length);
    tell("sendto %d %s:%d:%zu %ld\n", fd, inet_ntoa(in->sin_addr), ntohs(in->sin_port), size, gave(result));
    return result;
}

ssize_t recvfrom(int fd, void *into, size_t size, int flags, struct sockaddr *address, socklen_t *length) {
    ssize_t result = -1;
    if (is_planned("CALLS_FAIL", "recvfrom", next_of("recvfrom"))) errno = EIO;
    else result = syscall(SYS_recvfrom, fd, into, size, flags, address, length);
    tell("recvfrom %d - %ld\n", fd, gave(result));
    return result;
}

int epoll_wait(int fd, struct epoll_event *events, int most, int timeout) {
    int result = -1;
    if (is_planned("CALLS_FAIL", "epoll_wait", next_of("epoll_wait"))) errno = EIO;
    else result = (int)syscall(SYS_epoll_pwait, fd, events, most, timeout, NULL, 0);
    tell("epoll_wait %d %d %ld\n", fd, timeout, gave(result));
    return result;
}

/* the next planned reading of the clock; 0 where it fails */
static int planned_clock(struct timespec *into) {
    static const char *next;
    const char *plan = next != NULL ? next : getenv("CALLS_CLOCK"), *comma = strchr(plan, ',');
    next = comma != NULL ? comma + 1 : plan;
    if (*plan == '-') return 0;
    long long nanoseconds = atoll(plan);
    into->tv_sec = nanoseconds / 1000000000;
    into->tv_nsec = nanoseconds % 1000000000;
    return 1;
}

int clock_gettime(clockid_t clock, struct timespec *into) {
    if (clock != CLOCK_REALTIME || getenv("CALLS_CLOCK") == NULL) return (int)syscall(SYS_clock_gettime, clock, into);
    if (planned_clock(into)) return 0;
    errno = EIO;
    return -1;
}
