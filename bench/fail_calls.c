/* Lets one call of a program fail, and go well again after: the allocation whose number stands in FAIL_ALLOC, the read of standard input in
   FAIL_READ, the write to standard output in FAIL_WRITE; with FAIL_REST each later one fails too. Only allocations of the program itself are
   counted. How many calls of each there were is told at the end on standard error.

   With FAIL_EACH=FILE each allocation, or with FAIL_APART=N each N-th, fails in a copy of the process, which goes on to its end, while the process itself
   waits and then goes on without a failure. Standard input must be a file. FILE gets a line for each: the number, the status, or minus the signal, how
   many bytes of output there were before, and how many the copy wrote, with their FNV-1a. */
#define _GNU_SOURCE
#include <dlfcn.h>
#include <errno.h>
#include <stdio.h>
#include <stdlib.h>
#include <fcntl.h>
#include <sys/auxv.h>
#include <sys/mman.h>
#include <sys/wait.h>
#include <unistd.h>

static void *program;
static long allocations, reads, writes, written;
static int is_copy;

static void *base_of(void *address) {
    Dl_info info;
    return dladdr(address, &info) ? info.dli_fbase : NULL;
}

static int fails(const char *name, long *count) {
    const char *at = getenv(name);
    ++*count;
    return at != NULL && (*count == atol(at) || (getenv("FAIL_REST") != NULL && *count > atol(at)));
}

/* The length of what stands in a file, and its hash. */
static void tell_output(int record, long number, int ended, int output) {
    unsigned char piece[4096];
    unsigned long long hash = 0xcbf29ce484222325ULL;
    long length = 0;
    for (ssize_t got; (got = pread(output, piece, sizeof piece, length)) > 0; length += got)
        for (ssize_t at = 0; at < got; ++at) hash = (hash ^ piece[at]) * 0x100000001b3ULL;
    int status = WIFEXITED(ended) ? WEXITSTATUS(ended) : -WTERMSIG(ended);
    dprintf(record, "%ld %d %ld %ld %llu\n", number, status, written, length, hash);
}

/* Reads standard input, a file, from where it stands, and no longer together with the process that this one is a copy of. */
static void read_alone(void) {
    off_t place = lseek(0, 0, SEEK_CUR);
    if (place < 0) return;
    int input = open("/proc/self/fd/0", O_RDONLY);
    if (input < 0 || lseek(input, place, SEEK_SET) < 0 || dup2(input, 0) < 0) _exit(96);
    close(input);
}

/* Whether this process is a copy in which the allocation fails. The first one has waited for it. */
static int fails_in_a_copy(const char *path) {
    static int record = -1;
    const char *apart = getenv("FAIL_APART");
    if (++allocations % (apart != NULL ? atol(apart) : 1) != 0) return 0;
    if (record < 0) record = open(path, O_WRONLY | O_CREAT | O_APPEND | O_CLOEXEC, 0600);
    int output = memfd_create("output", 0), ended = 0;
    if (record < 0 || output < 0) _exit(97);
    pid_t copy = fork();
    if (copy < 0) _exit(98);
    if (copy == 0) {
        is_copy = 1;
        read_alone();
        dup2(output, 1);
        return 1;
    }
    while (waitpid(copy, &ended, 0) < 0) {
        if (errno != EINTR) _exit(99);
    }
    tell_output(record, allocations, ended, output);
    close(output);
    return 0;
}

static int refuses(void *caller) {
    const char *each = getenv("FAIL_EACH");
    if (program == NULL || base_of(caller) != program) return 0;
    if (is_copy) return getenv("FAIL_REST") != NULL;
    return each != NULL ? fails_in_a_copy(each) : fails("FAIL_ALLOC", &allocations);
}

void *malloc(size_t size) {
    static void *(*real)(size_t);
    if (real == NULL) real = (void *(*)(size_t))dlsym(RTLD_NEXT, "malloc");
    if (refuses(__builtin_return_address(0))) { errno = ENOMEM; return NULL; }
    return real(size);
}

void *realloc(void *old, size_t size) {
    static void *(*real)(void *, size_t);
    if (real == NULL) real = (void *(*)(void *, size_t))dlsym(RTLD_NEXT, "realloc");
    if (refuses(__builtin_return_address(0))) { errno = ENOMEM; return NULL; }
    return real(old, size);
}

ssize_t read(int fd, void *into, size_t size) {
    static ssize_t (*real)(int, void *, size_t);
    if (real == NULL) real = (ssize_t (*)(int, void *, size_t))dlsym(RTLD_NEXT, "read");
    if (fd == 0 && fails("FAIL_READ", &reads)) { errno = EIO; return -1; }
    return real(fd, into, size);
}

ssize_t write(int fd, const void *from, size_t size) {
    static ssize_t (*real)(int, const void *, size_t);
    if (real == NULL) real = (ssize_t (*)(int, const void *, size_t))dlsym(RTLD_NEXT, "write");
    if (fd == 1 && fails("FAIL_WRITE", &writes)) { errno = EIO; return -1; }
    ssize_t done = real(fd, from, size);
    if (fd == 1 && done > 0) written += done;
    return done;
}

__attribute__((constructor)) static void find_program(void) { program = base_of((void *)getauxval(AT_ENTRY)); }

__attribute__((destructor)) static void tell(void) {
    if (!is_copy) dprintf(2, "%ld %ld %ld", allocations, reads, writes);
}
