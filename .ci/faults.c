// What .ci/faults loads in front of the C library: one call of the program fails, or is its last. Which one, the
// environment says. A variable that isn't there lets everything pass.
//
//     FAULT_MEMORY=n     the nth allocation finds no memory
//     FAULT_DISK=n       the nth call that changes a file, or has it written out, fails
//     FAULT_STOP=n       the program is killed in the nth such call, in a write with half of its bytes written
//     FAULT_ROOM=n       no file may grow past n bytes
//     FAULT_INPUT=n      standard input fails behind n bytes
//     FAULT_OUTPUT=n     standard output fails behind n bytes
//     FAULT_PEERS=n      the nth call that accepts, reads or writes a connection, or waits for one, fails
//     FAULT_BYTEWISE=1   standard input gives one byte at a time
//     FAULT_COUNTS=file  a file of 40 bytes, in which the five counts stand at each moment, also where it is killed:
//                        allocations, calls on files, bytes of standard input, bytes of standard output, calls on
//                        connections
#define _GNU_SOURCE
#include <errno.h>
#include <fcntl.h>
#include <signal.h>
#include <stddef.h>
#include <stdint.h>
#include <stdlib.h>
#include <sys/mman.h>
#include <sys/epoll.h>
#include <sys/resource.h>
#include <sys/socket.h>
#include <sys/syscall.h>
#include <sys/types.h>
#include <sys/uio.h>
#include <unistd.h>

enum { MEMORY, DISK, INPUT, OUTPUT, PEERS, COUNTS };

extern void *__libc_malloc(size_t size);
extern void *__libc_realloc(void *old, size_t size);

static uint64_t own_counts[COUNTS];
static uint64_t *counts = own_counts;
static uint64_t memory_at, disk_at, stop_at, peers_at, input_end = UINT64_MAX, output_end = UINT64_MAX;
static int is_bytewise, has_begun;

static uint64_t number_of(const char *name, uint64_t otherwise) {
    const char *text = getenv(name);
    return text ? strtoull(text, NULL, 10) : otherwise;
}

__attribute__((constructor)) static void begin(void) {
    const char *file = getenv("FAULT_COUNTS");
    if (file) {
        int fd = (int)syscall(SYS_openat, AT_FDCWD, file, O_RDWR, 0);
        void *page = fd < 0 ? MAP_FAILED : mmap(NULL, sizeof own_counts, PROT_READ | PROT_WRITE, MAP_SHARED, fd, 0);
        if (page == MAP_FAILED) _exit(99);
        syscall(SYS_close, fd);
        counts = page;
    }
    memory_at = number_of("FAULT_MEMORY", 0);
    disk_at = number_of("FAULT_DISK", 0);
    stop_at = number_of("FAULT_STOP", 0);
    peers_at = number_of("FAULT_PEERS", 0);
    input_end = number_of("FAULT_INPUT", UINT64_MAX);
    output_end = number_of("FAULT_OUTPUT", UINT64_MAX);
    is_bytewise = number_of("FAULT_BYTEWISE", 0) != 0;
    if (getenv("FAULT_ROOM")) {
        struct rlimit most = {number_of("FAULT_ROOM", 0), RLIM_INFINITY};
        signal(SIGXFSZ, SIG_IGN);
        if (setrlimit(RLIMIT_FSIZE, &most)) _exit(99);
    }
    has_begun = 1;
}

// Whether there is memory for this allocation.
static int has_memory(void) {
    if (!has_begun || ++counts[MEMORY] != memory_at) return 1;
    errno = ENOMEM;
    return 0;
}

void *malloc(size_t size) { return has_memory() ? __libc_malloc(size) : NULL; }

void *realloc(void *old, size_t size) { return has_memory() ? __libc_realloc(old, size) : NULL; }

// Whether this call on a file succeeds. It may be the program's last.
static int disk_works(void) {
    uint64_t at = ++counts[DISK];
    if (at == stop_at) kill(getpid(), SIGKILL);
    if (at != disk_at) return 1;
    errno = EIO;
    return 0;
}

ssize_t pwrite64(int fd, const void *bytes, size_t count, off_t at) {
    if (counts[DISK] + 1 == stop_at) syscall(SYS_pwrite64, fd, bytes, count / 2, at);
    return disk_works() ? syscall(SYS_pwrite64, fd, bytes, count, at) : -1;
}
ssize_t pwrite(int fd, const void *bytes, size_t count, off_t at) { return pwrite64(fd, bytes, count, at); }

int ftruncate64(int fd, off_t length) { return disk_works() ? (int)syscall(SYS_ftruncate, fd, length) : -1; }
int ftruncate(int fd, off_t length) { return ftruncate64(fd, length); }

int fsync(int fd) { return disk_works() ? (int)syscall(SYS_fsync, fd) : -1; }
int fdatasync(int fd) { return disk_works() ? (int)syscall(SYS_fdatasync, fd) : -1; }

// How many of these bytes a stream still moves; at 0 it fails.
static size_t room(int stream, uint64_t end, size_t count) {
    uint64_t left = end - counts[stream];
    return left < count ? (size_t)left : count;
}

static ssize_t moved(int stream, ssize_t count) {
    if (count > 0) counts[stream] += (uint64_t)count;
    return count;
}

ssize_t write(int fd, const void *bytes, size_t count) {
    if (fd != 1) return syscall(SYS_write, fd, bytes, count);
    size_t part = room(OUTPUT, output_end, count);
    if (count && !part) {
        errno = EIO;
        return -1;
    }
    return moved(OUTPUT, syscall(SYS_write, fd, bytes, part));
}

ssize_t writev(int fd, const struct iovec *parts, int count) {
    for (int i = 0; i < count; i++) {
        if (parts[i].iov_len) return write(fd, parts[i].iov_base, parts[i].iov_len);
    }
    return 0;
}

ssize_t read(int fd, void *bytes, size_t count) {
    if (fd != 0) return syscall(SYS_read, fd, bytes, count);
    size_t part = room(INPUT, input_end, is_bytewise && count > 1 ? 1 : count);
    if (count && !part) {
        errno = EIO;
        return -1;
    }
    return moved(INPUT, syscall(SYS_read, fd, bytes, part));
}

// Whether this call on a connection succeeds, or else why it fails. One that would wait is no such call.
static int peer_works(int why) {
    if (++counts[PEERS] != peers_at) return 1;
    errno = why;
    return 0;
}

int accept4(int fd, struct sockaddr *address, socklen_t *length, int flags) {
    return peer_works(EMFILE) ? (int)syscall(SYS_accept4, fd, address, length, flags) : -1;
}

ssize_t recv(int fd, void *bytes, size_t count, int flags) {
    return peer_works(ECONNRESET) ? syscall(SYS_recvfrom, fd, bytes, count, flags, NULL, NULL) : -1;
}

ssize_t send(int fd, const void *bytes, size_t count, int flags) {
    return peer_works(EPIPE) ? syscall(SYS_sendto, fd, bytes, count, flags, NULL, 0) : -1;
}

int epoll_ctl(int poll, int what, int fd, struct epoll_event *event) {
    return peer_works(ENOSPC) ? (int)syscall(SYS_epoll_ctl, poll, what, fd, event) : -1;
}

int epoll_wait(int poll, struct epoll_event *events, int most, int time) {
    return peer_works(EIO) ? (int)syscall(SYS_epoll_wait, poll, events, most, time) : -1;
}
