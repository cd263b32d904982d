// A disk that fails: it is loaded in front of the C library. Reads and writes are short or interrupted, from a place on
// they fail or take long, and syncs are counted. Rings of the system take nothing now and then. The test shares a file
// with these numbers.
#define _GNU_SOURCE
#include <dlfcn.h>
#include <errno.h>
#include <fcntl.h>
#include <stdarg.h>
#include <stdatomic.h>
#include <stdint.h>
#include <stdlib.h>
#include <sys/mman.h>
#include <sys/syscall.h>
#include <sys/uio.h>
#include <unistd.h>

struct faults {
    _Atomic uint64_t bad_from, syncs, failing_syncs, turns;
    // Each call moves all, from this place on the disk takes so many microseconds, and so does each sync.
    _Atomic uint64_t is_whole, slow_from, slow_time, sync_time;
    // So many reads and writes are under way there, and were at most.
    _Atomic uint64_t under_way, most;
    // So many calls submitted to a ring.
    _Atomic uint64_t submits;
};

static struct faults *faults(void) {
    static struct faults *shared;
    if (!shared) {
        int file = open(getenv("DISK_FAULTS"), O_RDWR | O_CLOEXEC);
        shared = mmap(0, sizeof *shared, PROT_READ | PROT_WRITE, MAP_SHARED, file, 0);
        close(file);
        if (shared == MAP_FAILED)
            abort();
    }
    return shared;
}

// How many bytes a call moves, or -1.
static ssize_t allowed(size_t count, off_t place, int error) {
    uint64_t turn = atomic_fetch_add(&faults()->turns, 1);
    if ((uint64_t)place >= faults()->bad_from) {
        errno = error;
        return -1;
    }
    if (faults()->is_whole)
        return count;
    if (turn % 5 == 0) {
        errno = EINTR;
        return -1;
    }
    return turn % 5 < 3 && count > 1 ? 1 + turn * 7919 % count : count;
}

static int is_slow(off_t place) {
    return faults()->slow_time && (uint64_t)place >= faults()->slow_from;
}

static void take_time(off_t place) {
    if (!is_slow(place))
        return;
    uint64_t now = atomic_fetch_add(&faults()->under_way, 1) + 1, most = faults()->most;
    while (most < now && !atomic_compare_exchange_weak(&faults()->most, &most, now))
        ;
    usleep(faults()->slow_time);
    atomic_fetch_sub(&faults()->under_way, 1);
}

ssize_t pread64(int file, void *bytes, size_t count, off_t place) {
    take_time(place);
    ssize_t most = allowed(count, place, EIO);
    return most < 0 ? -1 : syscall(SYS_pread64, file, bytes, most, place);
}

ssize_t pwrite64(int file, const void *bytes, size_t count, off_t place) {
    take_time(place);
    ssize_t most = allowed(count, place, ENOSPC);
    return most < 0 ? -1 : syscall(SYS_pwrite64, file, bytes, most, place);
}

struct call {
    long number;
    int error, flags;
};

static ssize_t move_parts(struct call call, int file, const struct iovec *parts, int count, off_t place) {
    struct iovec some[1024];
    size_t all = 0;
    int used = 0;
    for (int i = 0; i < count; i++)
        all += parts[i].iov_len;
    if (call.flags && is_slow(place)) {
        errno = EAGAIN;
        return -1;
    }
    take_time(place);
    ssize_t most = allowed(all, place, call.error);
    if (most < 0)
        return -1;
    for (size_t left = most; used < count && left > 0; left -= some[used++].iov_len) {
        some[used] = parts[used];
        if (some[used].iov_len > left)
            some[used].iov_len = left;
    }
    return syscall(call.number, file, some, used, place, 0, call.flags);
}

ssize_t preadv(int file, const struct iovec *parts, int count, off_t place) {
    return move_parts((struct call){SYS_preadv2, EIO, 0}, file, parts, count, place);
}

ssize_t pwritev(int file, const struct iovec *parts, int count, off_t place) {
    return move_parts((struct call){SYS_pwritev2, ENOSPC, 0}, file, parts, count, place);
}

ssize_t preadv2(int file, const struct iovec *parts, int count, off_t place, int flags) {
    return move_parts((struct call){SYS_preadv2, EIO, flags}, file, parts, count, place);
}

ssize_t pwritev2(int file, const struct iovec *parts, int count, off_t place, int flags) {
    return move_parts((struct call){SYS_pwritev2, ENOSPC, flags}, file, parts, count, place);
}

int fdatasync(int file) {
    atomic_fetch_add(&faults()->syncs, 1);
    usleep(faults()->sync_time);
    if (atomic_exchange(&faults()->failing_syncs, 0)) {
        errno = EIO;
        return -1;
    }
    return syscall(SYS_fdatasync, file);
}

long syscall(long number, ...) {
    long (*next)(long, ...) = (long (*)(long, ...))dlsym(RTLD_NEXT, "syscall");
    long words[6];
    va_list list;
    va_start(list, number);
    for (int i = 0; i < 6; i++)
        words[i] = va_arg(list, long);
    va_end(list);
    if (number == SYS_io_uring_enter) {
        uint64_t turn = atomic_fetch_add(&faults()->submits, 1);
        if (turn % 2) {
            errno = turn % 4 == 1 ? EINTR : EAGAIN;
            return -1;
        }
    }
    return next(number, words[0], words[1], words[2], words[3], words[4], words[5]);
}
