/* Stands in front of the C library's calls, by LD_PRELOAD, and makes the faults that tools/check
   tries. Each is switched on by variables of the environment, which stand above it; without them
   each call does what it does otherwise. lib/faults.py compiles it. */

#define _GNU_SOURCE
#include <dlfcn.h>
#include <errno.h>
#include <fcntl.h>
#include <pthread.h>
#include <signal.h>
#include <stdarg.h>
#include <stdint.h>
#include <stdio.h>
#include <stdlib.h>
#include <string.h>
#include <sys/mman.h>
#include <sys/random.h>
#include <sys/socket.h>
#include <sys/stat.h>
#include <sys/syscall.h>
#include <time.h>
#include <unistd.h>

static unsigned long number(const char *name) {
    const char *text = getenv(name);
    return text ? strtoul(text, 0, 10) : 0;
}

/* The path of an open file, none where it has none. */
static const char *path_of(int file, char *room, size_t size) {
    char link[64];
    ssize_t length;
    snprintf(link, sizeof link, "/proc/self/fd/%d", file);
    length = readlink(link, room, size - 1);
    if (length < 0)
        return 0;
    room[length] = 0;
    return room;
}

static int ends_so(const char *text, const char *end) {
    size_t length = strlen(text), behind = strlen(end);
    return length >= behind && strcmp(text + length - behind, end) == 0;
}

/* Whether the path of an open file ends so. */
static int ends(int file, const char *end) {
    char room[4096];
    const char *path = path_of(file, room, sizeof room);
    return path && ends_so(path, end);
}

/* Writes these to the file that a variable names, where it is set: behind what it has, or in its place. */
static void note(const char *name, int how, const void *octets, size_t count) {
    const char *path = getenv(name);
    int file = path ? syscall(SYS_open, path, O_WRONLY | O_CREAT | how, 0600) : -1;
    if (file >= 0) {
        syscall(SYS_write, file, octets, count);
        syscall(SYS_close, file);
    }
}

/* Counts a call, and notes how many there were where `told` says; whether it is the one that `at` says. */
static int is_due(const char *at, const char *told) {
    static unsigned long calls;
    char text[32];
    unsigned long count = __atomic_add_fetch(&calls, 1, __ATOMIC_SEQ_CST);
    if (told)
        note(told, O_TRUNC, text, snprintf(text, sizeof text, "%lu", count));
    return count == number(at);
}

/* ---- memory: the requests from number REFUSE_FIRST to REFUSE_LAST are refused. How many there were is
   told at the end in the file REFUSE_TOLD. */

extern void *__libc_malloc(size_t);
extern void *__libc_realloc(void *, size_t);
static unsigned long requests, first_refused, last_refused;

static int is_refused(void) {
    if (requests++ == 0) {
        first_refused = number("REFUSE_FIRST");
        last_refused = number("REFUSE_LAST");
    }
    if (requests < first_refused || last_refused < requests)
        return 0;
    errno = ENOMEM;
    return 1;
}

void *malloc(size_t size) {
    return is_refused() ? 0 : __libc_malloc(size);
}

void *realloc(void *old, size_t size) {
    return is_refused() ? 0 : __libc_realloc(old, size);
}

/* To open a file in C's way is one more request. */
static void tell_requests(void) {
    const char *path = getenv("REFUSE_TOLD");
    FILE *file = path ? fopen(path, "w") : 0;
    if (file) {
        fprintf(file, "%lu", requests);
        fclose(file);
    }
}

__attribute__((destructor)) static void at_return(void) {
    tell_requests();
}

/* The program ends here, and no destructor runs. */
void _exit(int status) {
    tell_requests();
    syscall(SYS_exit_group, status);
    __builtin_unreachable();
}

/* ---- random numbers: with REFUSE_RANDOM the system gives none, but as often as GIVE_RANDOM says. */

int getentropy(void *room, size_t size) {
    static unsigned long given;
    if (getenv("REFUSE_RANDOM") && given++ >= number("GIVE_RANDOM")) {
        errno = ENOSYS;
        return -1;
    }
    return getrandom(room, size, 0) == (ssize_t)size ? 0 : -1;
}

/* ---- what is set while the program runs, in the file ROWS_SHARED: numbers in the order of NUMBERS of
   lib/faults.py, then the end of a path, and the fronts of the names of files that were flushed. */

static struct {
    uint64_t clock, writes, reads, stalled, fails, takes, breaks, octets, later, yields, pause, whose,
        pauses, crowded, hangs, flushes, refuses, flushed, passes, unlogged;
    char file[64], flushed_files[2048];
} *shared;

__attribute__((constructor)) static void share(void) {
    const char *path = getenv("ROWS_SHARED");
    int file = path ? syscall(SYS_open, path, O_RDWR | O_CLOEXEC) : -1;
    void *room;
    if (file < 0)
        return;
    room = mmap(0, 4096, PROT_READ | PROT_WRITE, MAP_SHARED, file, 0);
    close(file);
    if (room != MAP_FAILED)
        shared = room;
}

#define NOW(what) __atomic_load_n(&shared->what, __ATOMIC_SEQ_CST)

/* Takes one of these where some are left; how many there were. */
static uint64_t take_one(uint64_t *count) {
    uint64_t left = __atomic_load_n(count, __ATOMIC_SEQ_CST);
    while (left && !__atomic_compare_exchange_n(count, &left, left - 1, 0, __ATOMIC_SEQ_CST, __ATOMIC_SEQ_CST))
        ;
    return left;
}

/* Calls of this kind wait while that is so. */
static void stall(uint64_t *waits) {
    __atomic_add_fetch(&shared->stalled, 1, __ATOMIC_SEQ_CST);
    while (__atomic_load_n(waits, __ATOMIC_SEQ_CST))
        usleep(500);
}

int clock_gettime(clockid_t clock, struct timespec *time) {
    int failed;
    if (!shared || clock != CLOCK_REALTIME || !NOW(clock)) {
        failed = syscall(SYS_clock_gettime, clock, time);
        if (!failed && shared && clock == CLOCK_MONOTONIC)
            time->tv_sec += NOW(later);
        return failed;
    }
    time->tv_sec = NOW(clock) - 1;
    time->tv_nsec = 0;
    return 0;
}

/* A call of a buffer waits where it has to, and says whether it fails. */
static int fails_shared(int file, uint64_t *waits) {
    if (!shared || !ends(file, ".buf"))
        return 0;
    if (__atomic_load_n(waits, __ATOMIC_SEQ_CST) && ends(file, shared->file) && !take_one(&shared->passes))
        stall(waits);
    if (take_one(&shared->fails) != 1)
        return 0;
    errno = EIO;
    return 1;
}

/* A flush of a buffer is noted by the front of its file's name, waits where it has to, and fails where it
   has to; that of the journal fails where it has to. */
static int flush_fails_shared(int file, int is_whole) {
    char room[4096];
    const char *path = shared ? path_of(file, room, sizeof room) : 0;
    if (!path || !ends_so(path, is_whole ? ".buf" : "/relay.log"))
        return 0;
    if (is_whole) {
        shared->flushed_files[NOW(flushed) % sizeof shared->flushed_files] = strrchr(path, '/')[1];
        __atomic_add_fetch(&shared->flushed, 1, __ATOMIC_SEQ_CST);
        if (NOW(flushes) && ends_so(path, shared->file))
            stall(&shared->flushes);
    }
    if (!take_one(is_whole ? &shared->refuses : &shared->unlogged))
        return 0;
    errno = EIO;
    return 1;
}

/* What a thread is by what it did last, and how often it gave way to others since then. */
enum { OTHER, WRITER, SESSION };
static __thread uint64_t kind, gave_way;

static void does(uint64_t what) {
    kind = what;
    gave_way = 0;
}

int sched_yield(void) {
    gave_way++;
    if (shared && gave_way == NOW(yields) && kind == NOW(whose)) {
        __atomic_add_fetch(&shared->pauses, 1, __ATOMIC_SEQ_CST);
        usleep(1000 * NOW(pause));
    }
    return syscall(SYS_sched_yield);
}

/* Whether a connection is one of this kind. */
static int is_of(int file, int kind) {
    int domain = 0;
    socklen_t size = sizeof domain;
    return getsockopt(file, SOL_SOCKET, SO_DOMAIN, &domain, &size) == 0 && domain == kind;
}

/* Whether a connection is one of a peer, of a relay for which something is set. */
static int is_peer(int file) {
    return shared && is_of(file, AF_INET);
}

/* Where the machine is crowded it has no descriptor for a connection of a peer. */
int accept4(int file, struct sockaddr *address, socklen_t *size, int flags) {
    if (shared && NOW(crowded) && is_peer(file)) {
        errno = ENFILE;
        return -1;
    }
    return syscall(SYS_accept4, file, address, size, flags);
}

int accept(int file, struct sockaddr *address, socklen_t *size) {
    return accept4(file, address, size, 0);
}

/* Where connections go on by single octets, each second call of a thread is interrupted. */
static int is_interrupted(size_t *count) {
    static __thread int was;
    was = !was;
    errno = EINTR;
    *count = *count > 1 ? 1 : *count;
    return was;
}

ssize_t recv(int file, void *octets, size_t count, int flags) {
    does(SESSION);
    if (shared && NOW(octets) && is_peer(file) && is_interrupted(&count))
        return -1;
    return syscall(SYS_recvfrom, file, octets, count, flags, 0, 0);
}

/* With ROWS_NARROW who asks at the socket of a folder is told as little at once as can be. */
static void narrow(int file) {
    int least = 1;
    if (getenv("ROWS_NARROW") && is_of(file, AF_UNIX))
        setsockopt(file, SOL_SOCKET, SO_SNDBUF, &least, sizeof least);
}

ssize_t send(int file, const void *octets, size_t count, int flags) {
    uint64_t left;
    narrow(file);
    does(SESSION);
    if (!is_peer(file))
        return syscall(SYS_sendto, file, octets, count, flags, 0, 0);
    if (NOW(octets) && is_interrupted(&count))
        return -1;
    if (NOW(hangs)) {
        usleep(100000);
        errno = EAGAIN;
        return -1;
    }
    left = NOW(takes);
    if (left) {
        count = count < left - 1 ? count : left - 1;
        __atomic_sub_fetch(&shared->takes, count, __ATOMIC_SEQ_CST);
        errno = EPIPE;
        if (count == 0)
            return NOW(breaks) ? -1 : 0;
    }
    return syscall(SYS_sendto, file, octets, count, flags, 0, 0);
}

/* ---- threads, rights and locks: with ROWS_LATE each thread begins so many milliseconds after it was asked
   for; with REFUSE_MODES no file's rights can be set, with REFUSE_LOCKS none can be locked. */

int pthread_create(pthread_t *thread, const pthread_attr_t *attributes, void *(*work)(void *), void *given) {
    int (*create)(pthread_t *, const pthread_attr_t *, void *(*)(void *), void *);
    *(void **)&create = dlsym(RTLD_NEXT, "pthread_create");
    if (getenv("ROWS_LATE"))
        usleep(1000 * number("ROWS_LATE"));
    return create(thread, attributes, work, given);
}

int chmod(const char *path, mode_t mode) {
    if (getenv("REFUSE_MODES")) {
        errno = EPERM;
        return -1;
    }
    return syscall(SYS_chmod, path, mode);
}

int flock(int file, int how) {
    if (getenv("REFUSE_LOCKS")) {
        errno = ENOLCK;
        return -1;
    }
    return syscall(SYS_flock, file, how);
}

/* ---- one file, FAULT_FILE: its call number FAULT_AT fails once. A write that has an octet from FAULT_FROM
   on, and before FAULT_TO, writes what is before that, and then fails with the number FAULT_IS. A failing
   write leaves half of what it was to write. FAULT_TOLD is told how many calls there were. */

static int is_watched(int file) {
    const char *watched = getenv("FAULT_FILE");
    char room[4096];
    const char *path = watched ? path_of(file, room, sizeof room) : 0;
    return path && strcmp(path, watched) == 0;
}

/* ---- one folder, FLUSH_ROOM: the calls by which its files are written are told in the file FLUSH_TOLD, a
   line each, in their order. Of those but the writes of buffers number FLUSH_AT fails with the number
   FLUSH_IS, and does nothing. */

/* The name of a path in the folder, "." of the folder itself, none of any other. */
static const char *name_of(const char *path) {
    const char *room = getenv("FLUSH_ROOM");
    size_t length = room ? strlen(room) : 0;
    if (!path || !length || strncmp(path, room, length) != 0)
        return 0;
    if (!path[length])
        return ".";
    return path[length] == '/' && !strchr(path + length + 1, '/') ? path + length + 1 : 0;
}

/* How many calls of the folder are still to come of a relay.ages that has its name. */
static __thread int of_ages;

/* Whether a call is of relay.ages, on which nothing depends. */
static int is_of_ages(const char *call, const char *name) {
    if (strcmp(name, ".") == 0 && of_ages > 0) {
        of_ages--;
        return 1;
    }
    if (strncmp(name, "relay.ages", 10) != 0)
        return 0;
    if (strcmp(call, "rename") == 0)
        of_ages = 2;
    return 1;
}

/* Tells of a call. Whether it fails. */
static int fails(const char *call, const char *name) {
    char text[512];
    int is_write = strcmp(call, "write") == 0;
    /* Entries of the journal are written whenever some are there. */
    if (!name || is_of_ages(call, name) || (is_write && strcmp(name, "relay.log") == 0))
        return 0;
    note("FLUSH_TOLD", O_APPEND, text, snprintf(text, sizeof text, "%s %s\n", call, name));
    if ((is_write && ends_so(name, ".buf")) || !is_due("FLUSH_AT", 0))
        return 0;
    errno = number("FLUSH_IS");
    return 1;
}

static int fails_at(const char *call, int file) {
    char room[4096];
    return getenv("FLUSH_ROOM") && fails(call, name_of(path_of(file, room, sizeof room)));
}

/* ---- a kill: the program is killed at its call number CUT_AT that writes, flushes, renames or takes away
   a file. CUT_TOLD is told how many there were. */

static int is_counted(void) {
    return getenv("CUT_AT") || getenv("CUT_TOLD");
}

static int is_last(void) {
    return is_counted() && is_due("CUT_AT", "CUT_TOLD");
}

/* What is told on the standard streams counts in no case. */
static int is_last_of(int file) {
    struct stat found;
    return file > 2 && is_counted() && fstat(file, &found) == 0 && S_ISREG(found.st_mode) && is_last();
}

static void end(void) {
    kill(getpid(), SIGKILL);
    for (;;)
        pause();
}

/* ---- what is written: each write and flush of a buffer is told in the file CUT_LOG: a line with its kind,
   the file, the place and how many octets, and these. */

static pthread_mutex_t one = PTHREAD_MUTEX_INITIALIZER;

static void tell(char kind, int file, const void *octets, size_t count, off_t place) {
    static int log = -1;
    char room[4096], line[4200];
    const char *path = path_of(file, room, sizeof room);
    int size;
    if (!path || !ends_so(path, ".buf"))
        return;
    if (log < 0)
        log = syscall(SYS_open, getenv("CUT_LOG"), O_WRONLY | O_CREAT | O_APPEND, 0600);
    size = snprintf(line, sizeof line, "%c %s %lu %lu\n", kind, strrchr(path, '/') + 1, (unsigned long)place,
                    (unsigned long)count);
    syscall(SYS_write, log, line, (long)size);
    syscall(SYS_write, log, octets, count);
}

static ssize_t write_told(int file, const void *octets, size_t count, off_t place) {
    ssize_t done;
    pthread_mutex_lock(&one);
    done = syscall(SYS_pwrite64, file, octets, count, place);
    if (done > 0)
        tell('W', file, octets, done, place);
    pthread_mutex_unlock(&one);
    return done;
}

/* What a flush keeps was written before it began: both its begin and its end are told, by the thread and
   the moment of the begin. */
static int flush_told(int file, long call) {
    char begin[64];
    struct timespec now;
    int size, done;
    clock_gettime(CLOCK_MONOTONIC, &now);
    size = snprintf(begin, sizeof begin, "%ld %ld.%09ld", (long)syscall(SYS_gettid), (long)now.tv_sec,
                    now.tv_nsec);
    pthread_mutex_lock(&one);
    tell('B', file, begin, size, 0);
    pthread_mutex_unlock(&one);
    done = syscall(call, file);
    if (done == 0) {
        pthread_mutex_lock(&one);
        tell('F', file, begin, size, 0);
        pthread_mutex_unlock(&one);
    }
    return done;
}

/* ---- the calls of files, each with the faults above that it may meet. */

/* With ROWS_INPUT standard input comes an octet at a time, each behind an interrupted read, and where that
   is `broken` it fails at its end. */
ssize_t read(int file, void *room, size_t size) {
    static int is_next;
    const char *manner = file == 0 ? getenv("ROWS_INPUT") : 0;
    ssize_t count;
    if (!manner)
        return syscall(SYS_read, file, room, size);
    is_next = !is_next;
    if (is_next) {
        errno = EINTR;
        return -1;
    }
    count = syscall(SYS_read, file, room, size ? 1 : 0);
    if (count || strcmp(manner, "broken") != 0)
        return count;
    errno = EPIPE;
    return -1;
}

/* Standard output takes as many octets as ROWS_TAKES says, and then fails. */
ssize_t write(int file, const void *octets, size_t count) {
    static size_t taken;
    int is_limited = file == 1 && getenv("ROWS_TAKES");
    ssize_t written;
    if (fails_at("write", file))
        return -1;
    if (is_last_of(file)) {
        syscall(SYS_write, file, octets, count / 2);
        end();
    }
    if (is_limited && taken + count > number("ROWS_TAKES"))
        count = number("ROWS_TAKES") - taken;
    if (is_limited && count == 0) {
        errno = ENOSPC;
        return -1;
    }
    written = syscall(SYS_write, file, octets, count);
    taken += is_limited && written > 0 ? written : 0;
    return written;
}

ssize_t pread64(int file, void *octets, size_t count, off_t place) {
    if (shared && fails_shared(file, &shared->reads))
        return -1;
    if (is_watched(file) && is_due("FAULT_AT", "FAULT_TOLD")) {
        errno = EIO;
        return -1;
    }
    return syscall(SYS_pread64, file, octets, count, place);
}

ssize_t pread(int file, void *octets, size_t count, off_t place) {
    return pread64(file, octets, count, place);
}

ssize_t pwrite64(int file, const void *octets, size_t count, off_t place) {
    does(WRITER);
    if ((shared && fails_shared(file, &shared->writes)) || fails_at("write", file))
        return -1;
    if (is_watched(file)) {
        size_t from = number("FAULT_FROM"), to = number("FAULT_TO"), begin = place;
        if (is_due("FAULT_AT", "FAULT_TOLD")) {
            syscall(SYS_pwrite64, file, octets, count / 2, place);
            errno = EIO;
            return -1;
        }
        if (begin < to && from < begin + count) {
            errno = number("FAULT_IS");
            if (from <= begin)
                return -1;
            count = from - begin;
        }
    }
    if (is_last_of(file)) {
        /* A device writes a block of 512 octets whole or not at all. */
        syscall(SYS_pwrite64, file, octets, count / 1024 * 512, place);
        end();
    }
    if (getenv("CUT_LOG"))
        return write_told(file, octets, count, place);
    return syscall(SYS_pwrite64, file, octets, count, place);
}

ssize_t pwrite(int file, const void *octets, size_t count, off_t place) {
    return pwrite64(file, octets, count, place);
}

static int flush(int file, int is_whole, long call) {
    if (flush_fails_shared(file, is_whole) || fails_at("flush", file))
        return -1;
    if (is_last())
        end();
    return getenv("CUT_LOG") ? flush_told(file, call) : syscall(call, file);
}

int fsync(int file) {
    return flush(file, 1, SYS_fsync);
}

int fdatasync(int file) {
    return flush(file, 0, SYS_fdatasync);
}

int ftruncate(int file, off_t size) {
    if (is_last())
        end();
    return syscall(SYS_ftruncate, file, size);
}

int ftruncate64(int file, off_t size) {
    return ftruncate(file, size);
}

int rename(const char *from, const char *to) {
    char text[512];
    const char *name = name_of(to);
    if (name)
        snprintf(text, sizeof text, "%s %s", name_of(from) ? name_of(from) : from, name);
    if (fails("rename", name ? text : 0))
        return -1;
    if (is_last())
        end();
    return syscall(SYS_rename, from, to);
}

int unlink(const char *path) {
    const char *name = name_of(path);
    if (name && strncmp(name, "relay.hist", 10) != 0 && strncmp(name, "relay.names", 11) != 0)
        name = 0;
    if (fails("remove", name))
        return -1;
    if (is_last())
        end();
    return syscall(SYS_unlink, path);
}

int open(const char *path, int flags, ...) {
    const char *name = name_of(path);
    int is_made = flags & O_CREAT;
    mode_t mode = 0;
    if (is_made || (flags & O_TMPFILE) == O_TMPFILE) {
        va_list more;
        va_start(more, flags);
        mode = va_arg(more, mode_t);
        va_end(more);
    }
    /* Of what is made all but buffers is told, of what is opened the folder alone. */
    if (name && (is_made ? ends_so(name, ".buf") : strcmp(name, ".") != 0))
        name = 0;
    return fails(is_made ? "make" : "open", name) ? -1 : syscall(SYS_open, path, flags, mode);
}
