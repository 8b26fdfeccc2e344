/* Lets calls of a program fail, and passes the bytes of its streams by a script. tests/faults.py builds it and
   preloads it before the C library. It counts the allocations, the calls that read, write or sync a file on
   disk, and the calls on a stream: standard input and output, if they are no files, and sockets. Random bytes are
   the same ones in each run, so that a fault at the same place leaves the same files.

   FAULT_COUNTS      a file of five 64-bit numbers: the allocations, the writes and reads of the disk, and
                     those of streams so far. Without it, nothing is counted, and nothing fails
   FAULT_ALLOCATION, FAULT_WRITE, FAULT_READ, FAULT_STREAM_WRITE, FAULT_STREAM_READ
                     which of these fails, from 1. A sync and a change of length count as writes
   FAULT_HOW         how: an error number; one with a + behind it, and the later ones fail too; or the
                     process ends there: `torn` after half of what it was to write, `cut` as by a cut of
                     the power, which takes back each write that no sync of its file followed

   ACCEPTS           a file of a 64-bit number N: the next N calls that accept a connection fail as if there
                     were no descriptor, and each counts N down
   CLOCK             a file of a 64-bit number N: the steady clock is N nanoseconds ahead. A sleep sets it ahead by its
                     length, and returns at once
   STREAM_WRITES, STREAM_READS
                     a script, as `STEP PLACE:TIMES:ERROR ..`: each call passes at most STEP bytes; once PLACE
                     bytes have passed, TIMES calls fail with this error number, or pass no byte if it is 0
   STREAM            whose bytes pass so: those of the N-th socket that is read or written, from 1. Without it,
                     those of standard input and output */
#define _GNU_SOURCE
#include <errno.h>
#include <fcntl.h>
#include <stdint.h>
#include <stdlib.h>
#include <string.h>
#include <sys/mman.h>
#include <sys/socket.h>
#include <sys/stat.h>
#include <sys/syscall.h>
#include <time.h>
#include <unistd.h>

/* the status of a process that is ended here */
#define ENDED 99

enum { ALLOCATION, WRITE, READ, STREAM_WRITE, STREAM_READ, KINDS };

extern void *__libc_malloc(size_t), *__libc_calloc(size_t, size_t);
extern void *__libc_realloc(void *, size_t), *__libc_memalign(size_t, size_t);

/* the shared counts, the shared clock and the connections that aren't accepted, once the process has begun */
static volatile unsigned long long *counts;
static volatile long long *ahead, *unaccepted;
static unsigned long long chosen[KINDS];
static const char *how = "";
static void read_scripts(void);

/* the content of the file that this variable names, or nothing if it isn't set */
static void *shared(const char *word, size_t size)
{
    if (!getenv(word))
        return 0;
    int file = open(getenv(word), O_RDWR | O_CLOEXEC);
    void *content = mmap(0, size, PROT_READ | PROT_WRITE, MAP_SHARED, file, 0);
    if (content == MAP_FAILED)
        _exit(ENDED);
    close(file);
    return content;
}

__attribute__((constructor)) static void begin(void)
{
    static const char *const names[KINDS] = {
        "FAULT_ALLOCATION", "FAULT_WRITE", "FAULT_READ", "FAULT_STREAM_WRITE", "FAULT_STREAM_READ"
    };
    for (int kind = 0; kind < KINDS; kind++)
        if (getenv(names[kind]))
            chosen[kind] = strtoull(getenv(names[kind]), 0, 10);
    if (getenv("FAULT_HOW"))
        how = getenv("FAULT_HOW");
    read_scripts();
    ahead = shared("CLOCK", sizeof *ahead);
    unaccepted = shared("ACCEPTS", sizeof *unaccepted);
    counts = shared("FAULT_COUNTS", sizeof chosen);
}

int clock_gettime(clockid_t clock, struct timespec *now)
{
    int status = syscall(SYS_clock_gettime, clock, now);
    if (status == 0 && ahead && clock == CLOCK_MONOTONIC) {
        long long nanoseconds = now->tv_nsec + *ahead;
        now->tv_sec += nanoseconds / 1000000000;
        now->tv_nsec = nanoseconds % 1000000000;
    }
    return status;
}

int nanosleep(const struct timespec *asked, struct timespec *left)
{
    if (!ahead)
        return syscall(SYS_nanosleep, asked, left);
    *ahead += asked->tv_sec * 1000000000LL + asked->tv_nsec;
    return 0;
}

int accept4(int socket, struct sockaddr *address, socklen_t *length, int flags)
{
    if (unaccepted && *unaccepted > 0) {
        --*unaccepted;
        errno = EMFILE;
        return -1;
    }
    return syscall(SYS_accept4, socket, address, length, flags);
}

/* whether this call is one that fails */
static int is_chosen(int kind)
{
    unsigned long long number = counts ? ++counts[kind] : 0;
    return chosen[kind] && (number == chosen[kind] || (number > chosen[kind] && strchr(how, '+')));
}

/* what stood where a write came, and how long the file was */
struct undo {
    struct undo *earlier;
    int file;
    off_t at, length;
    ssize_t size;
    char bytes[];
};
static struct undo *unsynced;

/* keeps what a write of a file is about to change, to the file's end at most */
static void keep(int file, off_t at, off_t size)
{
    struct stat found;
    if (how[0] != 'c' || syscall(SYS_fstat, file, &found) != 0 || !S_ISREG(found.st_mode))
        return;
    if (size > found.st_size - at)
        size = at < found.st_size ? found.st_size - at : 0;
    struct undo *kept = __libc_malloc(sizeof *kept + size);
    if (!kept)
        abort();
    *kept = (struct undo){ .earlier = unsynced, .file = file, .at = at, .length = found.st_size };
    kept->size = syscall(SYS_pread64, file, kept->bytes, size, at);
    unsynced = kept;
}

/* forgets it, once the file is synced */
static void forget(int file)
{
    for (struct undo **next = &unsynced; *next;)
        if ((*next)->file == file)
            *next = (*next)->earlier;
        else
            next = &(*next)->earlier;
}

static void cut(void)
{
    for (struct undo *last = unsynced; last; last = last->earlier) {
        syscall(SYS_pwrite64, last->file, last->bytes, last->size, last->at);
        syscall(SYS_ftruncate, last->file, last->length);
    }
}

/* fails with the error that is asked for, or ends the process */
static long fail(int error)
{
    if (how[0] == 'c')
        cut();
    if (how[0] == 'c' || how[0] == 't')
        _exit(ENDED);
    errno = error;
    return -1;
}

/* random bytes */
int getentropy(void *bytes, size_t size)
{
    memset(bytes, 7, size);
    return 0;
}

static int is_refused(void) { return is_chosen(ALLOCATION) && fail(ENOMEM); }
void *malloc(size_t size) { return is_refused() ? 0 : __libc_malloc(size); }
void *calloc(size_t number, size_t size) { return is_refused() ? 0 : __libc_calloc(number, size); }
void *realloc(void *old, size_t size) { return is_refused() ? 0 : __libc_realloc(old, size); }
void *aligned_alloc(size_t to, size_t size) { return is_refused() ? 0 : __libc_memalign(to, size); }
void *memalign(size_t to, size_t size) { return aligned_alloc(to, size); }
int posix_memalign(void **made, size_t to, size_t size)
{
    *made = aligned_alloc(to, size);
    return *made ? 0 : ENOMEM;
}

/* whether this call on a file or a folder fails. Terminals, pipes and sockets are no disk */
static int is_stopped(int kind, int file)
{
    struct stat found;
    if (syscall(SYS_fstat, file, &found) != 0)
        return 0;
    return (S_ISREG(found.st_mode) || S_ISDIR(found.st_mode)) && is_chosen(kind);
}

/* what happens to a stream: after how many bytes, at how many calls, and by which error, if it isn't 0 */
struct event {
    unsigned long place, times;
    int error;
};
/* of writes, and of reads */
static struct script {
    size_t step;
    int length;
    struct event events[8];
} scripts[2];
static int scripted;

/* an open stream: its number, how many bytes have passed, which event comes next, and how often it has come */
static struct stream {
    int number;
    struct {
        unsigned long passed, met;
        int next;
    } ways[2];
} streams[1024];
static int sockets;

static void read_scripts(void)
{
    static const char *const names[2] = { "STREAM_WRITES", "STREAM_READS" };
    if (getenv("STREAM"))
        scripted = atoi(getenv("STREAM"));
    for (int way = 0; way < 2; way++) {
        char *rest = getenv(names[way]);
        if (!rest)
            continue;
        struct script *script = &scripts[way];
        script->step = strtoul(rest, &rest, 10);
        while (*rest && script->length < 8) {
            struct event *event = &script->events[script->length++];
            event->place = strtoul(rest, &rest, 10);
            event->times = strtoul(rest + 1, &rest, 10);
            event->error = strtol(rest + 1, &rest, 10);
        }
    }
}

static int is_stream(int file)
{
    struct stat found;
    return file >= 0 && file < 1024 && file != STDERR_FILENO && syscall(SYS_fstat, file, &found) == 0
        && (S_ISSOCK(found.st_mode) || (file < STDERR_FILENO && !S_ISREG(found.st_mode) && !S_ISDIR(found.st_mode)));
}

/* how many of these bytes a call on a stream may pass. None, if it fails, or does nothing */
static ssize_t most(int kind, int file, size_t size)
{
    if (is_chosen(kind))
        return fail(atoi(how));
    struct stream *stream = &streams[file];
    struct script *script = &scripts[kind - STREAM_WRITE];
    if (file > STDERR_FILENO && !stream->number)
        stream->number = ++sockets;
    if (!script->step || scripted != stream->number)
        return size;
    if (size > script->step)
        size = script->step;
    typeof(stream->ways[0]) *way = &stream->ways[kind - STREAM_WRITE];
    struct event *event = &script->events[way->next];
    if (way->next == script->length)
        return size;
    if (way->passed < event->place)
        return size < event->place - way->passed ? size : event->place - way->passed;
    if (++way->met >= event->times) {
        way->met = 0;
        way->next++;
    }
    errno = event->error;
    return event->error ? -1 : 0;
}

static ssize_t passed(int kind, int file, ssize_t size)
{
    if (size > 0)
        streams[file].ways[kind - STREAM_WRITE].passed += size;
    return size;
}

/* the call itself with some of its bytes, or what comes in its place */
#define PASS(KIND, FILE, SIZE, ...)                     \
    do {                                                \
        ssize_t most_bytes = most(KIND, FILE, SIZE);    \
        SIZE = most_bytes;                              \
        return most_bytes > 0 ? passed(KIND, FILE, syscall(__VA_ARGS__)) : most_bytes; \
    } while (0)

ssize_t send(int file, const void *bytes, size_t size, int flags)
{
    PASS(STREAM_WRITE, file, size, SYS_sendto, file, bytes, size, flags, 0, 0);
}
ssize_t recv(int file, void *bytes, size_t size, int flags)
{
    PASS(STREAM_READ, file, size, SYS_recvfrom, file, bytes, size, flags, 0, 0);
}
int close(int file)
{
    if (file >= 0 && file < 1024)
        streams[file] = (struct stream){ 0 };
    return syscall(SYS_close, file);
}

/* the call itself, or its fault, before which `torn` does the half of it */
#define CALL(KIND, FILE, BEFORE, HALF, ...)             \
    do {                                                \
        if (!is_stopped(KIND, FILE)) {                  \
            BEFORE;                                     \
            return syscall(__VA_ARGS__);                \
        }                                               \
        if (how[0] == 't')                              \
            HALF;                                       \
        return fail(atoi(how));                         \
    } while (0)
#define NOTHING (void)0

ssize_t write(int file, const void *bytes, size_t size)
{
    if (is_stream(file))
        PASS(STREAM_WRITE, file, size, SYS_write, file, bytes, size);
    CALL(WRITE, file, keep(file, lseek(file, 0, SEEK_CUR), size), syscall(SYS_write, file, bytes, size / 2),
         SYS_write, file, bytes, size);
}
ssize_t pwrite(int file, const void *bytes, size_t size, off_t at)
{
    CALL(WRITE, file, keep(file, at, size), syscall(SYS_pwrite64, file, bytes, size / 2, at),
         SYS_pwrite64, file, bytes, size, at);
}
int ftruncate(int file, off_t size)
{
    CALL(WRITE, file, keep(file, size, INT64_MAX), NOTHING, SYS_ftruncate, file, size);
}
int fsync(int file) { CALL(WRITE, file, forget(file), NOTHING, SYS_fsync, file); }
int fdatasync(int file) { CALL(WRITE, file, forget(file), NOTHING, SYS_fdatasync, file); }
ssize_t read(int file, void *bytes, size_t size)
{
    if (is_stream(file))
        PASS(STREAM_READ, file, size, SYS_read, file, bytes, size);
    CALL(READ, file, NOTHING, NOTHING, SYS_read, file, bytes, size);
}
ssize_t pread(int file, void *bytes, size_t size, off_t at)
{
    CALL(READ, file, NOTHING, NOTHING, SYS_pread64, file, bytes, size, at);
}
ssize_t pwrite64(int, const void *, size_t, off_t) __attribute__((alias("pwrite")));
ssize_t pread64(int, void *, size_t, off_t) __attribute__((alias("pread")));
int ftruncate64(int, off_t) __attribute__((alias("ftruncate")));
