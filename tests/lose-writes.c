/* Preloaded beside a program, it notes what the program writes to the file that LOSE_WRITES names, FILE below, until it syncs it. So whoever ends
   the program can put back what wasn't synced, as if the machine had stopped (tests/nodes/journals.py).

   FILE.undo has for each write since the last sync: its offset, its length, FILE's length before, and the bytes that stood there.
   FILE.fate, where it is there, has two numbers of 32 bits: how many writes and syncs of FILE from now on, and what befalls the last of them: the
   program is killed before it (1) or after it (2), or it fails (3).
   FILE.stale, where it is there, has the ranges of writes that an earlier program failed to sync, in the form of FILE.undo: a sync that goes well
   doesn't bring them to the disk, unless they were written again. It keeps those that were not.

   FILE.machine, where it is there, has seven numbers of 64 bits. How many writes of FILE from now on fail, as on a full disk; how many syncs of it fail;
   how many microseconds a sync takes longer, as on a disk that has to be waited for; how many milliseconds the machine's clock is ahead. And, for who wants
   to know: how many writes and how many syncs failed so, and how many syncs took longer by a hundredth of a second or more. What wasn't synced when a
   sync failed so is written to FILE.stale. A program reads this clock whether it has FILE or not.

   LEFT_OUT names what is left out, to try whether a test finds that: "syncs"; "failures", so that what is to fail is called done; "rewrite", the writes
   before the first sync; or "wait", so that a write of FILE and its sync come only behind what is told next on the standard output. */
#define _GNU_SOURCE
#include <dlfcn.h>
#include <errno.h>
#include <fcntl.h>
#include <signal.h>
#include <stdint.h>
#include <stdio.h>
#include <stdlib.h>
#include <string.h>
#include <sys/mman.h>
#include <sys/stat.h>
#include <time.h>
#include <unistd.h>

enum { NOTHING, KILLED_BEFORE, KILLED_AFTER, FAILS };
enum { FULL, UNSYNCED, SLOWER, AHEAD, WERE_FULL, WERE_UNSYNCED, WERE_SLOWER, NUMBERS };
enum { SLOW = 10000 };

static int file = -1, undo = -1, is_synced, has_told;

/* A write that is put off. */
static struct {
    void *bytes;
    size_t count;
    off_t at;
} later;

static int opened(const char *suffix, int flags)
{
    char name[4096];
    snprintf(name, sizeof name, "%s%s", getenv("LOSE_WRITES"), suffix);
    return open(name, flags, 0600);
}

static int is_ours(int fd)
{
    struct stat named, given;
    const char *path = getenv("LOSE_WRITES");
    if (fd == file)
        return 1;
    if (file >= 0 || !path || stat(path, &named) || fstat(fd, &given) || named.st_dev != given.st_dev || named.st_ino != given.st_ino)
        return 0;
    undo = opened(".undo", O_CREAT | O_TRUNC | O_WRONLY);
    if (undo < 0)
        abort();
    file = fd;
    return 1;
}

static int leaves_out(const char *what)
{
    const char *named = getenv("LEFT_OUT");
    return named && !strcmp(named, what);
}

/* What is told in a file, or MAP_FAILED where it isn't there. */
static void *told_in(const char *suffix, size_t length)
{
    int fd = opened(suffix, O_RDWR);
    void *told = fd < 0 ? MAP_FAILED : mmap(NULL, length, PROT_READ | PROT_WRITE, MAP_SHARED, fd, 0);
    if (fd >= 0)
        close(fd);
    return told;
}

static int64_t *machine(void)
{
    static int64_t *told;
    if (!told)
        told = getenv("LOSE_WRITES") ? told_in(".machine", NUMBERS * sizeof *told) : MAP_FAILED;
    return told == MAP_FAILED ? NULL : told;
}

/* Whether a call of this kind fails, and counts it then. */
static int is_failing(int kind, int counted)
{
    int64_t *told = machine();
    if (!told || told[kind] <= 0)
        return 0;
    told[kind]--;
    told[counted]++;
    return 1;
}

static int fate_of_call(void)
{
    static int32_t *told;
    if (!told)
        told = told_in(".fate", 8);
    if (told == MAP_FAILED || told[0] == 0 || --told[0] > 0)
        return NOTHING;
    if (told[1] == KILLED_BEFORE)
        raise(SIGKILL);
    return told[1];
}

static void note(size_t count, off_t at)
{
    struct stat now;
    if (fstat(file, &now))
        abort();
    uint64_t head[3] = {at, count, now.st_size};
    char *entry = calloc(1, sizeof head + count);
    if (!entry)
        abort();
    memcpy(entry, head, sizeof head);
    if (at < now.st_size && pread(file, entry + sizeof head, count, at) < 0)
        abort();
    if (write(undo, entry, sizeof head + count) != (ssize_t)(sizeof head + count))
        abort();
    free(entry);
}

static void forget_noted(void)
{
    if (ftruncate(undo, 0) || lseek(undo, 0, SEEK_SET))
        abort();
}

/* Of what an earlier program failed to sync, keeps what this write doesn't write again. */
static void refresh(size_t count, off_t at)
{
    static char *stale;
    static size_t length;
    static int fd = -1;
    if (!stale) {
        struct stat now;
        stale = "";
        fd = opened(".stale", O_RDWR);
        if (fd < 0 || fstat(fd, &now))
            return;
        length = now.st_size;
        stale = malloc(length + 1);
        if (!stale || pread(fd, stale, length, 0) != (ssize_t)length)
            abort();
    }
    size_t kept = 0, next;
    for (size_t place = 0; place < length; place = next) {
        uint64_t head[3];
        memcpy(head, stale + place, sizeof head);
        next = place + sizeof head + head[1];
        if ((uint64_t)at <= head[0] && head[0] + head[1] <= (uint64_t)at + count)
            continue;
        memmove(stale + kept, stale + place, next - place);
        kept += next - place;
    }
    if (kept < length && (pwrite(fd, stale, kept, 0) != (ssize_t)kept || ftruncate(fd, kept)))
        abort();
    length = kept;
}

/* What wasn't synced yet isn't by a later sync, either. */
static void spoil(void)
{
    struct stat now;
    int stale = opened(".stale", O_CREAT | O_APPEND | O_WRONLY), noted = opened(".undo", O_RDONLY);
    if (stale < 0 || noted < 0 || fstat(noted, &now))
        abort();
    char *entries = malloc(now.st_size + 1);
    if (!entries || read(noted, entries, now.st_size) != now.st_size || write(stale, entries, now.st_size) != now.st_size)
        abort();
    forget_noted();
    free(entries);
    close(stale);
    close(noted);
}

ssize_t pwrite(int fd, const void *bytes, size_t count, off_t at)
{
    static ssize_t (*real)(int, const void *, size_t, off_t);
    if (!real)
        real = dlsym(RTLD_NEXT, "pwrite");
    if (!is_ours(fd))
        return real(fd, bytes, count, at);
    if (has_told && leaves_out("wait")) {
        later.bytes = malloc(count);
        if (!later.bytes)
            abort();
        memcpy(later.bytes, bytes, count);
        later.count = count;
        later.at = at;
        return count;
    }
    int fate = fate_of_call();
    if (fate == FAILS || is_failing(FULL, WERE_FULL)) {
        errno = ENOSPC;
        return leaves_out("failures") ? (ssize_t)count : -1;
    }
    if (!is_synced && leaves_out("rewrite"))
        return count;
    note(count, at);
    refresh(count, at);
    ssize_t result = real(fd, bytes, count, at);
    if (fate == KILLED_AFTER)
        raise(SIGKILL);
    return result;
}

ssize_t pwrite64(int fd, const void *bytes, size_t count, off_t at)
{
    return pwrite(fd, bytes, count, at);
}

static int synced(int fd, const char *name)
{
    int (*real)(int) = dlsym(RTLD_NEXT, name);
    if (!is_ours(fd))
        return real(fd);
    if (later.bytes)
        return 0;
    int fate = fate_of_call();
    int64_t *told = machine(), slower = told ? told[SLOWER] : 0;
    if (slower) {
        usleep(slower);
        told[WERE_SLOWER] += slower >= SLOW;
    }
    if (fate == FAILS || is_failing(UNSYNCED, WERE_UNSYNCED)) {
        if (fate != FAILS)
            spoil();
        errno = EIO;
        return leaves_out("failures") ? 0 : -1;
    }
    if (!leaves_out("syncs")) {
        if (real(fd))
            return -1;
        forget_noted();
    }
    is_synced = 1;
    if (fate == KILLED_AFTER)
        raise(SIGKILL);
    return 0;
}

int fdatasync(int fd)
{
    return synced(fd, "fdatasync");
}

int fsync(int fd)
{
    return synced(fd, "fsync");
}

ssize_t write(int fd, const void *bytes, size_t count)
{
    static ssize_t (*real)(int, const void *, size_t);
    if (!real)
        real = dlsym(RTLD_NEXT, "write");
    ssize_t result = real(fd, bytes, count);
    if (fd == STDOUT_FILENO) {
        void *written = later.bytes;
        later.bytes = NULL;
        has_told = 0;
        if (written && pwrite(file, written, later.count, later.at) >= 0)
            fdatasync(file);
        free(written);
        has_told = 1;
    }
    return result;
}

int clock_gettime(clockid_t clock, struct timespec *now)
{
    static int (*real)(clockid_t, struct timespec *);
    if (!real)
        real = dlsym(RTLD_NEXT, "clock_gettime");
    int result = real(clock, now);
    if (!result && clock == CLOCK_REALTIME && machine()) {
        int64_t moved = (int64_t)now->tv_sec * 1000000000 + now->tv_nsec + machine()[AHEAD] * 1000000;
        now->tv_sec = moved / 1000000000;
        now->tv_nsec = moved % 1000000000;
    }
    return result;
}
