// Preloaded into a program, refuses what it asks of the system, and tells of each refusal on descriptor 9; or watches or kills it. With
// REFUSED_GROWTHS=N it refuses the growth of memory of this number, counted from 1, with N- also all after it, and tells '!'. With
// REFUSED_WRITE=N it refuses the write to standard output of this number, as a pipe does that is full, and tells '!'; each later one is
// let through, as by a pipe that was drained, and it tells '+'. With REFUSED_READ=N it refuses the read of a file of this number, as a disk does that
// fails, and tells '!'; with INTERRUPTED, too, as if a signal had come. With INTERRUPTED and WATCHED so it does each second write to a file, and tells
// 'interrupted'. With REFUSED_LOCKS it refuses each lock of a file, as a file system does that has
// none. With REFUSED_TEXT=TEXT it refuses each write to a file that has this text, as a disk does that is full, and each renaming to a
// name that ends so, and tells 'refused'. With REFUSED_CONNECTIONS it takes no connection. With WATCHED it tells, in a line each and in their order, which files are written to, made
// safe and renamed, and when something is sent: 'write FILE', 'sync FILE', 'rename FILE TO', without folders, and 'send TYPE', with a
// message's type and command, in hexadecimal digits. With SLOW_SYNCS=N each sync of data takes so many milliseconds more. With KILL_AT=N it
// kills the program at the act of this number: what it writes, makes safe, cuts off, sends or receives, and its connecting; KILL_HOW is 'before'
// the act, 'after' it, or 'torn': half of what was to be written or sent is. With KILL_ROW=TEXT it does so at the first write to a file that has this
// text, or, if KILL_HOW is 'safe', once that is made safe.
#define _GNU_SOURCE
#include <dlfcn.h>
#include <errno.h>
#include <limits.h>
#include <signal.h>
#include <stdio.h>
#include <stdlib.h>
#include <string.h>
#include <sys/file.h>
#include <sys/socket.h>
#include <unistd.h>

#define NEXT(name) ((__typeof__(name) *)dlsym(RTLD_NEXT, #name))
#define TELL(...) (getenv("WATCHED") ? dprintf(9, __VA_ARGS__) : 0)

// Whether it's the turn of what is counted: 0 before, 1 if it is to be refused, 2 afterwards.
static int turn_of(const char *variable, long *count) {
    const char *number = getenv(variable);
    char *rest;
    if (!number) return 0;
    long wanted = strtol(number, &rest, 10);
    ++*count;
    return *count < wanted ? 0 : *count == wanted || *rest == '-' ? 1 : 2;
}

// Whether the program is killed at this act, in this way.
static int is_killed(const char *how) { return getenv("KILL_HOW") && !strcmp(getenv("KILL_HOW"), how); }
static void die(void) {
    kill(getpid(), SIGKILL);
    for (;;) pause();
}
static int row_is_written;
static int is_last(int is_row) {
    static long acts;
    int last = turn_of("KILL_AT", &acts) == 1 || is_row;
    row_is_written |= is_row;
    if (last && is_killed("before")) die();
    return last && !is_killed("safe");
}
#define ACT_OF(is_row, type, call, ...) \
    do { \
        int last = is_last(is_row); \
        type result = NEXT(call)(__VA_ARGS__); \
        if (last) die(); \
        return result; \
    } while (0)
#define ACT(type, call, ...) ACT_OF(0, type, call, __VA_ARGS__)
#define MAKES_SAFE(call, file) \
    do { \
        int last = is_last(0), result = NEXT(call)(file); \
        if (last || (row_is_written && is_killed("safe"))) die(); \
        return result; \
    } while (0)
#define SOME(count) (last && is_killed("torn") ? (count + 1) / 2 : count)

static int refused(int error, const char *mark) {
    NEXT(write)(9, mark, strlen(mark));
    errno = error;
    return -1;
}

static int is_refused_growth(void) {
    static long growths;
    return turn_of("REFUSED_GROWTHS", &growths) == 1 && refused(ENOMEM, "!");
}
void *malloc(size_t size) { return is_refused_growth() ? NULL : NEXT(malloc)(size); }
void *realloc(void *block, size_t size) { return is_refused_growth() ? NULL : NEXT(realloc)(block, size); }

static void tell_of_sending(const unsigned char *bytes, size_t count) { TELL("send %02x%02x\n", count > 3 ? bytes[2] : 0, count > 3 ? bytes[3] : 0); }
static const char *last_part(const char *path) { return strrchr(path, '/') ? strrchr(path, '/') + 1 : path; }

// What is open there: a path, or 'socket:[N]' and the like. (A new one each time, in the same place.)
static const char *open_at(int file) {
    static char link[40], path[PATH_MAX];
    snprintf(link, sizeof link, "/proc/self/fd/%d", file);
    ssize_t length = readlink(link, path, sizeof path - 1);
    path[length < 0 ? 0 : length] = 0;
    return path;
}

ssize_t write(int file, const void *bytes, size_t count) {
    static long writes;
    int turn = file == STDOUT_FILENO ? turn_of("REFUSED_WRITE", &writes) : 0;
    if (turn == 1) return refused(EAGAIN, "!");
    if (turn == 2) NEXT(write)(9, "+", 1);
    const char *path = file > 2 && file != 9 && getenv("WATCHED") ? open_at(file) : "", *text = getenv("REFUSED_TEXT");
    if (*path == '/' && text && memmem(bytes, count, text, strlen(text))) return refused(ENOSPC, "refused\n");
    static long files;
    if (*path == '/' && getenv("INTERRUPTED") && ++files % 2) return refused(EINTR, "interrupted\n");
    if (*path == '/') TELL("write %s\n", last_part(path));
    if (!strncmp(path, "socket:", 7)) tell_of_sending(bytes, count);
    const char *row = getenv("KILL_ROW");
    ACT_OF(*path == '/' && row && memmem(bytes, count, row, strlen(row)), ssize_t, write, file, bytes, SOME(count));
}

ssize_t read(int file, void *bytes, size_t count) {
    static long reads;
    if (getenv("REFUSED_READ") && *open_at(file) == '/' && turn_of("REFUSED_READ", &reads) == 1) return refused(getenv("INTERRUPTED") ? EINTR : EIO, "!");
    return NEXT(read)(file, bytes, count);
}

ssize_t __write(int file, const void *bytes, size_t count) { return write(file, bytes, count); }

ssize_t send(int socket, const void *bytes, size_t count, int flags) {
    tell_of_sending(bytes, count);
    ACT(ssize_t, send, socket, bytes, SOME(count), flags);
}

ssize_t sendto(int socket, const void *bytes, size_t count, int flags, const struct sockaddr *to, socklen_t length) {
    tell_of_sending(bytes, count);
    return NEXT(sendto)(socket, bytes, count, flags, to, length);
}

ssize_t recv(int socket, void *bytes, size_t count, int flags) { ACT(ssize_t, recv, socket, bytes, count, flags); }
int connect(int socket, const struct sockaddr *to, socklen_t length) { ACT(int, connect, socket, to, length); }
int ftruncate(int file, off_t size) { ACT(int, ftruncate, file, size); }

int fsync(int file) {
    TELL("sync %s\n", last_part(open_at(file)));
    MAKES_SAFE(fsync, file);
}

int fdatasync(int file) {
    const char *slow = getenv("SLOW_SYNCS");
    TELL("sync %s\n", last_part(open_at(file)));
    if (slow) usleep(1000 * atoi(slow));
    MAKES_SAFE(fdatasync, file);
}

int rename(const char *file, const char *to) {
    const char *text = getenv("REFUSED_TEXT"), *end = text && strlen(to) >= strlen(text) ? to + strlen(to) - strlen(text) : NULL;
    if (end && !strcmp(end, text)) return refused(ENOSPC, "refused\n");
    TELL("rename %s %s\n", last_part(file), last_part(to));
    return NEXT(rename)(file, to);
}

int accept4(int socket, struct sockaddr *from, socklen_t *length, int flags) {
    return getenv("REFUSED_CONNECTIONS") ? (errno = EMFILE, -1) : NEXT(accept4)(socket, from, length, flags);
}

int flock(int file, int operation) { return getenv("REFUSED_LOCKS") ? (errno = ENOLCK, -1) : NEXT(flock)(file, operation); }
