/* A library to preload into a desk. It counts the calls by which the desk changes its folder or sends answers, writes down
 * what they did, and lets one of them die or fail, so that the desk itself has no line for drills.
 *
 *     DRILL_FOLDER   the folder, as an absolute path without links; nothing else is counted but what goes to sockets
 *     DRILL_TRACE    a file, outside the folder, that gets an event for each call
 *     DRILL_AT       which of the counted calls, from 1 on, is the one; none if it is not set
 *     DRILL_HOW      before, half or after: the process kills itself there; a number: the call fails with this errno
 *     DRILL_LASTING  if it is set, all counted calls from there on fail
 *     DRILL_OPS      the letters of the calls that are counted; all if it is not set
 *     DRILL_NAME     with what the names of files that are counted begin; all if it is not set
 *
 * An event: a letter, the length of the name (1 byte), the name, a number (8 bytes), the length of the data (4), the data.
 *
 *     C  a file is opened and may be made; the number is 1 if it is cut to nothing
 *     W  data is written; the number is where
 *     T  a file is cut or stretched; the number is its length
 *     S  a file is synced
 *     R  a file is renamed; the data is its new name
 *     U  a file is removed
 *     D  the folder is synced
 *     A  data is sent to a client; the number says which, by the order in which they were accepted, from 1 on
 *     F  a call was made to fail; the data is its letter
 */
#define _GNU_SOURCE
#include <dlfcn.h>
#include <errno.h>
#include <fcntl.h>
#include <pthread.h>
#include <signal.h>
#include <stdarg.h>
#include <stdint.h>
#include <stdlib.h>
#include <string.h>
#include <sys/socket.h>
#include <sys/stat.h>
#include <unistd.h>

enum { MOST_FILES = 65536 };
enum fault { NONE, BEFORE, HALF, AFTER, FAIL };

static pthread_mutex_t one_by_one = PTHREAD_MUTEX_INITIALIZER;
static const char *folder, *ops, *names;
static size_t folder_length;
static long due, counted;
static int how, failure, lasting, trace = -1;
static uint64_t accepted, client[MOST_FILES];

#define REAL(name) ((__typeof__(&name))real(#name))

/* The function that is called if this library is not there. */
static void *real(const char *name) {
    return dlsym(RTLD_NEXT, name);
}

__attribute__((constructor)) static void begin(void) {
    const char *at = getenv("DRILL_AT"), *which = getenv("DRILL_HOW"), *path = getenv("DRILL_TRACE");
    folder = getenv("DRILL_FOLDER");
    folder_length = folder ? strlen(folder) : 0;
    ops = getenv("DRILL_OPS");
    names = getenv("DRILL_NAME");
    lasting = getenv("DRILL_LASTING") != NULL;
    due = at ? atol(at) : 0;
    if (which) {
        failure = atoi(which);
        how = failure ? FAIL : !strcmp(which, "before") ? BEFORE : !strcmp(which, "half") ? HALF : AFTER;
    }
    if (path)
        trace = REAL(open64)(path, O_WRONLY | O_CREAT | O_APPEND | O_CLOEXEC, 0600);
}

/* The name in the folder that a path has, "." for the folder itself; NULL for a path elsewhere. */
static const char *inside(const char *path) {
    if (!folder || strncmp(path, folder, folder_length) || (path[folder_length] && path[folder_length] != '/'))
        return NULL;
    return path[folder_length] && path[folder_length + 1] ? path + folder_length + 1 : ".";
}

/* The name of an open file in the folder. */
static const char *name_of(int fd, char path[4096]) {
    char link[64] = "/proc/self/fd/", digits[16];
    int length = 0, at = 14;
    for (unsigned rest = (unsigned)fd; length == 0 || rest; rest /= 10)
        digits[length++] = (char)('0' + rest % 10);
    while (length)
        link[at++] = digits[--length];
    ssize_t got = readlink(link, path, 4095);
    if (got < 0)
        return NULL;
    path[got] = 0;
    return inside(path);
}

static int is_socket(int fd) {
    struct stat status;
    return fstat(fd, &status) == 0 && S_ISSOCK(status.st_mode);
}

static void put(const void *data, size_t length) {
    for (const char *next = data; length;) {
        ssize_t done = REAL(write)(trace, next, length);
        if (done <= 0)
            return;
        next += done;
        length -= (size_t)done;
    }
}

static void note(char op, const char *name, uint64_t number, const void *data, size_t length) {
    int kept = errno;
    unsigned char size = (unsigned char)strnlen(name, 255);
    uint32_t bytes = (uint32_t)length;
    if (trace < 0)
        return;
    put(&op, 1);
    put(&size, 1);
    put(name, size);
    put(&number, 8);
    put(&bytes, 4);
    put(data, length);
    errno = kept;
}

static void die(void) {
    kill(getpid(), SIGKILL);
    for (;;)
        pause();
}

/* Begins a call, which `finish` ends: what is to happen to it. A call that is to fail is over. */
static enum fault start(char op, const char *name) {
    pthread_mutex_lock(&one_by_one);
    if ((ops && !strchr(ops, op)) || (names && strncmp(name, names, strlen(names))))
        return NONE;
    counted++;
    if (!due || (lasting ? counted < due : counted != due))
        return NONE;
    if (how == BEFORE || (how == HALF && op != 'W' && op != 'A'))
        die();
    if (how == FAIL) {
        note('F', name, 0, &op, 1);
        pthread_mutex_unlock(&one_by_one);
        errno = failure;
    }
    return how;
}

static void finish(enum fault fault) {
    if (fault != NONE)
        die();
    pthread_mutex_unlock(&one_by_one);
}

static ssize_t write_file(int fd, const char *name, const void *data, size_t length, off64_t at) {
    enum fault fault = start('W', name);
    if (fault == FAIL)
        return -1;
    ssize_t done = REAL(pwrite64)(fd, data, fault == HALF ? length / 2 : length, at);
    if (done > 0)
        note('W', name, (uint64_t)at, data, (size_t)done);
    finish(fault);
    return done;
}

static ssize_t write_client(int fd, const void *data, size_t length, int flags) {
    enum fault fault = start('A', "");
    if (fault == FAIL)
        return -1;
    ssize_t done = REAL(send)(fd, data, fault == HALF ? length / 2 : length, flags);
    if (done > 0)
        note('A', "", fd < MOST_FILES ? client[fd] : 0, data, (size_t)done);
    finish(fault);
    return done;
}

ssize_t pwrite64(int fd, const void *data, size_t length, off64_t at) {
    char path[4096];
    const char *name = name_of(fd, path);
    return name ? write_file(fd, name, data, length, at) : REAL(pwrite64)(fd, data, length, at);
}

ssize_t pwrite(int fd, const void *data, size_t length, off_t at) {
    return pwrite64(fd, data, length, at);
}

ssize_t write(int fd, const void *data, size_t length) {
    char path[4096];
    if (is_socket(fd))
        return write_client(fd, data, length, 0);
    const char *name = name_of(fd, path);
    if (!name)
        return REAL(write)(fd, data, length);
    off64_t at = lseek64(fd, 0, SEEK_CUR);
    ssize_t done = write_file(fd, name, data, length, at);
    if (done > 0)
        lseek64(fd, at + done, SEEK_SET);
    return done;
}

ssize_t send(int fd, const void *data, size_t length, int flags) {
    return write_client(fd, data, length, flags);
}

static int opened(int fd) {
    if (fd >= 0 && fd < MOST_FILES)
        client[fd] = __atomic_add_fetch(&accepted, 1, __ATOMIC_RELAXED);
    return fd;
}

int accept4(int fd, struct sockaddr *address, socklen_t *length, int flags) {
    return opened(REAL(accept4)(fd, address, length, flags));
}

int accept(int fd, struct sockaddr *address, socklen_t *length) {
    return opened(REAL(accept)(fd, address, length));
}

int open64(const char *path, int flags, ...) {
    va_list more;
    va_start(more, flags);
    mode_t mode = flags & O_CREAT ? va_arg(more, mode_t) : 0;
    va_end(more);
    const char *name = flags & (O_CREAT | O_TRUNC) ? inside(path) : NULL;
    if (!name)
        return REAL(open64)(path, flags, mode);
    enum fault fault = start('C', name);
    if (fault == FAIL)
        return -1;
    int fd = REAL(open64)(path, flags, mode);
    if (fd >= 0)
        note('C', name, (flags & O_TRUNC) != 0, NULL, 0);
    finish(fault);
    return fd;
}

int open(const char *path, int flags, ...) {
    va_list more;
    va_start(more, flags);
    mode_t mode = flags & O_CREAT ? va_arg(more, mode_t) : 0;
    va_end(more);
    return open64(path, flags, mode);
}

static int sync_file(int fd, int data_only) {
    char path[4096];
    const char *name = name_of(fd, path);
    int whole = name && !strcmp(name, ".");
    enum fault fault = NONE;
    if (name && (fault = start(whole ? 'D' : 'S', name)) == FAIL)
        return -1;
    int done = data_only ? REAL(fdatasync)(fd) : REAL(fsync)(fd);
    if (!name)
        return done;
    if (done == 0)
        note(whole ? 'D' : 'S', name, 0, NULL, 0);
    finish(fault);
    return done;
}

int fdatasync(int fd) {
    return sync_file(fd, 1);
}

int fsync(int fd) {
    return sync_file(fd, 0);
}

int ftruncate64(int fd, off64_t length) {
    char path[4096];
    const char *name = name_of(fd, path);
    if (!name)
        return REAL(ftruncate64)(fd, length);
    enum fault fault = start('T', name);
    if (fault == FAIL)
        return -1;
    int done = REAL(ftruncate64)(fd, length);
    if (done == 0)
        note('T', name, (uint64_t)length, NULL, 0);
    finish(fault);
    return done;
}

int ftruncate(int fd, off_t length) {
    return ftruncate64(fd, length);
}

int rename(const char *from, const char *to) {
    const char *name = inside(from), *new_name = inside(to);
    if (!name || !new_name)
        return REAL(rename)(from, to);
    enum fault fault = start('R', name);
    if (fault == FAIL)
        return -1;
    int done = REAL(rename)(from, to);
    if (done == 0)
        note('R', name, 0, new_name, strlen(new_name));
    finish(fault);
    return done;
}

int unlink(const char *path) {
    const char *name = inside(path);
    if (!name)
        return REAL(unlink)(path);
    enum fault fault = start('U', name);
    if (fault == FAIL)
        return -1;
    int done = REAL(unlink)(path);
    if (done == 0)
        note('U', name, 0, NULL, 0);
    finish(fault);
    return done;
}
