/* Preloaded by tools/try-disk: numbers the program's calls over the files of one folder, and has one of them fail, come short
   or be the last one. Which one stands in a file that the tool and the program share. */
#define _GNU_SOURCE
#include <errno.h>
#include <fcntl.h>
#include <signal.h>
#include <stdarg.h>
#include <stdlib.h>
#include <string.h>
#include <sys/epoll.h>
#include <sys/mman.h>
#include <sys/stat.h>
#include <sys/syscall.h>
#include <unistd.h>

enum { FILES = 1024, MOST_CALLS = 8192 };
/* the last two trouble calls that have no number: each chmod, and each wait for the network */
enum way { FAIL = 1, SHORT, TORN, KILLED_BEFORE, KILLED_AFTER, STOPPED_AT_MODE, NO_NETWORK };

static struct plan {
    long at, way, error;  /* the call that is troubled, how, and its errno where it fails; -1: none any more */
    long calls;
    char kinds[MOST_CALLS];  /* a letter for each call so far */
} *plan;

static const char *folder;
static char is_ours[FILES];

__attribute__((constructor)) static void begin(void) {
    const char *path = getenv("TRY_PLAN");
    folder = getenv("TRY_FOLDER");
    int file = path ? syscall(SYS_openat, AT_FDCWD, path, O_RDWR | O_CLOEXEC) : -1;
    if (file < 0) return;
    void *shared = mmap(NULL, sizeof *plan, PROT_READ | PROT_WRITE, MAP_SHARED, file, 0);
    syscall(SYS_close, file);
    if (shared != MAP_FAILED) plan = shared;
}

static void stop(void) { syscall(SYS_kill, getpid(), SIGKILL); }

/* How this call is troubled; 0 where it goes its way. */
static enum way trouble(char kind) {
    if (!plan || plan->at < 0) return 0;
    long number = plan->calls++;
    if (number < MOST_CALLS) plan->kinds[number] = kind;
    if (number + 1 != plan->at) return 0;
    if (plan->way == KILLED_BEFORE) stop();
    if (plan->way == FAIL) errno = plan->error;
    return plan->way;
}

static int is_of_folder(const char *path) { return folder && strncmp(path, folder, strlen(folder)) == 0; }
static int is_file_of_folder(int file) { return file >= 0 && file < FILES && is_ours[file]; }

/* A call without a count of bytes: it is made unless it fails. */
#define WHOLE(kind, call) \
    enum way way = trouble(kind); \
    if (way == FAIL) return -1; \
    long done = (call); \
    if (way == KILLED_AFTER) stop(); \
    return done

/* A call that gives or takes `size` bytes: of a short or torn one the first half. */
#define COUNTED(kind, call) \
    enum way way = trouble(kind); \
    if (way == FAIL) return -1; \
    if ((way == SHORT || way == TORN) && size > 1) size /= 2; \
    long done = (call); \
    if (way == TORN || way == KILLED_AFTER) stop(); \
    return done

static int opened(const char *path, int flags, mode_t mode) {
    int file = syscall(SYS_openat, AT_FDCWD, path, flags, mode);
    if (file >= 0 && file < FILES) is_ours[file] = is_of_folder(path);
    return file;
}

int open(const char *path, int flags, ...) {
    va_list more;
    va_start(more, flags);
    mode_t mode = flags & O_CREAT ? va_arg(more, mode_t) : 0;
    va_end(more);
    if (!is_of_folder(path)) return opened(path, flags, mode);
    WHOLE('o', opened(path, flags, mode));
}

int close(int file) {
    if (!is_file_of_folder(file)) return syscall(SYS_close, file);
    is_ours[file] = 0;
    enum way way = trouble('c');
    int done = syscall(SYS_close, file);
    if (way == KILLED_AFTER) stop();
    if (way == FAIL) errno = plan->error;
    return way == FAIL ? -1 : done;
}

ssize_t read(int file, void *bytes, size_t size) {
    if (!is_file_of_folder(file)) return syscall(SYS_read, file, bytes, size);
    COUNTED('r', syscall(SYS_read, file, bytes, size));
}

ssize_t pread(int file, void *bytes, size_t size, off_t at) {
    if (!is_file_of_folder(file)) return syscall(SYS_pread64, file, bytes, size, at);
    COUNTED('r', syscall(SYS_pread64, file, bytes, size, at));
}

ssize_t write(int file, const void *bytes, size_t size) {
    if (!is_file_of_folder(file)) return syscall(SYS_write, file, bytes, size);
    COUNTED('w', syscall(SYS_write, file, bytes, size));
}

ssize_t pwrite(int file, const void *bytes, size_t size, off_t at) {
    if (!is_file_of_folder(file)) return syscall(SYS_pwrite64, file, bytes, size, at);
    COUNTED('w', syscall(SYS_pwrite64, file, bytes, size, at));
}

int fsync(int file) {
    if (!is_file_of_folder(file)) return syscall(SYS_fsync, file);
    WHOLE('s', syscall(SYS_fsync, file));
}

int fdatasync(int file) {
    if (!is_file_of_folder(file)) return syscall(SYS_fdatasync, file);
    WHOLE('s', syscall(SYS_fdatasync, file));
}

int ftruncate(int file, off_t size) {
    if (!is_file_of_folder(file)) return syscall(SYS_ftruncate, file, size);
    WHOLE('t', syscall(SYS_ftruncate, file, size));
}

int flock(int file, int what) {
    if (!is_file_of_folder(file)) return syscall(SYS_flock, file, what);
    WHOLE('l', syscall(SYS_flock, file, what));
}

int fcntl(int file, int what, ...) {
    va_list more;
    va_start(more, what);
    long value = va_arg(more, long);
    va_end(more);
    int is_lock = what == F_SETLK || what == F_SETLKW || what == F_OFD_SETLK || what == F_OFD_SETLKW;
    if (!is_lock || !is_file_of_folder(file)) return syscall(SYS_fcntl, file, what, value);
    WHOLE('l', syscall(SYS_fcntl, file, what, value));
}

int statx(int at, const char *path, int flags, unsigned mask, struct statx *found) {
    if (!is_of_folder(path) && !(*path == 0 && is_file_of_folder(at))) return syscall(SYS_statx, at, path, flags, mask, found);
    WHOLE('i', syscall(SYS_statx, at, path, flags, mask, found));
}

int chmod(const char *path, mode_t mode) {
    if (plan && plan->way == STOPPED_AT_MODE && is_of_folder(path)) syscall(SYS_kill, getpid(), SIGSTOP);
    return syscall(SYS_chmod, path, mode);
}

int epoll_wait(int poll, struct epoll_event *events, int most, int timeout) {
    if (!plan || plan->way != NO_NETWORK) return syscall(SYS_epoll_wait, poll, events, most, timeout);
    errno = plan->error;
    return -1;
}
