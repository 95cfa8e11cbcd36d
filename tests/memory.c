/* Preloaded by tools/try-memory: counts the program's requests for memory, and refuses some of them.
   What is refused stands in a file that the tool and the program share. */
#define _GNU_SOURCE
#include <errno.h>
#include <fcntl.h>
#include <stdlib.h>
#include <sys/mman.h>
#include <sys/socket.h>
#include <sys/syscall.h>
#include <unistd.h>

extern void *__libc_malloc(size_t), *__libc_calloc(size_t, size_t), *__libc_realloc(void *, size_t), *__libc_memalign(size_t, size_t);

static struct plan {
    long from;         /* how many connections are taken before anything is counted */
    long first, last;  /* the requests from first to last are refused */
    long requests, refused;
} *plan;

static void *map(size_t size, int flags, int file) {
    return (void *)syscall(SYS_mmap, NULL, size, PROT_READ | PROT_WRITE, flags, file, 0);
}

__attribute__((constructor)) static void begin(void) {
    const char *path = getenv("TRY_PLAN");
    int file = path ? open(path, O_RDWR | O_CLOEXEC) : -1;
    void *shared = file < 0 ? MAP_FAILED : map(sizeof *plan, MAP_SHARED, file);
    if (file >= 0) close(file);
    if (shared != MAP_FAILED) plan = shared;
}

static int is_refused(void) {
    if (!plan || plan->from > 0) return 0;
    long number = ++plan->requests;
    if (number < plan->first || number > plan->last) return 0;
    plan->refused++;
    errno = ENOMEM;
    return 1;
}

void *malloc(size_t size) { return is_refused() ? NULL : __libc_malloc(size); }
void *calloc(size_t count, size_t size) { return is_refused() ? NULL : __libc_calloc(count, size); }
void *realloc(void *old, size_t size) { return is_refused() ? NULL : __libc_realloc(old, size); }
void *memalign(size_t align, size_t size) { return is_refused() ? NULL : __libc_memalign(align, size); }
void *aligned_alloc(size_t align, size_t size) { return memalign(align, size); }

int posix_memalign(void **into, size_t align, size_t size) {
    void *got = memalign(align, size);
    if (!got) return ENOMEM;
    *into = got;
    return 0;
}

void *mmap(void *at, size_t size, int rights, int flags, int file, off_t offset) {
    if ((flags & MAP_ANONYMOUS) && is_refused()) return MAP_FAILED;
    return (void *)syscall(SYS_mmap, at, size, rights, flags, file, offset);
}

int accept4(int socket, struct sockaddr *peer, socklen_t *length, int flags) {
    int taken = syscall(SYS_accept4, socket, peer, length, flags);
    if (taken >= 0 && plan && plan->from > 0) plan->from--;
    return taken;
}
