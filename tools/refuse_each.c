// Refuses memory or threads to the program that is started with this library in LD_PRELOAD, and counts what it asked for since its main
// began. Built by tools/refuse_each. The counts stand in a file that both have mapped, so they are there however the program ends.
#define _GNU_SOURCE
#include <dlfcn.h>
#include <errno.h>
#include <fcntl.h>
#include <pthread.h>
#include <stdlib.h>
#include <sys/mman.h>

extern void *__libc_malloc(size_t), *__libc_calloc(size_t, size_t), *__libc_realloc(void *, size_t), *__libc_memalign(size_t, size_t);

struct report { unsigned begun, growths, refused, threads, unmade; };
struct range { unsigned first, last; };
typedef int program(int, char **, char **);

static struct report *report;
static struct range growths, threads;
static program *program_main;

static unsigned number(const char *name) {
    const char *text = getenv(name);
    return text ? (unsigned)strtoul(text, 0, 10) : 0;
}

static int is_refused(unsigned *count, unsigned *refused, struct range range) {
    unsigned at = __atomic_add_fetch(count, 1, __ATOMIC_SEQ_CST);
    if (at < range.first || at > range.last) return 0;
    __atomic_add_fetch(refused, 1, __ATOMIC_SEQ_CST);
    return 1;
}

static int has_no_memory(void) {
    if (!report || !report->begun || !is_refused(&report->growths, &report->refused, growths)) return 0;
    errno = ENOMEM;
    return 1;
}

void *malloc(size_t size) { return has_no_memory() ? 0 : __libc_malloc(size); }
void *calloc(size_t count, size_t size) { return has_no_memory() ? 0 : __libc_calloc(count, size); }
void *realloc(void *block, size_t size) { return has_no_memory() ? 0 : __libc_realloc(block, size); }
void *aligned_alloc(size_t alignment, size_t size) { return has_no_memory() ? 0 : __libc_memalign(alignment, size); }

int posix_memalign(void **block, size_t alignment, size_t size) {
    return has_no_memory() || !(*block = __libc_memalign(alignment, size)) ? ENOMEM : 0;
}

int pthread_create(pthread_t *thread, const pthread_attr_t *attributes, void *(*start)(void *), void *argument) {
    int (*next)(pthread_t *, const pthread_attr_t *, void *(*)(void *), void *) = dlsym(RTLD_NEXT, "pthread_create");
    if (report && is_refused(&report->threads, &report->unmade, threads)) return EAGAIN;
    return next(thread, attributes, start, argument);
}

static int counted_main(int count, char **words, char **environment) {
    int file = open(getenv("REFUSE_REPORT"), O_RDWR | O_CLOEXEC);
    void *mapped = mmap(0, sizeof *report, PROT_READ | PROT_WRITE, MAP_SHARED, file, 0);
    if (file < 0 || mapped == MAP_FAILED) exit(120);
    growths = (struct range){number("REFUSE_FIRST"), number("REFUSE_LAST")};
    threads = (struct range){number("REFUSE_THREAD"), -1u};
    if (!threads.first) threads.last = 0;
    report = mapped;
    report->begun = 1;
    return program_main(count, words, environment);
}

int __libc_start_main(program *begin, int count, char **words, void (*init)(void), void (*fini)(void), void (*loader_fini)(void), void *end) {
    int (*next)(program *, int, char **, void (*)(void), void (*)(void), void (*)(void), void *) = dlsym(RTLD_NEXT, "__libc_start_main");
    program_main = begin;
    return next(counted_main, count, words, init, fini, loader_fini, end);
}
