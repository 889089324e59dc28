/* Stands in front of the C library's malloc, calloc and realloc, and refuses one call of them: the
   one whose number, from 1 on, REFUSE gives; 0 refuses none. REFUSE_THREAD does so to a start of a
   thread. As the program ends it appends to the file that REFUSE_COUNT names how many calls there
   were, how many threads were started, and how many of these had ended. */
#define _GNU_SOURCE
#include <dlfcn.h>
#include <errno.h>
#include <pthread.h>
#include <stdio.h>
#include <stdlib.h>

/* Blocks for dlsym itself, which may ask for one before the next malloc is known. */
static char early[4096];
static size_t early_used;
/* Threads count too. */
static _Atomic unsigned long calls;
static unsigned long refused, refused_thread;
/* What each thread is to do. */
static struct work { void *(*go)(void *); void *given; } works[64];
static _Atomic unsigned long asked, started, ended;
static void *(*next_malloc)(size_t), *(*next_realloc)(void *, size_t);
static void (*next_free)(void *);

static int is_early(void *block) {
    return (char *)block >= early && (char *)block < early + sizeof early;
}

static void *early_block(size_t size) {
    size_t at = early_used;
    size = (size + 15) & ~(size_t)15;
    if (size > sizeof early - at) return NULL;
    early_used += size;
    return early + at;
}

__attribute__((constructor)) static void begin(void) {
    const char *number = getenv("REFUSE"), *thread = getenv("REFUSE_THREAD");
    next_realloc = dlsym(RTLD_NEXT, "realloc");
    next_free = dlsym(RTLD_NEXT, "free");
    next_malloc = dlsym(RTLD_NEXT, "malloc");
    calls = 0;
    refused = number ? strtoul(number, NULL, 10) : 0;
    refused_thread = thread ? strtoul(thread, NULL, 10) : 0;
}

__attribute__((destructor)) static void end(void) {
    const char *name = getenv("REFUSE_COUNT");
    FILE *file;
    unsigned long counted = calls, begun = started, over = ended;
    if (!name || !(file = fopen(name, "a"))) return;
    fprintf(file, "%lu %lu %lu\n", counted, begun, over);
    fclose(file);
}

/* The program may end so, which runs no destructor. */
__attribute__((noreturn)) void _exit(int status) {
    void (*next_exit)(int) = dlsym(RTLD_NEXT, "_exit");
    end();
    next_exit(status);
    __builtin_unreachable();
}

static int is_refused(void) {
    if (++calls != refused) return 0;
    errno = ENOMEM;
    return 1;
}

void *malloc(size_t size) {
    if (!next_malloc) return early_block(size);
    return is_refused() ? NULL : next_malloc(size);
}

void *realloc(void *block, size_t size) {
    if (!next_realloc || is_early(block)) return NULL;
    return is_refused() ? NULL : next_realloc(block, size);
}

void free(void *block) {
    if (next_free && !is_early(block)) next_free(block);
}

static void *make(void *at) {
    struct work *work = at;
    void *got = work->go(work->given);
    ended++;
    return got;
}

int pthread_create(pthread_t *thread, const pthread_attr_t *how, void *(*go)(void *), void *given) {
    int (*next_create)(pthread_t *, const pthread_attr_t *, void *(*)(void *), void *) =
        dlsym(RTLD_NEXT, "pthread_create");
    unsigned long number = ++asked;
    if (number == refused_thread || number > sizeof works / sizeof *works) return EAGAIN;
    works[number - 1] = (struct work){go, given};
    int fault = next_create(thread, how, make, &works[number - 1]);
    if (!fault) started++;
    return fault;
}
