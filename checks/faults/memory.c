/* Memory between unreadable pages, and what is told of a call that breaks something. */
#define _GNU_SOURCE
#include "faults.h"
#include <inttypes.h>
#include <signal.h>
#include <stdio.h>
#include <stdlib.h>
#include <string.h>
#include <sys/mman.h>
#include <unistd.h>

#define PAGES 65536 /* a multiple of every page size */
#define WATCHED 64
#define SHOWN 64

enum pass pass;
struct call call;
const char *repeat = "";

static void need(bool good, const char *what)
{
    if (!good) {
        perror(what);
        exit(2);
    }
}

void make_arena(struct arena *arena, size_t size, bool writable)
{
    size = (size + WATCHED + PAGES - 1) / PAGES * PAGES;
    int file = memfd_create("faults", 0);
    need(file >= 0 && ftruncate(file, (off_t)size) == 0, "memfd_create");
    uint8_t *whole = mmap(NULL, size + 2 * PAGES, PROT_NONE, MAP_PRIVATE | MAP_ANONYMOUS, -1, 0);
    need(whole != MAP_FAILED, "mmap");
    arena->lent = mmap(whole + PAGES, size, PROT_READ | PROT_WRITE, MAP_SHARED | MAP_FIXED, file, 0);
    arena->mine = mmap(NULL, size, PROT_READ | PROT_WRITE, MAP_SHARED, file, 0);
    need(arena->lent != MAP_FAILED && arena->mine != MAP_FAILED, "mmap");
    need(writable || mprotect(arena->lent, size, PROT_READ) == 0, "mprotect");
    arena->size = size;
    close(file);
}

struct slice lend(const struct arena *arena, const char *name, size_t length, size_t width)
{
    size_t bytes = length * width, free = arena->size - bytes;
    size_t at = pass == ENDS ? free : 0, beside = free < WATCHED ? free : WATCHED;
    struct slice slice = { name, arena->lent + at, arena->mine + at, length, width, 0, 0 };
    if (pass == ENDS)
        slice.before = beside;
    else
        slice.after = beside;
    return slice;
}

struct slice lend_copy(const struct arena *arena, const char *name, const void *from, size_t length, size_t width)
{
    struct slice slice = lend(arena, name, length, width);
    if (length > 0)
        memcpy(slice.mine, from, length * width);
    return slice;
}

void fill(const struct slice *slice, uint8_t byte)
{
    uint8_t *from = (uint8_t *)slice->mine - slice->before;
    memset(from, byte, slice->before + slice->length * slice->width + slice->after);
}

static bool all(const uint8_t *from, size_t count, uint8_t byte)
{
    return count == 0 || (*from == byte && memcmp(from, from + 1, count - 1) == 0);
}

bool untouched(const struct slice *slice, uint8_t byte, size_t from, size_t to)
{
    const uint8_t *bytes = slice->mine;
    size_t rest = slice->length * slice->width - to * slice->width + slice->after;
    return all(bytes - slice->before, slice->before + from * slice->width, byte)
        && all(bytes + to * slice->width, rest, byte);
}

static uint64_t float_bits(double value)
{
    uint64_t its;
    memcpy(&its, &value, sizeof its);
    return its;
}

static void tell(const char *what)
{
    fprintf(stderr, "%s\ncall %" PRIu64 ", scene %" PRIu64 ": %s\n", what, call.number, call.scene,
            call.name ? call.name : "none");
    fprintf(stderr, "repeat: %s %" PRIu64 "\n", repeat, call.scene);
    if (!call.name)
        return;
    const uint64_t *word = call.words;
    for (const char *label = call.labels; *label; word++) {
        int size = (int)strcspn(label, " ");
        fprintf(stderr, "  %.*s %" PRIu64 "\n", size, label, *word);
        label += size + (label[size] == ' ');
    }
    for (size_t i = 0; i < call.slice_count; i++) {
        const struct slice *s = &call.slices[i];
        const uint8_t *bytes = s->mine;
        size_t count = s->length * s->width;
        fprintf(stderr, "  %s: %zu at %p:", s->name, s->length, s->lent);
        for (size_t at = 0; at < count && at < SHOWN; at++)
            fprintf(stderr, "%s%02x", at % s->width ? "" : " ", bytes[at]);
        fprintf(stderr, count > SHOWN ? " ..\n" : "\n");
    }
    for (size_t i = 0; i < call.centre_count; i++) {
        const xew_centre *c = &call.centres[i];
        fprintf(stderr, "  centre %" PRIx64 " %" PRIx64 " %" PRIx64 " %" PRIx64 " %" PRIu32 "\n", float_bits(c->x),
                float_bits(c->y), float_bits(c->z), float_bits(c->exponent), c->charge);
    }
    for (size_t i = 0; i < call.primitive_count; i++) {
        const xew_primitive *p = &call.primitives[i];
        const xew_centre *c = &p->centre;
        fprintf(stderr, "  primitive %" PRIx64 " %" PRIx64 " %" PRIx64 " %" PRIx64 " %" PRIu32 " %" PRIx64 " %" PRIx64 "\n",
                float_bits(c->x), float_bits(c->y), float_bits(c->z), float_bits(c->exponent), c->charge,
                float_bits(p->norm), float_bits(p->coefficient));
    }
    if (call.has_aux)
        fprintf(stderr, "  aux %" PRIx64 "\n", float_bits(call.aux));
}

void fail(const char *what)
{
    static volatile sig_atomic_t failing;
    if (!failing) {
        failing = 1;
        tell(what);
    }
    _exit(1);
}

/* The emulator may enter a handler with a stack that is not aligned. */
__attribute__((force_align_arg_pointer)) static void on_signal(int number)
{
    fail(number == SIGALRM ? "a call that does not end" : strsignal(number));
}

static void on_report(void)
{
    tell("a report of the checker");
}

/* Of the checkers' own library, where there is one. */
__attribute__((weak)) void __sanitizer_set_death_callback(void (*callback)(void));

void catch_faults(void)
{
    static uint8_t spare[65536];
    stack_t stack = { .ss_sp = spare, .ss_size = sizeof spare };
    need(sigaltstack(&stack, NULL) == 0, "sigaltstack");
    struct sigaction action = { .sa_handler = on_signal, .sa_flags = SA_ONSTACK };
    const int signals[] = { SIGSEGV, SIGBUS, SIGILL, SIGFPE, SIGABRT, SIGTRAP, SIGALRM };
    for (size_t i = 0; i < sizeof signals / sizeof *signals; i++)
        need(sigaction(signals[i], &action, NULL) == 0, "sigaction");
    if (__sanitizer_set_death_callback)
        __sanitizer_set_death_callback(on_report);
}
