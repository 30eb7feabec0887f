/* Runs each call of the library in a thread that has as much stack as include/kollafrin.h says that the call takes, and what the thread
 * takes itself, with a page below it that nobody may touch; and says the most that was used. Then every call with null pointers and
 * lengths of 0, and all calls in several threads at once, each on stores of its own.
 *
 *     cc -std=c99 -O2 -pthread -Iinclude tools/stack.c target/staticlib/libkollafrin.a -o target/stack
 *     target/stack MODULE..
 *
 * tools/stack builds and runs it. The exit status is 0 where all is as the header says.
 */
#define _DEFAULT_SOURCE
#include "kollafrin.h"

#include <limits.h>
#include <pthread.h>
#include <stdio.h>
#include <stdlib.h>
#include <string.h>
#include <sys/mman.h>
#include <unistd.h>

/* The longest short module; what a stack is filled with; the bytes next below a call, which count as used; threads at once, and how often
 * each goes through all modules. */
enum { SHORT = 16384, FILLED = 0xa5, MARGIN = 256, THREADS = 4, ROUNDS = 50 };

static void expect(int holds, const char *what) {
    if (!holds) {
        printf("stack: %s\n", what);
        exit(1);
    }
}

static void *room(size_t n) {
    void *p = calloc(n + 1, 1);
    expect(p != NULL, "no memory");
    return p;
}

/* THE CALLS */

static uint8_t *grammar;
static size_t grammar_length;

/* What a call is lent, and what it says. */
struct lent {
    const uint8_t *module;
    size_t length, words;
    uint32_t *instructions, *types, *old, *back;
    uint8_t *log, *strings, *out;
    uint32_t load[16], answer[4];
    size_t number;
};

/* No text here is longer than so many times its module. */
enum { TEXT = 16 };

static struct lent lend(const uint8_t *module, size_t length) {
    struct lent x;
    memset(&x, 0, sizeof x);
    x.module = module;
    x.length = length;
    x.words = length < 20 ? 0 : length / 4 - 5;
    x.instructions = room(sizeof(uint32_t) * KOLLAFRIN_RECORD * x.words);
    x.log = room(9 * x.words);
    x.strings = room(4 * x.words);
    x.types = room(12 * x.words);
    x.old = room(sizeof(uint32_t) * KOLLAFRIN_OLD_RECORD * x.words);
    x.back = room(sizeof(uint32_t) * KOLLAFRIN_RECORD * x.words);
    x.out = room(TEXT * length + grammar_length);
    return x;
}

static void take_back(struct lent *x) {
    free(x->instructions);
    free(x->log);
    free(x->strings);
    free(x->types);
    free(x->old);
    free(x->back);
    free(x->out);
}

static void nothing(struct lent *x) { x->number = 0; }

static void version(struct lent *x) { x->number = kollafrin_version(); }

static void builtin(struct lent *x) { x->number = kollafrin_builtin(x->out, x->length + grammar_length); }

static void load(struct lent *x) {
    x->number = kollafrin_load(x->module, x->length, grammar, grammar_length, x->instructions, KOLLAFRIN_RECORD * x->words, x->log, 9 * x->words,
                               x->strings, 4 * x->words, x->types, 3 * x->words, x->load);
}

static void load_builtin(struct lent *x) {
    x->number = kollafrin_load_builtin(x->module, x->length, x->instructions, KOLLAFRIN_RECORD * x->words, x->log, 9 * x->words, x->strings,
                                       4 * x->words, x->types, 3 * x->words, x->load);
}

static void write_parse_order(struct lent *x) {
    x->number = kollafrin_write_parse_order(x->load + KOLLAFRIN_LOAD_HEADER, x->instructions, KOLLAFRIN_RECORD * x->words, x->log, 9 * x->words,
                                            x->strings, 4 * x->words, x->load[KOLLAFRIN_LOAD_INSTRUCTIONS],
                                            x->load[KOLLAFRIN_LOAD_LOG], x->load[KOLLAFRIN_LOAD_STRINGS], x->out, x->length, x->answer);
}

static void write_module_order(struct lent *x) {
    x->number = kollafrin_write_module_order(x->load + KOLLAFRIN_LOAD_HEADER, x->instructions, KOLLAFRIN_RECORD * x->words, x->log, 9 * x->words,
                                             x->strings, 4 * x->words, x->load[KOLLAFRIN_LOAD_INSTRUCTIONS],
                                             x->load[KOLLAFRIN_LOAD_LOG], x->load[KOLLAFRIN_LOAD_STRINGS], x->out, x->length, x->answer);
}

static void disassemble(struct lent *x) {
    x->number = kollafrin_disassemble(x->load + KOLLAFRIN_LOAD_HEADER, x->instructions, KOLLAFRIN_RECORD * x->words, x->log, 9 * x->words,
                                      x->strings, 4 * x->words, x->load[KOLLAFRIN_LOAD_INSTRUCTIONS], x->load[KOLLAFRIN_LOAD_LOG],
                                      x->load[KOLLAFRIN_LOAD_STRINGS], x->out, TEXT * x->length, x->answer);
}

static void standing(struct lent *x) {
    x->number = kollafrin_standing(x->instructions, KOLLAFRIN_RECORD * x->words, x->log, 9 * x->words, x->strings, 4 * x->words,
                                   x->load[KOLLAFRIN_LOAD_INSTRUCTIONS], x->load[KOLLAFRIN_LOAD_LOG], x->load[KOLLAFRIN_LOAD_STRINGS],
                                   x->answer);
}

/* The built-in grammar with itself, which is the longest union that is at hand. */
static void join(struct lent *x) {
    x->number = kollafrin_join(grammar, grammar_length, grammar, grammar_length, x->out, x->length + grammar_length, x->answer);
}

/* The records as an old book, and that as a new one again. */
static void old_book(struct lent *x) {
    x->number = kollafrin_old_book(x->instructions, KOLLAFRIN_RECORD * x->words, x->log, 9 * x->words, x->strings, 4 * x->words,
                                   x->load[KOLLAFRIN_LOAD_INSTRUCTIONS], x->load[KOLLAFRIN_LOAD_LOG], x->load[KOLLAFRIN_LOAD_STRINGS],
                                   x->old, KOLLAFRIN_OLD_RECORD * x->words, x->answer);
}

static void new_book(struct lent *x) {
    x->number = kollafrin_new_book(x->old, KOLLAFRIN_OLD_RECORD * x->words, x->log, 9 * x->words, x->strings, 4 * x->words,
                                   x->load[KOLLAFRIN_LOAD_INSTRUCTIONS], x->load[KOLLAFRIN_LOAD_LOG], x->load[KOLLAFRIN_LOAD_STRINGS],
                                   x->back, KOLLAFRIN_RECORD * x->words, x->answer);
}

struct call {
    const char *name;
    void (*make)(struct lent *);
    size_t said, most;
    unsigned runs;
};

enum {
    VERSION, BUILTIN, LOAD, LOAD_SHORT, LOAD_BUILTIN, LOAD_BUILTIN_SHORT, WRITE_PARSE_ORDER, WRITE_MODULE_ORDER, DISASSEMBLE, STANDING, JOIN,
    OLD_BOOK, NEW_BOOK, CALLS
};

static struct call calls[CALLS] = {
    {"kollafrin_version", version, KOLLAFRIN_STACK_VERSION, 0, 0},
    {"kollafrin_builtin", builtin, KOLLAFRIN_STACK_BUILTIN, 0, 0},
    {"kollafrin_load", load, KOLLAFRIN_STACK_LOAD, 0, 0},
    {"kollafrin_load, short module", load, KOLLAFRIN_STACK_LOAD_SHORT, 0, 0},
    {"kollafrin_load_builtin", load_builtin, KOLLAFRIN_STACK_LOAD_BUILTIN, 0, 0},
    {"kollafrin_load_builtin, short module", load_builtin, KOLLAFRIN_STACK_LOAD_BUILTIN_SHORT, 0, 0},
    {"kollafrin_write_parse_order", write_parse_order, KOLLAFRIN_STACK_WRITE_PARSE_ORDER, 0, 0},
    {"kollafrin_write_module_order", write_module_order, KOLLAFRIN_STACK_WRITE_MODULE_ORDER, 0, 0},
    {"kollafrin_disassemble", disassemble, KOLLAFRIN_STACK_DISASSEMBLE, 0, 0},
    {"kollafrin_standing", standing, KOLLAFRIN_STACK_STANDING, 0, 0},
    {"kollafrin_join", join, KOLLAFRIN_STACK_JOIN, 0, 0},
    {"kollafrin_old_book", old_book, KOLLAFRIN_STACK_OLD_BOOK, 0, 0},
    {"kollafrin_new_book", new_book, KOLLAFRIN_STACK_NEW_BOOK, 0, 0},
};

/* A THREAD WITH SO MUCH STACK */

struct run {
    void (*make)(struct lent *);
    struct lent *x;
    volatile uint8_t *stack;
    size_t used;
};

/* Fills the stack below the call, makes it, and looks how far down it went. */
static void *run(void *p) {
    struct run *r = p;
    volatile uint8_t here = 0;
    size_t i, depth = (uintptr_t)&here - (uintptr_t)r->stack;
    for (i = 0; i < depth - MARGIN; i++) r->stack[i] = FILLED;
    r->make(r->x);
    for (i = 0; i < depth - MARGIN && r->stack[i] == FILLED; i++) continue;
    r->used = depth - i;
    return NULL;
}

/* A call in a thread with a stack of so many bytes: how many the call used, and how many the thread did in all. */
static size_t used(void (*make)(struct lent *), struct lent *x, size_t bytes, size_t *in_all) {
    size_t page = (size_t)sysconf(_SC_PAGESIZE), whole = (bytes + page - 1) / page * page, i = 0;
    uint8_t *memory = mmap(NULL, page + whole, PROT_READ | PROT_WRITE, MAP_PRIVATE | MAP_ANONYMOUS, -1, 0);
    struct run r;
    pthread_attr_t with;
    pthread_t thread;
    expect(memory != MAP_FAILED && mprotect(memory, page, PROT_NONE) == 0, "no memory for a stack");
    memset(memory + page, FILLED, whole);
    r.make = make;
    r.x = x;
    r.stack = memory + page;
    r.used = 0;
    expect(pthread_attr_init(&with) == 0 && pthread_attr_setstack(&with, memory + page, bytes) == 0, "no such stack");
    expect(pthread_create(&thread, &with, run, &r) == 0 && pthread_join(thread, NULL) == 0, "no thread");
    pthread_attr_destroy(&with);
    while (i < bytes && memory[page + i] == FILLED) i++;
    *in_all = bytes - i;
    munmap(memory, page + whole);
    return r.used;
}

static size_t of_thread;

/* A call with the stack that the header says; it must not use more. */
static void hold(int which, struct lent *x) {
    struct call *c = &calls[which];
    size_t in_all, least = (size_t)PTHREAD_STACK_MIN, bytes = (of_thread + c->said + 15) / 16 * 16;
    size_t n = used(c->make, x, bytes < least ? least : bytes, &in_all);
    c->runs++;
    if (n > c->most) c->most = n;
    if (n > c->said) {
        printf("stack: %s: %zu bytes were used, and the header says %zu\n", c->name, n, c->said);
        exit(1);
    }
}

/* Every call on one module: what the loads leave is the same, parse order gives the module back, and so do the two turns its records. */
static void hold_all(const uint8_t *module, size_t length) {
    struct lent x = lend(module, length);
    uint32_t first[16];
    hold(length <= SHORT ? LOAD_BUILTIN_SHORT : LOAD_BUILTIN, &x);
    expect(x.number == KOLLAFRIN_ACCEPTED, "a module is not accepted");
    memcpy(first, x.load, sizeof first);
    hold(length <= SHORT ? LOAD_SHORT : LOAD, &x);
    expect(memcmp(first, x.load, sizeof first) == 0, "the two loads say different things");
    hold(STANDING, &x);
    expect(x.number == 0, "the records are not good");
    hold(DISASSEMBLE, &x);
    expect(x.number == 0 && memcmp(x.out, "; SPIR-V", 8) == 0, "the text is not written");
    hold(WRITE_MODULE_ORDER, &x);
    expect(x.number == 0, "module order is not written");
    hold(WRITE_PARSE_ORDER, &x);
    expect(x.number == 0 && x.answer[2] == length && memcmp(x.out, module, length) == 0, "parse order is not the module");
    hold(VERSION, &x);
    expect(x.number == KOLLAFRIN_VERSION, "the version is another one");
    hold(BUILTIN, &x);
    expect(x.number == grammar_length && memcmp(x.out, grammar, grammar_length) == 0, "the grammar is another one");
    hold(JOIN, &x);
    expect(x.number == 0 && x.answer[3] == grammar_length && memcmp(x.out, grammar, grammar_length) == 0, "the grammar joined with itself is not itself");
    hold(OLD_BOOK, &x);
    expect(x.number == 0 && x.answer[2] == x.load[KOLLAFRIN_LOAD_INSTRUCTIONS], "the records are not turned into an old book");
    hold(NEW_BOOK, &x);
    expect(x.number == 0 && memcmp(x.back, x.instructions, sizeof(uint32_t) * KOLLAFRIN_RECORD * x.answer[2]) == 0,
           "the old book is not turned into the records again");
    take_back(&x);
}

/* A module, with OpNoLine after it up to so many bytes. */
static void hold_longer(const uint8_t *module, size_t length, size_t bytes) {
    static const uint8_t no_line[4] = {0x3d, 0x01, 0x01, 0x00};
    uint8_t *longer = room(bytes);
    size_t at;
    memcpy(longer, module, length);
    for (at = length; at < bytes; at += 4) memcpy(longer + at, no_line, 4);
    hold_all(longer, bytes);
    free(longer);
}

/* NULL POINTERS */

static void hold_null(const uint8_t *module, size_t length) {
    static const uint32_t header[5] = {0x07230203, 0x00010000, 0, 0, 0};
    uint32_t load[16], answer[4];
    uint8_t out[20];
    expect(kollafrin_builtin(NULL, 0) == grammar_length, "null: kollafrin_builtin");
    expect(kollafrin_load_builtin(NULL, 0, NULL, 0, NULL, 0, NULL, 0, NULL, 0, load) == KOLLAFRIN_HEADER_INCOMPLETE, "null: no module");
    expect(kollafrin_load_builtin(module, 20, NULL, 0, NULL, 0, NULL, 0, NULL, 0, load) == KOLLAFRIN_ACCEPTED, "null: a header");
    expect(kollafrin_load_builtin(module, length, NULL, 0, NULL, 0, NULL, 0, NULL, 0, load) == KOLLAFRIN_NO_ROOM_INSTRUCTIONS,
           "null: a module");
    expect(kollafrin_load(NULL, 0, NULL, 0, NULL, 0, NULL, 0, NULL, 0, NULL, 0, load) == KOLLAFRIN_HEADER_INCOMPLETE,
           "null: no module, no grammar");
    expect(kollafrin_load(module, 20, NULL, 0, NULL, 0, NULL, 0, NULL, 0, NULL, 0, load) == KOLLAFRIN_ACCEPTED,
           "null: a header, no grammar");
    expect(kollafrin_load(module, length, NULL, 0, NULL, 0, NULL, 0, NULL, 0, NULL, 0, load) == KOLLAFRIN_OPCODE_UNKNOWN,
           "null: a module, no grammar");
    expect(kollafrin_load(module, length, grammar, grammar_length, NULL, 0, NULL, 0, NULL, 0, NULL, 0, load)
               == KOLLAFRIN_NO_ROOM_INSTRUCTIONS,
           "null: a module, a grammar");
    expect(kollafrin_write_parse_order(header, NULL, 0, NULL, 0, NULL, 0, 0, 0, 0, NULL, 0, answer) == KOLLAFRIN_OUTPUT_SHORT
               && kollafrin_write_parse_order(header, NULL, 0, NULL, 0, NULL, 0, 1, 1, 1, NULL, 0, answer) == KOLLAFRIN_BAD_RECORDS
               && kollafrin_write_parse_order(header, NULL, 0, NULL, 0, NULL, 0, 0, 0, 0, out, 20, answer) == 0 && answer[2] == 20,
           "null: kollafrin_write_parse_order");
    expect(kollafrin_write_module_order(header, NULL, 0, NULL, 0, NULL, 0, 0, 0, 0, NULL, 0, answer) == KOLLAFRIN_OUTPUT_SHORT
               && kollafrin_write_module_order(header, NULL, 0, NULL, 0, NULL, 0, 1, 1, 1, NULL, 0, answer) == KOLLAFRIN_BAD_RECORDS
               && kollafrin_write_module_order(header, NULL, 0, NULL, 0, NULL, 0, 0, 0, 0, out, 20, answer) == 0 && answer[2] == 20,
           "null: kollafrin_write_module_order");
    expect(kollafrin_disassemble(header, NULL, 0, NULL, 0, NULL, 0, 0, 0, 0, NULL, 0, answer) == KOLLAFRIN_TEXT_LONG
               && kollafrin_disassemble(header, NULL, 0, NULL, 0, NULL, 0, 1, 1, 1, NULL, 0, answer) == KOLLAFRIN_BAD_RECORDS,
           "null: kollafrin_disassemble");
    expect(kollafrin_standing(NULL, 0, NULL, 0, NULL, 0, 0, 0, 0, answer) == 0 && answer[2] == 0
               && kollafrin_standing(NULL, 0, NULL, 0, NULL, 0, 1, 1, 1, answer) == KOLLAFRIN_BAD_RECORDS,
           "null: kollafrin_standing");
    expect(kollafrin_join(NULL, 0, NULL, 0, NULL, 0, answer) == 0 && answer[3] == 0
               && kollafrin_join(grammar, grammar_length, NULL, 0, NULL, 0, answer) == KOLLAFRIN_JOINED_SHORT,
           "null: kollafrin_join");
    expect(kollafrin_new_book(NULL, 0, NULL, 0, NULL, 0, 0, 0, 0, NULL, 0, answer) == 0 && answer[2] == 0
               && kollafrin_new_book(NULL, 0, NULL, 0, NULL, 0, 1, 1, 1, NULL, 0, answer) == KOLLAFRIN_BAD_RECORDS
               && kollafrin_old_book(NULL, 0, NULL, 0, NULL, 0, 0, 0, 0, NULL, 0, answer) == 0 && answer[2] == 0
               && kollafrin_old_book(NULL, 0, NULL, 0, NULL, 0, 1, 1, 1, NULL, 0, answer) == KOLLAFRIN_BAD_RECORDS,
           "null: kollafrin_new_book, kollafrin_old_book");
}

/* SEVERAL THREADS */

static struct lent *modules;
static int count;

static uint64_t mixed(uint64_t sum, const void *bytes, size_t n) {
    const uint8_t *b = bytes;
    while (n-- > 0) sum = (sum ^ *b++) * 1099511628211u;
    return sum;
}

/* All that every call says and leaves on every module, in one number. */
static uint64_t all_said(void) {
    uint64_t sum = 14695981039346656037u;
    int i, j;
    for (i = 0; i < count; i++) {
        struct lent x = lend(modules[i].module, modules[i].length);
        for (j = 0; j < CALLS; j++) {
            calls[(j + LOAD) % CALLS].make(&x);
            sum = mixed(sum, &x.number, sizeof x.number);
            sum = mixed(sum, x.load, sizeof x.load);
            sum = mixed(sum, x.answer, sizeof x.answer);
            sum = mixed(sum, x.instructions, sizeof(uint32_t) * KOLLAFRIN_RECORD * x.words);
            sum = mixed(sum, x.log, 9 * x.words);
            sum = mixed(sum, x.strings, 4 * x.words);
            sum = mixed(sum, x.types, 12 * x.words);
            sum = mixed(sum, x.out, x.length + grammar_length);
            sum = mixed(sum, x.old, sizeof(uint32_t) * KOLLAFRIN_OLD_RECORD * x.words);
            sum = mixed(sum, x.back, sizeof(uint32_t) * KOLLAFRIN_RECORD * x.words);
        }
        take_back(&x);
    }
    return sum;
}

static void *rounds(void *sum) {
    int i;
    for (i = 0; i < ROUNDS; i++) {
        if (all_said() != *(uint64_t *)sum) return sum;
    }
    return NULL;
}

static void hold_threads(void) {
    pthread_t threads[THREADS];
    uint64_t alone = all_said();
    void *wrong;
    int i;
    for (i = 0; i < THREADS; i++) expect(pthread_create(&threads[i], NULL, rounds, &alone) == 0, "no thread");
    for (i = 0; i < THREADS; i++) {
        expect(pthread_join(threads[i], &wrong) == 0 && wrong == NULL, "a thread says other things than one that is alone");
    }
}

/* All bytes of a file. */
static uint8_t *contents(const char *path, size_t *length) {
    FILE *f = fopen(path, "rb");
    uint8_t *bytes;
    long n;
    expect(f != NULL && fseek(f, 0, SEEK_END) == 0 && (n = ftell(f)) >= 20 && fseek(f, 0, SEEK_SET) == 0, path);
    bytes = room((size_t)n);
    expect(fread(bytes, 1, (size_t)n, f) == (size_t)n, path);
    fclose(f);
    *length = (size_t)n;
    return bytes;
}

int main(int argc, char **argv) {
    int i;
    expect(argc > 1, "stack MODULE..");
    grammar_length = kollafrin_builtin(NULL, 0);
    grammar = room(grammar_length);
    kollafrin_builtin(grammar, grammar_length);
    count = argc - 1;
    modules = room((size_t)count * sizeof *modules);
    for (i = 0; i < count; i++) modules[i].module = contents(argv[i + 1], &modules[i].length);

    used(nothing, &modules[0], 1 << 20, &of_thread);
    hold_all(modules[0].module, 20);
    for (i = 0; i < count; i++) {
        hold_all(modules[i].module, modules[i].length);
        hold_longer(modules[i].module, modules[i].length, SHORT);
        hold_longer(modules[i].module, modules[i].length, SHORT + 4);
    }
    for (i = 0; i < CALLS; i++) {
        printf("stack: %s: %zu bytes used at most in %u runs with %zu\n", calls[i].name, calls[i].most, calls[i].runs, calls[i].said);
    }
    hold_null(modules[0].module, modules[0].length);
    hold_threads();
    printf("stack: null pointers and %d threads at once as they should be\n", THREADS);
    return 0;
}
