/* Loads a SPIR-V file, says what came of it, and writes it back in the order read.
 *
 * From the repository's root, on x86-64 Linux:
 *
 *     tools/archive
 *     cc -std=c99 -O2 -Iinclude examples/c/roundtrip.c -Ltarget/staticlib -lkollafrin -o target/roundtrip
 *     target/roundtrip in.spv out.spv
 *
 * include/kollafrin.h says what each function does, docs/REFERENCE.md what stands in the stores and what each number means.
 *
 * The exit status is 0 for a module that is accepted and written, 1 for one that is refused, 2 where a file or memory lacks or the
 * library has another version than the header.
 */
#include "kollafrin.h"

#include <stdio.h>
#include <stdlib.h>

/* Memory for n elements, and for one more, so that null always says that there is none. */
static void *room(size_t n, size_t size) {
    void *p = calloc(n + 1, size);
    if (p == NULL) {
        fputs("no memory\n", stderr);
        exit(2);
    }
    return p;
}

/* All bytes of a file. */
static uint8_t *contents(const char *path, size_t *length) {
    FILE *f = fopen(path, "rb");
    size_t have = 65536, n = 0, got;
    uint8_t *bytes = room(have, 1);
    if (f == NULL) {
        perror(path);
        exit(2);
    }
    while ((got = fread(bytes + n, 1, have - n, f)) != 0) {
        n += got;
        if (n == have) {
            uint8_t *more = realloc(bytes, have *= 2);
            if (more == NULL) {
                fputs("no memory\n", stderr);
                exit(2);
            }
            bytes = more;
        }
    }
    if (ferror(f)) {
        perror(path);
        exit(2);
    }
    fclose(f);
    *length = n;
    return bytes;
}

/* Whether the words of the instruction behind the last record are all there: which of its two causes the refusal 9 has. */
static int whole(const uint8_t *module, size_t length, const uint32_t *instructions, size_t count) {
    const uint32_t *last = instructions + (count == 0 ? 0 : KOLLAFRIN_RECORD * (count - 1));
    size_t start = count == 0 ? 20 : last[2] + 4 * (size_t)last[7];
    return start + 4 <= length && start + 4 * (module[start + 2] + 256 * (size_t)module[start + 3]) <= length;
}

int main(int argc, char **argv) {
    size_t length, words, written;
    uint8_t *module, *log, *strings, *out;
    uint32_t *instructions, *types, number, load[16], answer[4];
    FILE *f;

    if (argc != 3) {
        fputs("roundtrip IN OUT\n", stderr);
        return 2;
    }
    if (kollafrin_version() != KOLLAFRIN_VERSION) {
        fprintf(stderr, "the library has version %u, its header %u\n", (unsigned)kollafrin_version(), (unsigned)KOLLAFRIN_VERSION);
        return 2;
    }
    module = contents(argv[1], &length);

    /* stores that always suffice, for so many whole words after the header */
    words = length < 20 ? 0 : length / 4 - 5;
    instructions = room(KOLLAFRIN_RECORD * words, sizeof *instructions);
    log = room(9 * words, 1);
    strings = room(4 * words, 1);
    types = room(3 * words, sizeof *types);

    number = kollafrin_load_builtin(module, length, instructions, KOLLAFRIN_RECORD * words, log, 9 * words, strings, 4 * words, types, 3 * words, load);
    printf("number %u\n", (unsigned)number);
    printf("instructions %u, log bytes %u, string bytes %u, type entries %u\n", (unsigned)load[KOLLAFRIN_LOAD_INSTRUCTIONS],
           (unsigned)load[KOLLAFRIN_LOAD_LOG], (unsigned)load[KOLLAFRIN_LOAD_STRINGS], (unsigned)load[KOLLAFRIN_LOAD_TYPES]);
    if (number != KOLLAFRIN_ACCEPTED) {
        printf("refused at byte %u, instruction %u, value %u\n", (unsigned)load[KOLLAFRIN_LOAD_OFFSET],
               (unsigned)load[KOLLAFRIN_LOAD_INDEX], (unsigned)load[KOLLAFRIN_LOAD_VALUE]);
        puts(kollafrin_sentence(number, whole(module, length, instructions, load[KOLLAFRIN_LOAD_INSTRUCTIONS])));
        return 1;
    }

    /* what is written is never longer than what was read */
    out = room(length, 1);
    number = kollafrin_write_parse_order(load + KOLLAFRIN_LOAD_HEADER, instructions, KOLLAFRIN_RECORD * words, log, 9 * words, strings, 4 * words,
                                         load[KOLLAFRIN_LOAD_INSTRUCTIONS], load[KOLLAFRIN_LOAD_LOG], load[KOLLAFRIN_LOAD_STRINGS],
                                         out, length, answer);
    if (number != KOLLAFRIN_ACCEPTED) {
        printf("not written: number %u, index %u\n", (unsigned)number, (unsigned)answer[1]);
        return 1;
    }
    written = answer[2] + ((size_t)answer[3] << 32);
    printf("written %zu of %zu bytes\n", written, length);
    f = fopen(argv[2], "wb");
    if (f == NULL || fwrite(out, 1, written, f) != written || fclose(f) != 0) {
        perror(argv[2]);
        return 2;
    }
    free(out);
    free(types);
    free(strings);
    free(log);
    free(instructions);
    free(module);
    return 0;
}
