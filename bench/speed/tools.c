// tools FILE...: spvBinaryToText of SPIRV-Tools, without friendly names, on each module: a line as `speed measure` has it, with the best
// of four calls at least, and of as many as take half a second.
#include <spirv-tools/libspirv.h>
#include <stdio.h>
#include <stdlib.h>
#include <string.h>
#include <time.h>

static double now(void) {
    struct timespec t;
    clock_gettime(CLOCK_MONOTONIC, &t);
    return (double)t.tv_sec * 1e9 + (double)t.tv_nsec;
}

static void fail(const char *what, const char *file) {
    fprintf(stderr, "%s: %s\n", file, what);
    exit(1);
}

static void measure(spv_context context, const char *file) {
    FILE *f = fopen(file, "rb");
    if (!f || fseek(f, 0, SEEK_END)) fail("cannot be read", file);
    size_t length = (size_t)ftell(f);
    uint32_t *words = malloc(length + 4);
    rewind(f);
    if (!words || fread(words, 1, length, f) != length) fail("cannot be read", file);
    fclose(f);
    double best = 1e18, all = 0;
    for (int turns = 0; turns < 4 || all < 5e8; turns++) {
        spv_text text = NULL;
        double start = now();
        spv_result_t result = spvBinaryToText(context, words, length / 4, SPV_BINARY_TO_TEXT_OPTION_NO_HEADER, &text, NULL);
        double took = now() - start;
        if (result != SPV_SUCCESS) fail("SPIRV-Tools refuses it", file);
        spvTextDestroy(text);
        all += took;
        if (took < best) best = took;
    }
    free(words);
    const char *name = strrchr(file, '/') ? strrchr(file, '/') + 1 : file;
    printf("%.*s\t%zu\tspirv-tools\t%.3f\n", (int)(strlen(name) - 4), name, length, (double)length * 1e3 / best);
}

int main(int count, char **files) {
    spv_context context = spvContextCreate(SPV_ENV_UNIVERSAL_1_5);
    for (int i = 1; i < count; i++) measure(context, files[i]);
    spvContextDestroy(context);
    return 0;
}
