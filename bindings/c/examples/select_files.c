/* Prints the paths of standard input, each ended by NUL, that are in a file set: git ls-files -z | ./select_files 'src ~ src/tests' */
#include <jj_core.h>
#include <stdio.h>
#include <stdlib.h>

int main(int argc, char **argv) {
    size_t len = 0, room = 0, count = 0, from = 0, *ends = NULL;
    uint8_t *bytes = NULL;
    bool *in_set = NULL;
    if (argc != 2) return fprintf(stderr, "usage: select_files EXPRESSION < paths\n"), 2;
    const uint8_t *expression = (const uint8_t *)argv[1];
    for (int c = getchar(); c != EOF; c = getchar()) {
        /* Room for as many ends as bytes: each path has a NUL. */
        if (len + count == room && (!(bytes = realloc(bytes, room = 2 * room + 64)) || !(ends = realloc(ends, room * sizeof *ends)))) return 1;
        if (c) bytes[len++] = (uint8_t)c;
        else ends[count++] = len;
    }
    /* A buffer of no item has an address too. */
    if (!bytes && (!(bytes = malloc(1)) || !(ends = malloc(sizeof *ends)))) return 1;
    if (!(in_set = malloc(count + 1))) return 1;
    size_t length = 0;
    while (expression[length]) length++;
    int64_t status = jj_fileset_matches(expression, length, bytes, len, ends, count, in_set, count);
    if (status == JJ_EXPRESSION) fprintf(stderr, "select_files: no expression of a file set: %s\n", argv[1]);
    else if (status < 0) fprintf(stderr, "select_files: status %lld\n", (long long)status);
    for (int64_t i = 0; i < status; from = ends[i++])
        if (in_set[i]) printf("%.*s\n", (int)(ends[i] - from), (const char *)bytes + from);
    free(bytes), free(ends), free(in_set);
    return status < 0 ? 1 : 0;
}
