/* Merges three versions of a list of settings, lines of the form key=value, by key: ./merge_settings OURS BASE THEIRS. Sides that made the same change
 * resolve to it; a conflict is printed with its sides, and makes the status 1. */
#include <jj_core.h>
#include <stdio.h>
#include <stdlib.h>
#include <string.h>

enum { SIDES = 3, MOST = 1000, LINE = 256 };

static char lines[SIDES][MOST + 1][LINE];
static size_t counts[SIDES];

static void read_side(size_t side, const char *path) {
    FILE *file = fopen(path, "r");
    if (!file) perror(path), exit(2);
    for (char *line = lines[side][0]; counts[side] < MOST && fgets(line, LINE, file); line = lines[side][++counts[side]]) line[strcspn(line, "\n")] = 0;
    fclose(file);
}

/* The line of a side that has this key; the empty string if it has none. */
static const char *line_of(size_t side, const char *key, size_t len) {
    for (size_t i = 0; i < counts[side]; i++)
        if (!strncmp(lines[side][i], key, len) && lines[side][i][len] == '=') return lines[side][i];
    return "";
}

/* Merges the lines of one key, and prints the result. Returns 1 for a conflict. */
static int merge_key(const char *key, size_t len) {
    uint8_t bytes[SIDES * LINE];
    size_t ends[SIDES], end = 0;
    const char *terms[SIDES];
    for (size_t side = 0; side < SIDES; side++) {
        terms[side] = line_of(side, key, len);
        memcpy(bytes + end, terms[side], strlen(terms[side]));
        ends[side] = end += strlen(terms[side]);
    }
    int64_t which = jj_merge_resolve(bytes, end, ends, SIDES, true);
    if (which >= 0 && *terms[which]) printf("%s\n", terms[which]);
    if (which == JJ_CONFLICT) printf("conflict: %s | %s | %s\n", terms[0], terms[1], terms[2]);
    else if (which < 0) fprintf(stderr, "merge_settings: status %lld\n", (long long)which), exit(2);
    return which == JJ_CONFLICT;
}

int main(int argc, char **argv) {
    int conflicts = 0;
    if (argc != 4) return fprintf(stderr, "usage: merge_settings OURS BASE THEIRS\n"), 2;
    for (size_t side = 0; side < SIDES; side++) read_side(side, argv[side + 1]);
    /* Each key once: at the first side that has it. */
    for (size_t side = 0; side < SIDES; side++)
        for (size_t i = 0; i < counts[side]; i++) {
            size_t len = strcspn(lines[side][i], "=");
            bool is_new = true;
            for (size_t before = 0; before < side; before++) is_new = is_new && !*line_of(before, lines[side][i], len);
            if (is_new) conflicts += merge_key(lines[side][i], len);
        }
    return conflicts ? 1 : 0;
}
