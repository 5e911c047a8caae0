/* Prints the merge bases of two commits of a log: git log --all --format='%H %P' | ./merge_bases LEFT RIGHT */
#include <jj_core.h>
#include <stdio.h>
#include <stdlib.h>
#include <string.h>

enum { NAME = 65, LINE = 4096, MOST = 1 << 20 };

/* The commits in the order of their names, and each with the line that it came from. */
struct commit {
    char name[NAME];
    char *parents;
};

static int by_name(const void *a, const void *b) { return strcmp(((const struct commit *)a)->name, ((const struct commit *)b)->name); }

/* The number of a commit: its index in the order of names. */
static size_t number_of(const struct commit *commits, size_t count, const char *name) {
    struct commit key = {{0}, NULL};
    snprintf(key.name, NAME, "%s", name);
    const struct commit *found = bsearch(&key, commits, count, sizeof *commits, by_name);
    return found ? (size_t)(found - commits) : SIZE_MAX;
}

int main(int argc, char **argv) {
    static char line[LINE];
    size_t count = 0, len = 0, all = 0;
    if (argc != 3) return fprintf(stderr, "usage: merge_bases LEFT RIGHT < log\n"), 2;
    struct commit *commits = malloc(MOST * sizeof *commits);
    while (commits && count < MOST && fgets(line, LINE, stdin)) {
        line[strcspn(line, "\n")] = 0;
        char *parents = strchr(line, ' ');
        snprintf(commits[count].name, NAME, "%.*s", (int)strcspn(line, " "), line);
        if (!(commits[count++].parents = strdup(parents ? parents : ""))) return 1;
        all += strlen(line) / 2;
    }
    if (!commits) return 1;
    qsort(commits, count, sizeof *commits, by_name);
    size_t *targets = malloc((all + 1) * sizeof *targets), *ends = malloc((count + 1) * sizeof *ends), *bases = malloc((count + 1) * sizeof *bases);
    if (!targets || !ends || !bases) return 1;
    for (size_t i = 0; i < count; i++) {
        /* A parent that the log does not have, as of a shallow clone, is left out. */
        for (char *name = strtok(commits[i].parents, " "); name; name = strtok(NULL, " "))
            if ((targets[len] = number_of(commits, count, name)) != SIZE_MAX) len++;
        ends[i] = len;
        free(commits[i].parents);
    }
    size_t left = number_of(commits, count, argv[1]), right = number_of(commits, count, argv[2]);
    int64_t found = jj_graph_common(targets, len, ends, count, &left, 1, &right, 1, bases, count);
    if (found == JJ_NODE) fprintf(stderr, "merge_bases: the log does not have both commits\n");
    else if (found < 0) fprintf(stderr, "merge_bases: status %lld\n", (long long)found);
    for (int64_t i = 0; i < found; i++) printf("%s\n", commits[bases[i]].name);
    free(targets), free(ends), free(bases), free(commits);
    return found < 0 ? 1 : 0;
}
