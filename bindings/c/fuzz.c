/* Random calls of the C interface, whose results are compared with those of a second, plain implementation in this file: usage: fuzz SEED CALLS.
 * Shapes are random too: the numbers and lengths of strings, what they are made of, the depth of graphs and of expressions, and how much room
 * results have. Buffers have exactly the lengths that are passed, so that a sanitizer sees each access beyond them. */
#include "jj_core.h"

#include <stdio.h>
#include <stdlib.h>
#include <string.h>

enum { MOST = 24, TAKEN = 32 };

static uint64_t state;
static void *taken[TAKEN];
static size_t taken_count;
static const char *call_name;

static uint64_t draw(uint64_t below) {
    state ^= state << 13;
    state ^= state >> 7;
    state ^= state << 17;
    return state % below;
}

static void *take(size_t size) {
    void *block = malloc(size ? size : 1);
    if (!block || taken_count == TAKEN) abort();
    memset(block, 0xa5, size);
    return taken[taken_count++] = block;
}

static void fail(const char *what) {
    printf("fuzz: %s: %s\n", call_name, what);
    exit(1);
}

/* A list of byte strings, in the form of the interface. */
struct list {
    uint8_t *bytes;
    size_t len, *ends, count;
};

static size_t start_of(const struct list *l, size_t i) { return i ? l->ends[i - 1] : 0; }
static size_t length_of(const struct list *l, size_t i) { return l->ends[i] - start_of(l, i); }
static const uint8_t *item_of(const struct list *l, size_t i) { return l->bytes + start_of(l, i); }
static bool are_equal(const struct list *l, size_t i, size_t j) {
    return length_of(l, i) == length_of(l, j) && !memcmp(item_of(l, i), item_of(l, j), length_of(l, i));
}

static bool divide(const size_t *ends, size_t count, size_t len) {
    for (size_t i = 0, from = 0; i < count; from = ends[i++])
        if (ends[i] < from || ends[i] > len) return false;
    return true;
}

static struct list draw_list(const char *letters, size_t most, size_t longest) {
    struct list l = {NULL, 0, NULL, draw(6) ? draw(most + 1) : 0};
    size_t longest_here = 1 + draw(longest);
    l.ends = take(l.count * sizeof *l.ends);
    for (size_t i = 0; i < l.count; i++) l.ends[i] = l.len += draw(longest_here + 1);
    l.len += draw(4) ? 0 : draw(5);
    l.bytes = take(l.len);
    for (size_t i = 0; i < l.len; i++) l.bytes[i] = draw(300) ? (uint8_t)letters[draw(strlen(letters))] : (uint8_t)draw(256);
    if (l.count && !draw(12)) l.ends[draw(l.count)] = draw(2) ? draw(l.len + 3) : SIZE_MAX - draw(2);
    return l;
}

/* Whether a call returned what is expected: `status` if that is negative, else JJ_LENGTH where the room is too small, else the number `status`. With
 * a fault that the plain implementation found, the library may return another one that applies. */
static bool returned(int64_t found, int64_t status, size_t room) {
    if (status < 0) return found == status || (found < 0 && found == JJ_LENGTH);
    if ((uint64_t)status > room) return found == JJ_LENGTH;
    return found == status;
}

/* Items that were not written keep their values. */
static void expect_kept(const void *buffer, size_t from, size_t size) {
    for (size_t i = from; i < size; i++)
        if (((const uint8_t *)buffer)[i] != 0xa5) fail("an item that was not to be written has changed");
}

static void expect_items(int64_t found, int64_t status, const size_t *expected, const size_t *out, size_t room) {
    if (!returned(found, status, room)) fail("wrong status");
    if (found > 0 && memcmp(expected, out, (size_t)found * sizeof *out)) fail("wrong items");
    expect_kept(out, found > 0 ? (size_t)found * sizeof *out : 0, room * sizeof *out);
}

static void expect_flags(int64_t found, int64_t status, const bool *expected, const bool *out, size_t count, size_t room) {
    if (status >= 0 && count > room) status = JJ_LENGTH;
    if (found != status && !(status < 0 && found < 0 && found == JJ_LENGTH && count > room)) fail("wrong status");
    if (found >= 0 && memcmp(expected, out, count)) fail("wrong flags");
    expect_kept(out, found >= 0 ? count : 0, room);
}

/* Digests: in one piece, in random pieces, and of a content. */
static void digests(void) {
    size_t len = draw(3) ? draw(300) : draw(5) * 128, from = 0, room = draw(5) ? 64 + draw(3) : draw(64);
    uint8_t *bytes = take(len), *whole = take(room), *pieces = take(64), *content = take(64), head[8] = {(uint8_t)len, (uint8_t)(len >> 8)};
    jj_hasher *hasher = take(sizeof *hasher), *with_head = take(sizeof *with_head);
    for (size_t i = 0; i < len; i++) bytes[i] = (uint8_t)draw(256);
    call_name = "digests";
    jj_hasher_start(hasher);
    jj_hasher_start(with_head);
    jj_hasher_update(with_head, head, 8);
    for (size_t end = 0; end < len; from = end) {
        end += 1 + draw(len - end);
        jj_hasher_update(hasher, bytes + from, end - from);
        jj_hasher_update(with_head, bytes + from, end - from);
    }
    int64_t found = jj_hash(bytes, len, whole, room);
    if (found != (room < 64 ? JJ_LENGTH : 64)) fail("wrong status");
    expect_kept(whole, found > 0 ? 64 : 0, room);
    if (jj_hasher_finish(hasher, pieces, 64) != 64 || (found > 0 && memcmp(whole, pieces, 64))) fail("the digest of pieces differs");
    if (jj_content_hash(bytes, len, content, 64) != 64 || jj_hasher_finish(with_head, pieces, 64) != 64 || memcmp(content, pieces, 64))
        fail("the digest of the content differs");
}

static int digit_of(uint8_t c, bool reverse) {
    static const char *const digits[] = {"0123456789abcdef", "zyxwvutsrqponmlk"};
    const char *at = c ? strchr(digits[reverse], c >= 'A' && c <= 'Z' ? c + 32 : c) : NULL;
    return at ? (int)(at - digits[reverse]) : -1;
}

static void hex(void) {
    bool reverse = draw(2);
    size_t len = draw(MOST), room = draw(4) ? len * 2 + draw(2) : draw(len + 1);
    uint8_t *bytes = take(len), *text = take(room), *back = take(len);
    for (size_t i = 0; i < len; i++) bytes[i] = (uint8_t)draw(256);
    call_name = "hex_encode and hex_decode";
    int64_t found = jj_hex_encode(bytes, len, reverse, text, room);
    if (!returned(found, (int64_t)len * 2, room)) fail("wrong status");
    expect_kept(text, found > 0 ? (size_t)found : 0, room);
    if (found < 0) return;
    for (size_t i = 0; i < len; i++)
        if (digit_of(text[2 * i], reverse) != bytes[i] >> 4 || digit_of(text[2 * i + 1], reverse) != (bytes[i] & 15)) fail("wrong digits");
    bool is_hex = true;
    size_t cut = draw((uint64_t)found + 1);
    for (size_t i = 0; i < cut; i++) {
        if (!draw(2) && text[i] >= 'a') text[i] -= 32;
        if (!draw(60)) text[i] = (uint8_t)draw(256);
        is_hex = is_hex && digit_of(text[i], reverse) >= 0;
    }
    bool is_prefix = true;
    for (size_t i = 0; i < cut; i++) is_prefix = is_prefix && digit_of(text[i], reverse) == (i % 2 ? bytes[i / 2] & 15 : bytes[i / 2] >> 4);
    if (jj_hex_prefix_matches(text, cut, reverse, bytes, len) != (is_hex ? is_prefix : JJ_SYNTAX)) fail("wrong prefix");
    if (jj_hex_decode(text, cut, reverse, back, len) != (is_hex && cut % 2 == 0 ? (int64_t)cut / 2 : JJ_SYNTAX)) fail("wrong status of hex_decode");
    if (is_hex && cut % 2 == 0 && is_prefix && memcmp(bytes, back, cut / 2)) fail("wrong bytes");
}

/* Ids of few values, and prefixes of a digit or more. */
static void prefixes(void) {
    bool reverse = draw(2), is_hex = true;
    struct list ids = draw_list("\x01\x1f\xf0", 6, 3);
    const char *letters = draw(8) ? (reverse ? "zykKYZ" : "01fF0") : "0g";
    size_t len = draw(5), matching = 0, at = 0;
    uint8_t *prefix = take(len);
    for (size_t i = 0; i < len; i++) {
        prefix[i] = (uint8_t)letters[draw(strlen(letters))];
        is_hex = is_hex && digit_of(prefix[i], reverse) >= 0;
    }
    call_name = "hex_prefix_resolve";
    int64_t found = jj_hex_prefix_resolve(prefix, len, reverse, ids.bytes, ids.len, ids.ends, ids.count);
    bool is_list = divide(ids.ends, ids.count, ids.len);
    if (!is_list || !is_hex) {
        if (!(found == JJ_ENDS && !is_list) && !(found == JJ_SYNTAX && !is_hex)) fail("wrong status");
        return;
    }
    for (size_t i = 0; i < ids.count; i++) {
        bool matches = len <= 2 * length_of(&ids, i);
        for (size_t d = 0; d < len && matches; d++) {
            uint8_t byte = item_of(&ids, i)[d / 2];
            matches = digit_of(prefix[d], reverse) == (d % 2 ? byte & 15 : byte >> 4);
        }
        if (matches) matching++, at = i;
    }
    if (found != (matching == 0 ? JJ_NO_MATCH : matching == 1 ? (int64_t)at : JJ_AMBIGUOUS)) fail("wrong id");
}

/* A pattern of letters, `?`, `*` and `{x,y}` against a string: `?` and `*` match no `/`. */
static bool glob_matches(const char *glob, const uint8_t *string, size_t len) {
    if (!*glob) return !len;
    if (*glob == '*') {
        for (size_t i = 0;; i++) {
            if (glob_matches(glob + 1, string + i, len - i)) return true;
            if (i == len || string[i] == '/') return false;
        }
    }
    if (*glob == '{') {
        char one[MOST] = {glob[1], 0}, two[MOST] = {glob[3], 0};
        return glob_matches(strcat(one, glob + 5), string, len) || glob_matches(strcat(two, glob + 5), string, len);
    }
    return len && (*glob == '?' ? *string != '/' : *string == (uint8_t)*glob) && glob_matches(glob + 1, string + 1, len - 1);
}

/* A glob without `**`, and with no alternatives after an alternative that would not fit. */
static void draw_glob(char *glob) {
    size_t len = 1 + draw(6), at = 0;
    for (size_t i = 0; i < len; i++) {
        char c = "aab/?*{"[draw(7)];
        if (c == '*' && at && glob[at - 1] == '*') c = 'a';
        if (c == '{') at += (size_t)sprintf(glob + at, "{%c,%c}", "ab"[draw(2)], "ab"[draw(2)]);
        else glob[at++] = c;
    }
    glob[at] = 0;
}

static bool is_utf8(const uint8_t *s, size_t len) {
    for (size_t i = 0; i < len; i++)
        if (s[i] > 127) return false;
    return true;
}

static void globs(void) {
    char glob[MOST * 3];
    struct list l = draw_list("aab/", MOST, 6);
    size_t room = draw(5) ? l.count + draw(2) : draw(MOST);
    bool *out = take(room), expected[MOST];
    draw_glob(glob);
    call_name = "glob_matches";
    int64_t status = divide(l.ends, l.count, l.len) ? (int64_t)l.count : JJ_ENDS;
    for (size_t i = 0; status >= 0 && i < l.count; i++) expected[i] = glob_matches(glob, item_of(&l, i), length_of(&l, i));
    uint8_t *pattern = take(strlen(glob));
    memcpy(pattern, glob, strlen(glob));
    expect_flags(jj_glob_matches(pattern, strlen(glob), true, false, l.bytes, l.len, l.ends, l.count, out, room), status, expected, out, l.count, room);
}

static bool is_path(const uint8_t *s, size_t len) {
    if (!is_utf8(s, len) || (len && (s[0] == '/' || s[len - 1] == '/'))) return false;
    for (size_t i = 1; i < len; i++)
        if (s[i] == '/' && s[i - 1] == '/') return false;
    return true;
}

static bool is_below(const uint8_t *path, size_t len, const uint8_t *above, size_t above_len) {
    return !above_len || (len >= above_len && !memcmp(path, above, above_len) && (len == above_len || path[above_len] == '/'));
}

/* Paths: mostly valid, since a wrong byte or component is made whole. Strings with other bytes than ASCII are not drawn, as the plain
 * implementation does not know UTF-8. */
static struct list draw_paths(size_t most) {
    struct list l = draw_list("aab/", most, 7);
    bool is_mended = draw(8) != 0;
    if (!divide(l.ends, l.count, l.len)) return l;
    for (size_t i = 0; i < l.len; i++) l.bytes[i] &= 127;
    for (size_t i = 0; is_mended && i < l.count; i++)
        for (size_t k = start_of(&l, i); k < l.ends[i]; k++)
            if (l.bytes[k] == '/' && (k == start_of(&l, i) || k + 1 == l.ends[i] || l.bytes[k - 1] == '/')) l.bytes[k] = 'b';
    return l;
}

static bool are_paths(const struct list *l) {
    for (size_t i = 0; i < l->count; i++)
        if (!is_path(item_of(l, i), length_of(l, i))) return false;
    return true;
}

/* An expression of a file set as it is written, with parentheses, and its members among some paths. */
struct set {
    char text[2000];
    bool has[MOST];
};

static void draw_set(struct set *s, const struct list *paths, int depth) {
    static struct set stack[16];
    if (depth == 0 || !draw(3)) {
        static const char *const operands[] = {"a", "b", "a/b", "aa", "a/a"};
        const char *path = operands[draw(5)];
        int kind = (int)draw(4);
        sprintf(s->text, kind == 0 ? "file:%s" : kind == 1 ? "all()" : kind == 2 ? "'%s'" : "%s", path);
        for (size_t i = 0; i < paths->count; i++) {
            const uint8_t *item = item_of(paths, i);
            size_t len = length_of(paths, i), n = strlen(path);
            s->has[i] = kind == 1 || (kind == 0 ? len == n && !memcmp(item, path, n) : is_below(item, len, (const uint8_t *)path, n));
        }
        return;
    }
    struct set *x = &stack[2 * depth], *y = &stack[2 * depth + 1];
    int operator = (int)draw(4);
    draw_set(x, paths, depth - 1);
    struct set left = *x;
    draw_set(y, paths, depth - 1);
    if (operator == 3) snprintf(s->text, sizeof s->text, "~(%.900s)", left.text);
    else snprintf(s->text, sizeof s->text, "(%.900s)%s%c (%.900s)", left.text, draw(2) ? " " : "", "|&~"[operator], y->text);
    for (size_t i = 0; i < paths->count; i++) {
        bool a = left.has[i], b = y->has[i];
        s->has[i] = operator == 0 ? a || b : operator == 1 ? a && b : operator == 2 ? a && !b : !a;
    }
}

static void filesets(void) {
    static struct set set;
    struct list l = draw_paths(MOST);
    size_t room = draw(5) ? l.count + draw(2) : draw(MOST);
    bool *out = take(room), is_divided = divide(l.ends, l.count, l.len);
    struct list none = {l.bytes, 0, l.ends, 0};
    call_name = "fileset_matches";
    draw_set(&set, is_divided ? &l : &none, (int)draw(4));
    int64_t status = !is_divided ? JJ_ENDS : are_paths(&l) ? (int64_t)l.count : JJ_PATH;
    if (!draw(20)) strcat(set.text, " &"), status = status == JJ_ENDS ? status : JJ_EXPRESSION;
    uint8_t *text = take(strlen(set.text));
    memcpy(text, set.text, strlen(set.text));
    int64_t found = jj_fileset_matches(text, strlen(set.text), l.bytes, l.len, l.ends, l.count, out, room);
    if (found == JJ_PATH && is_divided && !are_paths(&l)) status = found;
    if (found == JJ_EXPRESSION && text[strlen(set.text) - 1] == '&') status = found;
    expect_flags(found, status, set.has, out, l.count, room);
}

static void walks(void) {
    struct list listed = draw_paths(4), l = draw_paths(MOST);
    bool prefixes = draw(2), expected[MOST] = {false};
    size_t room = draw(5) ? l.count + draw(2) : draw(MOST), entered = 0, seen_count = 0;
    bool *out = take(room);
    struct { const uint8_t *path; size_t len; } seen[MOST * 8];
    call_name = "walk";
    int64_t status = !divide(l.ends, l.count, l.len) || !divide(listed.ends, listed.count, listed.len) ? JJ_ENDS
                     : are_paths(&l) && are_paths(&listed) ? 0 : JJ_PATH;
    for (size_t i = 0; status >= 0 && i < l.count; i++) {
        const uint8_t *item = item_of(&l, i);
        size_t len = length_of(&l, i);
        for (size_t j = 0; len && j < listed.count; j++) {
            size_t n = length_of(&listed, j);
            expected[i] = expected[i] || (prefixes ? is_below(item, len, item_of(&listed, j), n) : n == len && !memcmp(item, item_of(&listed, j), n));
        }
        /* The directories of a file, from the root: each is entered if a listed path is below it or, with prefixes, at or above it. */
        for (size_t cut = 0; cut < len; cut++) {
            if (cut && item[cut] != '/') continue;
            bool is_entered = false, is_new = true;
            for (size_t j = 0; j < listed.count; j++) {
                size_t n = length_of(&listed, j);
                is_entered = is_entered || (n > cut && is_below(item_of(&listed, j), n, item, cut)) || (prefixes && is_below(item, cut, item_of(&listed, j), n));
            }
            for (size_t k = 0; k < seen_count; k++) is_new = is_new && !(seen[k].len == cut && !memcmp(seen[k].path, item, cut));
            if (is_entered && is_new) seen[seen_count].path = item, seen[seen_count++].len = cut, entered++;
        }
    }
    int64_t found = jj_walk(listed.bytes, listed.len, listed.ends, listed.count, prefixes, l.bytes, l.len, l.ends, l.count, out, room);
    if (status >= 0 && l.count > room) status = JJ_LENGTH;
    if (status >= 0 && found != (int64_t)entered) fail("wrong number of directories");
    if (status < 0 && found != status && !(found == JJ_LENGTH && l.count > room)) fail("wrong status");
    if (found >= 0 && memcmp(expected, out, l.count)) fail("wrong files");
    expect_kept(out, found >= 0 ? l.count : 0, room);
}

/* The count of added less that of removed terms that equal a term. */
static long count_of(const struct list *l, const size_t *indices, size_t count, size_t term) {
    long sum = 0;
    for (size_t i = 0; i < count; i++) sum += are_equal(l, indices ? indices[i] : i, term) ? (i % 2 ? -1 : 1) : 0;
    return sum;
}

static void merges(void) {
    struct list l = draw_list("ab", MOST - 1, 2);
    bool accept = draw(2);
    size_t room = draw(5) ? l.count : draw(MOST), *out = take(room * sizeof *out), least = 0, positive = 0, negative = 0, one = 0;
    if (l.count % 2 == 0 && l.count && draw(8)) l.count--;
    bool is_merge = divide(l.ends, l.count, l.len);
    int64_t status = !is_merge ? JJ_ENDS : l.count % 2 ? 0 : JJ_TERMS;
    call_name = "merge_simplify and merge_resolve";
    int64_t found = jj_merge_simplify(l.bytes, l.len, l.ends, l.count, out, room);
    int64_t which = jj_merge_resolve(l.bytes, l.len, l.ends, l.count, accept);
    if (status < 0) {
        if (!(found == status || (!is_merge && l.count % 2 == 0 && found == JJ_TERMS)) || !(which == status || (!is_merge && which == JJ_TERMS && l.count % 2 == 0)))
            fail("wrong status");
        return;
    }
    for (size_t i = 0; i < l.count; i++) {
        bool is_first = true;
        for (size_t j = 0; j < i; j++) is_first = is_first && !are_equal(&l, i, j);
        long count = is_first ? count_of(&l, NULL, l.count, i) : 0;
        least += (size_t)labs(count);
        if (count > 0) one = i, positive++;
        negative += count < 0;
    }
    if (found != (least > room ? JJ_LENGTH : (int64_t)least)) fail("the simplified merge has not the least number of terms");
    for (size_t i = 0; found > 0 && i < l.count; i++)
        if (out[0] >= l.count || count_of(&l, out, least, i) != count_of(&l, NULL, l.count, i)) fail("the simplified merge counts terms otherwise");
    bool resolves = positive == 1 && negative == 0 && least == 1;
    if (accept && positive == 1 && negative <= 1) resolves = true;
    if (resolves ? which < 0 || !are_equal(&l, (size_t)which, one) : which != JJ_CONFLICT) fail("wrong resolution");
}

static void flattening(void) {
    size_t count = draw(7), ends[8], expected[64], n = 0, room;
    bool is_merge = count % 2;
    for (size_t i = 0, end = 0; i < count; i++) {
        ends[i] = end += draw(8) ? 1 + 2 * draw(4) : draw(6);
        is_merge = is_merge && (ends[i] - (i ? ends[i - 1] : 0)) % 2;
    }
    room = draw(4) ? 64 : draw(30);
    size_t *out = take(room * sizeof *out), *given = take(count * sizeof *given);
    memcpy(given, ends, count * sizeof *given);
    call_name = "merge_flatten";
    for (size_t i = 0, from = 0; is_merge && i < count; from = ends[i++]) {
        if (i % 2 == 0)
            for (size_t k = from; k < ends[i]; k++) expected[n++] = k;
        else {
            for (size_t k = from + 2; k < ends[i]; k += 2) expected[n++] = k, expected[n++] = k - 1;
            expected[n++] = from;
        }
    }
    expect_items(jj_merge_flatten(given, count, out, room), is_merge ? (int64_t)n : JJ_TERMS, expected, out, room);
}

/* A graph of at most 64 nodes, with the nodes that each reaches as bits. */
struct graph {
    size_t targets[400], len, ends[64], count;
    uint64_t reached[64];
    int64_t status;
};

static void draw_graph(struct graph *g) {
    size_t degree = 1 + draw(5);
    bool is_forward = draw(8) != 0;
    g->count = draw(8) ? draw(40) : draw(3);
    g->len = 0;
    g->status = 0;
    for (size_t n = 0; n < g->count; n++) {
        /* Targets are smaller nodes, so that there is no cycle; else any nodes. */
        for (size_t k = draw(degree + 1); k > 0; k--)
            if (n || !is_forward) g->targets[g->len++] = is_forward ? (draw(2) ? n - 1 : draw(n)) : draw(g->count);
        g->ends[n] = g->len;
    }
    if (g->len && !draw(25)) g->targets[draw(g->len)] = draw(2) ? g->count : SIZE_MAX, g->status = JJ_NODE;
    for (size_t n = 0; n < g->count; n++) g->reached[n] = 0;
    for (size_t round = 0; g->status == 0 && round < g->count; round++)
        for (size_t n = 0; n < g->count; n++)
            for (size_t k = n ? g->ends[n - 1] : 0; k < g->ends[n]; k++) g->reached[n] |= (uint64_t)1 << g->targets[k] | g->reached[g->targets[k]];
    for (size_t n = 0; n < g->count; n++)
        if (g->reached[n] >> n & 1) g->status = JJ_CYCLE;
}

static size_t draw_nodes(const struct graph *g, size_t *nodes, int64_t *status, uint64_t *bits) {
    size_t count = draw(6);
    *bits = 0;
    for (size_t i = 0; i < count; i++) {
        nodes[i] = g->count && draw(40) ? draw(g->count) : draw(2) ? g->count + draw(2) : SIZE_MAX;
        if (nodes[i] >= g->count) *status = *status ? *status : JJ_NODE;
        else *bits |= (uint64_t)1 << nodes[i];
    }
    return count;
}

static uint64_t below_of(const struct graph *g, uint64_t bits) {
    uint64_t below = 0;
    for (size_t n = 0; n < g->count; n++)
        if (bits >> n & 1) below |= g->reached[n];
    return below;
}

static size_t ascending(uint64_t bits, size_t *out) {
    size_t count = 0;
    for (size_t n = 0; n < 64; n++)
        if (bits >> n & 1) out[count++] = n;
    return count;
}

/* Kahn's order: of the nodes that no node left leads to, always the greatest. */
static size_t greatest_order(const struct graph *g, uint64_t left, size_t *out) {
    size_t count = 0;
    while (left) {
        uint64_t free_nodes = left & ~below_of(g, left);
        size_t node = 63;
        while (!(free_nodes >> node & 1)) node--;
        out[count++] = node;
        left &= ~((uint64_t)1 << node);
    }
    return count;
}

static void graphs(void) {
    static struct graph g;
    size_t set1[8], set2[8], expected[64], room = draw(4) ? 64 : draw(20), *out = take(room * sizeof *out);
    uint64_t bits1, bits2;
    draw_graph(&g);
    size_t *targets = take(g.len * sizeof *targets), *ends = take(g.count * sizeof *ends);
    memcpy(targets, g.targets, g.len * sizeof *targets);
    memcpy(ends, g.ends, g.count * sizeof *ends);
    int64_t status = g.status, found, count;
    size_t count1 = draw_nodes(&g, set1, &status, &bits1), count2 = 0;
    int which = (int)draw(3);
    if (which == 2) count2 = draw_nodes(&g, set2, &status, &bits2);
    bool has_cycle = g.status == JJ_CYCLE;
    call_name = which == 0 ? "graph_order" : which == 1 ? "graph_heads" : "graph_common";
    if (which == 0) found = jj_graph_order(targets, g.len, ends, g.count, set1, count1, out, room);
    else if (which == 1) found = jj_graph_heads(targets, g.len, ends, g.count, set1, count1, out, room);
    else found = jj_graph_common(targets, g.len, ends, g.count, set1, count1, set2, count2, out, room);
    if (status < 0) {
        if (found != status && found != JJ_LENGTH && !(has_cycle && found == JJ_NODE)) fail("wrong status");
        expect_kept(out, 0, room * sizeof *out);
        return;
    }
    if (which == 0) count = (int64_t)greatest_order(&g, bits1 | below_of(&g, bits1), expected);
    else if (which == 1) count = (int64_t)ascending(bits1 & ~below_of(&g, bits1), expected);
    else {
        uint64_t common = (bits1 | below_of(&g, bits1)) & (bits2 | below_of(&g, bits2));
        count = (int64_t)ascending(common & ~below_of(&g, common), expected);
    }
    expect_items(found, count, expected, out, room);
}

/* Many questions to one graph: the results of the sets one after another. */
static void graph_batches(void) {
    enum { SETS = 6 };
    static struct graph g;
    size_t set1[8 * SETS], set2[8 * SETS], ends1[SETS], ends2[SETS], expected[64 * SETS], expected_ends[SETS];
    size_t sets = draw(SETS), len1 = 0, len2 = 0, count = 0;
    bool is_common = draw(2);
    draw_graph(&g);
    int64_t status = g.status, found;
    for (size_t i = 0; i < sets; i++) {
        uint64_t bits1, bits2 = 0;
        len1 += draw_nodes(&g, set1 + len1, &status, &bits1);
        if (is_common) len2 += draw_nodes(&g, set2 + len2, &status, &bits2);
        uint64_t common = (bits1 | below_of(&g, bits1)) & (bits2 | below_of(&g, bits2));
        ends1[i] = len1, ends2[i] = len2;
        if (status == 0) count += ascending(is_common ? common & ~below_of(&g, common) : bits1 & ~below_of(&g, bits1), expected + count);
        expected_ends[i] = count;
    }
    size_t room = draw(4) ? 64 * SETS : draw(20), end_room = draw(8) ? sets : draw(SETS), *out = take(room * sizeof *out), *out_ends = take(end_room * sizeof *out_ends);
    size_t *targets = take(g.len * sizeof *targets), *ends = take(g.count * sizeof *ends);
    memcpy(targets, g.targets, g.len * sizeof *targets);
    memcpy(ends, g.ends, g.count * sizeof *ends);
    call_name = is_common ? "graph_common_each" : "graph_heads_each";
    if (is_common) found = jj_graph_common_each(targets, g.len, ends, g.count, set1, len1, ends1, sets, set2, len2, ends2, sets, out, room, out_ends, end_room);
    else found = jj_graph_heads_each(targets, g.len, ends, g.count, set1, len1, ends1, sets, out, room, out_ends, end_room);
    if (status < 0 || end_room < sets) {
        if (status < 0 ? found != status && !(g.status == JJ_CYCLE && found == JJ_NODE) : found != JJ_LENGTH) fail("wrong status");
        expect_kept(out, 0, room * sizeof *out);
    } else expect_items(found, (int64_t)count, expected, out, room);
    if (found < 0) expect_kept(out_ends, 0, end_room * sizeof *out_ends);
    else if (memcmp(out_ends, expected_ends, sets * sizeof *out_ends)) fail("wrong ends");
}

int main(int argc, char **argv) {
    static void (*const shapes[])(void) = {digests, hex, prefixes, globs, filesets, walks, merges, flattening, graphs, graph_batches};
    if (argc != 3) return fprintf(stderr, "usage: fuzz SEED CALLS\n"), 2;
    state = strtoull(argv[1], NULL, 10) * 0x9e3779b97f4a7c15u + 88172645463325252u;
    for (long left = atol(argv[2]); left > 0; left--) {
        uint64_t before = state;
        shapes[draw(sizeof shapes / sizeof *shapes)]();
        while (taken_count) free(taken[--taken_count]);
        if (state == before) state++;
    }
    printf("fuzz: %s calls, no difference\n", argv[2]);
    return 0;
}
