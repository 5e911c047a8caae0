/* Calls of the C interface: known results, errors, failing allocations, and random calls from four threads. Built by bindings/check, with
 * the linker's --wrap for malloc and realloc. */
#include "jj_core.h"

#include <pthread.h>
#include <stdio.h>
#include <stdlib.h>
#include <string.h>

#define BYTES(text) (const uint8_t *)(text), strlen(text)
#define ITEMS(list) (list), sizeof(list) / sizeof *(list)

enum { THREADS = 4, CALLS = 10000, MOST = 24 };

static int faults;

static void expect(int holds, const char *what, int line) {
    if (!holds) {
        printf("test.c:%d: %s does not hold\n", line, what);
        faults++;
    }
}
#define EXPECT(condition) expect((condition) != 0, #condition, __LINE__)

static void known_results(void) {
    uint8_t digest[JJ_DIGEST_LENGTH] = {0}, text[8], bytes[4] = {9, 9, 9, 9};
    size_t one[] = {1, 2, 3, 4, 5}, kept[5], merges[] = {1, 4, 5}, nodes[] = {0, 1, 3}, ends[] = {0, 1, 2, 4}, targets[] = {0, 0, 1, 2}, found[4];
    bool matches[2];
    EXPECT(jj_hash(BYTES("abc"), digest, 64) == 64 && digest[0] == 0xba && digest[63] == 0x23);
    EXPECT(jj_content_hash(BYTES(""), digest, 64) == 64 && digest[0] == 0x48);
    EXPECT(jj_content_hash_list(BYTES(""), one, 0, digest, 64) == 64 && digest[0] == 0x48);
    EXPECT(jj_hash(BYTES("abc"), digest, 63) == JJ_LENGTH && digest[0] == 0x48);
    EXPECT(jj_hex_encode(BYTES("\x01\xef"), false, text, 8) == 4 && !memcmp(text, "01ef", 4));
    EXPECT(jj_hex_encode(BYTES("\x01\xef"), true, text, 3) == JJ_LENGTH && !memcmp(text, "01ef", 4));
    EXPECT(jj_hex_decode(BYTES("01EF"), false, bytes, 4) == 2 && bytes[1] == 0xef && bytes[2] == 9);
    EXPECT(jj_hex_decode(BYTES("01e"), false, bytes, 4) == JJ_SYNTAX && bytes[1] == 0xef);
    EXPECT(jj_hex_prefix_matches(BYTES("mlp"), true, BYTES("\xde\xad")) == 1);
    EXPECT(jj_hex_prefix_matches(BYTES("mlx"), true, BYTES("\xde\xad")) == 0);
    EXPECT(jj_hex_prefix_resolve(BYTES("dea"), false, BYTES("\xbe\xef\xde\xad\xdf"), ITEMS(((size_t[]){2, 4, 5}))) == 1);
    EXPECT(jj_hex_prefix_resolve(BYTES("D"), false, BYTES("\xbe\xef\xde\xad\xdf"), ITEMS(((size_t[]){2, 4, 5}))) == JJ_AMBIGUOUS);
    EXPECT(jj_hex_prefix_resolve(BYTES("k"), true, BYTES("\xbe\xef\xde\xad\xdf"), ITEMS(((size_t[]){2, 4, 5}))) == JJ_NO_MATCH);
    EXPECT(jj_hex_prefix_resolve(BYTES("g"), false, BYTES("a"), one, 1) == JJ_SYNTAX);
    EXPECT(jj_hex_prefix_resolve(BYTES("6"), false, BYTES("a"), one + 1, 1) == JJ_ENDS);
    EXPECT(jj_glob_matches(BYTES("src/**/*.rs"), true, false, BYTES("src/a.rsa.rs"), ITEMS(((size_t[]){8, 12})), ITEMS(matches)) == 2 && matches[0] && !matches[1]);
    EXPECT(jj_glob_matches(BYTES("[a"), true, false, BYTES(""), one, 0, ITEMS(matches)) == JJ_SYNTAX);
    EXPECT(jj_fileset_matches(BYTES("src ~ **/*.md"), BYTES("src/a.rssrc/b.md"), ITEMS(((size_t[]){8, 16})), ITEMS(matches)) == 2 && matches[0] && !matches[1]);
    EXPECT(jj_fileset_matches(BYTES("src ~"), BYTES(""), one, 0, ITEMS(matches)) == JJ_EXPRESSION);
    EXPECT(jj_fileset_matches(BYTES("src"), BYTES("a//b"), one + 3, 1, ITEMS(matches)) == JJ_PATH && matches[0]);
    EXPECT(jj_fileset_matches(BYTES("src"), BYTES("abcde"), ITEMS(one), ITEMS(matches)) == JJ_LENGTH);
    EXPECT(jj_walk(BYTES("src"), (size_t[]){3}, 1, true, BYTES("src/asrc.rs"), ITEMS(((size_t[]){5, 11})), ITEMS(matches)) == 2 && matches[0] && !matches[1]);
    EXPECT(jj_walk(BYTES("src.rs"), (size_t[]){6}, 1, false, BYTES("src/asrc.rs"), ITEMS(((size_t[]){5, 11})), ITEMS(matches)) == 1 && !matches[0] && matches[1]);
    EXPECT(jj_walk(BYTES("a"), one, 1, true, BYTES("a//b"), one + 3, 1, ITEMS(matches)) == JJ_PATH && !matches[0] && matches[1]);
    EXPECT(jj_walk(BYTES("a//b"), one + 3, 1, true, BYTES("a"), one, 1, ITEMS(matches)) == JJ_PATH && !matches[0] && matches[1]);
    EXPECT(jj_walk(BYTES("a"), one + 1, 1, true, BYTES("a"), one, 1, ITEMS(matches)) == JJ_ENDS);
    EXPECT(jj_walk(BYTES("a"), one, 1, true, BYTES("abcde"), ITEMS(one), ITEMS(matches)) == JJ_LENGTH);
    EXPECT(jj_merge_simplify(BYTES("abbca"), ITEMS(one), ITEMS(kept)) == 3 && kept[0] == 0 && kept[1] == 3 && kept[2] == 4);
    EXPECT(jj_merge_simplify(BYTES("abbca"), ITEMS(one), kept, 2) == JJ_LENGTH);
    EXPECT(jj_merge_simplify(BYTES("abbca"), one, 4, ITEMS(kept)) == JJ_TERMS);
    EXPECT(jj_merge_simplify(BYTES("abbc"), ITEMS(one), ITEMS(kept)) == JJ_ENDS);
    EXPECT(jj_merge_resolve(BYTES("aab"), one, 3, false) == 2);
    EXPECT(jj_merge_resolve(BYTES("aba"), one, 3, false) == JJ_CONFLICT);
    EXPECT(jj_merge_resolve(BYTES("aba"), one, 3, true) == 0);
    EXPECT(jj_merge_flatten(ITEMS(merges), ITEMS(kept)) == 5 && kept[0] == 0 && kept[1] == 3 && kept[2] == 2 && kept[3] == 1 && kept[4] == 4);
    EXPECT(jj_merge_flatten(ITEMS(merges), kept, 4) == JJ_LENGTH);
    EXPECT(jj_merge_flatten(merges, 2, ITEMS(kept)) == JJ_TERMS);
    EXPECT(jj_merge_flatten(merges + 1, 1, ITEMS(kept)) == JJ_TERMS);
    EXPECT(jj_merge_flatten(ITEMS(((size_t[]){1, 0, 3})), ITEMS(kept)) == JJ_ENDS);
    EXPECT(jj_graph_order(ITEMS(targets), ITEMS(ends), ITEMS(nodes), ITEMS(found)) == 4 && found[0] == 3 && found[3] == 0);
    EXPECT(jj_graph_heads(ITEMS(targets), ITEMS(ends), ITEMS(nodes), ITEMS(found)) == 1 && found[0] == 3);
    EXPECT(jj_graph_common(ITEMS(targets), ITEMS(ends), nodes, 2, nodes + 1, 2, ITEMS(found)) == 1 && found[0] == 1);
    EXPECT(jj_graph_heads(ITEMS(targets), ITEMS(ends), one + 3, 1, ITEMS(found)) == JJ_NODE);
    EXPECT(jj_graph_heads((size_t[]){0}, 1, (size_t[]){1}, 1, nodes, 1, ITEMS(found)) == JJ_CYCLE);
}

/* Merges of three texts of lines. After an error the buffer is unchanged. */
static void texts(void) {
    static const size_t ends[] = {4, 8, 12};
    static const char marked[] = "<<<<<<<\n1\n|||||||\n0\n=======\n2\n>>>>>>>\nb\n";
    uint8_t text[64] = {9};
    EXPECT(jj_merge_contents(BYTES("1\nb\n0\nb\n2\nb\n"), ITEMS(ends), false, false, ITEMS(text)) == JJ_CONFLICT);
    EXPECT(jj_merge_contents(BYTES("1\nb\n0\nb\n0\nc\n"), ITEMS(ends), false, false, ITEMS(text)) == JJ_CONFLICT);
    EXPECT(jj_merge_contents(BYTES("1\nb\n0\nb\n1\nb\n"), ITEMS(ends), true, false, text, 3) == JJ_LENGTH);
    EXPECT(jj_merge_contents(BYTES("1\nb\n0\nb\n"), ends, 2, true, false, ITEMS(text)) == JJ_TERMS);
    EXPECT(jj_merge_contents(BYTES("1\nb\n0\nb\n"), ITEMS(ends), true, false, ITEMS(text)) == JJ_ENDS);
    EXPECT(jj_merge_materialize(BYTES("1\nb\n0\nb\n2\nb\n"), ITEMS(ends), false, true, text, 20) == JJ_LENGTH && text[0] == 9);
    EXPECT(jj_merge_contents(BYTES("1\nb\n0\nb\n1\nb\n"), ITEMS(ends), true, false, ITEMS(text)) == 4 && !memcmp(text, "1\nb\n", 4));
    EXPECT(jj_merge_contents(BYTES("1 b\n0 b\n0 c\n"), ITEMS(ends), false, true, ITEMS(text)) == 4 && !memcmp(text, "1 c\n", 4));
    EXPECT(jj_merge_materialize(BYTES("1\nb\n0\nb\n2\nb\n"), ITEMS(ends), false, true, ITEMS(text)) == sizeof marked - 1);
    EXPECT(!memcmp(text, marked, sizeof marked - 1));
    EXPECT(jj_merge_materialize(BYTES("1\nb\n0\nb\n0\nb\n"), ITEMS(ends), false, false, ITEMS(text)) == 4 && !memcmp(text, "1\nb\n", 4));
}

/* Many questions to one graph. After an error both buffers are unchanged. */
static void batches(void) {
    static const size_t targets[] = {0, 0, 1, 2}, ends[] = {0, 1, 2, 4}, nodes[] = {1, 2, 3, 1, 0}, sets[] = {2, 2, 5}, one[] = {1, 2}, down[] = {2, 1};
    size_t found[8] = {9, 9, 9, 9}, found_ends[4] = {9, 9, 9, 9};
    EXPECT(jj_graph_heads_each(ITEMS(targets), ITEMS(ends), ITEMS(nodes), ITEMS(sets), found, 2, ITEMS(found_ends)) == JJ_LENGTH);
    EXPECT(jj_graph_heads_each(ITEMS(targets), ITEMS(ends), ITEMS(nodes), ITEMS(sets), ITEMS(found), found_ends, 2) == JJ_LENGTH);
    EXPECT(jj_graph_heads_each(ITEMS(targets), ITEMS(ends), ITEMS(nodes), ITEMS(down), ITEMS(found), ITEMS(found_ends)) == JJ_ENDS);
    EXPECT(jj_graph_heads_each(ITEMS(targets), ends, 3, ITEMS(nodes), ITEMS(sets), ITEMS(found), ITEMS(found_ends)) == JJ_NODE);
    EXPECT(jj_graph_heads_each((size_t[]){0}, 1, (size_t[]){1}, 1, nodes, 0, one, 0, ITEMS(found), ITEMS(found_ends)) == JJ_CYCLE);
    EXPECT(jj_graph_common_each(ITEMS(targets), ITEMS(ends), nodes, 2, ITEMS(one), nodes, 1, one, 1, ITEMS(found), ITEMS(found_ends)) == JJ_ENDS);
    for (int i = 0; i < 4; i++) EXPECT(found[i] == 9 && found_ends[i] == 9);
    EXPECT(jj_graph_heads_each(ITEMS(targets), ITEMS(ends), ITEMS(nodes), ITEMS(sets), ITEMS(found), ITEMS(found_ends)) == 3);
    EXPECT(found[0] == 1 && found[1] == 2 && found[2] == 3 && found[3] == 9 && found_ends[0] == 2 && found_ends[1] == 2 && found_ends[2] == 3);
    EXPECT(jj_graph_common_each(ITEMS(targets), ITEMS(ends), nodes, 2, ITEMS(one), nodes + 1, 2, ITEMS(one), ITEMS(found), ITEMS(found_ends)) == 2);
    EXPECT(found[0] == 0 && found[1] == 2 && found_ends[0] == 1 && found_ends[1] == 2 && found_ends[2] == 3);
}

/* NULL is an empty list, at each parameter. */
static void no_items(void) {
    static const size_t one[] = {0};
    uint8_t digest[64];
    size_t list[1];
    bool flags[1];
    jj_hasher hasher;
    EXPECT(jj_hash(NULL, 0, digest, 64) == 64 && jj_hash(NULL, 0, NULL, 0) == JJ_LENGTH);
    EXPECT(jj_content_hash(NULL, 0, digest, 64) == 64 && jj_content_hash_list(NULL, 0, NULL, 0, digest, 64) == 64);
    EXPECT(jj_content_hash_list(NULL, 0, one, 1, digest, 64) == 64);
    jj_hasher_start(&hasher);
    jj_hasher_update(&hasher, NULL, 0);
    EXPECT(jj_hasher_finish(&hasher, NULL, 0) == JJ_LENGTH && jj_hasher_finish(&hasher, digest, 64) == 64);
    EXPECT(jj_hex_encode(NULL, 0, false, NULL, 0) == 0 && jj_hex_decode(NULL, 0, true, NULL, 0) == 0);
    EXPECT(jj_hex_prefix_matches(NULL, 0, false, NULL, 0) == 1);
    EXPECT(jj_glob_matches(NULL, 0, false, false, NULL, 0, NULL, 0, NULL, 0) == 0);
    EXPECT(jj_glob_matches(NULL, 0, false, false, NULL, 0, one, 1, flags, 1) == 1 && flags[0]);
    EXPECT(jj_fileset_matches(NULL, 0, NULL, 0, NULL, 0, NULL, 0) == JJ_EXPRESSION);
    EXPECT(jj_fileset_matches(BYTES("a"), NULL, 0, NULL, 0, NULL, 0) == 0);
    EXPECT(jj_fileset_matches(BYTES("a"), NULL, 0, one, 1, flags, 1) == 1 && !flags[0]);
    EXPECT(jj_walk(NULL, 0, NULL, 0, true, NULL, 0, NULL, 0, NULL, 0) == 0);
    EXPECT(jj_merge_simplify(NULL, 0, NULL, 0, NULL, 0) == JJ_TERMS && jj_merge_simplify(NULL, 0, one, 1, list, 1) == 1);
    EXPECT(jj_merge_contents(NULL, 0, one, 1, false, false, NULL, 0) == 0 && jj_merge_materialize(NULL, 0, NULL, 0, false, false, NULL, 0) == JJ_TERMS);
    EXPECT(jj_merge_resolve(NULL, 0, one, 1, false) == 0 && jj_merge_flatten(NULL, 0, NULL, 0) == JJ_TERMS);
    EXPECT(jj_graph_order(NULL, 0, NULL, 0, NULL, 0, NULL, 0) == 0 && jj_graph_heads(NULL, 0, one, 1, NULL, 0, NULL, 0) == 0);
    EXPECT(jj_graph_common(NULL, 0, NULL, 0, NULL, 0, NULL, 0, NULL, 0) == 0);
    EXPECT(jj_graph_heads_each(NULL, 0, NULL, 0, NULL, 0, NULL, 0, NULL, 0, NULL, 0) == 0);
    EXPECT(jj_graph_common_each(NULL, 0, NULL, 0, NULL, 0, NULL, 0, NULL, 0, NULL, 0, NULL, 0, NULL, 0) == 0);
}

/* A message cut at each index, and its content: the digest is that of the whole message, also of a copy and after more was appended. */
static void digests_in_pieces(void) {
    enum { LEN = 300 };
    uint8_t message[LEN], whole[64], found[64], length[8] = {LEN & 255, LEN >> 8};
    jj_hasher hasher, copy;
    for (size_t i = 0; i < LEN; i++) message[i] = (uint8_t)(i * 7);
    for (size_t cut = 0; cut <= LEN; cut++) {
        jj_hasher_start(&hasher);
        jj_hasher_update(&hasher, message, cut);
        copy = hasher;
        EXPECT(jj_hash(message, cut, whole, 64) == 64 && jj_hasher_finish(&hasher, found, 64) == 64 && !memcmp(whole, found, 64));
        jj_hasher_update(&hasher, message + cut, LEN - cut);
        EXPECT(jj_hasher_finish(&copy, found, 64) == 64 && !memcmp(whole, found, 64));
        EXPECT(jj_hasher_finish(&hasher, found, 63) == JJ_LENGTH && !memcmp(whole, found, 64));
        EXPECT(jj_hash(message, LEN, whole, 64) == 64 && jj_hasher_finish(&hasher, found, 64) == 64 && !memcmp(whole, found, 64));
    }
    jj_hasher_start(&hasher);
    jj_hasher_update(&hasher, length, 8);
    for (size_t i = 0; i < LEN; i++) jj_hasher_update(&hasher, message + i, 1);
    EXPECT(jj_content_hash(message, LEN, whole, 64) == 64 && jj_hasher_finish(&hasher, found, 64) == 64 && !memcmp(whole, found, 64));
}

/* The allocation after which `fail_in` is 0 fails. It is not changed while there are threads. */
static long fail_in = -1;

void *__real_malloc(size_t size);
void *__real_realloc(void *block, size_t size);
void *__wrap_malloc(size_t size);
void *__wrap_realloc(void *block, size_t size);

static bool fails(void) { return fail_in > 0 && --fail_in == 0; }
void *__wrap_malloc(size_t size) { return fails() ? NULL : __real_malloc(size); }
void *__wrap_realloc(void *block, size_t size) { return fails() ? NULL : __real_realloc(block, size); }

enum { ALLOCATING_CALLS = 14 };

static int64_t call_with(int which, uint8_t *text, bool *matches, size_t *list) {
    static const size_t one[] = {1, 2, 3, 4, 5}, merges[] = {1, 4, 5}, ends[] = {0, 1, 2, 4}, targets[] = {0, 0, 1, 2}, nodes[] = {1, 2, 3}, paths[] = {1, 4, 9};
    switch (which) {
    case 0: return jj_hex_encode(BYTES("\x01\xef"), false, text, 8);
    case 1: return jj_hex_decode(BYTES("01EF"), false, text, 8);
    case 2: return jj_hex_prefix_matches(BYTES("01e"), false, BYTES("\x01\xef"));
    case 3: return jj_glob_matches(BYTES("a{b,c}*[de]"), true, false, BYTES("abdef"), ITEMS(one), matches, 8);
    case 4: return jj_merge_simplify(BYTES("abbca"), ITEMS(one), list, 8);
    case 5: return jj_graph_order(ITEMS(targets), ITEMS(ends), ITEMS(nodes), list, 8);
    case 6: return jj_graph_heads(ITEMS(targets), ITEMS(ends), ITEMS(nodes), list, 8);
    case 7: return jj_merge_flatten(ITEMS(merges), list, 8);
    case 8: return jj_fileset_matches(BYTES("(a | b*) ~ c"), BYTES("abdef"), ITEMS(one), matches, 8);
    case 9: return jj_walk(BYTES("abdef"), ITEMS(one), false, BYTES("aa/ba/b/c"), ITEMS(paths), matches, 8);
    case 10: return jj_walk(BYTES("ab"), ITEMS(((size_t[]){1, 2})), true, BYTES("aa/ba/b/c"), ITEMS(paths), matches, 8);
    case 11: return jj_graph_heads_each(ITEMS(targets), ITEMS(ends), ITEMS(nodes), merges, 1, list, 4, list + 4, 4);
    case 12: return jj_graph_common_each(ITEMS(targets), ITEMS(ends), nodes, 2, one, 2, nodes + 1, 2, one, 2, list, 4, list + 4, 4);
    default: return jj_graph_common(ITEMS(targets), ITEMS(ends), nodes, 2, nodes + 1, 2, list, 8);
    }
}

/* What a call returned and wrote. */
struct result {
    int64_t status;
    uint8_t text[8];
    bool matches[8];
    size_t list[8];
};

static struct result result_of(int which, long failing) {
    struct result r;
    memset(&r, 0, sizeof r);
    fail_in = failing;
    r.status = call_with(which, r.text, r.matches, r.list);
    return r;
}

static bool are_same(const struct result *r, const struct result *s) {
    return r->status == s->status && !memcmp(r->text, s->text, sizeof r->text) && !memcmp(r->matches, s->matches, sizeof r->matches) &&
           !memcmp(r->list, s->list, sizeof r->list);
}

/* Each allocation of each call fails once: the call returns JJ_MEMORY and writes nothing, or it did not need that allocation. */
static void failing_allocations(void) {
    for (int which = 0; which < ALLOCATING_CALLS; which++) {
        struct result whole = result_of(which, -1), nothing = {.status = JJ_MEMORY};
        int failed = 0;
        EXPECT(whole.status >= 0);
        for (long at = 1;; at++) {
            struct result r = result_of(which, at);
            bool is_past = fail_in > 0;
            fail_in = -1;
            EXPECT(are_same(&r, &whole) || (!is_past && are_same(&r, &nothing)));
            failed += r.status == JJ_MEMORY;
            if (is_past) break;
        }
        EXPECT(failed > 0);
    }
}

/* Buffers of exactly the lengths that are passed, so that a sanitizer sees each access beyond them. */
struct random {
    uint64_t state;
    void *taken[16];
    size_t count;
};

static uint64_t draw(struct random *r, uint64_t below) {
    r->state ^= r->state << 13;
    r->state ^= r->state >> 7;
    r->state ^= r->state << 17;
    return r->state % below;
}

static void *take(struct random *r, size_t size) {
    void *block = malloc(size ? size : 1);
    if (!block) abort();
    return r->taken[r->count++] = block;
}

static size_t draw_len(struct random *r) { return draw(r, 8) ? draw(r, MOST) : 0; }

static uint8_t *draw_bytes(struct random *r, size_t len, const char *from) {
    uint8_t *bytes = take(r, len);
    for (size_t i = 0; i < len; i++) bytes[i] = draw(r, 40) ? (uint8_t)from[draw(r, strlen(from))] : (uint8_t)draw(r, 256);
    return bytes;
}

/* Mostly ends that divide a list of `len` items, else random ones. */
static size_t *draw_ends(struct random *r, size_t count, size_t len) {
    size_t *ends = take(r, count * sizeof *ends), from = 0;
    bool is_valid = draw(r, 5) != 0;
    for (size_t i = 0; i < count; i++) ends[i] = is_valid ? (from += draw(r, len - from + 1)) : draw(r, 9) ? draw(r, len + 3) : SIZE_MAX - draw(r, 3);
    return ends;
}

static size_t *draw_nodes(struct random *r, size_t count, size_t below) {
    size_t *nodes = take(r, count * sizeof *nodes);
    for (size_t i = 0; i < count; i++) nodes[i] = draw(r, 30) ? draw(r, below ? below : 1) : draw(r, 3) ? below + draw(r, 3) : SIZE_MAX;
    return nodes;
}

/* The targets of nodes that mostly precede their node in the order, so that most graphs are acyclic. */
static size_t *draw_targets(struct random *r, size_t count, size_t nodes) { return draw_nodes(r, count, draw(r, 3) ? 1 : nodes); }

/* Hashes a message in random pieces. The state is random at first, and mostly started then. */
static int64_t draw_digest(struct random *r, uint8_t *out, size_t room) {
    jj_hasher *hasher = take(r, sizeof *hasher);
    size_t len = draw_len(r) * draw(r, 20), from = 0;
    uint8_t *message = draw_bytes(r, len, "ab"), whole[64];
    bool is_started = draw(r, 5) != 0;
    int64_t status;
    for (size_t i = 0; i < sizeof *hasher; i++) ((uint8_t *)hasher)[i] = (uint8_t)draw(r, 256);
    if (is_started) jj_hasher_start(hasher);
    for (size_t end = 0; end < len; from = end) {
        end += draw(r, len - end) + 1;
        jj_hasher_update(hasher, message + from, end - from);
    }
    status = jj_hasher_finish(hasher, out, room);
    jj_hash(message, len, whole, 64);
    return status > 0 && is_started && memcmp(whole, out, 64) ? INT64_MIN : status;
}

static int64_t draw_call(struct random *r) {
    static const char *const digits = "0123456789abcdefABCDEFzyxwvutsrqponmlk", *const globs = "ab/*?[]{},\\!-^", *const sets = "aabc*/|&~()";
    size_t len = draw_len(r), count = draw(r, 3) ? draw_len(r) | 1 : draw_len(r), room = draw(r, 4) ? MOST + 2 : draw_len(r), other = draw_len(r), nodes = draw_len(r);
    bool flag = draw(r, 2), icase = draw(r, 2);
    uint8_t *out = take(r, room * 4);
    size_t *list = take(r, room * sizeof *list);
    switch (draw(r, 18)) {
    case 0: return jj_hash(draw_bytes(r, len, digits), len, out, room * 4);
    case 1: return jj_content_hash(draw_bytes(r, len, digits), len, out, room * 4);
    case 2: return jj_content_hash_list(draw_bytes(r, len, digits), len, draw_ends(r, count, len), count, out, room * 4);
    case 3: return jj_hex_encode(draw_bytes(r, len, digits), len, flag, out, room);
    case 4: return jj_hex_decode(draw_bytes(r, len, digits), len, flag, out, room);
    case 5: return jj_hex_prefix_matches(draw_bytes(r, len, digits), len, flag, draw_bytes(r, other, digits), other);
    case 6: return jj_glob_matches(draw_bytes(r, other, globs), other, flag, icase, draw_bytes(r, len, globs), len, draw_ends(r, count, len), count, take(r, room), room);
    case 7: return jj_merge_simplify(draw_bytes(r, len, "ab"), len, draw_ends(r, count, len), count, list, room);
    case 8: return jj_merge_resolve(draw_bytes(r, len, "ab"), len, draw_ends(r, count, len), count, flag);
    case 9: return jj_graph_order(draw_targets(r, len, nodes), len, draw_ends(r, nodes, len), nodes, draw_nodes(r, count, nodes), count, list, room);
    case 10: return jj_merge_flatten(draw_ends(r, count, len), count, list, room);
    case 11: return jj_fileset_matches(draw_bytes(r, other, sets), other, draw_bytes(r, len, "abc/"), len, draw_ends(r, count, len), count, take(r, room), room);
    case 12: {
        size_t parts = draw_len(r) / 4;
        return jj_walk(draw_bytes(r, other, "aab/"), other, draw_ends(r, parts, other), parts, flag, draw_bytes(r, len, "aab/"), len, draw_ends(r, count, len), count, take(r, room), room);
    }
    case 13: return draw_digest(r, out, room * 4);
    case 14: return jj_merge_contents(draw_bytes(r, len, "ab \n\n"), len, draw_ends(r, count, len), count, flag, icase, out, room * 4);
    case 15: return jj_merge_materialize(draw_bytes(r, len, "ab \n\n"), len, draw_ends(r, count, len), count, flag, icase, out, room * 4);
    case 16: return jj_graph_heads(draw_targets(r, len, nodes), len, draw_ends(r, nodes, len), nodes, draw_nodes(r, count, nodes), count, list, room);
    default:
        return jj_graph_common(draw_targets(r, len, nodes), len, draw_ends(r, nodes, len), nodes, draw_nodes(r, count, nodes), count, draw_nodes(r, other, nodes), other, list, room);
    }
}

/* Makes random calls, and sums up their results in order. The sum is 0 after a result that no call returns. */
static void *random_calls(void *seed) {
    uint64_t *sum = seed;
    struct random r = {.state = *sum};
    long succeeded = 0;
    for (int i = 0; i < CALLS; i++) {
        int64_t status = draw_call(&r);
        if (status < JJ_EXPRESSION || status > 4 * (MOST + 2)) *sum = 0;
        *sum = *sum * 31 + (uint64_t)(status + 100);
        succeeded += status >= 0;
        while (r.count) free(r.taken[--r.count]);
    }
    if (succeeded < CALLS / 4) *sum = 0;
    return NULL;
}

int main(void) {
    pthread_t threads[THREADS];
    uint64_t sums[THREADS], alone;
    known_results();
    texts();
    batches();
    no_items();
    digests_in_pieces();
    failing_allocations();
    for (int i = 0; i < THREADS; i++) {
        sums[i] = 88172645463325252u + (uint64_t)(i / 2);
        if (pthread_create(&threads[i], NULL, random_calls, &sums[i])) return 2;
    }
    for (int i = 0; i < THREADS; i++) pthread_join(threads[i], NULL);
    alone = 88172645463325252u;
    random_calls(&alone);
    EXPECT(alone == sums[0] && sums[0] == sums[1] && sums[2] == sums[3] && sums[0] != sums[2]);
    printf("test.c: %d faults\n", faults);
    return faults != 0;
}
