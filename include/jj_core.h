/*
 * jj_core.h: the C interface of the library jj_core_c.
 *
 * Memory. Every pointer comes from the caller and is followed by the number of items that it points to. It is read or written during the
 * call only; the library keeps no pointer, returns no memory to free, and has no global state. Where the number is 0, a pointer may be NULL;
 * else it must be aligned for its type. A buffer for results, or a hasher, must not overlap any other argument. `const` arguments
 * are only read.
 *
 * Results. A call returns nothing, or a number of 0 or more, or a negative status. Results are written to the first items of the buffer; the other items,
 * and after a negative status all items, keep their values. A call returns only the statuses that are listed with it; if several apply, any
 * of them.
 *
 * Joined lists. A list of byte strings is their concatenation and, for each, the index at which it ends: "ab", "", "c" are the bytes "abc"
 * with the ends 2, 2, 3. Ends must not descend, and must be at most the number of bytes; bytes after the last end are ignored.
 *
 * Allocation. Calls that allocate use malloc, realloc and free, and free all that they took before they return. Deep recursion does not
 * occur. No call blocks, prints, aborts or throws.
 *
 * Threads. Calls may run at the same time in any threads, as long as what one writes is used by no other; what calls only read may be shared.
 * Do not call from a signal handler.
 */
#ifndef JJ_CORE_H
#define JJ_CORE_H

#include <stdbool.h>
#include <stddef.h>
#include <stdint.h>

#ifdef __cplusplus
extern "C" {
#endif

/* Memory ran out. */
#define JJ_MEMORY (-1)
/* Ends descend, or exceed the length of the list that they divide. */
#define JJ_ENDS (-2)
/* A buffer for results is too short. */
#define JJ_LENGTH (-3)
/* A string is not well-formed: hex, UTF-8 or a glob. */
#define JJ_SYNTAX (-4)
/* A merge has an even number of terms. */
#define JJ_TERMS (-5)
/* A merge resolves to no term. */
#define JJ_CONFLICT (-6)
/* A node is not below the number of nodes. */
#define JJ_NODE (-7)
/* The graph has a cycle. */
#define JJ_CYCLE (-8)
/* A string is no repository path: it is not UTF-8, or has an empty component. */
#define JJ_PATH (-9)
/* A string is no expression of a file set, or not UTF-8. */
#define JJ_EXPRESSION (-10)
/* No id matches a prefix. */
#define JJ_NO_MATCH (-11)
/* Several ids match a prefix. */
#define JJ_AMBIGUOUS (-12)

/* The length of a digest. */
#define JJ_DIGEST_LENGTH 64

/* Digests. */

/* Writes the BLAKE2b-512 digest of bytes. Returns 64. Errors: JJ_LENGTH.
 * Ownership: reads bytes and writes digest during the call; allocates nothing. Threads: any, if no other uses digest meanwhile. */
int64_t jj_hash(const uint8_t *bytes, size_t bytes_len, uint8_t *digest, size_t digest_len);

/* Writes the digest of the content of a byte string: of its length as 8 bytes, little-endian, and then the bytes. Returns 64.
 * Errors: JJ_LENGTH.
 * Ownership: reads bytes and writes digest during the call; allocates nothing. Threads: any, if no other uses digest meanwhile. */
int64_t jj_content_hash(const uint8_t *bytes, size_t bytes_len, uint8_t *digest, size_t digest_len);

/* Writes the digest of the content of a list of byte strings: of their number as 8 bytes, and then the content of each. Returns 64.
 * Errors: JJ_ENDS, JJ_LENGTH.
 * Ownership: reads bytes, ends and writes digest during the call; allocates nothing. Threads: any, if no other uses digest meanwhile. */
int64_t jj_content_hash_list(const uint8_t *bytes, size_t bytes_len, const size_t *ends, size_t ends_len, uint8_t *digest, size_t digest_len);

/* Digests in pieces: of a message that is never in memory as a whole. None of these calls allocates. */

/* A hasher. The caller owns it, on the stack or anywhere else: it holds no pointer and need not be released, and a copy of it is a second
 * hasher of the same message. Its fields are for the library. */
typedef struct jj_hasher {
    uint64_t chaining[8];
    uint8_t buffer[128];
    uint64_t total_low;
    uint64_t total_high;
    uint64_t is_full;
} jj_hasher;

/* Begins an empty message, whatever the fields were. A hasher that was not started is safe to pass, but its digest means nothing.
 * Ownership: writes hasher during the call; allocates nothing. Threads: any, if no other uses hasher meanwhile. */
void jj_hasher_start(jj_hasher *hasher);

/* Appends bytes to the message. O(bytes).
 * Ownership: reads bytes and writes hasher during the call; allocates nothing. Threads: any, if no other uses hasher meanwhile. */
void jj_hasher_update(jj_hasher *hasher, const uint8_t *bytes, size_t bytes_len);

/* Writes the BLAKE2b-512 digest of the message: of the bytes of all updates since the start, in order. Returns 64. The hasher stays as it is,
 * so more can be appended afterwards. The digest of the content of a byte string, as of jj_content_hash, is that of the message of its length
 * as 8 bytes, little-endian, and then the bytes in any pieces. Errors: JJ_LENGTH.
 * Ownership: reads hasher and writes digest during the call; allocates nothing. Threads: any, if no other writes hasher or uses digest
 * meanwhile. */
int64_t jj_hasher_finish(const jj_hasher *hasher, uint8_t *digest, size_t digest_len);

/* Hex. With `reverse`, reverse hex: the digits z (0) to k (15). */

/* Writes bytes as lower-case hex. Returns the number of digits, twice that of the bytes. Errors: JJ_LENGTH, JJ_MEMORY.
 * Ownership: reads bytes and writes text during the call; frees all that it allocates. Threads: any, if no other uses text meanwhile. */
int64_t jj_hex_encode(const uint8_t *bytes, size_t bytes_len, bool reverse, uint8_t *text, size_t text_len);

/* Writes the bytes that hex digits of either case encode. Returns their number, half that of the digits.
 * Errors: JJ_LENGTH, JJ_SYNTAX (a character is no digit, or their number is odd), JJ_MEMORY.
 * Ownership: reads text and writes bytes during the call; frees all that it allocates. Threads: any, if no other uses bytes meanwhile. */
int64_t jj_hex_decode(const uint8_t *text, size_t text_len, bool reverse, uint8_t *bytes, size_t bytes_len);

/* Returns 1 if the hex of an id begins with these digits of either case, whose number may be odd, else 0.
 * Errors: JJ_SYNTAX, JJ_MEMORY.
 * Ownership: reads prefix, id during the call; frees all that it allocates. Threads: any. */
int64_t jj_hex_prefix_matches(const uint8_t *prefix, size_t prefix_len, bool reverse, const uint8_t *id, size_t id_len);

/* Returns the index of the only id of a list whose hex begins with these digits of either case. An id that is listed twice matches twice.
 * O(bytes of the ids). Errors: JJ_ENDS, JJ_SYNTAX, JJ_NO_MATCH, JJ_AMBIGUOUS, JJ_MEMORY.
 * Ownership: reads prefix, ids, ends during the call; frees all that it allocates. Threads: any. */
int64_t jj_hex_prefix_resolve(const uint8_t *prefix, size_t prefix_len, bool reverse, const uint8_t *ids, size_t ids_len, const size_t *ends, size_t ends_len);

/* Globs. */

/* Parses a glob once, and writes for each byte string whether the glob matches it. With `separator`, `?` and `*` do not match `/`; with
 * `icase`, ASCII letters match in either case. Returns the number of byte strings. O(bytes * states of the glob).
 * Errors: JJ_ENDS, JJ_LENGTH, JJ_SYNTAX (no glob, or not UTF-8), JJ_MEMORY (also a glob of 1,048,576 states or more).
 * Ownership: reads glob, bytes, ends and writes matches during the call; frees all that it allocates. Threads: any, if no other uses matches meanwhile. */
int64_t jj_glob_matches(const uint8_t *glob, size_t glob_len, bool separator, bool icase, const uint8_t *bytes, size_t bytes_len, const size_t *ends, size_t ends_len, bool *matches, size_t matches_len);

/* Paths of a repository: components joined by `/`. The empty string is the root. */

/* Parses the expression of a file set once, such as `src ~ tests`, and writes for each path whether it is in the set. Operands are paths
 * (with all below them), globs, `file:PATH`, `glob:GLOB`, `all()` and `none()`; operators are `|`, `&`, `~` and parentheses. Returns the number
 * of paths. O(bytes * length of the expression). Errors: JJ_ENDS, JJ_LENGTH, JJ_EXPRESSION, JJ_PATH, JJ_MEMORY.
 * Ownership: reads expression, bytes, ends and writes matches during the call; frees all that it allocates. Threads: any, if no other uses matches meanwhile. */
int64_t jj_fileset_matches(const uint8_t *expression, size_t expression_len, const uint8_t *bytes, size_t bytes_len, const size_t *ends, size_t ends_len, bool *matches, size_t matches_len);

/* Walks the tree of the files at these paths, and writes for each whether the walk finds it: whether it is listed or, with `prefixes`, at or
 * below a listed path. The root is never found. Returns the number of directories that the walk enters: ancestors of listed paths and, with
 * `prefixes`, those at or below one. O(bytes * depth * log n) for n paths of at most `depth` components, and O(bytes * depth) memory.
 * Errors: JJ_ENDS, JJ_LENGTH, JJ_PATH, JJ_MEMORY.
 * Ownership: reads listed, listed_ends, bytes, ends and writes found during the call; frees all that it allocates. Threads: any, if no other uses found meanwhile. */
int64_t jj_walk(const uint8_t *listed, size_t listed_len, const size_t *listed_ends, size_t listed_ends_len, bool prefixes, const uint8_t *bytes, size_t bytes_len, const size_t *ends, size_t ends_len, bool *found, size_t found_len);

/* Merges: an odd number of byte strings, which are added and removed in turn. */

/* Writes the indices of the terms that remain once each added term is cancelled with an equal removed one, in the order of the simplified
 * merge. Returns their number, at most that of the terms. O(n * n) comparisons.
 * Errors: JJ_ENDS, JJ_TERMS, JJ_LENGTH, JJ_MEMORY.
 * Ownership: reads bytes, ends and writes kept during the call; frees all that it allocates. Threads: any, if no other uses kept meanwhile. */
int64_t jj_merge_simplify(const uint8_t *bytes, size_t bytes_len, const size_t *ends, size_t ends_len, size_t *kept, size_t kept_len);

/* Returns the index of a term that the merge resolves to. With `accept`, sides that made the same change resolve to it. At most
 * 2 * n * d comparisons for n terms with d distinct values. Errors: JJ_ENDS, JJ_TERMS, JJ_CONFLICT, JJ_MEMORY.
 * Ownership: reads bytes, ends during the call; frees all that it allocates. Threads: any. */
int64_t jj_merge_resolve(const uint8_t *bytes, size_t bytes_len, const size_t *ends, size_t ends_len, bool accept);

/* Merges file contents, whose terms are added and removed in turn: by lines, and with `words` the words of lines that conflict. With `accept`,
 * sides that made the same change resolve to it. Writes the merged contents. Returns their length. Linear but for the comparison of the terms.
 * Errors: JJ_ENDS, JJ_TERMS, JJ_CONFLICT, JJ_LENGTH, JJ_MEMORY.
 * Ownership: reads bytes, ends and writes text during the call; frees all that it allocates. Threads: any, if no other uses text meanwhile. */
int64_t jj_merge_contents(const uint8_t *bytes, size_t bytes_len, const size_t *ends, size_t ends_len, bool accept, bool words, uint8_t *text, size_t text_len);

/* Merges file contents by lines, and writes them with each conflict between markers: in Jujutsu's style, or with `git` in that of diff3. The
 * markers are longer than any run of their characters at the start of a line. Returns the length. Linear but for the comparison of the terms.
 * Errors: JJ_ENDS, JJ_TERMS, JJ_LENGTH, JJ_MEMORY.
 * Ownership: reads bytes, ends and writes text during the call; frees all that it allocates. Threads: any, if no other uses text meanwhile. */
int64_t jj_merge_materialize(const uint8_t *bytes, size_t bytes_len, const size_t *ends, size_t ends_len, bool accept, bool git, uint8_t *text, size_t text_len);

/* Writes the indices of the terms of a merge of merges, in the order of the flattened merge, in which removed merges are inverted. Terms are
 * numbered through all merges, and `ends` has the index at which those of each merge end. Returns their number, which is the last end.
 * Errors: JJ_ENDS (they descend), JJ_TERMS (an even number of merges, or of terms of one), JJ_LENGTH, JJ_MEMORY.
 * Ownership: reads ends and writes order during the call; frees all that it allocates. Threads: any, if no other uses order meanwhile. */
int64_t jj_merge_flatten(const size_t *ends, size_t ends_len, size_t *order, size_t order_len);

/* Graphs: the targets of node n are those from the end before the n-th one to that one; nodes are numbered from 0. */

/* Writes the nodes that are reachable from `nodes`, each before its targets; the next node is always the greatest possible one. Returns
 * their number, at most that of the nodes of the graph. O(n log n + targets).
 * Errors: JJ_ENDS, JJ_NODE, JJ_CYCLE, JJ_LENGTH, JJ_MEMORY.
 * Ownership: reads targets, ends, nodes and writes order during the call; frees all that it allocates. Threads: any, if no other uses order meanwhile. */
int64_t jj_graph_order(const size_t *targets, size_t targets_len, const size_t *ends, size_t ends_len, const size_t *nodes, size_t nodes_len, size_t *order, size_t order_len);

/* Writes those of the nodes that are reachable from no other of them, in ascending order. Returns their number.
 * Errors: JJ_ENDS, JJ_NODE, JJ_CYCLE, JJ_LENGTH, JJ_MEMORY.
 * Ownership: reads targets, ends, nodes and writes heads during the call; frees all that it allocates. Threads: any, if no other uses heads meanwhile. */
int64_t jj_graph_heads(const size_t *targets, size_t targets_len, const size_t *ends, size_t ends_len, const size_t *nodes, size_t nodes_len, size_t *heads, size_t heads_len);

/* Writes the nodes that both sets reach and that no other such node reaches, in ascending order. Returns their number.
 * Errors: JJ_ENDS, JJ_NODE, JJ_CYCLE, JJ_LENGTH, JJ_MEMORY.
 * Ownership: reads targets, ends, set1, set2 and writes common during the call; frees all that it allocates. Threads: any, if no other uses common meanwhile. */
int64_t jj_graph_common(const size_t *targets, size_t targets_len, const size_t *ends, size_t ends_len, const size_t *set1, size_t set1_len, const size_t *set2, size_t set2_len, size_t *common, size_t common_len);

/* Many questions to one graph: it is read and checked once, which is most of the work of a single question. */

/* Writes the heads of each set of nodes, joined, and the index at which those of each set end. `node_ends` divides `nodes` into the sets; at most
 * as many heads are written as there are nodes, and as many ends as there are sets. Returns the number of heads.
 * Errors: JJ_ENDS, JJ_NODE, JJ_CYCLE, JJ_LENGTH, JJ_MEMORY.
 * Ownership: reads targets, ends, nodes, node_ends and writes heads, head_ends during the call; frees all that it allocates. Threads: any, if no other uses heads or head_ends meanwhile. */
int64_t jj_graph_heads_each(const size_t *targets, size_t targets_len, const size_t *ends, size_t ends_len, const size_t *nodes, size_t nodes_len, const size_t *node_ends, size_t node_ends_len, size_t *heads, size_t heads_len, size_t *head_ends, size_t head_ends_len);

/* Writes for each pair of sets the nodes that both reach and that no other such node reaches, joined, and the index at which those of each pair
 * end. Both lists have as many sets. Returns the number of nodes written.
 * Errors: JJ_ENDS (also if the numbers of sets differ), JJ_NODE, JJ_CYCLE, JJ_LENGTH, JJ_MEMORY.
 * Ownership: reads targets, ends, set1, ends1, set2, ends2 and writes common, common_ends during the call; frees all that it allocates. Threads: any, if no other uses common or common_ends meanwhile. */
int64_t jj_graph_common_each(const size_t *targets, size_t targets_len, const size_t *ends, size_t ends_len, const size_t *set1, size_t set1_len, const size_t *ends1, size_t ends1_len, const size_t *set2, size_t set2_len, const size_t *ends2, size_t ends2_len, size_t *common, size_t common_len, size_t *common_ends, size_t common_ends_len);

#ifdef __cplusplus
}
#endif

#endif
