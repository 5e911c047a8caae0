//! The declarations of `include/jj_core.h`; `bindings/check-declarations` compares them.

/// The state of a hasher: `jj_hasher` of the header.
#[repr(C)]
#[derive(Clone, Debug)]
pub struct JjHasher {
    pub chaining: [u64; 8],
    pub buffer: [u8; 128],
    pub total_low: u64,
    pub total_high: u64,
    pub is_full: u64,
}

extern "C" {
    pub fn jj_hash(bytes: *const u8, bytes_len: usize, digest: *mut u8, digest_len: usize) -> i64;
    pub fn jj_content_hash(bytes: *const u8, bytes_len: usize, digest: *mut u8, digest_len: usize) -> i64;
    pub fn jj_content_hash_list(
        bytes: *const u8, bytes_len: usize, ends: *const usize, ends_len: usize, digest: *mut u8, digest_len: usize,
    ) -> i64;
    pub fn jj_hasher_start(hasher: *mut JjHasher);
    pub fn jj_hasher_update(hasher: *mut JjHasher, bytes: *const u8, bytes_len: usize);
    pub fn jj_hasher_finish(hasher: *const JjHasher, digest: *mut u8, digest_len: usize) -> i64;
    pub fn jj_hex_encode(bytes: *const u8, bytes_len: usize, reverse: bool, text: *mut u8, text_len: usize) -> i64;
    pub fn jj_hex_decode(text: *const u8, text_len: usize, reverse: bool, bytes: *mut u8, bytes_len: usize) -> i64;
    pub fn jj_hex_prefix_matches(prefix: *const u8, prefix_len: usize, reverse: bool, id: *const u8, id_len: usize) -> i64;
    pub fn jj_hex_prefix_resolve(
        prefix: *const u8, prefix_len: usize, reverse: bool, ids: *const u8, ids_len: usize, ends: *const usize, ends_len: usize,
    ) -> i64;
    pub fn jj_glob_matches(
        glob: *const u8, glob_len: usize, separator: bool, icase: bool, bytes: *const u8, bytes_len: usize, ends: *const usize,
        ends_len: usize, matches: *mut bool, matches_len: usize,
    ) -> i64;
    pub fn jj_fileset_matches(
        expression: *const u8, expression_len: usize, bytes: *const u8, bytes_len: usize, ends: *const usize, ends_len: usize,
        matches: *mut bool, matches_len: usize,
    ) -> i64;
    pub fn jj_walk(
        listed: *const u8, listed_len: usize, listed_ends: *const usize, listed_ends_len: usize, prefixes: bool, bytes: *const u8,
        bytes_len: usize, ends: *const usize, ends_len: usize, found: *mut bool, found_len: usize,
    ) -> i64;
    pub fn jj_merge_simplify(
        bytes: *const u8, bytes_len: usize, ends: *const usize, ends_len: usize, kept: *mut usize, kept_len: usize,
    ) -> i64;
    pub fn jj_merge_resolve(bytes: *const u8, bytes_len: usize, ends: *const usize, ends_len: usize, accept: bool) -> i64;
    pub fn jj_merge_contents(
        bytes: *const u8, bytes_len: usize, ends: *const usize, ends_len: usize, accept: bool, words: bool, text: *mut u8, text_len: usize,
    ) -> i64;
    pub fn jj_merge_materialize(
        bytes: *const u8, bytes_len: usize, ends: *const usize, ends_len: usize, accept: bool, git: bool, text: *mut u8, text_len: usize,
    ) -> i64;
    pub fn jj_merge_flatten(ends: *const usize, ends_len: usize, order: *mut usize, order_len: usize) -> i64;
    pub fn jj_graph_order(
        targets: *const usize, targets_len: usize, ends: *const usize, ends_len: usize, nodes: *const usize, nodes_len: usize,
        order: *mut usize, order_len: usize,
    ) -> i64;
    pub fn jj_graph_heads(
        targets: *const usize, targets_len: usize, ends: *const usize, ends_len: usize, nodes: *const usize, nodes_len: usize,
        heads: *mut usize, heads_len: usize,
    ) -> i64;
    pub fn jj_graph_common(
        targets: *const usize, targets_len: usize, ends: *const usize, ends_len: usize, set1: *const usize, set1_len: usize,
        set2: *const usize, set2_len: usize, common: *mut usize, common_len: usize,
    ) -> i64;
    pub fn jj_graph_heads_each(
        targets: *const usize, targets_len: usize, ends: *const usize, ends_len: usize, nodes: *const usize, nodes_len: usize,
        node_ends: *const usize, node_ends_len: usize, heads: *mut usize, heads_len: usize, head_ends: *mut usize, head_ends_len: usize,
    ) -> i64;
    pub fn jj_graph_common_each(
        targets: *const usize, targets_len: usize, ends: *const usize, ends_len: usize, set1: *const usize, set1_len: usize,
        ends1: *const usize, ends1_len: usize, set2: *const usize, set2_len: usize, ends2: *const usize, ends2_len: usize,
        common: *mut usize, common_len: usize, common_ends: *mut usize, common_ends_len: usize,
    ) -> i64;
}
