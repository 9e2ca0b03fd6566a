//! The declarations of `solfadrus.h`, in its order.

extern "C" {
    pub fn mq_key_size(n: usize, m: usize, tau: usize, t: usize, degree: u32) -> usize;
    pub fn mq_witness_size(n: usize, m: usize, tau: usize, t: usize, degree: u32) -> usize;
    pub fn mq_leaves_size(n: usize, m: usize, tau: usize, t: usize, degree: u32) -> usize;
    pub fn mq_opened_size(n: usize, m: usize, tau: usize, t: usize, degree: u32) -> usize;
    pub fn mq_hash_matrix_size(n: usize, m: usize, tau: usize, t: usize, degree: u32) -> usize;
    pub fn mq_batching_size(n: usize, m: usize, tau: usize, t: usize, degree: u32) -> usize;
    pub fn mq_delta_size(n: usize, m: usize, tau: usize, t: usize, degree: u32) -> usize;
    pub fn mq_commit_size(n: usize, m: usize, tau: usize, t: usize, degree: u32) -> usize;
    pub fn mq_hash_size(n: usize, m: usize, tau: usize, t: usize, degree: u32) -> usize;
    pub fn mq_batch_size(n: usize, m: usize, tau: usize, t: usize, degree: u32) -> usize;
    pub fn mq_proof_size(n: usize, m: usize, tau: usize, t: usize, degree: u32) -> usize;

    pub fn mq_version() -> u32;

    pub fn mq_test(
        key: *const u8,
        key_len: usize,
        degree: u32,
        witness: *const u8,
        witness_len: usize,
    ) -> u32;

    pub fn mq_commit(
        key: *const u8,
        key_len: usize,
        degree: u32,
        leaves: *const u8,
        leaves_len: usize,
        witness: *const u8,
        witness_len: usize,
        out: *mut u8,
        out_len: usize,
    ) -> u32;

    pub fn mq_hash(
        key: *const u8,
        key_len: usize,
        degree: u32,
        leaves: *const u8,
        leaves_len: usize,
        hash_matrix: *const u8,
        hash_matrix_len: usize,
        out: *mut u8,
        out_len: usize,
    ) -> u32;

    pub fn mq_batch(
        key: *const u8,
        key_len: usize,
        degree: u32,
        leaves: *const u8,
        leaves_len: usize,
        witness: *const u8,
        witness_len: usize,
        batching: *const u8,
        batching_len: usize,
        out: *mut u8,
        out_len: usize,
    ) -> u32;

    pub fn mq_prove(
        key: *const u8,
        key_len: usize,
        degree: u32,
        leaves: *const u8,
        leaves_len: usize,
        witness: *const u8,
        witness_len: usize,
        hash_matrix: *const u8,
        hash_matrix_len: usize,
        batching: *const u8,
        batching_len: usize,
        out: *mut u8,
        out_len: usize,
    ) -> u32;

    pub fn mq_verify(
        key: *const u8,
        key_len: usize,
        degree: u32,
        delta: *const u8,
        delta_len: usize,
        hash_matrix: *const u8,
        hash_matrix_len: usize,
        batching: *const u8,
        batching_len: usize,
        opened: *const u8,
        opened_len: usize,
        proof: *const u8,
        proof_len: usize,
    ) -> u32;
}
