//! The functions of include/unlock.h.

#[rustfmt::skip]
extern "C" {
    pub fn unlock_prover_size() -> u64;
    pub fn unlock_verifier_size() -> u64;
    pub fn unlock_prover_new(session: *mut u8, session_len: u64) -> u8;
    pub fn unlock_verifier_new(session: *mut u8, session_len: u64) -> u8;

    pub fn unlock_work_size(set: *const u64, set_len: u64) -> u64;
    pub fn unlock_opening_size(set: *const u64, set_len: u64, leaves: *const u8, leaves_len: u64) -> u64;
    pub fn unlock_extract_size(set: *const u64, set_len: u64, runs: u64) -> u64;

    pub fn unlock_prover_begin(
        session: *mut u8, session_len: u64, set: *const u64, set_len: u64, runs: u64,
        x_a: *const u8, x_a_len: u64, salt: *const u8, salt_len: u64, root: *const u8, root_len: u64,
        matrix: *const u8, matrix_len: u64, y: *const u8, y_len: u64,
        work: *mut u8, work_len: u64, out: *mut u8, out_len: u64,
    ) -> u8;
    pub fn unlock_prover_points(
        session: *mut u8, session_len: u64, message2: *const u8, message2_len: u64,
        matrix: *const u8, matrix_len: u64, y: *const u8, y_len: u64,
        work: *mut u8, work_len: u64, out: *mut u8, out_len: u64,
    ) -> u8;
    pub fn unlock_prover_leaf(
        session: *mut u8, session_len: u64, leaves: *const u8, leaves_len: u64,
        matrix: *const u8, matrix_len: u64, y: *const u8, y_len: u64,
        work: *mut u8, work_len: u64, out: *mut u8, out_len: u64,
    ) -> u8;

    pub fn unlock_verifier_begin(
        session: *mut u8, session_len: u64, set: *const u64, set_len: u64, runs: u64,
        message1: *const u8, message1_len: u64,
    ) -> u8;
    pub fn unlock_verifier_points(session: *mut u8, session_len: u64, message2: *const u8, message2_len: u64) -> u8;
    pub fn unlock_verifier_response(session: *mut u8, session_len: u64, message3: *const u8, message3_len: u64) -> u8;
    pub fn unlock_verifier_leaf(session: *mut u8, session_len: u64, leaves: *const u8, leaves_len: u64) -> u8;
    pub fn unlock_verifier_opening(
        session: *mut u8, session_len: u64, message5: *const u8, message5_len: u64,
        matrix: *const u8, matrix_len: u64, y: *const u8, y_len: u64,
        work: *mut u8, work_len: u64,
    ) -> u8;

    pub fn unlock_extract(
        set: *const u64, set_len: u64, runs: u64,
        first1: *const u8, first1_len: u64, first2: *const u8, first2_len: u64,
        first3: *const u8, first3_len: u64, first4: *const u8, first4_len: u64,
        first5: *const u8, first5_len: u64,
        second1: *const u8, second1_len: u64, second2: *const u8, second2_len: u64,
        second3: *const u8, second3_len: u64, second4: *const u8, second4_len: u64,
        second5: *const u8, second5_len: u64,
        matrix: *const u8, matrix_len: u64, y: *const u8, y_len: u64,
        work: *mut u8, work_len: u64, out: *mut u8, out_len: u64,
    ) -> u32;

    pub fn unlock_shake256(message: *const u8, message_len: u64, out: *mut u8, out_len: u64);
}
