//! The exported functions of the proved library, as `include/tickplume.h` declares them. A slice passes as a pointer
//! and a length. Each returns 0, or a refusal: its number in the low eight bits, its place above them.

extern "C" {
    pub fn tickplume_build(
        engines: u32,
        services: *const u32,
        services_len: usize,
        periods: *const u32,
        periods_len: usize,
        block_length: u32,
        table: *mut u8,
        table_len: usize,
        answer: *mut u64,
        answer_len: usize,
    ) -> u64;
    pub fn tickplume_judge(table: *const u8, table_len: usize, answer: *mut u64, answer_len: usize) -> u64;
    pub fn tickplume_question(
        table: *const u8,
        table_len: usize,
        engine: u32,
        tick: u64,
        answer: *mut u64,
        answer_len: usize,
    ) -> u64;
    pub fn tickplume_start(table: *const u8, table_len: usize, block: u64, state: *mut u64, state_len: usize) -> u64;
    pub fn tickplume_row(
        table: *const u8,
        table_len: usize,
        state: *const u64,
        state_len: usize,
        engine: u32,
        answer: *mut u64,
        answer_len: usize,
    ) -> u64;
    pub fn tickplume_next(table: *const u8, table_len: usize, state: *mut u64, state_len: usize) -> u64;
    pub fn tickplume_count(table: *const u8, table_len: usize, blocks: u64, answer: *mut u64, answer_len: usize)
        -> u64;
    pub fn tickplume_shares(
        engines: u32,
        services: *const u32,
        services_len: usize,
        periods: *const u32,
        periods_len: usize,
        allotments: *mut u32,
        allotments_len: usize,
        answer: *mut u64,
        answer_len: usize,
    ) -> u64;
    pub fn tickplume_share_at(
        engines: u32,
        services: *const u32,
        services_len: usize,
        periods: *const u32,
        periods_len: usize,
        engine: u32,
        tick: u64,
        answer: *mut u64,
        answer_len: usize,
    ) -> u64;
}
