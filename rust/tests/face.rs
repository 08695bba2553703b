//! The exported functions called as C calls them: answers and states that are too short are refused with 255 and the
//! entries needed, before anything else, and nothing is written; entries past what a call needs stay.

use tickplume as _;

extern "C" {
    fn tickplume_build(
        engines: u32,
        services: *const u32,
        services_len: usize,
        periods: *const u32,
        periods_len: usize,
        block_length: u32,
        table: *mut u8,
        table_len: usize,
        answer: *mut u64,
        answer_len: usize,
    ) -> u64;
    fn tickplume_judge(table: *const u8, table_len: usize, answer: *mut u64, answer_len: usize) -> u64;
    fn tickplume_question(t: *const u8, n: usize, engine: u32, tick: u64, answer: *mut u64, answer_len: usize) -> u64;
    fn tickplume_start(t: *const u8, n: usize, block: u64, state: *mut u64, state_len: usize) -> u64;
    fn tickplume_row(
        t: *const u8,
        n: usize,
        s: *const u64,
        s_len: usize,
        engine: u32,
        a: *mut u64,
        a_len: usize,
    ) -> u64;
    fn tickplume_next(t: *const u8, n: usize, state: *mut u64, state_len: usize) -> u64;
    fn tickplume_count(t: *const u8, n: usize, blocks: u64, answer: *mut u64, answer_len: usize) -> u64;
    fn tickplume_shares(
        engines: u32,
        services: *const u32,
        services_len: usize,
        periods: *const u32,
        periods_len: usize,
        allotments: *mut u32,
        allotments_len: usize,
        answer: *mut u64,
        answer_len: usize,
    ) -> u64;
    fn tickplume_share_at(
        engines: u32,
        services: *const u32,
        services_len: usize,
        periods: *const u32,
        periods_len: usize,
        engine: u32,
        tick: u64,
        answer: *mut u64,
        answer_len: usize,
    ) -> u64;
}

const MARK: u64 = 0xa5a5_a5a5_a5a5_a5a5;

/// The word of a refusal.
fn refusal(number: u64, place: u64) -> u64 {
    number + 256 * place
}

/// `tickplume_build` on two engines, in blocks of so many ticks.
fn build(services: &[u32], periods: &[u32], block_length: u32, table: &mut [u8], answer: &mut [u64]) -> u64 {
    unsafe {
        tickplume_build(
            2,
            services.as_ptr(),
            services.len(),
            periods.as_ptr(),
            periods.len(),
            block_length,
            table.as_mut_ptr(),
            table.len(),
            answer.as_mut_ptr(),
            answer.len(),
        )
    }
}

/// The table of three duties of 2 ticks in every 3, on two engines.
fn table() -> Vec<u8> {
    let mut table = vec![0u8; 100];
    let mut answer = [MARK; 2];
    assert_eq!(build(&[2; 3], &[3; 3], 0, &mut table, &mut answer), 0);
    assert_eq!(answer, [81, MARK]);
    table.truncate(81);
    table
}

#[test]
fn a_short_answer_is_refused_before_all_else() {
    let bad = [9u8; 5];
    let mut answer = [MARK; 4];
    let a = answer.as_mut_ptr();
    let state = [MARK; 33];
    let mut out = [7u8; 40];
    unsafe {
        // no engines, a length that divides no period, and a table too short: still 255 first
        let one = [1u32];
        let (list, table) = (one.as_ptr(), out.as_mut_ptr());
        assert_eq!(tickplume_build(0, list, 1, list, 1, 2, table, 3, a, 0), refusal(255, 1));
        for n in 0..4 {
            assert_eq!(tickplume_judge(bad.as_ptr(), 5, a, n), refusal(255, 4));
        }
        for n in 0..2 {
            assert_eq!(tickplume_question(bad.as_ptr(), 5, 0, 0, a, n), refusal(255, 2));
        }
        assert_eq!(tickplume_row(bad.as_ptr(), 5, state.as_ptr(), 32, 0, a, 0), refusal(255, 33));
        assert_eq!(tickplume_row(bad.as_ptr(), 5, state.as_ptr(), 33, 0, a, 0), refusal(255, 1));
        assert_eq!(tickplume_count(bad.as_ptr(), 5, u64::MAX, a, 0), refusal(255, 1));
        assert_eq!(tickplume_start(bad.as_ptr(), 5, 0, a, 4), refusal(255, 33));
        assert_eq!(tickplume_next(bad.as_ptr(), 5, a, 4), refusal(255, 33));
    }
    assert_eq!(answer, [MARK; 4]);
    assert_eq!(out, [7; 40]);
}

#[test]
fn refusals_leave_the_answer() {
    let bad = [9u8; 5];
    let mut answer = [MARK; 40];
    let a = answer.as_mut_ptr();
    unsafe {
        assert_eq!(tickplume_judge(bad.as_ptr(), 5, a, 40), refusal(10, 0));
        assert_eq!(tickplume_question(bad.as_ptr(), 5, 0, 0, a, 40), refusal(10, 0));
        assert_eq!(tickplume_count(bad.as_ptr(), 5, 0, a, 40), refusal(10, 0));
        assert_eq!(tickplume_start(bad.as_ptr(), 5, 0, a, 40), refusal(10, 0));
        assert_eq!(tickplume_next(bad.as_ptr(), 5, a, 40), refusal(10, 0));
        let table = table();
        assert_eq!(tickplume_question(table.as_ptr(), 81, 2, 0, a, 40), refusal(18, 0));
        assert_eq!(tickplume_count(table.as_ptr(), 81, 1_000_000_000_001, a, 40), refusal(19, 0));
        assert_eq!(tickplume_next(table.as_ptr(), 81, a, 40), refusal(20, 0));
    }
    assert_eq!(answer, [MARK; 40]);
}

#[test]
fn entries_past_the_answer_stay() {
    let table = table();
    let mut answer = [MARK; 6];
    let a = answer.as_mut_ptr();
    unsafe {
        assert_eq!(tickplume_judge(table.as_ptr(), 81, a, 6), 0);
    }
    assert_eq!(answer, [3, 2, 3, 4, MARK, MARK]);
    let mut state = [MARK; 36];
    let s = state.as_mut_ptr();
    unsafe {
        assert_eq!(tickplume_start(table.as_ptr(), 81, 6, s, 36), 0);
        assert_eq!(tickplume_next(table.as_ptr(), 81, s, 36), 0);
    }
    let mut expected = [0u64; 36];
    expected[..3].copy_from_slice(&[7, 1, 0]);
    expected[33..].fill(MARK);
    assert_eq!(state, expected);
}

#[test]
fn refusals_of_a_build_leave_the_answer_and_the_table() {
    let mut answer = [MARK; 2];
    let mut table = [7u8; 100];
    let mut refused = |services: &[u32], periods: &[u32], block_length: u32, room: usize| {
        let word = build(services, periods, block_length, &mut table[..room], &mut answer);
        assert_eq!((answer, table), ([MARK; 2], [7; 100]));
        word
    };
    // 24 stands after 2 to 5 and before 6 to 8, and names no place
    assert_eq!(refused(&[1], &[1, 1], 2, 0), refusal(2, 0));
    assert_eq!(refused(&[], &[], 2, 0), refusal(3, 0));
    assert_eq!(refused(&[1, 1], &[6, 0], 4, 0), refusal(4, 1));
    assert_eq!(refused(&[1, 7], &[6, 6], 4, 0), refusal(5, 1));
    assert_eq!(refused(&[1, 2], &[4, 6], 3, 0), refusal(24, 0));
    assert_eq!(refused(&[6, 6, 6], &[6, 6, 6], 4, 0), refusal(24, 0));
    assert_eq!(refused(&[4, 4, 4], &[6, 6, 6], 12, 0), refusal(24, 0));
    // 6 to 8 go by the length that was asked for
    assert_eq!(refused(&[6, 4, 4], &[6, 6, 6], 2, 0), refusal(6, 1));
    assert_eq!(refused(&[6, 6, 2], &[6, 6, 6], 3, 0), refusal(7, 0));
    assert_eq!(refused(&[4, 4, 4], &[6, 6, 6], 3, 80), refusal(8, 81));
}

/// `tickplume_shares` on one engine, with an answer of so many entries.
fn shares(services: &[u32], periods: &[u32], allotments: &mut [u32], answer: &mut [u64]) -> u64 {
    unsafe {
        tickplume_shares(
            1,
            services.as_ptr(),
            services.len(),
            periods.as_ptr(),
            periods.len(),
            allotments.as_mut_ptr(),
            allotments.len(),
            answer.as_mut_ptr(),
            answer.len(),
        )
    }
}

/// `tickplume_share_at` on one engine.
fn share_at(services: &[u32], periods: &[u32], engine: u32, tick: u64, answer: &mut [u64]) -> u64 {
    unsafe {
        tickplume_share_at(
            1,
            services.as_ptr(),
            services.len(),
            periods.as_ptr(),
            periods.len(),
            engine,
            tick,
            answer.as_mut_ptr(),
            answer.len(),
        )
    }
}

#[test]
fn a_short_answer_for_shares_is_refused_before_all_else() {
    // lists of different lengths, no room and no such engine: still 255 first
    let mut answer = [MARK; 4];
    for n in 0..3 {
        assert_eq!(shares(&[], &[1], &mut [], &mut answer[..n]), refusal(255, 3));
    }
    assert_eq!(share_at(&[], &[1], 7, 0, &mut answer[..0]), refusal(255, 1));
    assert_eq!(answer, [MARK; 4]);
}

#[test]
fn refusals_of_shares_leave_the_answer_and_the_allotments() {
    let mut answer = [MARK; 4];
    let mut list = [7u32; 20];
    let mut refused = |services: &[u32], periods: &[u32], room: usize| {
        let word = shares(services, periods, &mut list[..room], &mut answer);
        assert_eq!((answer, list), ([MARK; 4], [7; 20]));
        word
    };
    assert_eq!(refused(&[1], &[1, 1], 20), refusal(2, 0));
    assert_eq!(refused(&[], &[], 20), refusal(3, 0));
    assert_eq!(refused(&[1, 1], &[1, 0], 20), refusal(4, 1));
    assert_eq!(refused(&[1, 2], &[1, 1], 20), refusal(5, 1));
    // 1 and 4,097 ticks: 4,097 blocks, which stands before 7
    assert_eq!(refused(&[1, 4_097], &[1, 4_097], 20), refusal(22, 0));
    // no room, which 7 stands before
    assert_eq!(refused(&[1, 1], &[1, 4_096], 0), refusal(7, 0));
    // the smallest set that SA2 has no plan for: first the room, then 23
    assert_eq!(refused(&[1, 1, 1], &[2, 6, 3], 17), refusal(8, 18));
    assert_eq!(refused(&[1, 1, 1], &[2, 6, 3], 18), refusal(23, 2));
    assert_eq!(refused(&[1, 1, 1], &[2, 6, 3], 0), refusal(8, 18));
}

#[test]
fn refusals_of_a_question_about_shares_leave_the_answer() {
    let mut answer = [MARK; 3];
    let mut refused = |services: &[u32], periods: &[u32], engine: u32| {
        let word = share_at(services, periods, engine, u64::MAX, &mut answer);
        assert_eq!(answer, [MARK; 3]);
        word
    };
    assert_eq!(refused(&[1], &[1, 1], 0), refusal(2, 0));
    assert_eq!(refused(&[1, 1], &[1, 4_097], 0), refusal(22, 0));
    assert_eq!(refused(&[1, 1], &[1, 1], 0), refusal(7, 0));
    // 23 stands before 18
    assert_eq!(refused(&[1, 1, 1], &[2, 6, 3], 1), refusal(23, 2));
    assert_eq!(refused(&[1], &[2], 1), refusal(18, 0));
    assert_eq!(refused(&[1], &[2], u32::MAX), refusal(18, 0));
}

#[test]
fn entries_past_the_answers_of_shares_stay() {
    let mut answer = [MARK; 5];
    let mut list = [7u32; 6];
    assert_eq!(shares(&[1, 1], &[2, 4], &mut list, &mut answer), 0);
    assert_eq!((list, answer), ([1, 1, 1, 0, 7, 7], [4, 2, 2, MARK, MARK]));
    // ticks 0 to 3, and the same again up to 2^64 - 1
    for (tick, held) in [(0, 0), (1, 1), (2, 0), (3, u64::MAX), (4, 0), (5, 1), (u64::MAX - 1, 0), (u64::MAX, u64::MAX)]
    {
        let mut answer = [MARK; 2];
        assert_eq!(share_at(&[1, 1], &[2, 4], 0, tick, &mut answer), 0);
        assert_eq!(answer, [held, MARK]);
    }
}

#[test]
fn the_longest_plan_of_shares() {
    // 64 duties, half of them with a period of all 4,096 blocks
    let services: Vec<u32> = (0..64).map(|i| if i % 2 == 0 { 1 } else { 35 }).collect();
    let periods: Vec<u32> = (0..64).map(|i| if i % 2 == 0 { 70 } else { 4_096 * 70 }).collect();
    let mut answer = [MARK; 3];
    assert_eq!(shares(&services, &periods, &mut [], &mut answer), refusal(8, 262_144));
    let mut list = vec![7u32; 262_145];
    assert_eq!(shares(&services, &periods, &mut list, &mut answer), 0);
    assert_eq!(answer, [262_144, 70, 4_096]);
    for i in 0..64 {
        let units: u64 = (0..4_096).map(|b| u64::from(list[b * 64 + i])).sum();
        assert_eq!(units, if i % 2 == 0 { 4_096 } else { 35 });
    }
    assert_eq!(list[262_144], 7);
}
