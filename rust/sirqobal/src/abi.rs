//! What libsirqobal.a exports, as include/sirqobal.h declares it. Nothing checks these lines against
//! the library but the comparison.

use crate::lent::{Arena, JoinReply, Reply, Settings, State};

#[repr(C)]
pub struct SliceAnswer {
    /// 0: granted; else the refusal.
    pub number: u32,
    pub address: u64,
}

extern "C" {
    pub fn sirqobal_is_aligned_to(x: u64, align: u64) -> bool;
    pub fn sirqobal_page_align_up(page: u64, size: u64) -> u64;
    pub fn sirqobal_now_ms(ns: u64) -> u32;
    pub fn sirqobal_delay_ms(delay: i64) -> u32;
    pub fn sirqobal_arm(deadline: u32, due: u32) -> u32;
    pub fn sirqobal_is_due(due: u32, now: u32) -> bool;
    pub fn sirqobal_alloc_run(words: *mut u32, len: usize, slices: u64) -> SliceAnswer;
    /// 0: granted; else the refusal.
    pub fn sirqobal_free_range(words: *mut u32, len: usize, base: u64, size: u64) -> u32;
}

/// Declares calls of the layer, all of which begin with what is lent and carried.
macro_rules! layer_calls {
    ($($pointer:ident $name:ident($($number:ident: $type:ty),*);)*) => {
        extern "C" {
            $(pub fn $name(
                records: *$pointer Arena,
                record_count: usize,
                stamps: *$pointer u32,
                stamp_count: usize,
                state: State,
                ns: u64,
                settings: Settings,
                $($number: $type),*
            ) -> Reply;)*
        }
    };
}

layer_calls! {
    mut sirqobal_reserve_os_memory_ex(size: u64, commit: bool, allow_large: bool, exclusive: bool);
    mut sirqobal_manage_os_memory_ex(
        start: u64, size: u64, is_committed: bool, is_large: bool, is_zero: bool, node: i32,
        exclusive: bool, mapped: bool, reserved: bool
    );
    mut sirqobal_adopt_os_block(address: u64, size: u64);
    mut sirqobal_chunk_alloc(id: i32);
    mut sirqobal_chunk_claim(id: i32);
    mut sirqobal_chunk_alloc_n(id: i32, n: usize);
    mut sirqobal_chunk_release(address: u64, n: usize, told: i32, pending: bool);
    mut sirqobal_purge_due(force: bool);
    mut sirqobal_answer(kind: u32, yes: bool, base: u64);
    const sirqobal_owns(address: u64);
    const sirqobal_arena_area(id: i32);
}

extern "C" {
    pub fn sirqobal_chunk_release_list(
        records: *mut Arena,
        record_count: usize,
        stamps: *mut u32,
        stamp_count: usize,
        addresses: *const u64,
        address_count: usize,
        counts: *const u32,
        count_count: usize,
        answers: *mut u32,
        answer_count: usize,
        state: State,
        ns: u64,
        settings: Settings,
        pending: bool,
    ) -> Reply;

    pub fn sirqobal_join_tables(
        records: *mut Arena,
        record_count: usize,
        stamps: *mut u32,
        stamp_count: usize,
        second_records: *mut Arena,
        second_record_count: usize,
        second_stamps: *mut u32,
        second_stamp_count: usize,
        state: State,
        second: State,
        ns: u64,
        settings: Settings,
    ) -> JoinReply;
}
