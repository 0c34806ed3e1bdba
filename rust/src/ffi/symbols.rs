//! The C functions, as `include/capstan.h` declares them.

use super::{
    CompareAnswer, ContextAnswer, FeedAnswer, FeedingState, LengthAnswer, ReadAnswer, SearchAnswer,
    WalkAnswer,
};

extern "C" {
    pub fn capstan_read(
        edition: usize,
        header: *const u8,
        header_len: usize,
        links: *mut usize,
        link_slots: usize,
        params: *mut usize,
        param_slots: usize,
    ) -> ReadAnswer;
    pub fn capstan_start(edition: usize) -> FeedingState;
    pub fn capstan_feed(
        state: FeedingState,
        part: *const u8,
        part_len: usize,
        buffer: *mut u8,
        buffer_len: usize,
    ) -> FeedAnswer;
    pub fn capstan_finish(
        state: FeedingState,
        buffer: *const u8,
        buffer_len: usize,
        links: *mut usize,
        link_slots: usize,
        params: *mut usize,
        param_slots: usize,
    ) -> ReadAnswer;
    pub fn capstan_name_code(name: *const u8, name_len: usize) -> usize;
    pub fn capstan_compare(a: *const u8, a_len: usize, b: *const u8, b_len: usize)
        -> CompareAnswer;
    pub fn capstan_search(
        edition: usize,
        text: *const u8,
        text_len: usize,
        links: *const usize,
        link_slots: usize,
        params: *const usize,
        param_slots: usize,
        link_count: usize,
        param_count: usize,
        relation: *const u8,
        relation_len: usize,
    ) -> SearchAnswer;
    pub fn capstan_context(
        edition: usize,
        text: *const u8,
        text_len: usize,
        base: *const u8,
        base_len: usize,
        links: *const usize,
        link_slots: usize,
        params: *const usize,
        param_slots: usize,
        link_count: usize,
        param_count: usize,
        link: usize,
    ) -> ContextAnswer;
    pub fn capstan_value(
        edition: usize,
        text: *const u8,
        text_len: usize,
        links: *const usize,
        link_slots: usize,
        params: *const usize,
        param_slots: usize,
        link_count: usize,
        param_count: usize,
        link: usize,
        place: usize,
        out: *mut u8,
        out_len: usize,
    ) -> LengthAnswer;
    pub fn capstan_title(
        edition: usize,
        text: *const u8,
        text_len: usize,
        links: *const usize,
        link_slots: usize,
        params: *const usize,
        param_slots: usize,
        link_count: usize,
        param_count: usize,
        link: usize,
        out: *mut u8,
        out_len: usize,
    ) -> LengthAnswer;
    pub fn capstan_decode(
        value: *const u8,
        value_len: usize,
        out: *mut u8,
        out_len: usize,
    ) -> LengthAnswer;
    pub fn capstan_resolve(
        reference: *const u8,
        reference_len: usize,
        base: *const u8,
        base_len: usize,
        out: *mut u8,
        out_len: usize,
    ) -> LengthAnswer;
    pub fn capstan_resolved_context(
        edition: usize,
        text: *const u8,
        text_len: usize,
        base: *const u8,
        base_len: usize,
        links: *const usize,
        link_slots: usize,
        params: *const usize,
        param_slots: usize,
        link_count: usize,
        param_count: usize,
        link: usize,
        out: *mut u8,
        out_len: usize,
    ) -> LengthAnswer;
    pub fn capstan_write(
        edition: usize,
        text: *const u8,
        text_len: usize,
        links: *const usize,
        link_slots: usize,
        params: *const usize,
        param_slots: usize,
        link_count: usize,
        param_count: usize,
        out: *mut u8,
        out_len: usize,
    ) -> LengthAnswer;
    pub fn capstan_walk(
        catalogue: *const u8,
        catalogue_len: usize,
        start: usize,
        steps: i32,
        links: *mut usize,
        link_slots: usize,
        params: *mut usize,
        param_slots: usize,
        work: *mut u8,
        work_len: usize,
    ) -> WalkAnswer;
}
