//! include/scrollcairn.h, declaration for declaration; `scrollcairn_calls`, which is for tests, aside.

#![allow(clippy::too_many_arguments)]

use crate::live::{Hop, Pairs, Part, Reply, Step, Totals};

extern "C" {
    pub fn scrollcairn_run(file: *const u8, file_length: usize, out: *mut u8, out_length: usize, answer: *mut [u64; 3]);

    pub fn scrollcairn_build(
        units: usize,
        groups: *const [u32; 24],
        count: usize,
        parents: *mut [u8; 32],
        answer: *mut [u64; 3],
    );

    pub fn scrollcairn_check(
        units: usize,
        groups: *const [u32; 24],
        count: usize,
        drawn: *const [u8; 32],
        parents: *mut [u8; 32],
        answer: *mut [u64; 3],
    );

    pub fn scrollcairn_read(
        file: *const u8,
        file_length: usize,
        events: *mut u32,
        events_length: usize,
        groups: *mut [u32; 24],
        parents: *mut [u8; 32],
        counts: *mut [u16; 4],
        answer: *mut [u64; 3],
    );

    pub fn scrollcairn_write(
        groups: *const [u32; 24],
        parents: *const [u8; 32],
        counts: *const [u16; 4],
        events: *const u32,
        events_length: usize,
        out: *mut u8,
        out_length: usize,
        answer: *mut [u64; 3],
    );

    pub fn scrollcairn_open(
        units: usize,
        groups: *const u32,
        groups_length: usize,
        count: usize,
        parents: *const u8,
        parents_length: usize,
        tables: *mut u32,
        tables_length: usize,
        messages: *mut u32,
        messages_length: usize,
        pairs: *mut Pairs,
        pairs_length: usize,
        gauges: *mut u16,
        gauges_length: usize,
        hops: *mut Hop,
        hops_length: usize,
        book: *mut u16,
        book_length: usize,
    ) -> Step;

    pub fn scrollcairn_send(
        totals: Totals,
        source: u16,
        group: u16,
        word: u32,
        tables: *mut u32,
        tables_length: usize,
        messages: *mut u32,
        messages_length: usize,
        pairs: *mut Pairs,
        pairs_length: usize,
        hops: *mut Hop,
        hops_length: usize,
    ) -> Step;

    pub fn scrollcairn_arrive(
        totals: Totals,
        hop: u16,
        tables: *mut u32,
        tables_length: usize,
        messages: *mut u32,
        messages_length: usize,
        pairs: *mut Pairs,
        pairs_length: usize,
        gauges: *mut u16,
        gauges_length: usize,
        hops: *mut Hop,
        hops_length: usize,
        book: *mut u16,
        book_length: usize,
    ) -> Step;

    pub fn scrollcairn_log(
        unit: u16,
        tables: *const u32,
        tables_length: usize,
        gauges: *const u16,
        gauges_length: usize,
        book: *const u16,
        book_length: usize,
    ) -> Part;

    pub fn scrollcairn_log_length(
        unit: u16,
        tables: *const u32,
        tables_length: usize,
        gauges: *const u16,
        gauges_length: usize,
        book: *const u16,
        book_length: usize,
    ) -> Reply;

    pub fn scrollcairn_rest(totals: Totals, hops: *const Hop, hops_length: usize) -> Reply;
}
