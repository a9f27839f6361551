//! The calls as `include/rewrites.h` declares them.

use crate::{KEPT, KINDS, REVIEW_LINES, STATEMENTS, VARIABLES};

extern "C" {
    /// See [`crate::run`] and the header.
    ///
    /// # Safety
    ///
    /// `program` points to `program_len` bytes, and may be null where that is 0. No other pointer is
    /// null. Places that the call writes overlap no other place lent to it.
    pub fn rewrites_run(
        program: *const u8,
        program_len: usize,
        values: *const [u32; VARIABLES],
        input: u32,
        budget: u32,
        prices: *const [u32; KINDS],
        ended: *mut u32,
        value: *mut i32,
        steps: *mut u32,
        statement: *mut u32,
        left: *mut [u32; VARIABLES],
        kept: *mut [u32; KEPT],
        ticks: *mut u64,
    ) -> u8;

    /// See [`crate::tabulate`] and the header.
    ///
    /// # Safety
    ///
    /// `program` points to `program_len` bytes, `condition` to `condition_len` bytes and `table` to
    /// `table_len` words; each of them may be null where its length is 0. No other pointer is null.
    /// Places that the call writes overlap no other place lent to it.
    pub fn rewrites_tabulate(
        program: *const u8,
        program_len: usize,
        condition: *const u8,
        condition_len: usize,
        table: *mut u64,
        table_len: usize,
        parts: *mut u32,
        satisfied: *mut u32,
        first: *mut u32,
    ) -> u8;

    /// See [`crate::review`] and the header.
    ///
    /// # Safety
    ///
    /// `program` points to `program_len` bytes, `conditions` to `conditions_len` bytes and `table` to
    /// `table_len` words; each of them may be null where its length is 0. No other pointer is null.
    /// Places that the call writes overlap no other place lent to it.
    pub fn rewrites_review(
        program: *const u8,
        program_len: usize,
        conditions: *const u8,
        conditions_len: usize,
        table: *mut u64,
        table_len: usize,
        tables: *mut u32,
        lines: *mut u32,
        table_of: *mut [u32; REVIEW_LINES],
        parts: *mut [u32; REVIEW_LINES],
        satisfied: *mut [u32; REVIEW_LINES],
        first: *mut [u32; REVIEW_LINES],
    ) -> u8;

    /// See [`crate::witness`] and the header.
    ///
    /// # Safety
    ///
    /// `program` points to `program_len` bytes, `condition` to `condition_len` bytes and `path` to
    /// `path_len` words; each of them may be null where its length is 0. No other pointer is null.
    /// Places that the call writes overlap no other place lent to it.
    pub fn rewrites_witness(
        program: *const u8,
        program_len: usize,
        condition: *const u8,
        condition_len: usize,
        part: u32,
        statement: u32,
        path: *mut u32,
        path_len: usize,
        length: *mut u32,
        turn: *mut u32,
        truth: *mut u32,
    ) -> u8;

    /// See [`crate::force`] and the header.
    ///
    /// # Safety
    ///
    /// `program` points to `program_len` bytes, `driver` to `driver_len` bytes, `condition` to
    /// `condition_len` bytes and `table` to `table_len` words; each of them may be null where its length
    /// is 0. No other pointer is null. Places that the call writes overlap no other place lent to it.
    pub fn rewrites_force(
        program: *const u8,
        program_len: usize,
        driver: *const u8,
        driver_len: usize,
        condition: *const u8,
        condition_len: usize,
        table: *mut u64,
        table_len: usize,
        parts: *mut u32,
        satisfied: *mut u32,
        first: *mut u32,
        number: *mut [u32; STATEMENTS],
        arm: *mut [u8; STATEMENTS],
    ) -> u8;

    /// See [`crate::judge`] and the header.
    ///
    /// # Safety
    ///
    /// `program` points to `program_len` bytes, `marks` to `marks_len`, `verdicts` to `verdicts_len`
    /// and `text` to `text_len` bytes; each of them may be null where its length is 0. No other pointer
    /// is null. Places that the call writes overlap no other place lent to it.
    pub fn rewrites_judge(
        program: *const u8,
        program_len: usize,
        marks: *const u8,
        marks_len: usize,
        verdicts: *mut u8,
        verdicts_len: usize,
        text: *mut u8,
        text_len: usize,
        mark_count: *mut u32,
        accepted: *mut u32,
        bytes: *mut u32,
    ) -> u8;

    /// See [`crate::why`] and the header.
    ///
    /// # Safety
    ///
    /// `program` points to `program_len` bytes, `marks` to `marks_len` bytes and `path` to `path_len`
    /// words; each of them may be null where its length is 0. No other pointer is null. Places that the
    /// call writes overlap no other place lent to it.
    pub fn rewrites_why(
        program: *const u8,
        program_len: usize,
        marks: *const u8,
        marks_len: usize,
        line: u32,
        path: *mut u32,
        path_len: usize,
        verdict: *mut u32,
        length: *mut u32,
        culprit: *mut u32,
    ) -> u8;

    /// See [`crate::report`] and the header.
    ///
    /// # Safety
    ///
    /// `program` points to `program_len` bytes and `marks` to `marks_len`; each of them may be null where
    /// its length is 0. No other pointer is null. Places that the call writes overlap no other place lent
    /// to it.
    pub fn rewrites_report(
        program: *const u8,
        program_len: usize,
        marks: *const u8,
        marks_len: usize,
        prices: *const [u32; KINDS],
        before: *mut [u32; STATEMENTS],
        after: *mut [u32; STATEMENTS],
        statements: *mut u32,
        given: *mut u32,
        rewritten: *mut u32,
        saved: *mut i32,
    ) -> u8;

    /// See [`crate::Prices::read`] and the header.
    ///
    /// # Safety
    ///
    /// `text` points to `text_len` bytes, and may be null where that is 0. `prices` isn't null, and overlaps
    /// no other place lent to the call.
    pub fn rewrites_prices(text: *const u8, text_len: usize, prices: *mut [u32; KINDS]) -> u8;

    /// See [`crate::Prices::ours`] and the header.
    ///
    /// # Safety
    ///
    /// `prices` isn't null.
    pub fn rewrites_our_prices(prices: *mut [u32; KINDS]);

    /// See [`crate::mark_line`] and the header.
    ///
    /// # Safety
    ///
    /// `marks` points to `marks_len` bytes, and may be null where that is 0. No other pointer is null.
    /// Places that the call writes overlap no other place lent to it.
    pub fn rewrites_mark_line(
        marks: *const u8,
        marks_len: usize,
        line: u32,
        begin: *mut usize,
        end: *mut usize,
    ) -> u8;

    /// See [`crate::list`] and the header.
    ///
    /// # Safety
    ///
    /// `program` points to `program_len` bytes and `list` to `list_len` words; each of them may be null
    /// where its length is 0. No other pointer is null. Places that the call writes overlap no other
    /// place lent to it.
    pub fn rewrites_list(
        program: *const u8,
        program_len: usize,
        list: *mut u64,
        list_len: usize,
        defined: *mut [u32; VARIABLES],
        used: *mut [u32; VARIABLES],
    ) -> u8;

    /// See [`crate::relist`] and the header.
    ///
    /// # Safety
    ///
    /// `program` points to `program_len` bytes, `marks` to `marks_len` bytes and `list` to `list_len`
    /// words; each of them may be null where its length is 0. No other pointer is null. Places that the
    /// call writes overlap no other place lent to it.
    pub fn rewrites_relist(
        program: *const u8,
        program_len: usize,
        marks: *const u8,
        marks_len: usize,
        list: *mut u64,
        list_len: usize,
        defined: *mut [u32; VARIABLES],
        used: *mut [u32; VARIABLES],
    ) -> u8;

    /// See [`crate::join`] and the header.
    ///
    /// # Safety
    ///
    /// `road` points to `road_len` bytes, `creeper` to `creeper_len` and `text` to `text_len` bytes; each
    /// of them may be null where its length is 0. No other pointer is null. Places that the call writes
    /// overlap no other place lent to it.
    pub fn rewrites_join(
        road: *const u8,
        road_len: usize,
        creeper: *const u8,
        creeper_len: usize,
        text: *mut u8,
        text_len: usize,
        statements: *mut u32,
        bytes: *mut u32,
    ) -> u8;

    /// See [`crate::keep`] and the header.
    ///
    /// # Safety
    ///
    /// `stages` points to `stages_len` bytes, `name` to `name_len` and `program` to `program_len` bytes;
    /// each of them may be null where its length is 0. No other pointer is null. Places that the call
    /// writes overlap no other place lent to it.
    pub fn rewrites_keep(
        stages: *mut u8,
        stages_len: usize,
        name: *const u8,
        name_len: usize,
        program: *const u8,
        program_len: usize,
        place: *mut u32,
    ) -> u8;

    /// See [`crate::go_back`] and the header.
    ///
    /// # Safety
    ///
    /// `stages` points to `stages_len` bytes, `name` to `name_len` and `text` to `text_len` bytes; each of
    /// them may be null where its length is 0. No other pointer is null. Places that the call writes
    /// overlap no other place lent to it.
    pub fn rewrites_return(
        stages: *const u8,
        stages_len: usize,
        name: *const u8,
        name_len: usize,
        text: *mut u8,
        text_len: usize,
        bytes: *mut u32,
    ) -> u8;

    /// See [`crate::blame_program`] and the header.
    ///
    /// # Safety
    ///
    /// `program` points to `program_len` bytes; it may be null where that is 0.
    pub fn rewrites_blame_program(program: *const u8, program_len: usize) -> u32;

    /// See [`crate::blame_marks`] and the header.
    ///
    /// # Safety
    ///
    /// `marks` points to `marks_len` bytes; it may be null where that is 0.
    pub fn rewrites_blame_marks(marks: *const u8, marks_len: usize) -> u32;

    /// See [`crate::blame_condition`] and the header.
    ///
    /// # Safety
    ///
    /// `condition` points to `condition_len` bytes; it may be null where that is 0.
    pub fn rewrites_blame_condition(condition: *const u8, condition_len: usize) -> u32;

    /// See [`crate::version`] and the header.
    ///
    /// # Safety
    ///
    /// There is nothing to lend: every call is safe.
    pub fn rewrites_version() -> u32;
}
