//! The archive's functions as C sees them. [`slices`](crate::slices) has a safe function for each.
//!
//! Except for [`planner_ranked_part`] and [`planner_version`], a function gives one number of 64 bits: the total where the call is
//! accepted, else the refusal's number times 2^32.
//!
//! # Safety
//! A buffer is a pointer and, behind it, the number of its elements. That many elements have to be there for the call, aligned for their
//! type. A buffer or number that a function writes (`*mut`) overlaps nothing else that is lent to the same call. With length 0 the pointer
//! may be null. The five numbers that the reader fills are never null. Whatever the numbers and elements are, a function stays inside what
//! it is lent, and what is wrong with them is refused.

unsafe extern "C" {
    /// The archive's version, which counts as [`VERSION`](crate::VERSION) does.
    pub safe fn planner_version() -> u32;

    /// Checks a survey; total 0.
    pub fn planner_check_survey(
        n: usize,
        m: usize,
        k: usize,
        scores: *const u16,
        scores_len: usize,
        weights: *const u8,
        weights_len: usize,
        rows: *const u8,
        rows_len: usize,
    ) -> u64;

    /// The length of a row before its first zero. The number is that length, not a packed answer.
    pub fn planner_ranked_part(row: *const u8, row_len: usize) -> usize;

    /// The score that one row gives one site, times the street's weight.
    pub fn planner_row_score(m: usize, scores: *const u16, scores_len: usize, weight: u8, row: *const u8, row_len: usize, site: u8) -> u64;

    /// The total of a list of sites.
    pub fn planner_list_total(
        n: usize,
        m: usize,
        scores: *const u16,
        scores_len: usize,
        weights: *const u8,
        weights_len: usize,
        rows: *const u8,
        rows_len: usize,
        sites: *const u8,
        sites_len: usize,
    ) -> u64;

    /// The free division over a list of sites, into `division`; the list's total.
    pub fn planner_free_division(
        n: usize,
        m: usize,
        scores: *const u16,
        scores_len: usize,
        weights: *const u8,
        weights_len: usize,
        rows: *const u8,
        rows_len: usize,
        sites: *const u8,
        sites_len: usize,
        division: *mut u8,
        division_len: usize,
    ) -> u64;

    /// The best balanced division over a list of sites, into `division`; its total.
    pub fn planner_balanced_division(
        n: usize,
        m: usize,
        scores: *const u16,
        scores_len: usize,
        weights: *const u8,
        weights_len: usize,
        rows: *const u8,
        rows_len: usize,
        sites: *const u8,
        sites_len: usize,
        division: *mut u8,
        division_len: usize,
    ) -> u64;

    /// The plan of a kind, 0 free and 1 balanced, into `division` and `chosen`; its total.
    pub fn planner_plan(
        n: usize,
        m: usize,
        k: usize,
        kind: usize,
        scores: *const u16,
        scores_len: usize,
        weights: *const u8,
        weights_len: usize,
        rows: *const u8,
        rows_len: usize,
        division: *mut u8,
        division_len: usize,
        chosen: *mut u8,
        chosen_len: usize,
    ) -> u64;

    /// The floor, a total that the balanced plan reaches in any case.
    pub fn planner_floor(
        n: usize,
        m: usize,
        k: usize,
        scores: *const u16,
        scores_len: usize,
        weights: *const u8,
        weights_len: usize,
        rows: *const u8,
        rows_len: usize,
    ) -> u64;

    /// Tests a hand-made plan of a kind, 0 free and 1 balanced, with its loads; its total.
    pub fn planner_hand_plan(
        n: usize,
        m: usize,
        k: usize,
        kind: usize,
        scores: *const u16,
        scores_len: usize,
        weights: *const u8,
        weights_len: usize,
        rows: *const u8,
        rows_len: usize,
        division: *const u8,
        division_len: usize,
        claimed: u32,
        kilograms: *const u32,
        kilograms_len: usize,
        litres: *const u32,
        litres_len: usize,
        kilogram_limits: *const u32,
        kilogram_limits_len: usize,
        litre_limits: *const u32,
        litre_limits_len: usize,
    ) -> u64;

    /// Writes a survey file into the front of `file`, in the old form where `form` is 0 and else in the new one; the file's length as the
    /// total.
    pub fn planner_write_file(
        n: usize,
        m: usize,
        k: usize,
        kind: usize,
        form: usize,
        scores: *const u16,
        scores_len: usize,
        weights: *const u8,
        weights_len: usize,
        rows: *const u8,
        rows_len: usize,
        file: *mut u8,
        file_len: usize,
    ) -> u64;

    /// Reads a survey file into the five numbers, of which the form is 0 or 1, and the fronts of `scores`, `weights` and `rows`; total 0.
    pub fn planner_read_file(
        file: *const u8,
        file_len: usize,
        n: *mut usize,
        m: *mut usize,
        k: *mut usize,
        kind: *mut usize,
        form: *mut usize,
        scores: *mut u16,
        scores_len: usize,
        weights: *mut u8,
        weights_len: usize,
        rows: *mut u8,
        rows_len: usize,
    ) -> u64;

    /// Converts a survey file into the front of `buffer`, into the old form where `form` is 0 and else into the new one; its length there as
    /// the total.
    pub fn planner_convert_file(file: *const u8, file_len: usize, form: usize, buffer: *mut u8, buffer_len: usize) -> u64;
}
