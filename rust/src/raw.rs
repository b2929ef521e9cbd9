//! The C functions as `include/olavinthu.h` declares them, line by line.
//!
//! A list is a pointer and then its count; a null pointer with the count 0 is allowed. The lists and
//! out-words of one call must be valid and must not overlap. Nothing else is asked: any number may
//! be passed, and each function answers 0, the number of its refusal, or that of a slice's stop.

use crate::Setting;

#[rustfmt::skip] // A list stands on one line with its count, as in the header.
extern "C" {
    pub fn olv_map(
        width: u32, height: u32, kind: u32, d1: u32, d2: u32,
        picture: *const u8, picture_count: usize,
        distances: *mut u32, distances_count: usize,
        sites: *mut u32, sites_count: usize,
        scratch: *mut u32, scratch_count: usize,
    ) -> u32;

    pub fn olv_slice(
        width: u32, height: u32, kind: u32, line: u32, budget: u32,
        picture: *const u8, picture_count: usize,
        distances: *mut u32, distances_count: usize,
        sites: *mut u32, sites_count: usize,
        scratch: *mut u32, scratch_count: usize,
        finished: *mut u32, next: *mut u32,
    ) -> u32;

    pub fn olv_cost_map(
        width: u32, height: u32, kind: u32,
        costs: *const u32, costs_count: usize,
        distances: *mut u32, distances_count: usize,
        sites: *mut u32, sites_count: usize,
        scratch: *mut u32, scratch_count: usize,
    ) -> u32;

    pub fn olv_changeover(i: u32, u: u32, a: u32, b: u32, p: *mut i32) -> u32;

    pub fn olv_open(setting: Setting, a: *mut u32, b: *mut u32) -> u32;

    pub fn olv_clear(
        setting: Setting,
        squares: *const u32, squares_count: usize,
        clear: *mut u8, clear_count: usize,
    ) -> u32;

    pub fn olv_millimetres(d: u32, pitch: f32, out: *mut f64) -> u32;

    pub fn olv_millimetres_text(
        d: u32, pitch: f32,
        text: *mut u8, text_count: usize,
        length: *mut u32,
    ) -> u32;

    pub fn olv_lane(
        width: u32, height: u32,
        picture: *const u8, picture_count: usize,
        from: u32, to: u32,
        distances: *mut u32, distances_count: usize,
        sites: *mut u32, sites_count: usize,
        scratch: *mut u32, scratch_count: usize,
        path: *mut u32, path_count: usize,
        lane_width: *mut u32, lane_cells: *mut u32,
    ) -> u32;
}
