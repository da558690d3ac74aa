//! The library's C entries, made by tools/header from crates/exports_c.

#[link(name = "exports", kind = "static")]
#[rustfmt::skip]
#[allow(clippy::too_many_arguments, dead_code)]
unsafe extern "C" {
    pub fn beahcerot_polyline_length(line: *const f64, line_len: usize, value: *mut f64) -> u64;
    pub fn beahcerot_resample_keep_corners(line: *const f64, line_len: usize, len: f64, out: *mut f64, out_len: usize, count: *mut u64) -> u64;
    pub fn beahcerot_running(line: *const f64, line_len: usize, closed: bool, len: f64, passes: u64, out: *mut f64, out_len: usize, count: *mut u64) -> u64;
    pub fn beahcerot_root(x: f64) -> f64;
    pub fn beahcerot_floor(x: f64) -> f64;
    pub fn beahcerot_ceil(x: f64) -> f64;
    pub fn beahcerot_smaller(a: f64, b: f64) -> f64;
    pub fn beahcerot_larger(a: f64, b: f64) -> f64;
    pub fn beahcerot_magnitude(x: f64) -> f64;
    pub fn beahcerot_before(a: f64, b: f64) -> u8;
    pub fn beahcerot_to_i64(x: f64) -> i64;
    pub fn beahcerot_to_u64(x: f64) -> u64;
    pub fn beahcerot_of_i64(n: i64) -> f64;
    pub fn beahcerot_of_u64(n: u64) -> f64;
    pub fn beahcerot_leaf_root(x: f64, value: *mut f64) -> u64;
    pub fn beahcerot_leaf_floor(x: f64, value: *mut f64) -> u64;
    pub fn beahcerot_leaf_ceil(x: f64, value: *mut f64) -> u64;
    pub fn beahcerot_leaf_magnitude(x: f64, value: *mut f64) -> u64;
    pub fn beahcerot_leaf_smaller(a: f64, b: f64, value: *mut f64) -> u64;
    pub fn beahcerot_leaf_larger(a: f64, b: f64, value: *mut f64) -> u64;
    pub fn beahcerot_leaf_order(a: f64, b: f64, place: *mut u64) -> u64;
    pub fn beahcerot_dot(ax: f64, ay: f64, bx: f64, by: f64, value: *mut f64) -> u64;
    pub fn beahcerot_len(x: f64, y: f64, value: *mut f64) -> u64;
    pub fn beahcerot_dist(ax: f64, ay: f64, bx: f64, by: f64, value: *mut f64) -> u64;
    pub fn beahcerot_cross(ax: f64, ay: f64, bx: f64, by: f64, value: *mut f64) -> u64;
    pub fn beahcerot_norm(x: f64, y: f64, px: *mut f64, py: *mut f64) -> u64;
    pub fn beahcerot_perp(x: f64, y: f64, px: *mut f64, py: *mut f64) -> u64;
    pub fn beahcerot_rotate(x: f64, y: f64, cos: f64, sin: f64, px: *mut f64, py: *mut f64) -> u64;
    pub fn beahcerot_lerp(ax: f64, ay: f64, bx: f64, by: f64, t: f64, px: *mut f64, py: *mut f64) -> u64;
    pub fn beahcerot_inside(rule: u64, winding: i64) -> u64;
    pub fn beahcerot_winding(corners: *const f64, corners_len: usize, ends: *const usize, ends_len: usize, x: f64, y: f64, value: *mut i64) -> u64;
    pub fn beahcerot_point_inside(corners: *const f64, corners_len: usize, ends: *const usize, ends_len: usize, rule: u64, x: f64, y: f64, value: *mut u64) -> u64;
    pub fn beahcerot_segment_inside(corners: *const f64, corners_len: usize, ends: *const usize, ends_len: usize, rule: u64, ax: f64, ay: f64, bx: f64, by: f64, step: f64, value: *mut u64) -> u64;
    pub fn beahcerot_plain_tatami(corners: *const f64, corners_len: usize, ends: *const usize, ends_len: usize, rule: u64, spacing: f64, len: f64, inset: f64, pull: f64, cosine: f64, sine: f64, stagger: u64, upward: bool, floats: *mut f64, floats_len: usize, wholes: *mut usize, wholes_len: usize, points: *mut f64, points_len: usize, stops: *mut usize, stops_len: usize, sections: *mut u64, count: *mut u64) -> u64;
    pub fn beahcerot_plain_row_list(corners: *const f64, corners_len: usize, ends: *const usize, ends_len: usize, rule: u64, spacing: f64, len: f64, inset: f64, pull: f64, cosine: f64, sine: f64, stagger: u64, upward: bool, floats: *mut f64, floats_len: usize, wholes: *mut usize, wholes_len: usize, ys: *mut f64, ys_len: usize, rows: *mut i64, rows_len: usize, sections: *mut usize, sections_len: usize, pieces: *mut u64) -> u64;
    pub fn beahcerot_tatami_twice(corners: *const f64, corners_len: usize, ends: *const usize, ends_len: usize, rule: u64, cosine: f64, sine: f64, spacing: f64, len: f64, inset: f64, pull: f64, stagger: u64, upward: bool, spacing2: f64, len2: f64, inset2: f64, pull2: f64, stagger2: u64, upward2: bool, table: *mut f64, table_len: usize, places: *mut usize, places_len: usize, floats: *mut f64, floats_len: usize, wholes: *mut usize, wholes_len: usize, points: *mut f64, points_len: usize, stops: *mut usize, stops_len: usize, floats2: *mut f64, floats2_len: usize, wholes2: *mut usize, wholes2_len: usize, points2: *mut f64, points2_len: usize, stops2: *mut usize, stops2_len: usize, sections: *mut u64, count: *mut u64, answer2: *mut u64, sections2: *mut u64, count2: *mut u64) -> u64;
    pub fn beahcerot_fill_job2(bytes: *const u8, bytes_len: usize, corners: *mut f64, corners_len: usize, ends: *mut usize, ends_len: usize, table: *mut f64, table_len: usize, places: *mut usize, places_len: usize, floats: *mut f64, floats_len: usize, wholes: *mut usize, wholes_len: usize, points: *mut f64, points_len: usize, stops: *mut usize, stops_len: usize, floats2: *mut f64, floats2_len: usize, wholes2: *mut usize, wholes2_len: usize, points2: *mut f64, points2_len: usize, stops2: *mut usize, stops2_len: usize, sections: *mut u64, count: *mut u64, answer2: *mut u64, sections2: *mut u64, count2: *mut u64) -> u64;
    pub fn beahcerot_tatami(corners: *const f64, corners_len: usize, ends: *const usize, ends_len: usize, rule: u64, spacing: f64, len: f64, inset: f64, pull: f64, cosine: f64, sine: f64, stagger: u64, upward: bool, floats: *mut f64, floats_len: usize, wholes: *mut usize, wholes_len: usize, points: *mut f64, points_len: usize, stops: *mut usize, stops_len: usize, sections: *mut u64, count: *mut u64) -> u64;
    pub fn beahcerot_row_list(corners: *const f64, corners_len: usize, ends: *const usize, ends_len: usize, rule: u64, spacing: f64, len: f64, inset: f64, pull: f64, cosine: f64, sine: f64, stagger: u64, upward: bool, floats: *mut f64, floats_len: usize, wholes: *mut usize, wholes_len: usize, ys: *mut f64, ys_len: usize, rows: *mut i64, rows_len: usize, sections: *mut usize, sections_len: usize, pieces: *mut u64) -> u64;
    pub fn beahcerot_fill_room(corners: *const f64, corners_len: usize, ends: *const usize, ends_len: usize, spacing: f64, len: f64, inset: f64, pull: f64, cosine: f64, sine: f64, stagger: u64, floats: *mut u64, wholes: *mut u64) -> u64;
    pub fn beahcerot_fill_job(bytes: *const u8, bytes_len: usize, corners: *mut f64, corners_len: usize, ends: *mut usize, ends_len: usize, floats: *mut f64, floats_len: usize, wholes: *mut usize, wholes_len: usize, points: *mut f64, points_len: usize, stops: *mut usize, stops_len: usize, sections: *mut u64, count: *mut u64) -> u64;
    pub fn beahcerot_split_long(line: *const f64, line_len: usize, max: f64, out: *mut f64, out_len: usize, count: *mut u64) -> u64;
    pub fn beahcerot_s_stitch(line: *const f64, line_len: usize, out: *mut f64, out_len: usize, count: *mut u64) -> u64;
    pub fn beahcerot_pairs(a: *const f64, a_len: usize, b: *const f64, b_len: usize, sync: *const f64, sync_len: usize, step: f64, work: *mut f64, work_len: usize, out: *mut f64, out_len: usize, count: *mut u64) -> u64;
    pub fn beahcerot_pairs_room(a: *const f64, a_len: usize, b: *const f64, b_len: usize, sync: *const f64, sync_len: usize, step: f64, floats: *mut u64) -> u64;
    pub fn beahcerot_column(a: *const f64, a_len: usize, b: *const f64, b_len: usize, sync: *const f64, sync_len: usize, spacing: f64, pull: f64, underlay: u64, run_len: f64, short_stitches: bool, split: f64, style: u64, work: *mut f64, work_len: usize, out: *mut f64, out_len: usize, count: *mut u64) -> u64;
    pub fn beahcerot_underlay(a: *const f64, a_len: usize, b: *const f64, b_len: usize, sync: *const f64, sync_len: usize, spacing: f64, pull: f64, underlay: u64, run_len: f64, short_stitches: bool, split: f64, style: u64, work: *mut f64, work_len: usize, out: *mut f64, out_len: usize, count: *mut u64, far: *mut bool) -> u64;
    pub fn beahcerot_top(a: *const f64, a_len: usize, b: *const f64, b_len: usize, sync: *const f64, sync_len: usize, spacing: f64, pull: f64, underlay: u64, run_len: f64, short_stitches: bool, split: f64, style: u64, far: bool, work: *mut f64, work_len: usize, out: *mut f64, out_len: usize, count: *mut u64) -> u64;
    pub fn beahcerot_column_room(a: *const f64, a_len: usize, b: *const f64, b_len: usize, sync: *const f64, sync_len: usize, spacing: f64, pull: f64, underlay: u64, run_len: f64, short_stitches: bool, split: f64, style: u64, floats: *mut u64) -> u64;
    pub fn beahcerot_dst(points: *const f64, points_len: usize, out: *mut u8, out_len: usize, count: *mut u64) -> u64;
    pub fn beahcerot_dst_read(bytes: *const u8, bytes_len: usize, points: *mut f64, points_len: usize, marks: *mut u64, marks_len: usize, count: *mut u64, number: *mut u64) -> u64;
    pub fn beahcerot_salvage(corners: *const f64, corners_len: usize, ends: *const usize, ends_len: usize, keep: *mut f64, keep_len: usize, stops: *mut usize, stops_len: usize, places: *mut usize, places_len: usize, reasons: *mut usize, reasons_len: usize, count: *mut u64, dropped: *mut u64) -> u64;
    pub fn beahcerot_bounds(corners: *const f64, corners_len: usize, ends: *const usize, ends_len: usize, left: *mut f64, top: *mut f64, right: *mut f64, bottom: *mut f64) -> u64;
    pub fn beahcerot_clip_inside(line: *const f64, line_len: usize, corners: *const f64, corners_len: usize, ends: *const usize, ends_len: usize, rule: u64, out: *mut f64, out_len: usize, stops: *mut usize, stops_len: usize, lines: *mut u64, points: *mut u64) -> u64;
    pub fn beahcerot_cross_stitch(corners: *const f64, corners_len: usize, ends: *const usize, ends_len: usize, rule: u64, cell: f64, out: *mut f64, out_len: usize, stops: *mut usize, stops_len: usize, lines: *mut u64, points: *mut u64) -> u64;
    pub fn beahcerot_meander(corners: *const f64, corners_len: usize, ends: *const usize, ends_len: usize, rule: u64, spacing: f64, len: f64, seed: u64, out: *mut f64, out_len: usize, stops: *mut usize, stops_len: usize, wholes: *mut usize, wholes_len: usize, lines: *mut u64, points: *mut u64) -> u64;
    pub fn beahcerot_book_store(book: *mut u8, book_len: usize, number: u16, spacing: f64, len: f64, inset: f64, pull: f64, stagger: u64) -> u64;
    pub fn beahcerot_book_fetch(book: *const u8, book_len: usize, number: u16, spacing: *mut f64, len: *mut f64, inset: *mut f64, pull: *mut f64, stagger: *mut u64) -> u64;
    pub fn beahcerot_book_remove(book: *mut u8, book_len: usize, number: u16) -> u64;
}
