/* Beahcerot's C entries, made by tools/header from crates/exports_c. x86-64; link libexports.a (tools/archive).
 *
 * A slice is a pointer and a count of elements. Everything is the caller's: nothing is kept or freed, and the slices
 * of one call must not overlap. A rule is 0 for NonZero, any other number for EvenOdd. A call that can refuse answers
 * one of the numbers below; after a refusal every count is 0 and no output is changed.
 * docs/CALLS.md names the proved function behind each entry. */
#ifndef BEAHCEROT_H
#define BEAHCEROT_H

#include <stdbool.h>
#include <stddef.h>
#include <stdint.h>

#ifdef __cplusplus
extern "C" {
#endif

#define BEAHCEROT_DONE 0
#define BEAHCEROT_LAYOUT 1
#define BEAHCEROT_NUMBER 2
#define BEAHCEROT_SETTING 3
#define BEAHCEROT_TURN 4
#define BEAHCEROT_SIZE 5
#define BEAHCEROT_WORK 6
#define BEAHCEROT_ROOM 7
#define BEAHCEROT_RECORD 8
#define BEAHCEROT_CUT 9
#define BEAHCEROT_ABSENT 10
#define BEAHCEROT_VERSION 11
#define BEAHCEROT_STITCH 0
#define BEAHCEROT_JUMP 1
#define BEAHCEROT_STOP 2

uint64_t beahcerot_polyline_length(const double *line, size_t line_len, double *value);

uint64_t beahcerot_resample_keep_corners(const double *line, size_t line_len, double len, double *out, size_t out_len, uint64_t *count);

uint64_t beahcerot_running(const double *line, size_t line_len, bool closed, double len, uint64_t passes, double *out, size_t out_len, uint64_t *count);

double beahcerot_root(double x);

double beahcerot_floor(double x);

double beahcerot_ceil(double x);

double beahcerot_smaller(double a, double b);

double beahcerot_larger(double a, double b);

double beahcerot_magnitude(double x);

bool beahcerot_before(double a, double b);

int64_t beahcerot_to_i64(double x);

uint64_t beahcerot_to_u64(double x);

double beahcerot_of_i64(int64_t n);

double beahcerot_of_u64(uint64_t n);

uint64_t beahcerot_leaf_root(double x, double *value);

uint64_t beahcerot_leaf_floor(double x, double *value);

uint64_t beahcerot_leaf_ceil(double x, double *value);

uint64_t beahcerot_leaf_magnitude(double x, double *value);

uint64_t beahcerot_leaf_smaller(double a, double b, double *value);

uint64_t beahcerot_leaf_larger(double a, double b, double *value);

uint64_t beahcerot_leaf_order(double a, double b, uint64_t *place);

uint64_t beahcerot_dot(double ax, double ay, double bx, double by, double *value);

uint64_t beahcerot_len(double x, double y, double *value);

uint64_t beahcerot_dist(double ax, double ay, double bx, double by, double *value);

uint64_t beahcerot_cross(double ax, double ay, double bx, double by, double *value);

uint64_t beahcerot_norm(double x, double y, double *px, double *py);

uint64_t beahcerot_perp(double x, double y, double *px, double *py);

uint64_t beahcerot_rotate(double x, double y, double cos, double sin, double *px, double *py);

uint64_t beahcerot_lerp(double ax, double ay, double bx, double by, double t, double *px, double *py);

uint64_t beahcerot_inside(uint64_t rule, int64_t winding);

uint64_t beahcerot_winding(const double *corners, size_t corners_len, const size_t *ends, size_t ends_len, double x, double y, int64_t *value);

uint64_t beahcerot_point_inside(const double *corners, size_t corners_len, const size_t *ends, size_t ends_len, uint64_t rule, double x, double y, uint64_t *value);

uint64_t beahcerot_segment_inside(const double *corners, size_t corners_len, const size_t *ends, size_t ends_len, uint64_t rule, double ax, double ay, double bx, double by, double step, uint64_t *value);

uint64_t beahcerot_plain_tatami(const double *corners, size_t corners_len, const size_t *ends, size_t ends_len, uint64_t rule, double spacing, double len, double inset, double pull, double cosine, double sine, uint64_t stagger, bool upward, double *floats, size_t floats_len, size_t *wholes, size_t wholes_len, double *points, size_t points_len, size_t *stops, size_t stops_len, uint64_t *sections, uint64_t *count);

uint64_t beahcerot_plain_row_list(const double *corners, size_t corners_len, const size_t *ends, size_t ends_len, uint64_t rule, double spacing, double len, double inset, double pull, double cosine, double sine, uint64_t stagger, bool upward, double *floats, size_t floats_len, size_t *wholes, size_t wholes_len, double *ys, size_t ys_len, int64_t *rows, size_t rows_len, size_t *sections, size_t sections_len, uint64_t *pieces);

uint64_t beahcerot_tatami_twice(const double *corners, size_t corners_len, const size_t *ends, size_t ends_len, uint64_t rule, double cosine, double sine, double spacing, double len, double inset, double pull, uint64_t stagger, bool upward, double spacing2, double len2, double inset2, double pull2, uint64_t stagger2, bool upward2, double *table, size_t table_len, size_t *places, size_t places_len, double *floats, size_t floats_len, size_t *wholes, size_t wholes_len, double *points, size_t points_len, size_t *stops, size_t stops_len, double *floats2, size_t floats2_len, size_t *wholes2, size_t wholes2_len, double *points2, size_t points2_len, size_t *stops2, size_t stops2_len, uint64_t *sections, uint64_t *count, uint64_t *answer2, uint64_t *sections2, uint64_t *count2);

uint64_t beahcerot_fill_job2(const uint8_t *bytes, size_t bytes_len, double *corners, size_t corners_len, size_t *ends, size_t ends_len, double *table, size_t table_len, size_t *places, size_t places_len, double *floats, size_t floats_len, size_t *wholes, size_t wholes_len, double *points, size_t points_len, size_t *stops, size_t stops_len, double *floats2, size_t floats2_len, size_t *wholes2, size_t wholes2_len, double *points2, size_t points2_len, size_t *stops2, size_t stops2_len, uint64_t *sections, uint64_t *count, uint64_t *answer2, uint64_t *sections2, uint64_t *count2);

uint64_t beahcerot_tatami(const double *corners, size_t corners_len, const size_t *ends, size_t ends_len, uint64_t rule, double spacing, double len, double inset, double pull, double cosine, double sine, uint64_t stagger, bool upward, double *floats, size_t floats_len, size_t *wholes, size_t wholes_len, double *points, size_t points_len, size_t *stops, size_t stops_len, uint64_t *sections, uint64_t *count);

uint64_t beahcerot_row_list(const double *corners, size_t corners_len, const size_t *ends, size_t ends_len, uint64_t rule, double spacing, double len, double inset, double pull, double cosine, double sine, uint64_t stagger, bool upward, double *floats, size_t floats_len, size_t *wholes, size_t wholes_len, double *ys, size_t ys_len, int64_t *rows, size_t rows_len, size_t *sections, size_t sections_len, uint64_t *pieces);

uint64_t beahcerot_fill_room(const double *corners, size_t corners_len, const size_t *ends, size_t ends_len, double spacing, double len, double inset, double pull, double cosine, double sine, uint64_t stagger, uint64_t *floats, uint64_t *wholes);

uint64_t beahcerot_fill_job(const uint8_t *bytes, size_t bytes_len, double *corners, size_t corners_len, size_t *ends, size_t ends_len, double *floats, size_t floats_len, size_t *wholes, size_t wholes_len, double *points, size_t points_len, size_t *stops, size_t stops_len, uint64_t *sections, uint64_t *count);

uint64_t beahcerot_split_long(const double *line, size_t line_len, double max, double *out, size_t out_len, uint64_t *count);

uint64_t beahcerot_s_stitch(const double *line, size_t line_len, double *out, size_t out_len, uint64_t *count);

uint64_t beahcerot_pairs(const double *a, size_t a_len, const double *b, size_t b_len, const double *sync, size_t sync_len, double step, double *work, size_t work_len, double *out, size_t out_len, uint64_t *count);

uint64_t beahcerot_pairs_room(const double *a, size_t a_len, const double *b, size_t b_len, const double *sync, size_t sync_len, double step, uint64_t *floats);

uint64_t beahcerot_column(const double *a, size_t a_len, const double *b, size_t b_len, const double *sync, size_t sync_len, double spacing, double pull, uint64_t underlay, double run_len, bool short_stitches, double split, uint64_t style, double *work, size_t work_len, double *out, size_t out_len, uint64_t *count);

uint64_t beahcerot_underlay(const double *a, size_t a_len, const double *b, size_t b_len, const double *sync, size_t sync_len, double spacing, double pull, uint64_t underlay, double run_len, bool short_stitches, double split, uint64_t style, double *work, size_t work_len, double *out, size_t out_len, uint64_t *count, bool *far);

uint64_t beahcerot_top(const double *a, size_t a_len, const double *b, size_t b_len, const double *sync, size_t sync_len, double spacing, double pull, uint64_t underlay, double run_len, bool short_stitches, double split, uint64_t style, bool far, double *work, size_t work_len, double *out, size_t out_len, uint64_t *count);

uint64_t beahcerot_column_room(const double *a, size_t a_len, const double *b, size_t b_len, const double *sync, size_t sync_len, double spacing, double pull, uint64_t underlay, double run_len, bool short_stitches, double split, uint64_t style, uint64_t *floats);

uint64_t beahcerot_dst(const double *points, size_t points_len, uint8_t *out, size_t out_len, uint64_t *count);

uint64_t beahcerot_dst_read(const uint8_t *bytes, size_t bytes_len, double *points, size_t points_len, uint64_t *marks, size_t marks_len, uint64_t *count, uint64_t *number);

uint64_t beahcerot_salvage(const double *corners, size_t corners_len, const size_t *ends, size_t ends_len, double *keep, size_t keep_len, size_t *stops, size_t stops_len, size_t *places, size_t places_len, size_t *reasons, size_t reasons_len, uint64_t *count, uint64_t *dropped);

uint64_t beahcerot_bounds(const double *corners, size_t corners_len, const size_t *ends, size_t ends_len, double *left, double *top, double *right, double *bottom);

uint64_t beahcerot_clip_inside(const double *line, size_t line_len, const double *corners, size_t corners_len, const size_t *ends, size_t ends_len, uint64_t rule, double *out, size_t out_len, size_t *stops, size_t stops_len, uint64_t *lines, uint64_t *points);

uint64_t beahcerot_cross_stitch(const double *corners, size_t corners_len, const size_t *ends, size_t ends_len, uint64_t rule, double cell, double *out, size_t out_len, size_t *stops, size_t stops_len, uint64_t *lines, uint64_t *points);

uint64_t beahcerot_meander(const double *corners, size_t corners_len, const size_t *ends, size_t ends_len, uint64_t rule, double spacing, double len, uint64_t seed, double *out, size_t out_len, size_t *stops, size_t stops_len, size_t *wholes, size_t wholes_len, uint64_t *lines, uint64_t *points);

uint64_t beahcerot_book_store(uint8_t *book, size_t book_len, uint16_t number, double spacing, double len, double inset, double pull, uint64_t stagger);

uint64_t beahcerot_book_fetch(const uint8_t *book, size_t book_len, uint16_t number, double *spacing, double *len, double *inset, double *pull, uint64_t *stagger);

uint64_t beahcerot_book_remove(uint8_t *book, size_t book_len, uint16_t number);

#ifdef __cplusplus
}
#endif

#endif
