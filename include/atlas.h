/* Melgoweth: the map engine for C. Link target/staticlib/libatlas_c.a, which `make library` builds.
 *
 * Units. A unit is a millionth of a degree of arc. Latitudes, longitudes and map coordinates are in units. Latitude and y grow to the north,
 * longitude and x to the east; x, y are 0 at the sheet's origin latitude on its central meridian.
 *
 * Answers. Every function but atlas_refused_at and atlas_usual_reach gives 0, or the number of a refusal (docs/REFUSALS.md); on a refusal
 * nothing is written through any pointer. Any bytes and any numbers may be handed in: each call ends, with an answer or a refusal.
 *
 * Pointers. A pointer with a length is to that many bytes or numbers; of length 0 it may be anything but null. Any other pointer is to what
 * its name says. What a call writes to must not overlap anything else that it is handed. Nothing is kept between calls, and nothing is
 * allocated; atlas_nearest has its table of 1,000 places, 36,000 bytes, on the stack.
 *
 * Floating point. atlas_inverse and atlas_inverse_each guess by doubles and test the guess in whole numbers, so that no rounding mode changes an
 * answer. They may set the flag 'inexact'; its trap is to be masked, as it is in a program that does not unmask it.
 *
 * A file is an atlas file's bytes, whole. Each call reads and checks all of it, so that nothing comes out of a file that is refused.
 * A sheet is its record's bytes, kind byte and body, as atlas_sheet gives them.
 */
#ifndef MELGOWETH_ATLAS_H
#define MELGOWETH_ATLAS_H

#include <stddef.h>
#include <stdint.h>

#ifdef __cplusplus
extern "C" {
#endif

/* Room for the record of any sheet. */
#define ATLAS_SHEET_SIZE 37

/* The bytes of a name: 1 to 16 bytes of value 32 to 126, then zeros. A name of 16 bytes has no zero after it. */
#define ATLAS_NAME_SIZE 16

/* Map coordinates are taken up to this size, and a reach from 0 to this. */
#define ATLAS_POINT_LIMIT 536870912
#define ATLAS_REACH_LIMIT 1048576

/* Whether a file is good; it is refused at its first fault. Refusals, of each record in this order: 1 (no kind byte), 2, 10 (a place after
 * 1,000), 1 (body short); then of the sheet 4, 5, of a place 6, 7, 8, 14, of the end 9, 3. */
uint32_t atlas_check(const uint8_t *file, size_t file_length);

/* Where a file is refused: the offset of the kind byte of the record at fault (where it would be, if the file ends there); of 3, that of the first
 * byte past the end. 0 of a good file. */
size_t atlas_refused_at(const uint8_t *file, size_t file_length);

/* How many places a file has, 0 to 1,000. Refusals: as atlas_check. */
uint32_t atlas_count(const uint8_t *file, size_t file_length, size_t *count);

/* The record of a file's sheet, into a buffer of `room` bytes, and its length; bytes of the buffer after it are unchanged. ATLAS_SHEET_SIZE
 * bytes are enough. Refusals: as atlas_check, then 10 if the buffer is too short. */
uint32_t atlas_sheet(const uint8_t *file, size_t file_length, uint8_t *sheet, size_t room, size_t *sheet_length);

/* The place at an index of a file, counted from 0 in the file's order: its id, latitude, longitude, map x and y, and name. Refusals: as
 * atlas_check, then 12 if the file has no place there. */
uint32_t atlas_place(const uint8_t *file, size_t file_length, size_t index, uint32_t *id, int32_t *latitude, int32_t *longitude, int32_t *x,
                     int32_t *y, uint8_t name[ATLAS_NAME_SIZE]);

/* The index of the place of a file that is nearest to the map point x, y, no farther than `reach` units: least distance, then lowest id.
 * Refusals: as atlas_check, then 12 if a coordinate is beyond ATLAS_POINT_LIMIT in size or the reach is not 0 to ATLAS_REACH_LIMIT, then 13
 * if no place is within reach. */
uint32_t atlas_nearest(const uint8_t *file, size_t file_length, int64_t x, int64_t y, int64_t reach, size_t *index);

/* The indexes of all places of a file no farther than `reach` units from the map point x, y, by distance, then id, into the first entries of
 * `indexes`, and their count, 0 if there are none; later entries are unchanged. Room for atlas_count's count, at most 1,000, is always enough.
 * Refusals: as atlas_check, then 12 as atlas_nearest, then 10 if `indexes` is too short. */
uint32_t atlas_places_in_reach(const uint8_t *file, size_t file_length, int64_t x, int64_t y, int64_t reach, size_t *indexes,
                               size_t indexes_length, size_t *count);

/* The usual reach of a tap, 50,000 units. */
int64_t atlas_usual_reach(void);

/* From globe to map: the map point of a position on a sheet. Refusals, in this order: of the sheet's record 1 (no byte), 2 (not a sheet's kind),
 * 1 (cut), 4, 5, 3 (bytes after it); then 12 if the latitude is beyond 90,000,000 or the longitude beyond 180,000,000 in size; then 11 if the
 * position is off the sheet. */
uint32_t atlas_forward(const uint8_t *sheet, size_t sheet_length, int64_t latitude, int64_t longitude, int64_t *x, int64_t *y);

/* The same for many positions on one sheet, which is checked once. `positions` is latitude, longitude, latitude, longitude, ..; `answers` gets
 * three numbers for each position: 0, x, y, or the refusal's number (12, 11), 0, 0; later ones are unchanged. Refusals of the whole: of the
 * sheet as atlas_forward; then 12 if `positions` has an odd length; then 10 if `answers` is too short. */
uint32_t atlas_forward_each(const uint8_t *sheet, size_t sheet_length, const int64_t *positions, size_t positions_length, int64_t *answers,
                            size_t answers_length);

/* From map to globe: the position of a map point, the longitude from -180,000,000 up to, not including, 180,000,000. Refusals: of the sheet as
 * atlas_forward; then 12 if a coordinate is beyond ATLAS_POINT_LIMIT in size; then 11 if the point is off the sheet. (The point that forward
 * gives of a position at the north, west or east edge may be off by a fraction that was dropped, and refused.) */
uint32_t atlas_inverse(const uint8_t *sheet, size_t sheet_length, int64_t x, int64_t y, int64_t *latitude, int64_t *longitude);

/* The same for many points on one sheet, which is checked once. `points` is x, y, x, y, ..; `answers` gets three numbers for each point: 0,
 * latitude, longitude, or the refusal's number (12, 11), 0, 0; later ones are unchanged. Refusals of the whole: as atlas_forward_each, with `points` for `positions`. */
uint32_t atlas_inverse_each(const uint8_t *sheet, size_t sheet_length, const int64_t *points, size_t points_length, int64_t *answers,
                            size_t answers_length);

#ifdef __cplusplus
}
#endif

#endif
