/* What the witness and the benchmark share: sheets whose constants come from their parallels, and PROJ's projection with the same parallels. */
#ifndef MELGOWETH_TESTS_PROJ_COMMON_H
#define MELGOWETH_TESTS_PROJ_COMMON_H

#include <inttypes.h>
#include <math.h>
#include <proj.h>
#include <stdbool.h>
#include <stdint.h>
#include <stdio.h>
#include <stdlib.h>

#include "atlas.h"

#define PI 3.14159265358979323846264338327950288L
#define ONE 1073741824

/* The radians of a unit, a millionth of a degree. */
#define UNIT (PI / 180000000)

typedef struct {
    int32_t first_parallel, second_parallel;
    int32_t origin_latitude, central_meridian;
    int32_t south_edge, north_edge;
    uint32_t half_width;
    uint32_t cone_constant;
    int32_t radius_constant;
} Sheet;

/* n and G (in units) before they are rounded. */
typedef struct {
    long double n, g;
} Constants;

/* Snyder, chapter 16. n = (cos a - cos b) / (b - a) as a product: the difference would lose digits where the parallels are near each other. */
static inline Constants constants_of(int32_t first_parallel, int32_t second_parallel)
{
    long double a = first_parallel * UNIT, b = second_parallel * UNIT, half = (b - a) / 2;
    long double n = sinl((a + b) / 2) * (half == 0 ? 1 : sinl(half) / half);
    return (Constants){n, first_parallel + cosl(a) / n / UNIT};
}

/* The sheet with its constants rounded from those of its parallels. */
static inline Sheet with_constants(Sheet sheet)
{
    Constants exact = constants_of(sheet.first_parallel, sheet.second_parallel);
    sheet.cone_constant = (uint32_t)llroundl(exact.n * ONE);
    sheet.radius_constant = (int32_t)llroundl(exact.g);
    return sheet;
}

static inline uint8_t *put_number(uint8_t *at, uint32_t number)
{
    for (int byte = 0; byte < 4; byte++)
        *at++ = (uint8_t)(number >> 8 * byte);
    return at;
}

/* The sheet's record, as the atlas file has it. */
static inline void put_sheet(uint8_t record[ATLAS_SHEET_SIZE], const Sheet *sheet)
{
    uint8_t *at = record;
    *at++ = 1;
    at = put_number(at, (uint32_t)sheet->first_parallel);
    at = put_number(at, (uint32_t)sheet->second_parallel);
    at = put_number(at, (uint32_t)sheet->origin_latitude);
    at = put_number(at, (uint32_t)sheet->central_meridian);
    at = put_number(at, (uint32_t)sheet->south_edge);
    at = put_number(at, (uint32_t)sheet->north_edge);
    at = put_number(at, sheet->half_width);
    at = put_number(at, sheet->cone_constant);
    put_number(at, (uint32_t)sheet->radius_constant);
}

/* Into -180 degrees up to, not including, 180 degrees. */
static inline int64_t shifted(int64_t longitude)
{
    return longitude < -180000000 ? longitude + 360000000 : longitude < 180000000 ? longitude : longitude - 360000000;
}

/* PROJ's equidistant conic with the sheet's parallels and origin, on a sphere of 180,000,000 / pi units: its n and G are its own. */
static inline PJ *eqdc(const Sheet *sheet)
{
    char definition[256];
    snprintf(definition, sizeof definition, "+proj=eqdc +lat_1=%.6f +lat_2=%.6f +lat_0=%.6f +lon_0=%.6f +R=57295779.51308232087679815",
             sheet->first_parallel / 1e6, sheet->second_parallel / 1e6, sheet->origin_latitude / 1e6, sheet->central_meridian / 1e6);
    PJ *projection = proj_create(PJ_DEFAULT_CTX, definition);
    if (projection == NULL) {
        fprintf(stderr, "PROJ refuses %s\n", definition);
        exit(2);
    }
    return projection;
}

/* PROJ's longitude and latitude of a position, in radians. */
static inline PJ_COORD radians_of(int64_t latitude, int64_t longitude)
{
    return proj_coord((double)(longitude * UNIT), (double)(latitude * UNIT), 0, 0);
}

/* Random numbers that are the same in every run (splitmix64). */
static inline uint64_t next_random(void)
{
    static uint64_t state = 20261116;
    uint64_t z = state += 0x9e3779b97f4a7c15;
    z = (z ^ z >> 30) * 0xbf58476d1ce4e5b9;
    z = (z ^ z >> 27) * 0x94d049bb133111eb;
    return z ^ z >> 31;
}

/* From low to high, both included. */
static inline int64_t between(int64_t low, int64_t high)
{
    return low + (int64_t)(next_random() % (uint64_t)(high - low + 1));
}

#endif
