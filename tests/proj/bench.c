/* How long the engine takes, beside PROJ on the same positions, and how often it evaluates sine and cosine for a map point. Answers are checked
 * before anything is timed: wrong ones fail the run, a target that is missed does not. Each time is the median of rounds in which all that is
 * measured takes its turn. */
#define _POSIX_C_SOURCE 199309L

#include "common.h"

#include <string.h>
#include <time.h>

#define ROUNDS 11
#define POSITIONS 100000
#define PLACES 1000
#define TAPS 1000
#define READINGS 20
#define LISTS 5

/* The engine's functions for tests: crates/test_interface. */
typedef struct {
    uint32_t id;
    int32_t latitude, longitude, x, y;
    uint8_t name[ATLAS_NAME_SIZE];
} Place;

uint64_t melgoweth_test_check(int32_t first_parallel, int32_t second_parallel, int32_t origin_latitude, int32_t central_meridian,
                              int32_t south_edge, int32_t north_edge, uint32_t half_width, uint32_t cone_constant, int32_t radius_constant);
uint64_t melgoweth_test_sine(int64_t t, int64_t *out);
uint64_t melgoweth_test_cosine(int64_t t, int64_t *out);
uint64_t melgoweth_test_root(int64_t q, int64_t *out);
uint64_t melgoweth_test_offset(uint32_t n, int64_t x, int64_t v, uint32_t w, int64_t *out);
int64_t melgoweth_test_guess_offset(uint32_t n, int32_t x, int32_t v);
uint64_t melgoweth_test_read(const uint8_t *bytes, size_t length, Place *table, size_t room, uint64_t numbers[2], int64_t sheet[9]);
uint64_t melgoweth_test_nearest(const Place *table, size_t count, int64_t x, int64_t y, int64_t reach, uint64_t *out);
uint64_t melgoweth_test_places_in_reach(const Place *table, size_t count, int64_t x, int64_t y, int64_t reach, Place *found, size_t room,
                                        uint64_t *out);

/* ---- What is measured upon */

static Sheet sheet;
static uint8_t record[ATLAS_SHEET_SIZE];
static PJ *projection;

static int64_t positions[2 * POSITIONS], answers[3 * POSITIONS], points[2 * POSITIONS];
static PJ_COORD radians[POSITIONS], plane[POSITIONS], coordinates[POSITIONS];

static Place places[PLACES], table[PLACES];
static uint8_t file[ATLAS_SHEET_SIZE + 37 * PLACES + 5];
static int64_t taps[2 * TAPS];

/* Places at one point with falling ids, so that each goes before all that are listed already; places in a row toward the tap do the same. */
static Place same_point[PLACES], toward_tap[PLACES], listed[PLACES];

static int64_t checksum;

static void fail(const char *what)
{
    fprintf(stderr, "wrong: %s\n", what);
    exit(1);
}

static void make_sheet(void)
{
    sheet = with_constants((Sheet){.first_parallel = 29500000, .second_parallel = 45500000, .origin_latitude = 37500000,
                                   .central_meridian = -96000000, .south_edge = 20000000, .north_edge = 60000000, .half_width = 40000000});
    put_sheet(record, &sheet);
    projection = eqdc(&sheet);
}

/* Not at the edges, so that the map point of each position is on the sheet too. */
static void make_positions(void)
{
    int64_t reach = (int64_t)sheet.half_width - 10;
    for (int i = 0; i < POSITIONS; i++) {
        int64_t latitude = between(sheet.south_edge + 10, sheet.north_edge - 10);
        int64_t longitude = shifted(sheet.central_meridian + between(-reach, reach));
        positions[2 * i] = latitude;
        positions[2 * i + 1] = longitude;
        radians[i] = radians_of(latitude, longitude);
        if (atlas_forward(record, sizeof record, latitude, longitude, &points[2 * i], &points[2 * i + 1]) != 0)
            fail("forward refuses a position on the sheet");
        plane[i] = proj_coord((double)points[2 * i], (double)points[2 * i + 1], 0, 0);
    }
}

static void make_file(void)
{
    uint8_t *at = file + ATLAS_SHEET_SIZE;
    memcpy(file, record, sizeof record);
    for (int i = 0; i < PLACES; i++) {
        Place *place = &places[i];
        *place = (Place){(uint32_t)i + 1, (int32_t)positions[2 * i], (int32_t)positions[2 * i + 1], (int32_t)points[2 * i],
                         (int32_t)points[2 * i + 1], ""};
        snprintf((char *)place->name, sizeof place->name, "Place %d", i + 1);
        *at++ = 2;
        at = put_number(at, place->id);
        at = put_number(at, (uint32_t)place->latitude);
        at = put_number(at, (uint32_t)place->longitude);
        at = put_number(at, (uint32_t)place->x);
        at = put_number(at, (uint32_t)place->y);
        memcpy(at, place->name, sizeof place->name);
        at += sizeof place->name;
    }
    *at++ = 3;
    put_number(at, PLACES);
}

/* Within the usual reach of a place, all but every fourth, which is anywhere. */
static void make_taps(void)
{
    for (int i = 0; i < TAPS; i++) {
        const Place *place = &places[between(0, PLACES - 1)];
        int64_t off = i % 4 == 0 ? 10000000 : 30000;
        taps[2 * i] = place->x + between(-off, off);
        taps[2 * i + 1] = place->y + between(-off, off);
    }
}

static void make_lists(void)
{
    for (int i = 0; i < PLACES; i++) {
        same_point[i] = toward_tap[i] = places[i];
        same_point[i].id = toward_tap[i].id = (uint32_t)(PLACES - i);
        same_point[i].x = same_point[i].y = toward_tap[i].y = 0;
        toward_tap[i].x = PLACES - i;
    }
}

/* ---- The answers */

/* Document 01's steps in C: the factors, the last p, the angle on the cone of an offset. */
static const int64_t sine_row[6] = {6, 20, 42, 72, 110, 156}, cosine_row[6] = {2, 12, 30, 56, 90, 132};

static int64_t series(int64_t z, const int64_t factors[6])
{
    int64_t p = ONE;
    for (int k = 5; k >= 0; k--)
        p = ONE - z * p / (ONE * factors[k]);
    return p;
}

static int64_t cone_angle(int64_t n, int64_t d)
{
    return n * (d * 20122276272 / ONE) / ONE;
}

/* From globe to map, for a sheet that is checked: what a C compiler makes of the same work. */
static void steps_in_c(int64_t latitude, int64_t longitude, int64_t answer[3])
{
    int64_t d = shifted(longitude - sheet.central_meridian), w = sheet.half_width, g = sheet.radius_constant;
    answer[1] = answer[2] = 0;
    if (llabs(latitude) > 90000000 || llabs(longitude) > 180000000) {
        answer[0] = 12;
    } else if (latitude < sheet.south_edge || latitude > sheet.north_edge || d < -w || d > w) {
        answer[0] = 11;
    } else {
        int64_t t = cone_angle(sheet.cone_constant, d), z = t * t / ONE, r = g - latitude;
        answer[0] = 0;
        answer[1] = r * (t * series(z, sine_row) / ONE) / ONE;
        answer[2] = g - sheet.origin_latitude - r * series(z, cosine_row) / ONE;
    }
}

static void check_forward(void)
{
    if (atlas_forward_each(record, sizeof record, positions, 2 * POSITIONS, answers, 3 * POSITIONS) != 0)
        fail("forward_each refuses");
    for (int i = 0; i < POSITIONS; i++) {
        PJ_COORD proj = proj_trans(projection, PJ_FWD, radians[i]);
        int64_t answer[3];
        if (answers[3 * i] != 0 || answers[3 * i + 1] != points[2 * i] || answers[3 * i + 2] != points[2 * i + 1])
            fail("forward_each and forward differ");
        steps_in_c(positions[2 * i], positions[2 * i + 1], answer);
        if (answer[0] != 0 || answer[1] != points[2 * i] || answer[2] != points[2 * i + 1])
            fail("forward is not what the steps in C give");
        if (!(fabs((double)points[2 * i] - proj.xy.x) < 4 && fabs((double)points[2 * i + 1] - proj.xy.y) < 4))
            fail("forward is 4 units from PROJ's");
    }
}

static void check_inverse(void)
{
    if (atlas_inverse_each(record, sizeof record, points, 2 * POSITIONS, answers, 3 * POSITIONS) != 0)
        fail("inverse_each refuses");
    for (int i = 0; i < POSITIONS; i++) {
        int64_t latitude, longitude;
        if (atlas_inverse(record, sizeof record, points[2 * i], points[2 * i + 1], &latitude, &longitude) != 0)
            fail("inverse refuses a point on the sheet");
        if (answers[3 * i] != 0 || answers[3 * i + 1] != latitude || answers[3 * i + 2] != longitude)
            fail("inverse_each and inverse differ");
        PJ_COORD proj = proj_trans(projection, PJ_INV, plane[i]);
        if (!(fabs((double)(latitude - proj.lp.phi / UNIT)) < 1 && fabs((double)(longitude - proj.lp.lam / UNIT)) < 2.5))
            fail("inverse is a unit of latitude from PROJ's, or 2.5 of longitude");
    }
}

/* The index of the nearest place within the usual reach by trying all, or PLACES. Ids rise, so that the first of equals is right. */
static size_t nearest_of_all(int64_t x, int64_t y)
{
    int64_t least = 50000LL * 50000 + 1;
    size_t nearest = PLACES;
    for (size_t i = 0; i < PLACES; i++) {
        int64_t dx = places[i].x - x, dy = places[i].y - y, squared = dx * dx + dy * dy;
        if (squared < least) {
            least = squared;
            nearest = i;
        }
    }
    return nearest;
}

static void check_file_and_taps(void)
{
    uint64_t numbers[2], position;
    int64_t sheet_read[9];
    int found = 0;
    if (atlas_check(file, sizeof file) != 0)
        fail("the file is refused");
    if (melgoweth_test_read(file, sizeof file, table, PLACES, numbers, sheet_read) != 0 || numbers[1] != PLACES ||
        memcmp(table, places, sizeof places) != 0)
        fail("the places read are not those of the file");
    for (int i = 0; i < TAPS; i++) {
        int64_t x = taps[2 * i], y = taps[2 * i + 1];
        size_t right = nearest_of_all(x, y), index;
        uint64_t refusal = melgoweth_test_nearest(table, PLACES, x, y, atlas_usual_reach(), &position);
        if (right == PLACES ? refusal != 13 : refusal != 0 || position != right)
            fail("the nearest place of the table");
        refusal = atlas_nearest(file, sizeof file, x, y, atlas_usual_reach(), &index);
        if (right == PLACES ? refusal != 13 : refusal != 0 || index != right)
            fail("the nearest place of the file");
        found += right < PLACES;
    }
    if (found < TAPS / 2 || found == TAPS)
        fail("taps are to find a place often, but not always");
}

/* Both lists have every place, the last of the table first. */
static void check_list(const Place *searched)
{
    uint64_t count;
    if (melgoweth_test_places_in_reach(searched, PLACES, 0, 0, atlas_usual_reach(), listed, PLACES, &count) != 0 || count != PLACES)
        fail("the list has not every place");
    for (int i = 0; i < PLACES; i++)
        if (memcmp(&listed[i], &searched[PLACES - 1 - i], sizeof *listed) != 0)
            fail("the order of the list");
}

/* ---- How often sine and cosine are evaluated for the offset of a map point */

typedef struct {
    int64_t points, evaluations;
    int64_t most;   /* evaluations for one point */
    int64_t halved; /* points for which the guess did not settle the offset */
} Count;

static Count on_this_sheet, on_any_cone, on_eighth, on_quarter, on_one;

/* x times cosine(d) less v times sine(d): one evaluation of both. */
static int64_t east_of(int64_t n, int64_t x, int64_t v, int64_t d)
{
    int64_t t = cone_angle(n, d), z = t * t / ONE;
    return x * series(z, cosine_row) - v * (t * series(z, sine_row) / ONE);
}

static int64_t least_rise(int64_t n, int64_t w)
{
    int64_t t = cone_angle(n, w), z = t * t / ONE;
    return (18 * n / ONE * (2147483648 - z - 1) - 3 * t) / 2147483648;
}

/* Where the halving cuts between lo and hi. */
static int64_t cut(int64_t near, int64_t lo, int64_t hi)
{
    int64_t next = near <= lo ? lo + (lo - near) + 1 : near >= hi ? hi - (near - hi) - 1 : near;
    return lo < next && next < hi ? next : lo + (hi - lo) / 2;
}

/* The steps of crates/cone (offset_unchecked, halve, cut) in C, with the engine's own guess, counted. They must give the engine's offset; that the
 * engine takes as many is by reading, since other cuts of the halving would give the same offset. */
static void count_offset(Count *count, int64_t n, int64_t x, int64_t v, int64_t w)
{
    int64_t near = melgoweth_test_guess_offset((uint32_t)n, (int32_t)x, (int32_t)v), evaluations = 0, lo = -w, hi = w, offset;
    bool settled = false;
    if (-w < near && near < w) {
        int64_t east = east_of(n, x, v, near), margin = v * least_rise(n, w);
        evaluations++;
        settled = -margin <= east && east < margin;
        if (settled)
            lo = east < 0 ? near - 1 : near;
    }
    while (!settled && hi - lo > 1) {
        int64_t mid = cut(near, lo, hi);
        evaluations++;
        if (east_of(n, x, v, mid) >= 0)
            lo = mid;
        else
            hi = mid;
    }
    if (melgoweth_test_offset((uint32_t)n, x, v, (uint32_t)w, &offset) != 0 || offset != lo)
        fail("the offset is not what the steps in C give");
    count->points++;
    count->evaluations += evaluations;
    count->most = evaluations > count->most ? evaluations : count->most;
    count->halved += !settled;
}

/* Random points on cones with constants and half-widths from low to high, at radii as sheets have them. */
static Count count_on_cones(int64_t n_low, int64_t n_high, int64_t w_low, int64_t w_high)
{
    Count count = {0};
    for (int i = 0; i < POSITIONS; i++) {
        int64_t n = between(n_low, n_high), w = between(w_low, w_high), radius = between(1000000, 268435456);
        long double d = between(-1000 * w, 1000 * w) / 1000.0L, t = d * UNIT * n / ONE;
        count_offset(&count, n, llroundl(radius * sinl(t)), llroundl(radius * cosl(t)), w);
    }
    return count;
}

static void count_evaluations(void)
{
    int64_t r0 = sheet.radius_constant - sheet.origin_latitude;
    for (int i = 0; i < POSITIONS; i++)
        count_offset(&on_this_sheet, sheet.cone_constant, points[2 * i], r0 - points[2 * i + 1], sheet.half_width);
    on_any_cone = count_on_cones(ONE / 8, ONE, 1000000, 60000000);
    on_eighth = count_on_cones(ONE / 8, ONE / 8, 60000000, 60000000);
    on_quarter = count_on_cones(ONE / 4, ONE / 4, 60000000, 60000000);
    on_one = count_on_cones(ONE, ONE, 60000000, 60000000);
}

static double evaluations_for_a_point(const Count *count)
{
    return (double)count->evaluations / (double)count->points;
}

static void print_count(const char *what, const Count *count)
{
    printf("%-44s %12" PRId64 " %12.3f %12" PRId64 " %11.2f%%\n", what, count->points, evaluations_for_a_point(count), count->most,
           100.0 * (double)count->halved / (double)count->points);
}

static void print_counts(void)
{
    printf("\nHow often sine and cosine are evaluated for the offset of a point\n");
    printf("%-44s %12s %12s %12s %12s\n", "", "points", "a point", "at most", "halved");
    print_count("this sheet, the points of its positions", &on_this_sheet);
    print_count("n of 1/8 to 1, 1 to 60 degrees to each side", &on_any_cone);
    print_count("n = 1/8, 60 degrees to each side", &on_eighth);
    print_count("n = 1/4, 60 degrees to each side", &on_quarter);
    print_count("n = 1, 60 degrees to each side", &on_one);
}

/* ---- What is timed */

static void run_forward_each(void)
{
    checksum += atlas_forward_each(record, sizeof record, positions, 2 * POSITIONS, answers, 3 * POSITIONS);
    checksum += answers[3 * POSITIONS - 1];
}

static void run_forward(void)
{
    int64_t x, y;
    for (int i = 0; i < POSITIONS; i++) {
        checksum += atlas_forward(record, sizeof record, positions[2 * i], positions[2 * i + 1], &x, &y);
        checksum += x + y;
    }
}

static void run_inverse(void)
{
    int64_t latitude, longitude;
    for (int i = 0; i < POSITIONS; i++) {
        checksum += atlas_inverse(record, sizeof record, points[2 * i], points[2 * i + 1], &latitude, &longitude);
        checksum += latitude + longitude;
    }
}

static void run_inverse_each(void)
{
    checksum += atlas_inverse_each(record, sizeof record, points, 2 * POSITIONS, answers, 3 * POSITIONS);
    checksum += answers[3 * POSITIONS - 1];
}

static void run_steps_in_c(void)
{
    for (int i = 0; i < POSITIONS; i++)
        steps_in_c(positions[2 * i], positions[2 * i + 1], &answers[3 * i]);
    checksum += answers[3 * POSITIONS - 1];
}

/* The engine's whole work by PROJ: from whole units to whole units. */
static void run_proj_from_units(void)
{
    const double unit = (double)UNIT;
    for (int i = 0; i < POSITIONS; i++) {
        PJ_COORD position = proj_coord((double)positions[2 * i + 1] * unit, (double)positions[2 * i] * unit, 0, 0);
        PJ_COORD point = proj_trans(projection, PJ_FWD, position);
        answers[3 * i + 1] = lrint(point.xy.x);
        answers[3 * i + 2] = lrint(point.xy.y);
    }
    checksum += answers[3 * POSITIONS - 1];
}

/* PROJ writes its answers over its input. */
static void trans(PJ_DIRECTION direction)
{
    for (int i = 0; i < POSITIONS; i++)
        coordinates[i] = proj_trans(projection, direction, coordinates[i]);
    checksum += (int64_t)coordinates[POSITIONS - 1].xy.x;
}

static void trans_array(PJ_DIRECTION direction)
{
    checksum += proj_trans_array(projection, direction, POSITIONS, coordinates);
    checksum += (int64_t)coordinates[POSITIONS - 1].xy.x;
}

static void trans_generic(PJ_DIRECTION direction)
{
    checksum += (int64_t)proj_trans_generic(projection, direction, &coordinates[0].xy.x, sizeof(PJ_COORD), POSITIONS, &coordinates[0].xy.y,
                                            sizeof(PJ_COORD), POSITIONS, NULL, 0, 0, NULL, 0, 0);
    checksum += (int64_t)coordinates[POSITIONS - 1].xy.x;
}

static void run_check(void)
{
    for (int i = 0; i < READINGS; i++)
        checksum += atlas_check(file, sizeof file);
}

static void run_read(void)
{
    uint64_t numbers[2];
    int64_t sheet_read[9];
    for (int i = 0; i < READINGS; i++) {
        checksum += (int64_t)melgoweth_test_read(file, sizeof file, table, PLACES, numbers, sheet_read);
        checksum += (int64_t)numbers[1];
    }
}

static void run_nearest_in_table(void)
{
    uint64_t position;
    for (int i = 0; i < TAPS; i++) {
        checksum += (int64_t)melgoweth_test_nearest(table, PLACES, taps[2 * i], taps[2 * i + 1], 50000, &position);
        checksum += (int64_t)position;
    }
}

static void run_nearest_in_file(void)
{
    size_t index = 0;
    for (int i = 0; i < READINGS; i++) {
        checksum += atlas_nearest(file, sizeof file, taps[2 * i], taps[2 * i + 1], 50000, &index);
        checksum += (int64_t)index;
    }
}

static void run_list(const Place *searched)
{
    uint64_t count;
    for (int i = 0; i < LISTS; i++) {
        checksum += (int64_t)melgoweth_test_places_in_reach(searched, PLACES, 0, 0, 50000, listed, PLACES, &count);
        checksum += (int64_t)count;
    }
}

static void run_list_of_same_point(void)
{
    run_list(same_point);
}

static void run_list_toward_tap(void)
{
    run_list(toward_tap);
}

static void run_sheet_check(void)
{
    for (int i = 0; i < POSITIONS; i++)
        checksum += (int64_t)melgoweth_test_check(sheet.first_parallel, sheet.second_parallel, sheet.origin_latitude, sheet.central_meridian,
                                                  sheet.south_edge, sheet.north_edge, sheet.half_width, sheet.cone_constant,
                                                  sheet.radius_constant);
}

static void run_root(void)
{
    int64_t root;
    for (int i = 0; i < POSITIONS; i++) {
        int64_t x = points[2 * i], v = sheet.radius_constant - sheet.origin_latitude - points[2 * i + 1];
        checksum += (int64_t)melgoweth_test_root(x * x + v * v, &root);
        checksum += root;
    }
}

static void run_sine_and_cosine(void)
{
    int64_t sine, cosine;
    for (int i = 0; i < POSITIONS; i++) {
        int64_t t = 16 * points[2 * i]; /* up to about half a radian */
        checksum += (int64_t)melgoweth_test_sine(t, &sine);
        checksum += (int64_t)melgoweth_test_cosine(t, &cosine);
        checksum += sine + cosine;
    }
}

/* ---- The measurements */

/* Either the engine runs or PROJ does, in a direction. */
typedef struct {
    const char *what;
    int calls;
    void (*engine)(void);
    void (*proj)(PJ_DIRECTION);
    PJ_DIRECTION direction;
    double times[ROUNDS]; /* ns per call */
} Measure;

enum {
    EACH,
    ONE_BY_ONE,
    STEPS_IN_C,
    PROJ_FORWARD, /* three ways; so PROJ_INVERSE */
    PROJ_FROM_UNITS = PROJ_FORWARD + 3,
    INVERSE_EACH,
    INVERSE,
    PROJ_INVERSE,
    CHECK = PROJ_INVERSE + 3,
    READ,
    TAP,
    TAP_FILE,
    LIST_SAME_POINT,
    LIST_TOWARD_TAP,
    SHEET_CHECK,
    ROOT,
    PAIR,
    MEASURES
};

static Measure measures[MEASURES] = {
    [EACH] = {.what = "forward: atlas_forward_each", .calls = POSITIONS, .engine = run_forward_each},
    [ONE_BY_ONE] = {.what = "forward: atlas_forward", .calls = POSITIONS, .engine = run_forward},
    [STEPS_IN_C] = {.what = "forward: the same steps in C, gcc", .calls = POSITIONS, .engine = run_steps_in_c},
    [PROJ_FORWARD] = {.what = "forward: PROJ, proj_trans", .calls = POSITIONS, .proj = trans, .direction = PJ_FWD},
    {.what = "forward: PROJ, proj_trans_array", .calls = POSITIONS, .proj = trans_array, .direction = PJ_FWD},
    {.what = "forward: PROJ, proj_trans_generic", .calls = POSITIONS, .proj = trans_generic, .direction = PJ_FWD},
    [PROJ_FROM_UNITS] = {.what = "forward: PROJ, from units to whole units", .calls = POSITIONS, .engine = run_proj_from_units},
    [INVERSE_EACH] = {.what = "inverse: atlas_inverse_each", .calls = POSITIONS, .engine = run_inverse_each},
    [INVERSE] = {.what = "inverse: atlas_inverse", .calls = POSITIONS, .engine = run_inverse},
    [PROJ_INVERSE] = {.what = "inverse: PROJ, proj_trans", .calls = POSITIONS, .proj = trans, .direction = PJ_INV},
    {.what = "inverse: PROJ, proj_trans_array", .calls = POSITIONS, .proj = trans_array, .direction = PJ_INV},
    {.what = "inverse: PROJ, proj_trans_generic", .calls = POSITIONS, .proj = trans_generic, .direction = PJ_INV},
    [CHECK] = {.what = "file of 1,000 places: atlas_check", .calls = READINGS, .engine = run_check},
    [READ] = {.what = "file of 1,000 places: into a table", .calls = READINGS, .engine = run_read},
    [TAP] = {.what = "tap: in a table of 1,000 places", .calls = TAPS, .engine = run_nearest_in_table},
    [TAP_FILE] = {.what = "tap: atlas_nearest, which reads the file", .calls = READINGS, .engine = run_nearest_in_file},
    [LIST_SAME_POINT] = {.what = "list: 1,000 of 1,000, falling ids", .calls = LISTS, .engine = run_list_of_same_point},
    [LIST_TOWARD_TAP] = {.what = "list: 1,000 of 1,000, falling distances", .calls = LISTS, .engine = run_list_toward_tap},
    [SHEET_CHECK] = {.what = "part: sheet check", .calls = POSITIONS, .engine = run_sheet_check},
    [ROOT] = {.what = "part: root", .calls = POSITIONS, .engine = run_root},
    [PAIR] = {.what = "part: a sine and a cosine", .calls = POSITIONS, .engine = run_sine_and_cosine},
};

static double now(void)
{
    struct timespec time;
    clock_gettime(CLOCK_MONOTONIC, &time);
    return (double)time.tv_sec * 1e9 + (double)time.tv_nsec;
}

static double time_once(const Measure *m)
{
    if (m->proj != NULL)
        memcpy(coordinates, m->direction == PJ_FWD ? radians : plane, sizeof coordinates);
    double start = now();
    if (m->proj != NULL)
        m->proj(m->direction);
    else
        m->engine();
    return (now() - start) / m->calls;
}

static int by_size(const void *a, const void *b)
{
    double x = *(const double *)a, y = *(const double *)b;
    return (x > y) - (x < y);
}

static double median(int measure)
{
    return measures[measure].times[ROUNDS / 2];
}

static double fastest_of_three(int measure)
{
    return fmin(median(measure), fmin(median(measure + 1), median(measure + 2)));
}

static void print_target(const char *what, double is, const char *unit, const char *target, double limit)
{
    printf("%-44s %8.2f %-3s %-18s %s\n", what, is, unit, target, is < limit ? "met" : "not met");
}

int main(void)
{
    make_sheet();
    make_positions();
    make_file();
    make_taps();
    make_lists();
    check_forward();
    check_inverse();
    check_file_and_taps();
    check_list(same_point);
    check_list(toward_tap);
    count_evaluations();

    for (int m = 0; m < MEASURES; m++)
        time_once(&measures[m]);
    for (int round = 0; round < ROUNDS; round++)
        for (int m = 0; m < MEASURES; m++)
            measures[m].times[round] = time_once(&measures[m]);

    printf("%-10s %s\n\n", "PROJ", proj_info().version);
    printf("%-44s %12s %12s %12s   of %d rounds\n", "ns per call", "median", "smallest", "largest", ROUNDS);
    for (int m = 0; m < MEASURES; m++) {
        qsort(measures[m].times, ROUNDS, sizeof(double), by_size);
        printf("%-44s %12.1f %12.1f %12.1f\n", measures[m].what, median(m), measures[m].times[0], measures[m].times[ROUNDS - 1]);
    }

    double proj_forward = fastest_of_three(PROJ_FORWARD), proj_inverse = fastest_of_three(PROJ_INVERSE);
    printf("\nBeside PROJ's fastest\n");
    printf("%-44s %8.2f\n", "forward, atlas_forward_each / PROJ", median(EACH) / proj_forward);
    printf("%-44s %8.2f\n", "forward, atlas_forward_each / PROJ from units", median(EACH) / median(PROJ_FROM_UNITS));
    printf("%-44s %8.2f\n", "forward, the same steps in C / PROJ", median(STEPS_IN_C) / proj_forward);
    printf("%-44s %8.2f\n", "forward, atlas_forward / PROJ", median(ONE_BY_ONE) / proj_forward);
    printf("%-44s %8.2f\n", "inverse, atlas_inverse_each / PROJ", median(INVERSE_EACH) / proj_inverse);
    printf("%-44s %8.2f\n", "inverse, atlas_inverse / PROJ", median(INVERSE) / proj_inverse);

    print_counts();

    double often = evaluations_for_a_point(&on_this_sheet);
    double each = median(ROOT) + often * median(PAIR), single = median(SHEET_CHECK) + median(PAIR) + each;
    printf("\nWhere inverse's time goes, ns; the parts are measured alone, and in inverse they overlap\n");
    printf("%-44s %8.1f\n", "root", median(ROOT));
    printf("%-44s %8.1f, %.2f times for a point\n", "a sine and a cosine", median(PAIR), often);
    printf("%-44s %8.1f\n", "the rest of atlas_inverse_each", median(INVERSE_EACH) - each);
    printf("%-44s %8.1f, in atlas_inverse\n", "sheet check", median(SHEET_CHECK));
    printf("%-44s %8.1f, in atlas_inverse\n", "a sine and a cosine for the edges", median(PAIR));
    printf("%-44s %8.1f\n", "the rest of atlas_inverse", median(INVERSE) - single);

    printf("\nTargets\n");
    print_target("forward / PROJ, sheet checked once", median(EACH) / proj_forward, "", "at most a third", 1.0 / 3);
    print_target("inverse / PROJ, atlas_inverse_each", median(INVERSE_EACH) / proj_inverse, "", "at most 1", 1);
    print_target("inverse / PROJ, atlas_inverse", median(INVERSE) / proj_inverse, "", "at most 2", 2);
    print_target("reading 1,000 places: atlas_check", median(CHECK) / 1e6, "ms", "under 1 ms", 1);
    print_target("reading 1,000 places: into a table", median(READ) / 1e6, "ms", "under 1 ms", 1);
    print_target("a tap: in a table of 1,000 places", median(TAP) / 1e3, "us", "under 5 us", 5);
    print_target("list: 1,000 of 1,000 places", fmax(median(LIST_SAME_POINT), median(LIST_TOWARD_TAP)) / 1e6, "ms", "under 5 ms", 5);
    printf("\nchecksum %" PRId64 "\n", checksum);
    return 0;
}
