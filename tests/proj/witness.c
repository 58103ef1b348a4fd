/* PROJ as a second witness of the projection: many sheets with constants from their parallels, forward and inverse, each difference held
 * below a bound that is worked out for that very position. README.md derives the bounds. Exit status 0: all of them hold. */
#include "common.h"

#define RANDOM_SHEETS 8000
#define GRID 7
#define RANDOM_POSITIONS 150
#define POSITIONS (GRID * GRID + RANDOM_POSITIONS)
#define RANDOM_POINTS 120

/* What is allowed besides what the constants explain, in units: of the whole, of a number rounded to the nearest, of PROJ's own arithmetic. */
#define ALLOWED 3.0
#define HALF 0.5
#define PROJ_LEAVES 1e-6

/* How far a computed direction may be off, in ONEths. */
#define DIRECTION_LEAVES 7.02

/* How far apart two pairs of constants may be: of n, and of G in units. */
typedef struct {
    double n, g;
} Apart;

typedef struct {
    Sheet sheet;
    uint8_t record[ATLAS_SHEET_SIZE];
    PJ *projection;
    Constants exact;
    double n;         /* the sheet's own */
    bool near;        /* the parallels are so near each other that PROJ's own n is not exact: README.md */
    Apart proj;       /* PROJ's constants from the exact ones */
    Apart sheet_proj; /* PROJ's constants from the sheet's */
} Trial;

typedef struct {
    Sheet sheet;
    int64_t a, b;
    double difference, bound;
} Case;

typedef struct {
    const char *what, *input;
    uint64_t at_least; /* fewer comparisons are a fault */
    uint64_t comparisons, violations;
    double widest_bound; /* where the parallels are not near each other */
    Case largest, tightest;
} Tally;

static Tally forward_x = {.what = "forward x", .input = "position", .at_least = 1600000};
static Tally forward_y = {.what = "forward y", .input = "position", .at_least = 1600000};
static Tally inverse_latitude = {.what = "inverse latitude", .input = "point", .at_least = 2000000};
static Tally inverse_longitude = {.what = "inverse longitude, on the map", .input = "point", .at_least = 2000000};
static Tally inverse_unit = {.what = "inverse longitude, its unit", .input = "point", .at_least = 2000000};
static Tally again_x = {.what = "inverse, then PROJ's forward: x", .input = "point", .at_least = 2000000};
static Tally again_y = {.what = "inverse, then PROJ's forward: y", .input = "point", .at_least = 2000000};
static Tally refused = {.what = "refused by inverse, depth", .input = "point", .at_least = 300000};
static Tally proj_forward = {.what = "PROJ's own rounding, forward", .input = "position", .at_least = 3200000};
static Tally proj_inverse = {.what = "PROJ's own rounding, inverse", .input = "point", .at_least = 5000000};
static Tally *const tallies[] = {&forward_x, &forward_y, &inverse_latitude, &inverse_longitude, &inverse_unit, &again_x, &again_y, &refused,
                                 &proj_forward, &proj_inverse};
#define TALLIES (sizeof tallies / sizeof tallies[0])

static uint64_t faults;

static void print_case(const char *what, const Sheet *s, const char *input, int64_t a, int64_t b)
{
    printf("%s: %s %" PRId64 " %" PRId64 ", sheet %d %d %d %d %d %d %u %u %d\n", what, input, a, b, s->first_parallel, s->second_parallel,
           s->origin_latitude, s->central_meridian, s->south_edge, s->north_edge, s->half_width, s->cone_constant, s->radius_constant);
}

/* What no bound is needed for: a wrong refusal, two answers that differ. */
static void fault(const char *what, const Sheet *sheet, const char *input, int64_t a, int64_t b)
{
    if (faults++ < 5)
        print_case(what, sheet, input, a, b);
}

/* Holds a difference below its bound. */
static void hold(Tally *tally, const Trial *trial, int64_t a, int64_t b, double difference, double bound)
{
    Case this = {trial->sheet, a, b, fabs(difference), bound};
    if (tally->comparisons++ == 0)
        tally->largest = tally->tightest = this;
    if (!trial->near && bound > tally->widest_bound)
        tally->widest_bound = bound;
    if (this.difference > tally->largest.difference)
        tally->largest = this;
    if (this.difference * tally->tightest.bound > tally->tightest.difference * bound)
        tally->tightest = this;
    if (!(this.difference < bound) && tally->violations++ < 5) {
        printf("%.6f, not below %.6f: ", difference, bound);
        print_case(tally->what, &trial->sheet, tally->input, a, b);
    }
}

/* What constants that far apart explain in x and in y, at a radius and an offset from the central meridian (radians). */
typedef struct {
    double x, y;
} MapTerms;

static MapTerms map_terms(const Trial *trial, Apart apart, double radius, double offset)
{
    double theta = fabs(offset) * (trial->n + trial->sheet_proj.n);
    double turned = (radius + trial->sheet_proj.g) * fabs(offset) * apart.n;
    return (MapTerms){apart.g * sin(theta) + turned, apart.g * (1 - cos(theta)) + turned * sin(theta)};
}

/* The same in latitude, and in longitude on the map, at a point x beside and v below the apex; `offset` is PROJ's. */
typedef struct {
    double latitude, longitude;
} GlobeTerms;

static GlobeTerms globe_terms(const Trial *trial, Apart apart, double x, double v, double offset)
{
    double v_least = v - trial->sheet_proj.g, radius_least = hypot(x, v_least);
    double turned = apart.g * fabs(x) / (radius_least * radius_least) + fabs(offset) * apart.n;
    return (GlobeTerms){apart.g * (1 - v_least / radius_least), hypot(x, v) * turned};
}

/* Globe to map: the engine's point of a position on the sheet against PROJ's. */
static void compare_forward(const Trial *trial, int64_t latitude, int64_t longitude, int64_t x, int64_t y)
{
    const Sheet *sheet = &trial->sheet;
    double radius = (double)(sheet->radius_constant - latitude);
    long double offset = shifted(longitude - sheet->central_meridian) * UNIT;
    PJ_COORD proj = proj_trans(trial->projection, PJ_FWD, radians_of(latitude, longitude));

    MapTerms terms = map_terms(trial, trial->sheet_proj, radius, (double)offset);
    hold(&forward_x, trial, latitude, longitude, (double)x - proj.xy.x, ALLOWED + terms.x + PROJ_LEAVES);
    hold(&forward_y, trial, latitude, longitude, (double)y - proj.xy.y, ALLOWED + terms.y + PROJ_LEAVES);

    long double exact_radius = trial->exact.g - latitude, theta = trial->exact.n * offset;
    long double exact_x = exact_radius * sinl(theta);
    long double exact_y = trial->exact.g - sheet->origin_latitude - exact_radius * cosl(theta);
    MapTerms own = map_terms(trial, trial->proj, radius, (double)offset);
    hold(&proj_forward, trial, latitude, longitude, (double)(proj.xy.x - exact_x), own.x + PROJ_LEAVES);
    hold(&proj_forward, trial, latitude, longitude, (double)(proj.xy.y - exact_y), own.y + PROJ_LEAVES);
}

/* Map to globe: the engine's position of a map point, or its refusal, against PROJ's. */
static void compare_inverse(const Trial *trial, int64_t x, int64_t y)
{
    const Sheet *sheet = &trial->sheet;
    int64_t latitude, longitude;
    uint32_t refusal = atlas_inverse(trial->record, sizeof trial->record, x, y, &latitude, &longitude);

    PJ_COORD proj = proj_trans(trial->projection, PJ_INV, proj_coord((double)x, (double)y, 0, 0));
    double proj_latitude = (double)(proj.lp.phi / UNIT);
    double proj_offset = (double)remainderl(proj.lp.lam - sheet->central_meridian * UNIT, 2 * PI);
    double v = (double)(sheet->radius_constant - sheet->origin_latitude - y);
    double scale = trial->n * hypot((double)x, v); /* map units to a radian of longitude */

    long double exact_v = trial->exact.g - sheet->origin_latitude - y;
    long double exact_latitude = trial->exact.g - hypotl(x, exact_v), exact_offset = atan2l(x, exact_v) / trial->exact.n;
    GlobeTerms own = globe_terms(trial, trial->proj, (double)x, v, proj_offset);
    hold(&proj_inverse, trial, x, y, (double)(proj_latitude - exact_latitude), own.latitude + PROJ_LEAVES);
    hold(&proj_inverse, trial, x, y, scale * (double)(proj_offset - exact_offset), own.longitude + PROJ_LEAVES);

    GlobeTerms terms = globe_terms(trial, trial->sheet_proj, (double)x, v, proj_offset);
    if (refusal == 11) {
        /* How far inside the sheet PROJ sees the point. */
        double along_meridian = fmin(proj_latitude - sheet->south_edge, sheet->north_edge - proj_latitude) - terms.latitude;
        double along_parallel = scale * ((double)(sheet->half_width * UNIT) - fabs(proj_offset)) - terms.longitude;
        hold(&refused, trial, x, y, fmax(0, fmin(along_meridian, along_parallel)), ALLOWED + PROJ_LEAVES);
        return;
    }
    if (refusal != 0) {
        fault("inverse refused, but not with 11", sheet, "point", x, y);
        return;
    }
    double offset = (double)(shifted(longitude - sheet->central_meridian) * UNIT);
    hold(&inverse_latitude, trial, x, y, (double)latitude - proj_latitude, HALF + terms.latitude + PROJ_LEAVES);
    hold(&inverse_longitude, trial, x, y, scale * (offset - proj_offset), ALLOWED + terms.longitude + PROJ_LEAVES);

    /* The point lies in the unit of longitude east of the answer. */
    hold(&inverse_unit, trial, x, y, (double)((offset - proj_offset) / UNIT) + HALF,
         HALF + (double)((DIRECTION_LEAVES / ONE / trial->n + (terms.longitude + PROJ_LEAVES) / scale) / UNIT));

    PJ_COORD again = proj_trans(trial->projection, PJ_FWD, radians_of(latitude, longitude));
    MapTerms there = map_terms(trial, trial->sheet_proj, (double)(sheet->radius_constant - latitude), offset);
    hold(&again_x, trial, x, y, (double)x - again.xy.x, ALLOWED + there.x + PROJ_LEAVES);
    hold(&again_y, trial, x, y, (double)y - again.xy.y, ALLOWED + there.y + PROJ_LEAVES);
}

/* From low to high, often at or near one of both. */
static int64_t edgy(int64_t low, int64_t high)
{
    int64_t near = high - low < 8 ? high - low : 8;
    switch (between(0, 3)) {
    case 0:
        return low + between(0, near);
    case 1:
        return high - between(0, near);
    default:
        return between(low, high);
    }
}

/* Corners, edges, parallels and centre, then at random. */
static void choose_positions(const Sheet *sheet, int64_t *positions)
{
    int64_t w = sheet->half_width, south = sheet->south_edge, north = sheet->north_edge;
    int64_t latitudes[GRID] = {south, south + (south < north), sheet->first_parallel, sheet->second_parallel, sheet->origin_latitude,
                               north - (south < north), north};
    int64_t offsets[GRID] = {-w, 1 - w, -1, 0, 1, w - 1, w};
    for (int i = 0; i < POSITIONS; i++) {
        bool on_grid = i < GRID * GRID;
        int64_t offset = on_grid ? offsets[i % GRID] : between(-w, w);
        *positions++ = on_grid ? latitudes[i / GRID] : between(south, north);
        int64_t longitude = shifted(sheet->central_meridian + offset);
        *positions++ = longitude == -180000000 && i % 2 == 0 ? 180000000 : longitude;
    }
}

/* A whole map point beside that of a position on the sheet, or a few units off it. */
static void choose_point(const Trial *trial, int64_t *x, int64_t *y)
{
    const Sheet *sheet = &trial->sheet;
    int64_t radius = sheet->radius_constant - edgy(sheet->south_edge - 4, sheet->north_edge + 4);
    double theta = trial->n * (double)(edgy(-(int64_t)sheet->half_width - 4, (int64_t)sheet->half_width + 4) * UNIT);
    *x = (int64_t)floor((double)radius * sin(theta)) + between(0, 1);
    *y = sheet->radius_constant - sheet->origin_latitude - (int64_t)floor((double)radius * cos(theta)) + between(0, 1);
}

/* How far PROJ's n and G may be off: see README.md, "PROJ's own rounding". */
static Apart proj_apart(const Sheet *sheet, Constants exact)
{
    long double a = sheet->first_parallel * UNIT, fall = (sheet->second_parallel - sheet->first_parallel) * UNIT;
    double n = (double)(0x1p-50L + (fall > 0 ? 0x1p-52L / fall : 0));
    return (Apart){n, (double)(cosl(a) / (exact.n * (exact.n - n)) * n / UNIT)};
}

/* Everything on one sheet. False: the engine refuses it with 4. */
static bool try_sheet(Sheet sheet)
{
    Trial trial = {.sheet = sheet, .exact = constants_of(sheet.first_parallel, sheet.second_parallel)};
    int64_t x, y, positions[2 * POSITIONS], answers[3 * POSITIONS];
    put_sheet(trial.record, &sheet);
    uint32_t refusal = atlas_forward(trial.record, sizeof trial.record, sheet.first_parallel, sheet.central_meridian, &x, &y);
    if (refusal == 4)
        return false;
    if (refusal == 5) {
        fault("constants refused", &sheet, "position", sheet.first_parallel, sheet.central_meridian);
        return true;
    }
    trial.n = (double)sheet.cone_constant / ONE;
    trial.near = sheet.first_parallel < sheet.second_parallel && sheet.second_parallel - sheet.first_parallel < 1000;
    trial.proj = proj_apart(&sheet, trial.exact);
    trial.sheet_proj.n = (double)fabsl(sheet.cone_constant / (long double)ONE - trial.exact.n) + trial.proj.n;
    trial.sheet_proj.g = (double)fabsl(sheet.radius_constant - trial.exact.g) + trial.proj.g;
    trial.projection = eqdc(&sheet);

    choose_positions(&sheet, positions);
    if (atlas_forward_each(trial.record, sizeof trial.record, positions, 2 * POSITIONS, answers, 3 * POSITIONS) != 0)
        fault("forward_each refused", &sheet, "position", positions[0], positions[1]);
    for (int i = 0; i < POSITIONS; i++) {
        int64_t latitude = positions[2 * i], longitude = positions[2 * i + 1], *answer = &answers[3 * i];
        if (atlas_forward(trial.record, sizeof trial.record, latitude, longitude, &x, &y) != 0 || answer[0] != 0) {
            fault("forward refused a position on the sheet", &sheet, "position", latitude, longitude);
            continue;
        }
        if (answer[1] != x || answer[2] != y)
            fault("forward_each and forward differ", &sheet, "position", latitude, longitude);
        compare_forward(&trial, latitude, longitude, x, y);
        compare_inverse(&trial, x, y);
    }
    for (int i = 0; i < RANDOM_POINTS; i++) {
        choose_point(&trial, &x, &y);
        compare_inverse(&trial, x, y);
    }
    proj_destroy(trial.projection);
    return true;
}

/* The sheet with constants from its parallels and edges as far out as its limits allow. */
static Sheet widest(int32_t first_parallel, int32_t second_parallel)
{
    Sheet sheet = with_constants((Sheet){.first_parallel = first_parallel, .second_parallel = second_parallel});
    int32_t g = sheet.radius_constant;
    sheet.south_edge = g > 268435456 ? g - 268435456 : 0;
    sheet.north_edge = g < 91000000 ? g - 1000000 : 90000000;
    return sheet;
}

static uint64_t used, skipped;

static void count_sheet(Sheet sheet)
{
    if (try_sheet(sheet))
        used++;
    else
        skipped++;
}

static void edge_sheets(void)
{
    static const int32_t parallels[][2] = {{5000000, 5000000},   {5000000, 20000000},  {5000000, 80000000},  {12000000, 13000000},
                                           {12600000, 12600000}, {20000000, 80000000}, {29500000, 45500000}, {30000000, 30000000},
                                           {30000000, 30000001}, {30000000, 30001000}, {45000000, 45000000}, {69900000, 69900000},
                                           {79999999, 80000000}, {80000000, 80000000}};
    static const int32_t meridians[] = {-180000000, -179999990, 0, 179999999};
    static const uint32_t half_widths[] = {1, 30000000, 60000000};
    for (size_t p = 0; p < sizeof parallels / sizeof parallels[0]; p++)
        for (size_t m = 0; m < sizeof meridians / sizeof meridians[0]; m++)
            for (size_t h = 0; h < sizeof half_widths / sizeof half_widths[0]; h++) {
                Sheet sheet = widest(parallels[p][0], parallels[p][1]);
                sheet.central_meridian = meridians[m];
                sheet.half_width = half_widths[h];
                sheet.origin_latitude = sheet.north_edge;
                count_sheet(sheet);
                sheet.south_edge = sheet.origin_latitude = sheet.first_parallel;
                sheet.north_edge = sheet.second_parallel;
                count_sheet(sheet);
            }
}

/* A number up to `most`, of any length. */
static int64_t of_any_length(int64_t most)
{
    int64_t number = (int64_t)pow(10, (double)between(0, 8000) / 1000);
    return number < most ? number : most;
}

static Sheet random_sheet(void)
{
    int32_t first = (int32_t)edgy(5000000, 80000000), second = first;
    switch (between(0, 3)) {
    case 0:
        break;
    case 1:
        second += (int32_t)of_any_length(80000000 - first);
        break;
    default:
        second = (int32_t)edgy(first, 80000000);
    }
    Sheet sheet = widest(first, second);
    if (sheet.south_edge <= first && second <= sheet.north_edge) {
        sheet.south_edge = (int32_t)edgy(sheet.south_edge, first);
        sheet.north_edge = (int32_t)edgy(second, sheet.north_edge);
        sheet.origin_latitude = (int32_t)edgy(sheet.south_edge, sheet.north_edge);
    }
    sheet.central_meridian = (int32_t)edgy(-180000000, 179999999);
    sheet.half_width = (uint32_t)(between(0, 2) == 0 ? of_any_length(60000000) : edgy(1, 60000000));
    return sheet;
}

static void print_table(void)
{
    printf("%-32s %12s %19s %15s %15s %11s\n", "", "comparisons", "largest difference", "largest bound*", "largest share", "violations");
    for (size_t i = 0; i < TALLIES; i++) {
        const Tally *t = tallies[i];
        printf("%-32s %12" PRIu64 " %19.7f %15.7f %14.2f%% %11" PRIu64 "\n", t->what, t->comparisons, t->largest.difference, t->widest_bound,
               100 * t->tightest.difference / t->tightest.bound, t->violations);
    }
    printf("* where the parallels are equal or at least 1,000 units apart\n\nThe largest difference\n");
    for (size_t i = 0; i < TALLIES; i++)
        print_case(tallies[i]->what, &tallies[i]->largest.sheet, tallies[i]->input, tallies[i]->largest.a, tallies[i]->largest.b);
    printf("\nThe largest share of its bound\n");
    for (size_t i = 0; i < TALLIES; i++)
        print_case(tallies[i]->what, &tallies[i]->tightest.sheet, tallies[i]->input, tallies[i]->tightest.a, tallies[i]->tightest.b);
}

int main(void)
{
    proj_log_level(PJ_DEFAULT_CTX, PJ_LOG_NONE);
    edge_sheets();
    uint64_t edge_used = used, comparisons = 0, violations = 0;
    while (used < edge_used + RANDOM_SHEETS && skipped < RANDOM_SHEETS)
        count_sheet(random_sheet());
    printf("PROJ %s; %" PRIu64 " sheets, %" PRIu64 " of them at the limits; %" PRIu64 " more were refused with 4\n\n", proj_info().version, used,
           edge_used, skipped);
    print_table();
    printf("\n");

    if (edge_used < 300 || used < edge_used + RANDOM_SHEETS) {
        printf("too few sheets\n");
        faults++;
    }
    for (size_t i = 0; i < TALLIES; i++) {
        const Tally *t = tallies[i];
        comparisons += t->comparisons;
        violations += t->violations;
        if (t->comparisons < t->at_least) {
            printf("%s: fewer comparisons than %" PRIu64 "\n", t->what, t->at_least);
            faults++;
        }
    }
    printf("%" PRIu64 " comparisons, %" PRIu64 " violations, %" PRIu64 " other faults\n", comparisons, violations, faults);
    return violations == 0 && faults == 0 ? 0 : 1;
}
