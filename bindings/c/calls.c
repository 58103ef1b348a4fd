/* Calls every function of atlas.h, with arguments and answers that all differ, so that a parameter that the source swaps, leaves out or narrows
 * is seen (tools/prototypes holds the header against the source); and holds that a refusal writes nothing. The file is the one of a sheet and the
 * places 7, "Mill", and 4,000,000,009, for lists one of places near each other; the numbers are document 01's examples, or were worked out by its
 * steps in another program. */
#include <stdio.h>
#include <string.h>

#include "atlas.h"

static unsigned checked, failed;

static void expect(int holds, const char *what, int line)
{
    checked++;
    if (!holds) {
        failed++;
        printf("calls.c:%d: %s\n", line, what);
    }
}

#define EXPECT(condition) expect((condition), #condition, __LINE__)

static uint8_t file[240];
static size_t length;

static void put(uint8_t byte)
{
    file[length++] = byte;
}

static void put_number(int64_t number)
{
    for (int k = 0; k < 4; k++)
        put((uint8_t)((uint64_t)number >> (8 * k)));
}

static void put_place(int64_t id, int64_t latitude, int64_t longitude, int64_t x, int64_t y, const char *name)
{
    put(2);
    put_number(id);
    put_number(latitude);
    put_number(longitude);
    put_number(x);
    put_number(y);
    for (size_t k = 0, n = strlen(name); k < ATLAS_NAME_SIZE; k++)
        put(k < n ? (uint8_t)name[k] : 0);
}

/* Document 01's sheet A. */
static const int64_t sheet_a[] = {30000000, 30000000, 30000000, 10000000, 20000000, 40000000, 60000000, 536870912, 129239201};

static void begin_file(void)
{
    length = 0;
    put(1);
    for (int k = 0; k < 9; k++)
        put_number(sheet_a[k]);
}

static void end_file(int64_t count)
{
    put(3);
    put_number(count);
}

/* The places of cases 7 and 8. */
static void make_file(void)
{
    begin_file();
    put_place(7, 31000000, 10000000, 0, 1000000, "Mill");
    put_place(4000000009, 30000000, 70000000, 49619600, 13295532, "A name of 16 ch.");
    end_file(2);
}

/* Places near each other, two of them on one spot. */
static void make_file_of_close_places(void)
{
    begin_file();
    put_place(7, 31000000, 10000000, 0, 1000000, "Mill");
    put_place(8, 31000030, 10000000, 0, 1000030, "Well");
    put_place(9, 31000030, 10000000, 0, 1000030, "Gate");
    put_place(12, 31000012, 9999985, -12, 1000012, "Ford");
    put_place(4000000009, 30999980, 10000000, 0, 999980, "Ridge");
    end_file(5);
}

static void check_file(void)
{
    EXPECT(length == 37 + 2 * 37 + 5);
    EXPECT(atlas_check(file, length) == 0);
    EXPECT(atlas_refused_at(file, length) == 0);
    EXPECT(atlas_check(file, length - 1) == 1);
    EXPECT(atlas_refused_at(file, length - 1) == 111);
    EXPECT(atlas_check(file, length + 1) == 3);
    EXPECT(atlas_refused_at(file, length + 1) == 116);

    size_t count = SIZE_MAX - 77; /* so that a narrower write is seen */
    EXPECT(atlas_count(file, 70, &count) == 1 && count == SIZE_MAX - 77);
    EXPECT(atlas_count(file, length, &count) == 0 && count == 2);
}

static void check_sheet(void)
{
    uint8_t sheet[ATLAS_SHEET_SIZE + 3], untouched[sizeof sheet];
    size_t sheet_length = SIZE_MAX - 55;
    memset(sheet, 0xa5, sizeof sheet);
    memcpy(untouched, sheet, sizeof sheet);
    EXPECT(atlas_sheet(file, length - 1, sheet, sizeof sheet, &sheet_length) == 1);
    EXPECT(atlas_sheet(file, length, sheet, ATLAS_SHEET_SIZE - 1, &sheet_length) == 10);
    EXPECT(sheet_length == SIZE_MAX - 55 && !memcmp(sheet, untouched, sizeof sheet));
    EXPECT(atlas_sheet(file, length, sheet, ATLAS_SHEET_SIZE, &sheet_length) == 0);
    EXPECT(sheet_length == 37 && !memcmp(sheet, file, 37) && !memcmp(sheet + 37, untouched + 37, sizeof sheet - 37));
}

static void check_place(void)
{
    uint32_t id = 1;
    int32_t latitude = 2, longitude = 3, x = 4, y = 5;
    uint8_t name[ATLAS_NAME_SIZE + 1] = "untouched";
    EXPECT(atlas_place(file, length, 2, &id, &latitude, &longitude, &x, &y, name) == 12);
    EXPECT(atlas_place(file, length, (size_t)1 << 32, &id, &latitude, &longitude, &x, &y, name) == 12);
    EXPECT(id == 1 && latitude == 2 && longitude == 3 && x == 4 && y == 5 && !strcmp((char *)name, "untouched"));
    EXPECT(atlas_place(file, length, 1, &id, &latitude, &longitude, &x, &y, name) == 0);
    EXPECT(id == 4000000009 && latitude == 30000000 && longitude == 70000000 && x == 49619600 && y == 13295532);
    EXPECT(!strcmp((char *)name, "A name of 16 ch."));
    EXPECT(atlas_place(file, length, 0, &id, &latitude, &longitude, &x, &y, name) == 0);
    EXPECT(id == 7 && latitude == 31000000 && longitude == 10000000 && x == 0 && y == 1000000);
    EXPECT(!memcmp(name, "Mill\0\0\0\0\0\0\0\0\0\0\0\0", ATLAS_NAME_SIZE));
}

static void check_nearest(void)
{
    size_t index = SIZE_MAX - 88;
    EXPECT(atlas_usual_reach() == 50000);
    EXPECT(atlas_nearest(file, length, 49619604, 13295535, 4, &index) == 13 && index == SIZE_MAX - 88);
    EXPECT(atlas_nearest(file, length, 49619604, 13295535, 5, &index) == 0 && index == 1);
    EXPECT(atlas_nearest(file, length, -3, 1000004, 6, &index) == 0 && index == 0);
    index = 88;
    EXPECT(atlas_nearest(file, length, ATLAS_POINT_LIMIT + 1, 2, 3, &index) == 12);
    EXPECT(atlas_nearest(file, length, 1, -ATLAS_POINT_LIMIT - 1, 3, &index) == 12);
    EXPECT(atlas_nearest(file, length, 4294967296, 1000004, 6, &index) == 12);
    EXPECT(atlas_nearest(file, length, 1, 4294967296 + 1000004, 6, &index) == 12);
    EXPECT(atlas_nearest(file, length, 1, 1000004, 4294967296 + 6, &index) == 12);
    EXPECT(atlas_nearest(file, length, 1, 1000004, -6, &index) == 12);
    EXPECT(atlas_nearest(file, length, 1, 2, ATLAS_REACH_LIMIT + 1, &index) == 12);
    EXPECT(atlas_nearest(file, length, ATLAS_POINT_LIMIT, -ATLAS_POINT_LIMIT, ATLAS_REACH_LIMIT, &index) == 13);
    EXPECT(atlas_nearest(file, 40, 1, 2, 3, &index) == 1 && index == 88);
}

/* From the tap the five places have the squared distances 25, 685, 685, 145 and 585. */
static void check_places_in_reach(void)
{
    enum { ROOM = 7 };
    const size_t list[] = {0, 3, 4, 1, 2};
    size_t indexes[ROOM], untouched[ROOM], count = SIZE_MAX - 99, index;
    for (size_t k = 0; k < ROOM; k++)
        untouched[k] = indexes[k] = SIZE_MAX - k; /* so that a narrower write is seen */
    make_file_of_close_places();
    EXPECT(atlas_check(file, length) == 0);

    EXPECT(atlas_places_in_reach(file, length - 1, -3, 1000004, -1, indexes, 2, &count) == 1);
    EXPECT(atlas_places_in_reach(file, length, ATLAS_POINT_LIMIT + 1, 1000004, 25, indexes, ROOM, &count) == 12);
    EXPECT(atlas_places_in_reach(file, length, -3, -ATLAS_POINT_LIMIT - 1, 25, indexes, ROOM, &count) == 12);
    EXPECT(atlas_places_in_reach(file, length, 4294967296 - 3, 1000004, 25, indexes, ROOM, &count) == 12);
    EXPECT(atlas_places_in_reach(file, length, -3, 4294967296 + 1000004, 25, indexes, ROOM, &count) == 12);
    EXPECT(atlas_places_in_reach(file, length, -3, 1000004, 4294967296 + 25, indexes, ROOM, &count) == 12);
    EXPECT(atlas_places_in_reach(file, length, -3, 1000004, -25, indexes, ROOM, &count) == 12);
    EXPECT(atlas_places_in_reach(file, length, -3, 1000004, ATLAS_REACH_LIMIT + 1, indexes, 2, &count) == 12);
    EXPECT(atlas_places_in_reach(file, length, -3, 1000004, ATLAS_REACH_LIMIT, indexes, 4, &count) == 10);
    EXPECT(atlas_places_in_reach(file, length, -3, 1000004, 25, indexes, 2, &count) == 10);
    EXPECT(atlas_places_in_reach(file, length, -3, 1000004, 5, indexes, 0, &count) == 10);
    EXPECT(count == SIZE_MAX - 99 && !memcmp(indexes, untouched, sizeof indexes));

    EXPECT(atlas_places_in_reach(file, length, -3, 1000004, 25, indexes, 3, &count) == 0 && count == 3);
    EXPECT(!memcmp(indexes, list, 3 * sizeof *list) && !memcmp(indexes + 3, untouched + 3, (ROOM - 3) * sizeof *indexes));
    EXPECT(atlas_nearest(file, length, -3, 1000004, 25, &index) == 0 && index == list[0]);
    EXPECT(atlas_places_in_reach(file, length, -3, 1000004, 27, indexes, ROOM, &count) == 0 && count == 5);
    EXPECT(!memcmp(indexes, list, sizeof list) && !memcmp(indexes + 5, untouched + 5, (ROOM - 5) * sizeof *indexes));

    memcpy(indexes, untouched, sizeof indexes);
    EXPECT(atlas_places_in_reach(file, length, -3, 1000004, 4, indexes, ROOM, &count) == 0 && count == 0);
    EXPECT(atlas_nearest(file, length, -3, 1000004, 4, &index) == 13);
    count = SIZE_MAX - 99;
    EXPECT(atlas_places_in_reach(file, length, -3, 1000004, 4, indexes, 0, &count) == 0 && count == 0);
    EXPECT(!memcmp(indexes, untouched, sizeof indexes));
    EXPECT(atlas_places_in_reach(file, length, -3, 1000004, 5, indexes, 1, &count) == 0 && count == 1);
    EXPECT(indexes[0] == 0 && !memcmp(indexes + 1, untouched + 1, (ROOM - 1) * sizeof *indexes));

    begin_file();
    end_file(0);
    EXPECT(atlas_places_in_reach(file, length, 0, 0, ATLAS_REACH_LIMIT, indexes, 0, &count) == 0 && count == 0);
}

static void check_projection(void)
{
    int64_t x = -11, y = -22, latitude = -33, longitude = -44;
    EXPECT(atlas_forward(file, 37, 30000000, 70000001, &x, &y) == 11);
    EXPECT(atlas_forward(file, 37, 90000001, 70000000, &x, &y) == 12);
    EXPECT(atlas_forward(file, 37, 4294967296 + 30000000, 70000000, &x, &y) == 12);
    EXPECT(atlas_forward(file, 37, 30000000, 4294967296 + 70000000, &x, &y) == 12);
    EXPECT(atlas_forward(file, 37, -30000000, 70000000, &x, &y) == 11);
    EXPECT(atlas_forward(file, 36, 30000000, 70000000, &x, &y) == 1);
    EXPECT(atlas_forward(file, 0, 30000000, 70000000, &x, &y) == 1);
    EXPECT(atlas_forward(file, 38, 30000000, 70000000, &x, &y) == 3);
    EXPECT(atlas_forward(file + 37, 37, 30000000, 70000000, &x, &y) == 2);
    EXPECT(atlas_forward(file + 37, 36, 30000000, 70000000, &x, &y) == 2); /* a place, and cut */
    EXPECT(x == -11 && y == -22);
    EXPECT(atlas_forward(file, 37, 30000000, 70000000, &x, &y) == 0 && x == 49619600 && y == 13295532);
    EXPECT(atlas_inverse(file, 37, 49619601, 13295532, &latitude, &longitude) == 11);
    EXPECT(atlas_inverse(file, 37, -ATLAS_POINT_LIMIT - 1, 13295532, &latitude, &longitude) == 12);
    EXPECT(atlas_inverse(file, 37, 4294967296, 1000000, &latitude, &longitude) == 12);
    EXPECT(atlas_inverse(file, 37, 0, 4294967296 + 1000000, &latitude, &longitude) == 12);
    EXPECT(atlas_inverse(file, 38, 49619600, 13295532, &latitude, &longitude) == 3);
    EXPECT(latitude == -33 && longitude == -44);
    EXPECT(atlas_inverse(file, 37, 49619600, 13295532, &latitude, &longitude) == 0);
    EXPECT(latitude == 30000000 && longitude == 69999999);
    EXPECT(atlas_inverse(file, 37, 0, 1000000, &latitude, &longitude) == 0 && latitude == 31000000 && longitude == 10000000);
    EXPECT(atlas_forward(file, 37, 30000000, -50000000, &x, &y) == 0 && x == -49619600 && y == 13295532);
    EXPECT(atlas_inverse(file, 37, 0, -1000000, &latitude, &longitude) == 0 && latitude == 29000000 && longitude == 10000000);
    EXPECT(atlas_inverse(file, 37, -49619000, 13295532, &latitude, &longitude) == 0 && latitude == 30000300);
}

typedef uint32_t each_function(const uint8_t *, size_t, const int64_t *, size_t, int64_t *, size_t);

/* Four pairs of numbers, of which the first and the third are answered, the second is off the sheet, and the fourth is out of range. */
static void check_each(each_function *each, const int64_t *pairs, const int64_t *expected)
{
    int64_t answers[] = {-1, -2, -3, -4, -5, -6, -7, -8, -9, -10, -11, -12, -13, -14}, untouched[14];
    memcpy(untouched, answers, sizeof answers);
    EXPECT(each(file, 37, pairs, 7, answers, 14) == 12);
    EXPECT(each(file, 37, pairs, 8, answers, 11) == 10);
    EXPECT(each(file, 36, pairs, 8, answers, 14) == 1);
    EXPECT(each(file, 37, pairs, 0, answers, 0) == 0);
    EXPECT(!memcmp(answers, untouched, sizeof answers));
    EXPECT(each(file, 37, pairs, 8, answers, 14) == 0);
    EXPECT(!memcmp(answers, expected, sizeof answers));
}

static void check_many(void)
{
    const int64_t positions[] = {31000000, 10000000, 30000000, 70000001, 30000000, 70000000, 90000001, 5};
    const int64_t map[] = {0, 0, 1000000, 11, 0, 0, 0, 49619600, 13295532, 12, 0, 0, -13, -14};
    const int64_t points[] = {0, 1000000, 49619601, 13295532, 49619600, 13295532, 5, -ATLAS_POINT_LIMIT - 1};
    const int64_t globe[] = {0, 31000000, 10000000, 11, 0, 0, 0, 30000000, 69999999, 12, 0, 0, -13, -14};
    check_each(atlas_forward_each, positions, map);
    check_each(atlas_inverse_each, points, globe);
}

/* A sheet whose limits (4) or constants (5) are not good, by every function that takes one. */
static void check_sheet_refusals(void)
{
    uint8_t sheet[37];
    int64_t a = 1, b = 2;
    memcpy(sheet, file, sizeof sheet);
    sheet[25] = 1; /* the half-width is 60,000,001 */
    EXPECT(atlas_forward(sheet, 37, 30000000, 70000000, &a, &b) == 4);
    EXPECT(atlas_inverse(sheet, 37, 0, 1000000, &a, &b) == 4);
    EXPECT(atlas_forward_each(sheet, 37, &a, 0, &b, 0) == 4);
    EXPECT(atlas_inverse_each(sheet, 37, &a, 0, &b, 0) == 4);
    memcpy(sheet, file, sizeof sheet);
    sheet[29] = 32; /* the cone constant is 536,870,944 */
    EXPECT(atlas_forward(sheet, 37, 30000000, 70000000, &a, &b) == 5);
    EXPECT(atlas_inverse(sheet, 37, 0, 1000000, &a, &b) == 5);
    EXPECT(a == 1 && b == 2);
}

int main(void)
{
    make_file();
    check_file();
    check_sheet();
    check_place();
    check_nearest();
    check_projection();
    check_many();
    check_sheet_refusals();
    check_places_in_reach(); /* with files of its own */
    printf("calls.c: %u checks, %u failed\n", checked, failed);
    return failed != 0;
}
