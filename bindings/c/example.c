/* example FILE X Y: how many places an atlas file has, where the map point X, Y lies on the globe, the place nearest to it, and all places within
 * the usual reach of it. */
#include <inttypes.h>
#include <stdio.h>
#include <stdlib.h>

#include "atlas.h"

/* A good file has up to 37,042 bytes; one more tells that a file is longer, and the engine refuses it. */
static uint8_t file[37043];

/* Prints why there is no answer; docs/REFUSALS.md says what each number means. */
static int refused(uint32_t number)
{
    printf("refused %" PRIu32 "\n", number);
    return 1;
}

/* Prints the place at an index of the file, after a word on it. */
static uint32_t print_place(const char *what, size_t length, size_t index)
{
    uint32_t id;
    int32_t latitude, longitude, x, y;
    uint8_t name[ATLAS_NAME_SIZE];
    uint32_t number = atlas_place(file, length, index, &id, &latitude, &longitude, &x, &y, name);
    if (!number)
        printf("%s: %" PRIu32 " %.*s, at %" PRId32 " %" PRId32 "\n", what, id, ATLAS_NAME_SIZE, (const char *)name, x, y);
    return number;
}

int main(int argc, char **argv)
{
    FILE *stream = argc == 4 ? fopen(argv[1], "rb") : NULL;
    if (!stream) {
        fprintf(stderr, "usage: example FILE X Y\n");
        return 2;
    }
    size_t length = fread(file, 1, sizeof file, stream);
    fclose(stream);

    size_t count;
    uint32_t number = atlas_count(file, length, &count);
    if (number) {
        printf("refused %" PRIu32 " at %zu\n", number, atlas_refused_at(file, length));
        return 1;
    }
    printf("%zu places\n", count);

    uint8_t sheet[ATLAS_SHEET_SIZE];
    size_t sheet_length;
    number = atlas_sheet(file, length, sheet, sizeof sheet, &sheet_length);
    if (number)
        return refused(number);

    char *end_x, *end_y;
    int64_t x = strtoll(argv[2], &end_x, 10), y = strtoll(argv[3], &end_y, 10), latitude, longitude;
    if (end_x == argv[2] || *end_x || end_y == argv[3] || *end_y)
        return refused(12);
    number = atlas_inverse(sheet, sheet_length, x, y, &latitude, &longitude);
    if (number)
        return refused(number);
    printf("latitude %" PRId64 ", longitude %" PRId64 "\n", latitude, longitude);

    size_t index, indexes[1000], near;
    number = atlas_nearest(file, length, x, y, atlas_usual_reach(), &index);
    if (number)
        return refused(number);
    number = print_place("nearest", length, index);
    if (number)
        return refused(number);

    number = atlas_places_in_reach(file, length, x, y, atlas_usual_reach(), indexes, 1000, &near);
    if (number)
        return refused(number);
    for (size_t k = 0; k < near; k++) {
        number = print_place("within reach", length, indexes[k]);
        if (number)
            return refused(number);
    }
    return 0;
}
