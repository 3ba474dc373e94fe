/* Prints what kutimuq.h declares, without its prefix, as `kutimuq-tests --layout`
   does for the Rust side: each struct with its fields, the version, refusal
   numbers with their meanings, kinds, forms, machines, kinds of a record, lists
   and directions, sizes and shapes. */

#include <stdalign.h>
#include <stddef.h>
#include <stdio.h>
#include <string.h>

#include "kutimuq.h"

#define STRUCT(name) \
    printf("%s size %zu align %zu\n", #name, sizeof(Kutimuq##name), (size_t)alignof(Kutimuq##name))
#define FIELD(name, field) \
    printf("%s.%s offset %zu size %zu\n", #name, #field, offsetof(Kutimuq##name, field), \
           sizeof(((Kutimuq##name *)NULL)->field))
#define REFUSAL(name) \
    FIELD(name, refusal.number); \
    FIELD(name, refusal.place); \
    FIELD(name, refusal.plane_row); \
    FIELD(name, refusal.good_bytes)
#define CONSTANT(name) printf("%s is %d\n", #name, KUTIMUQ_##name)
#define NAME(name) \
    case KUTIMUQ_##name: \
        return #name

static void print_refusals(void)
{
    STRUCT(Refusal);
    FIELD(Refusal, number);
    FIELD(Refusal, place);
    FIELD(Refusal, plane_row);
    FIELD(Refusal, good_bytes);

    STRUCT(RowAnswer);
    REFUSAL(RowAnswer);
    FIELD(RowAnswer, bytes);
    FIELD(RowAnswer, records);
}

static void print_files(void)
{
    STRUCT(Table);
    FIELD(Table, words);

    STRUCT(Picture);
    FIELD(Picture, resolution);
    FIELD(Picture, palette);
    FIELD(Picture, tail_present);
    FIELD(Picture, tail);

    STRUCT(ReadAnswer);
    REFUSAL(ReadAnswer);
    FIELD(ReadAnswer, picture);
    FIELD(ReadAnswer, body);
    FIELD(ReadAnswer, records);

    STRUCT(WriteAnswer);
    REFUSAL(WriteAnswer);
    FIELD(WriteAnswer, length);
    FIELD(WriteAnswer, body);
    FIELD(WriteAnswer, records);

    STRUCT(BodyAnswer);
    REFUSAL(BodyAnswer);
    FIELD(BodyAnswer, body);
    FIELD(BodyAnswer, records);

    STRUCT(ImgAnswer);
    REFUSAL(ImgAnswer);
    FIELD(ImgAnswer, width);
    FIELD(ImgAnswer, lines);
}

static void print_records(void)
{
    STRUCT(RecordCursor);
    FIELD(RecordCursor, offset);
    FIELD(RecordCursor, plane_row);
    FIELD(RecordCursor, good_bytes);

    STRUCT(CursorAnswer);
    REFUSAL(CursorAnswer);
    FIELD(CursorAnswer, cursor);

    STRUCT(RecordAnswer);
    REFUSAL(RecordAnswer);
    FIELD(RecordAnswer, kind);
    FIELD(RecordAnswer, offset);
    FIELD(RecordAnswer, plane_row);
    FIELD(RecordAnswer, length);
    FIELD(RecordAnswer, next);
}

static void print_animation(void)
{
    STRUCT(AnimationAnswer);
    REFUSAL(AnimationAnswer);
    FIELD(AnimationAnswer, limits_valid);
    FIELD(AnimationAnswer, left_limit);
    FIELD(AnimationAnswer, right_limit);
    FIELD(AnimationAnswer, on);
    FIELD(AnimationAnswer, direction);
    FIELD(AnimationAnswer, vblanks);
    FIELD(AnimationAnswer, step_count);
}

static void print_spectrum(void)
{
    STRUCT(PositionAnswer);
    REFUSAL(PositionAnswer);
    FIELD(PositionAnswer, position);

    STRUCT(ColourWordAnswer);
    REFUSAL(ColourWordAnswer);
    FIELD(ColourWordAnswer, word);
}

static void print_pixels(void)
{
    STRUCT(Rectangle);
    FIELD(Rectangle, left);
    FIELD(Rectangle, top);
    FIELD(Rectangle, columns);
    FIELD(Rectangle, lines);

    STRUCT(TallyAnswer);
    REFUSAL(TallyAnswer);
    FIELD(TallyAnswer, counts);

    STRUCT(ColourAnswer);
    REFUSAL(ColourAnswer);
    FIELD(ColourAnswer, red);
    FIELD(ColourAnswer, green);
    FIELD(ColourAnswer, blue);

    STRUCT(Legend);
    FIELD(Legend, owners);
    FIELD(Legend, classes);
    FIELD(Legend, confidences);

    STRUCT(LegendAnswer);
    REFUSAL(LegendAnswer);
    FIELD(LegendAnswer, legend);

    STRUCT(PondAnswer);
    REFUSAL(PondAnswer);
    FIELD(PondAnswer, sure);
    FIELD(PondAnswer, unsure);
    FIELD(PondAnswer, other);

    STRUCT(Palette);
    FIELD(Palette, words);
}

/* The compiler warns where a number of the header is left out. */
static const char *name_of(enum KutimuqNumber number)
{
    switch (number) {
        NAME(ACCEPTED);
        NAME(AREA_TOO_SHORT);
        NAME(UNKNOWN_KIND);
        NAME(WRONG_LENGTH);
        NAME(WRONG_FLAG);
        NAME(UNKNOWN_RESOLUTION);
        NAME(INPUT_ENDS);
        NAME(RECORD_CROSSES);
        NAME(WRONG_TAIL);
        NAME(NO_PACKED_BODY);
        NAME(OUT_OF_RANGE);
        NAME(UNDEFINED_CONTROL);
        NAME(RUN_TOO_LONG);
        NAME(SIZE_MISMATCH);
        NAME(WRONG_HEADER);
        NAME(BIT_15_SET);
        NAME(IGNORED_BITS_SET);
        NAME(NO_ZERO_TAIL);
        NAME(NOT_OWNED);
        NAME(WRONG_VERSION);
        NAME(OUTSIDE_PROFILE);
        NAME(WRONG_SCANLINE_RUN);
    }
    return NULL;
}

static void print_numbers(void)
{
    for (int number = 0; number <= UINT8_MAX; number++) {
        const char *name = name_of((enum KutimuqNumber)number);
        const char *meaning = kutimuq_meaning((uint8_t)number);
        if (name != NULL || strcmp(meaning, "unknown refusal") != 0) {
            printf("%s number %d: %s\n", name != NULL ? name : "-", number, meaning);
        }
    }
}

static void print_constants(void)
{
    CONSTANT(KIND_DEGAS);
    CONSTANT(KIND_NEO);
    CONSTANT(KIND_TINY);
    CONSTANT(KIND_SPU);
    CONSTANT(KIND_SPC);
    CONSTANT(FORM_PLAIN);
    CONSTANT(FORM_ELITE_RAW);
    CONSTANT(FORM_ELITE_PACKED);
    CONSTANT(FORM_NEO);
    CONSTANT(MACHINE_ST);
    CONSTANT(MACHINE_STE);
    CONSTANT(RECORD_LITERAL);
    CONSTANT(RECORD_REPEAT);
    CONSTANT(RECORD_NOTHING);
    CONSTANT(LIST_1989);
    CONSTANT(LIST_2008);
    CONSTANT(DIRECTION_STOPPED);
    CONSTANT(DIRECTION_LEFT);
    CONSTANT(DIRECTION_RIGHT);
    CONSTANT(SCREEN_BYTES);
    CONSTANT(LONGEST_FILE);
    CONSTANT(LONGEST_TINY_FILE);
    CONSTANT(WRITE_AREA_BYTES);
    CONSTANT(WIDEST_LINE);
    CONSTANT(WIDEST_ROW);
    CONSTANT(PACK_AREA_BYTES);
    CONSTANT(PLATE_BYTES);
    CONSTANT(LONGEST_PLATE_FILE);
    CONSTANT(PLATE_WIDTH);
    CONSTANT(PLATE_HEIGHT);
    CONSTANT(PLATE_ROW_BYTES);
    CONSTANT(IMG_BYTES);
    CONSTANT(IMG_MAX_WIDTH);
    CONSTANT(IMG_MAX_LINES);
    CONSTANT(SPU_FILE_BYTES);
    CONSTANT(SPECTRUM_WIDTH);
    CONSTANT(SPECTRUM_LINES);
    CONSTANT(SPECTRUM_PALETTE_WORDS);
    CONSTANT(SPECTRUM_LINE_PALETTE_WORDS);
    for (unsigned resolution = 0; resolution <= UINT16_MAX; resolution++) {
        KutimuqShape shape = kutimuq_shape((uint16_t)resolution);
        if (shape.width + shape.height + shape.planes + shape.row_bytes != 0) {
            printf("resolution %u: %zu x %zu, %zu planes, %zu bytes a row\n", resolution,
                   shape.width, shape.height, shape.planes, shape.row_bytes);
        }
    }
}

int main(void)
{
    print_refusals();
    print_files();
    print_records();
    print_animation();
    print_spectrum();
    print_pixels();
    printf("version %s\n", KUTIMUQ_VERSION);
    print_numbers();
    print_constants();
    return 0;
}
