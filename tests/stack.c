/* Measures the stack that calls of the library take, each on a painted stack of its
   own. Fails where a call takes more than its limit or answers another number than
   it should. With the argument --depths it prints every measure. */

#define _XOPEN_SOURCE 700

#include <stdbool.h>
#include <stdio.h>
#include <string.h>
#include <ucontext.h>

#include "kutimuq.h"

enum {
    STACK_BYTES = 1 << 17,
    PAINT = 0xA5,
    /* Limits: a raw or SPU file read, a file refused before its body, runs or data map are
       unpacked, a record list opened or stepped, a colour animation shown, the palette word
       of a pixel of a Spectrum 512 picture, or a position or a line of them refused; a line of
       them; a position, by the table; a packed or Tiny file unpacked; a MacPaint file unpacked;
       a GEM IMG file unpacked; an SPC file unpacked; a raw DEGAS file made Elite or plain, or
       refused before its body is unpacked; a packed one unpacked for that; an operation on a
       legend alone; any other operation. */
    NOT_UNPACKED = 1000,
    LINE_OF_WORDS = 3500,
    POSITION = 5500,
    UNPACKED = 35000,
    PLATE_UNPACKED = 55000,
    SCAN_UNPACKED = 34000,
    SPC_UNPACKED = 34000,
    CONVERTED = 35000,
    CONVERTED_UNPACKED = 68000,
    LEGEND = 500,
    NOT_READ = 3000,

    LONG_AREA = KUTIMUQ_SCREEN_BYTES + 1,
    LONG_PLATE = KUTIMUQ_PLATE_BYTES + 1,
    LONG_PALETTES = KUTIMUQ_SPECTRUM_PALETTE_WORDS + 1,
    LONG_LINE = KUTIMUQ_SPECTRUM_WIDTH + 1,
    PIXELS = 640 * 400,
    LINE_BYTES = 160,
    RESOLUTIONS = 3,
    /* DEGAS: bit 15 of the first word; the body's offset; a literal of 128 bytes; the tail's
       bytes. */
    PACKED = 0x80,
    BODY = 34,
    LONG_LITERAL = 127,
    TAIL = 32,
    /* One of the bits of the first word that reading ignores. */
    IGNORED = 0x40,
    /* Tiny: offsets without rotation bytes; an undefined control byte; half a screen's words. */
    COUNTS = 33,
    CONTROLS = 37,
    DATA = 43,
    UNDEFINED = 128,
    HALF = 8000,
    DATA_BYTES = 2 + 2 * HALF,
    /* NEOchrome: offsets of the colour animation and of its signed speed. */
    ANIMATION = 48,
    SPEED = 51,
    /* MacPaint: the last byte of the version. */
    VERSION = 3,
    /* GEM IMG: the last byte of the version; the first record's count. */
    IMG_VERSION = 1,
    IMG_COUNT = 17,
    /* SPC: the last bytes of the reserved word and of the maps' lengths; the data map, repeats of
       130 bytes and a literal of the 120 left; the colour map, its first palette with 15 words. */
    SPC_RESERVED = 3,
    DATA_LENGTH = 7,
    COLOUR_LENGTH = 11,
    DATA_MAP = 12,
    REPEAT_130 = 0x80,
    REPEATS = 244,
    LITERAL_120 = 119,
    LAST_RECORD = DATA_MAP + 2 * REPEATS,
    DATA_MAP_BYTES = 2 * REPEATS + 1 + 120,
    COLOUR_MAP = DATA_MAP + DATA_MAP_BYTES,
    PALETTES = 597,
    COLOUR_MAP_BYTES = 2 * PALETTES + 2 * 15,
    SPC_BYTES = COLOUR_MAP + COLOUR_MAP_BYTES,
    /* A register; a confidence that is allowed and one that is not. */
    ENTRY = 15,
    SURE = 100,
    TOO_SURE = 101
};

static uint8_t painted[STACK_BYTES];
static ucontext_t outside, inside;
static uint8_t *top;
static void (*operation)(void);

static uint8_t number;
static uint8_t screen[KUTIMUQ_SCREEN_BYTES];
static uint8_t area[LONG_AREA];
static uint8_t file[KUTIMUQ_WRITE_AREA_BYTES];
static uint8_t converted[KUTIMUQ_WRITE_AREA_BYTES];
static uint8_t plate[LONG_PLATE];
static uint8_t plate_file[KUTIMUQ_LONGEST_PLATE_FILE];
static uint8_t spectrum_file[KUTIMUQ_SPU_FILE_BYTES];
static uint16_t palettes[LONG_PALETTES];
static uint16_t words[LONG_LINE];
static uint8_t registers[PIXELS];
static KutimuqPicture picture;
static KutimuqRecordCursor cursor;
static KutimuqLegend legend;
static KutimuqRectangle whole;
static uint8_t kind, form, list;
static uint8_t party, confidence;
static size_t file_len, area_len, converted_len;
static size_t palettes_len, words_len, column, line;

static bool printing;
static int passed, failed;

/* ---- the operations */

static void read_file(void)
{
    number = kutimuq_read(kind, file, file_len, area, area_len).refusal.number;
}

static void write_file(void)
{
    KutimuqWriteAnswer answer =
        kutimuq_write(form, picture, screen, sizeof screen, file, sizeof file);
    file_len = answer.length;
    number = answer.refusal.number;
}

static void open_records(void)
{
    KutimuqCursorAnswer answer = kutimuq_open_records(file, file_len);
    cursor = answer.cursor;
    number = answer.refusal.number;
}

static void next_record(void)
{
    KutimuqRecordAnswer answer = kutimuq_next_record(file, file_len, cursor);
    cursor = answer.next;
    number = answer.refusal.number;
}

static void animation(void)
{
    number = kutimuq_animation(list, file, file_len).refusal.number;
}

static void to_elite(void)
{
    number = kutimuq_to_elite(file, file_len, converted, converted_len).refusal.number;
}

static void to_plain(void)
{
    number = kutimuq_to_plain(file, file_len, converted, converted_len).refusal.number;
}

static void tally(void)
{
    number = kutimuq_tally(screen, sizeof screen, picture.resolution, whole).refusal.number;
}

static void new_legend(void)
{
    legend = kutimuq_new_legend();
    number = KUTIMUQ_ACCEPTED;
}

static void set_entry(void)
{
    KutimuqLegendAnswer answer = kutimuq_set_entry(legend, party, ENTRY, 1, confidence);
    legend = answer.legend;
    number = answer.refusal.number;
}

static void release_entry(void)
{
    KutimuqLegendAnswer answer = kutimuq_release_entry(legend, party, ENTRY);
    legend = answer.legend;
    number = answer.refusal.number;
}

static void pond(void)
{
    number = kutimuq_pond(screen, sizeof screen, picture.resolution, whole, party, 1, confidence,
                          legend)
                 .refusal.number;
}

static void screen_out(void)
{
    number = kutimuq_screen_out(screen, sizeof screen, picture.resolution, registers,
                                sizeof registers)
                 .number;
}

static void screen_in(void)
{
    number = kutimuq_screen_in(area, sizeof area, picture.resolution, registers, sizeof registers)
                 .number;
}

static void read_plate(void)
{
    number = kutimuq_read_plate(plate_file, file_len, plate, area_len).refusal.number;
}

static void write_plate(void)
{
    KutimuqWriteAnswer answer =
        kutimuq_write_plate(plate, sizeof plate, plate_file, sizeof plate_file);
    file_len = answer.length;
    number = answer.refusal.number;
}

static void read_img(void)
{
    number = kutimuq_read_img(file, file_len, area, area_len).refusal.number;
}

static void read_spectrum(void)
{
    number = kutimuq_read_spectrum(kind, spectrum_file, file_len, area, area_len, palettes,
                                   palettes_len)
                 .number;
}

static void spectrum_position(void)
{
    number = kutimuq_spectrum_position(column, ENTRY).refusal.number;
}

static void spectrum_word(void)
{
    number = kutimuq_spectrum_word(area, area_len, palettes, palettes_len, column, line)
                 .refusal.number;
}

static void spectrum_line(void)
{
    number = kutimuq_spectrum_line(area, area_len, palettes, palettes_len, line, words, words_len)
                 .number;
}

/* ---- the measure */

static void start(void)
{
    top = __builtin_frame_address(0);
    operation();
}

/* From the lowest byte that an operation wrote on its stack up to the frame that called it. */
static size_t depth_of(void (*called)(void))
{
    memset(painted, PAINT, sizeof painted);
    operation = called;
    getcontext(&inside);
    inside.uc_stack.ss_sp = painted;
    inside.uc_stack.ss_size = sizeof painted;
    inside.uc_link = &outside;
    makecontext(&inside, start, 0);
    swapcontext(&outside, &inside);
    uint8_t *lowest = painted;
    while (lowest < top && *lowest == PAINT) {
        lowest++;
    }
    return (size_t)(top - lowest);
}

static void check(const char *what, void (*called)(void), size_t limit, uint8_t expected)
{
    size_t depth = depth_of(called);
    if (printing) {
        printf("%6zu  resolution %d, %s\n", depth, picture.resolution, what);
    }
    if (depth <= limit && number == expected) {
        passed++;
        return;
    }
    failed++;
    printf("stack: failed: %s took %zu bytes, limit %zu; answered %d, expected %d\n", what, depth,
           limit, number, expected);
}

/* Reads the file into an area of a screen's length and into a longer one. */
static void check_reading(const char *what, uint8_t of_kind, size_t limit, uint8_t expected)
{
    kind = of_kind;
    for (area_len = KUTIMUQ_SCREEN_BYTES; area_len <= LONG_AREA; area_len++) {
        check(what, read_file, limit, expected);
    }
}

/* Writes the file of a form. */
static void check_writing(const char *what, uint8_t of_form)
{
    form = of_form;
    check(what, write_file, NOT_READ, KUTIMUQ_ACCEPTED);
}

/* Reads the MacPaint file into an area of a plate's length and into a longer one. */
static void check_plate(const char *what, size_t limit, uint8_t expected)
{
    for (area_len = KUTIMUQ_PLATE_BYTES; area_len <= LONG_PLATE; area_len++) {
        check(what, read_plate, limit, expected);
    }
}

/* Reads the GEM IMG file into an area of the least length and into a longer one. */
static void check_scan(const char *what, size_t limit, uint8_t expected)
{
    for (area_len = KUTIMUQ_IMG_BYTES; area_len <= LONG_AREA; area_len++) {
        check(what, read_img, limit, expected);
    }
}

/* Reads the Spectrum 512 file into areas of the least length and into longer ones. */
static void check_spectrum(const char *what, uint8_t of_kind, size_t limit, uint8_t expected)
{
    kind = of_kind;
    area_len = KUTIMUQ_SCREEN_BYTES;
    for (palettes_len = KUTIMUQ_SPECTRUM_PALETTE_WORDS; palettes_len <= LONG_PALETTES;
         palettes_len++) {
        check(what, read_spectrum, limit, expected);
        area_len = LONG_AREA;
    }
}

static void check_spc(const char *what, uint8_t expected)
{
    check_spectrum(what, KUTIMUQ_KIND_SPC, SPC_UNPACKED, expected);
}

/* ---- the calls */

static void raw_files(void)
{
    check_writing("DEGAS written", KUTIMUQ_FORM_PLAIN);
    check_reading("DEGAS read", KUTIMUQ_KIND_DEGAS, NOT_UNPACKED, KUTIMUQ_ACCEPTED);
    check_reading("unknown kind", 0, NOT_UNPACKED, KUTIMUQ_UNKNOWN_KIND);
    check_reading("DEGAS as NEOchrome", KUTIMUQ_KIND_NEO, NOT_UNPACKED, KUTIMUQ_WRONG_LENGTH);
    file_len--;
    check_reading("DEGAS cut", KUTIMUQ_KIND_DEGAS, NOT_UNPACKED, KUTIMUQ_WRONG_LENGTH);
    file[1] = RESOLUTIONS;
    check_reading("DEGAS of no resolution", KUTIMUQ_KIND_DEGAS, NOT_UNPACKED,
                  KUTIMUQ_UNKNOWN_RESOLUTION);

    check_writing("DEGAS Elite written", KUTIMUQ_FORM_ELITE_RAW);
    check_reading("DEGAS Elite read", KUTIMUQ_KIND_DEGAS, NOT_UNPACKED, KUTIMUQ_ACCEPTED);
    file[0] = PACKED;
    check_reading("packed too long", KUTIMUQ_KIND_DEGAS, NOT_UNPACKED, KUTIMUQ_WRONG_LENGTH);

    check_writing("NEOchrome written", KUTIMUQ_FORM_NEO);
    check_reading("NEOchrome read", KUTIMUQ_KIND_NEO, NOT_UNPACKED, KUTIMUQ_ACCEPTED);
    area_len = KUTIMUQ_SCREEN_BYTES - 1;
    check("area too short", read_file, NOT_UNPACKED, KUTIMUQ_AREA_TOO_SHORT);
}

static void packed_files(void)
{
    check_writing("packed written", KUTIMUQ_FORM_ELITE_PACKED);
    check_reading("packed read", KUTIMUQ_KIND_DEGAS, UNPACKED, KUTIMUQ_ACCEPTED);
    file_len--;
    check_reading("packed, tail cut", KUTIMUQ_KIND_DEGAS, UNPACKED, KUTIMUQ_WRONG_TAIL);
    file[BODY] = LONG_LITERAL;
    check_reading("packed, record at fault", KUTIMUQ_KIND_DEGAS, UNPACKED,
                  KUTIMUQ_RECORD_CROSSES);
}

/* A step of each kind and with each answer. */
static void record_steps(void)
{
    /* A literal of one byte, nothing, a repeat of two bytes, a literal that crosses. */
    static const uint8_t records[] = {0x00, 0x00, 0x80, 0xFF, 0x00, LONG_LITERAL};
    check_writing("packed written", KUTIMUQ_FORM_ELITE_PACKED);
    memcpy(file + BODY, records, sizeof records);
    check("records opened", open_records, NOT_UNPACKED, KUTIMUQ_ACCEPTED);
    check("literal", next_record, NOT_UNPACKED, KUTIMUQ_ACCEPTED);
    check("nothing", next_record, NOT_UNPACKED, KUTIMUQ_ACCEPTED);
    check("repeat", next_record, NOT_UNPACKED, KUTIMUQ_ACCEPTED);
    check("record at fault", next_record, NOT_UNPACKED, KUTIMUQ_RECORD_CROSSES);
    cursor.offset = file_len;
    check("no record", next_record, NOT_UNPACKED, KUTIMUQ_INPUT_ENDS);
    cursor.good_bytes = kutimuq_shape(picture.resolution).row_bytes;
    check("cursor out of range", next_record, NOT_UNPACKED, KUTIMUQ_OUT_OF_RANGE);
    cursor.good_bytes = 0;
    cursor.plane_row = KUTIMUQ_SCREEN_BYTES / kutimuq_shape(picture.resolution).row_bytes;
    check("other tail", next_record, NOT_UNPACKED, KUTIMUQ_WRONG_TAIL);
    cursor.offset = file_len - TAIL;
    check("records done", next_record, NOT_UNPACKED, KUTIMUQ_ACCEPTED);
}

/* A file whose records are not listed: each step judges the opening again. */
static void check_not_listed(const char *what, uint8_t expected)
{
    check(what, open_records, NOT_UNPACKED, expected);
    check(what, next_record, NOT_UNPACKED, expected);
}

static void record_openings(void)
{
    check_writing("DEGAS Elite written", KUTIMUQ_FORM_ELITE_RAW);
    check_not_listed("records of a raw file", KUTIMUQ_UNKNOWN_KIND);
    file[0] = PACKED;
    check_not_listed("records of a packed file too long", KUTIMUQ_WRONG_LENGTH);
    file[1] = RESOLUTIONS;
    check_not_listed("records of no resolution", KUTIMUQ_UNKNOWN_RESOLUTION);
    file_len = BODY - 1;
    check_not_listed("records without a header", KUTIMUQ_WRONG_LENGTH);
}

/* The animation by both lists: WHAT, the number by that of 1989, the number by that of 2008. */
static void check_animation(const char *what, uint8_t expected_1989, uint8_t expected_2008)
{
    list = KUTIMUQ_LIST_1989;
    check(what, animation, NOT_UNPACKED, expected_1989);
    list = KUTIMUQ_LIST_2008;
    check(what, animation, NOT_UNPACKED, expected_2008);
}

static void animations(void)
{
    /* Valid limits, on, stopped, a step count; then to the left and to the right. */
    static const uint8_t words[] = {0x80, 0x3C, 0x80, 0x00, 0x01, 0x02};
    static const uint8_t speeds[] = {0x00, 0x80, 0x7F};
    check_writing("NEOchrome written", KUTIMUQ_FORM_NEO);
    check_animation("no animation", KUTIMUQ_ACCEPTED, KUTIMUQ_ACCEPTED);
    memcpy(file + ANIMATION, words, sizeof words);
    for (size_t i = 0; i < sizeof speeds; i++) {
        file[SPEED] = speeds[i];
        check_animation("animation", KUTIMUQ_ACCEPTED, KUTIMUQ_ACCEPTED);
    }
    file[3] = RESOLUTIONS;
    check_animation("animation of no resolution", KUTIMUQ_UNKNOWN_RESOLUTION,
                    KUTIMUQ_UNKNOWN_RESOLUTION);
    file[1] = 1;
    check_animation("animation with a flag", KUTIMUQ_UNKNOWN_RESOLUTION, KUTIMUQ_WRONG_FLAG);
    file_len--;
    check_animation("animation of a cut file", KUTIMUQ_WRONG_LENGTH, KUTIMUQ_WRONG_LENGTH);
    list++;
    check("animation by no list", animation, NOT_UNPACKED, KUTIMUQ_UNKNOWN_KIND);
}

/* One word repeated over half of the screen, then the other half's words. */
static void tiny_files(void)
{
    static const uint8_t controls[] = {0, HALF >> 8, HALF & 255, 1, HALF >> 8, HALF & 255};
    static const uint8_t counts[] = {0, sizeof controls, (HALF + 1) >> 8, (HALF + 1) & 255};
    memset(file, 0, sizeof file);
    file[0] = (uint8_t)picture.resolution;
    memcpy(file + COUNTS, counts, sizeof counts);
    memcpy(file + CONTROLS, controls, sizeof controls);
    memcpy(file + DATA, screen, DATA_BYTES);
    file_len = DATA + DATA_BYTES;
    check_reading("Tiny read", KUTIMUQ_KIND_TINY, UNPACKED, KUTIMUQ_ACCEPTED);
    file[CONTROLS] = UNDEFINED;
    check_reading("Tiny, control byte at fault", KUTIMUQ_KIND_TINY, UNPACKED,
                  KUTIMUQ_UNDEFINED_CONTROL);
    file_len--;
    check_reading("Tiny cut", KUTIMUQ_KIND_TINY, NOT_UNPACKED, KUTIMUQ_WRONG_LENGTH);
    file[0] = 2 * RESOLUTIONS;
    check_reading("Tiny of no resolution", KUTIMUQ_KIND_TINY, NOT_UNPACKED,
                  KUTIMUQ_UNKNOWN_RESOLUTION);
}

/* A file that is refused either way. */
static void check_both_refused(const char *what, size_t limit, uint8_t expected)
{
    check(what, to_elite, limit, expected);
    check(what, to_plain, limit, expected);
}

static void plain_files_converted(void)
{
    check_writing("DEGAS written", KUTIMUQ_FORM_PLAIN);
    check("DEGAS to Elite packed", to_elite, CONVERTED, KUTIMUQ_ACCEPTED);
    check("DEGAS to plain", to_plain, CONVERTED, KUTIMUQ_NO_ZERO_TAIL);
    for (size_t i = BODY; i < file_len; i++) {
        file[i] = (uint8_t)i;
    }
    check("DEGAS to Elite raw", to_elite, CONVERTED, KUTIMUQ_ACCEPTED);
    file[0] = IGNORED;
    check("ignored bits to Elite", to_elite, CONVERTED, KUTIMUQ_IGNORED_BITS_SET);
    file_len--;
    check_both_refused("DEGAS cut, converted", CONVERTED, KUTIMUQ_WRONG_LENGTH);
    file[1] = RESOLUTIONS;
    check_both_refused("no resolution, converted", CONVERTED, KUTIMUQ_UNKNOWN_RESOLUTION);
    converted_len--;
    check_both_refused("output too short", NOT_UNPACKED, KUTIMUQ_AREA_TOO_SHORT);
    converted_len++;
}

static void elite_files_converted(void)
{
    check_writing("DEGAS Elite written", KUTIMUQ_FORM_ELITE_RAW);
    check("DEGAS Elite to Elite", to_elite, CONVERTED, KUTIMUQ_UNKNOWN_KIND);
    check("DEGAS Elite to plain", to_plain, CONVERTED, KUTIMUQ_ACCEPTED);
    file[file_len - 1] = 1;
    check("other tail to plain", to_plain, CONVERTED, KUTIMUQ_NO_ZERO_TAIL);

    check_writing("packed written", KUTIMUQ_FORM_ELITE_PACKED);
    check("packed to Elite", to_elite, CONVERTED_UNPACKED, KUTIMUQ_UNKNOWN_KIND);
    check("packed to plain", to_plain, CONVERTED_UNPACKED, KUTIMUQ_ACCEPTED);
    file_len--;
    check_both_refused("packed, tail cut, converted", CONVERTED_UNPACKED, KUTIMUQ_WRONG_TAIL);
    file[BODY] = LONG_LITERAL;
    check_both_refused("packed, record at fault, converted", CONVERTED_UNPACKED,
                       KUTIMUQ_RECORD_CROSSES);
}

static void plates(void)
{
    check("plate written", write_plate, NOT_READ, KUTIMUQ_ACCEPTED);
    check_plate("plate read", PLATE_UNPACKED, KUTIMUQ_ACCEPTED);
    file_len--;
    check_plate("plate cut", PLATE_UNPACKED, KUTIMUQ_INPUT_ENDS);
    plate_file[VERSION] = 1;
    check_plate("plate of no version", NOT_UNPACKED, KUTIMUQ_WRONG_VERSION);
    file_len = 0;
    check_plate("plate without a header", NOT_UNPACKED, KUTIMUQ_WRONG_LENGTH);
    area_len = KUTIMUQ_PLATE_BYTES - 1;
    check("plate too short", read_plate, NOT_UNPACKED, KUTIMUQ_AREA_TOO_SHORT);
}

/* 400 lines of 640 pixels: one with a pattern run, a literal and solid runs, 255 white ones
   and 144 black ones. */
static void scans(void)
{
    static const uint8_t scan[] = {0, 1, 0, 8, 0, 1, 0, 2, 1, 0x74, 1, 0x74, 0x02, 0x80, 0x01, 0x90,
                                   0x00, 10, 0xAA, 0x55, 0x80, 4, 1, 2, 3, 4, 0x80 | 30, 26,
                                   0x00, 0, 0xFF, 255, 80, 0x00, 0, 0xFF, 144, 0x80 | 80};
    memcpy(file, scan, sizeof scan);
    file_len = sizeof scan;
    check_scan("scan read", SCAN_UNPACKED, KUTIMUQ_ACCEPTED);
    file_len++;
    check_scan("scan, a byte left", SCAN_UNPACKED, KUTIMUQ_WRONG_TAIL);
    file_len -= 2;
    check_scan("scan cut", SCAN_UNPACKED, KUTIMUQ_INPUT_ENDS);
    file[IMG_COUNT] = UINT8_MAX;
    check_scan("scan, record at fault", SCAN_UNPACKED, KUTIMUQ_RECORD_CROSSES);
    file[IMG_COUNT] = 0;
    check_scan("scan, scanline run at fault", SCAN_UNPACKED, KUTIMUQ_WRONG_SCANLINE_RUN);
    file[IMG_VERSION]++;
    check_scan("scan of another version", NOT_UNPACKED, KUTIMUQ_OUTSIDE_PROFILE);
    file_len = 0;
    check_scan("scan without a header", NOT_UNPACKED, KUTIMUQ_WRONG_LENGTH);
    area_len = KUTIMUQ_IMG_BYTES - 1;
    check("area too short for a scan", read_img, NOT_UNPACKED, KUTIMUQ_AREA_TOO_SHORT);
}

/* Spectrum 512 files that are not unpacked. */
static void spectrum_files(void)
{
    memset(spectrum_file, PAINT, sizeof spectrum_file);
    file_len = KUTIMUQ_SPU_FILE_BYTES;
    check_spectrum("SPU read", KUTIMUQ_KIND_SPU, NOT_UNPACKED, KUTIMUQ_ACCEPTED);
    check_spectrum("Tiny as Spectrum 512", KUTIMUQ_KIND_TINY, NOT_UNPACKED, KUTIMUQ_UNKNOWN_KIND);
    check_spectrum("SPU as SPC", KUTIMUQ_KIND_SPC, NOT_UNPACKED, KUTIMUQ_WRONG_LENGTH);
    file_len--;
    check_spectrum("SPU cut", KUTIMUQ_KIND_SPU, NOT_UNPACKED, KUTIMUQ_WRONG_LENGTH);
    file_len = 0;
    check_spectrum("SPC without a header", KUTIMUQ_KIND_SPC, NOT_UNPACKED, KUTIMUQ_WRONG_LENGTH);
    palettes_len = KUTIMUQ_SPECTRUM_PALETTE_WORDS - 1;
    check("palettes too short", read_spectrum, NOT_UNPACKED, KUTIMUQ_AREA_TOO_SHORT);
    palettes_len++;
    area_len = KUTIMUQ_SCREEN_BYTES - 1;
    check("screen too short", read_spectrum, NOT_UNPACKED, KUTIMUQ_AREA_TOO_SHORT);
}

/* Repeats and a literal, then 15 words in the first palette and none in the others. */
static void fill_spc_file(void)
{
    static const uint8_t header[] = {'S', 'P', 0, 0,
                                     0, 0, DATA_MAP_BYTES >> 8, DATA_MAP_BYTES & 255,
                                     0, 0, COLOUR_MAP_BYTES >> 8, COLOUR_MAP_BYTES & 255};
    memset(spectrum_file, 0, sizeof spectrum_file);
    memcpy(spectrum_file, header, sizeof header);
    for (size_t at = DATA_MAP; at < LAST_RECORD; at += 2) {
        spectrum_file[at] = REPEAT_130;
    }
    spectrum_file[LAST_RECORD] = LITERAL_120;
    spectrum_file[COLOUR_MAP] = 0x7F;
    spectrum_file[COLOUR_MAP + 1] = 0xFF;
    file_len = SPC_BYTES;
}

static void spc_files(void)
{
    fill_spc_file();
    check_spc("SPC read", KUTIMUQ_ACCEPTED);
    spectrum_file[COLOUR_LENGTH]++;
    file_len++;
    check_spc("SPC, a byte left in the colour map", KUTIMUQ_SIZE_MISMATCH);
    spectrum_file[COLOUR_LENGTH] -= 3;
    file_len -= 3;
    check_spc("SPC, vector cut", KUTIMUQ_INPUT_ENDS);
    spectrum_file[SPC_BYTES - 3] = 1;
    check_spc("SPC, words cut", KUTIMUQ_INPUT_ENDS);
    spectrum_file[COLOUR_MAP] |= 0x80;
    check_spc("SPC, bit 15 set", KUTIMUQ_BIT_15_SET);
    spectrum_file[DATA_LENGTH] += 2;
    file_len += 2;
    check_spc("SPC, two bytes left in the data map", KUTIMUQ_SIZE_MISMATCH);
    spectrum_file[LAST_RECORD] = LONG_LITERAL;
    check_spc("SPC, record at fault", KUTIMUQ_RECORD_CROSSES);
    spectrum_file[LAST_RECORD - 2] = 0;
    spectrum_file[LAST_RECORD - 1] = 0;
    check_spc("SPC, data map cut", KUTIMUQ_INPUT_ENDS);
    spectrum_file[SPC_RESERVED] = 1;
    check_spectrum("SPC, reserved word not 0", KUTIMUQ_KIND_SPC, NOT_UNPACKED,
                   KUTIMUQ_WRONG_HEADER);
}

/* A pixel of a Spectrum 512 picture, and a line of them. */
static void check_words(const char *what, size_t line_limit, uint8_t expected)
{
    check(what, spectrum_word, NOT_UNPACKED, expected);
    check(what, spectrum_line, line_limit, expected);
}

static void spectrum_words(void)
{
    area_len = KUTIMUQ_SCREEN_BYTES;
    palettes_len = KUTIMUQ_SPECTRUM_PALETTE_WORDS;
    line = KUTIMUQ_SPECTRUM_LINES - 1;
    for (words_len = KUTIMUQ_SPECTRUM_WIDTH; words_len <= LONG_LINE; words_len++) {
        check_words("palette words", LINE_OF_WORDS, KUTIMUQ_ACCEPTED);
    }
    words_len = KUTIMUQ_SPECTRUM_WIDTH - 1;
    check("line too short", spectrum_line, NOT_UNPACKED, KUTIMUQ_AREA_TOO_SHORT);
    line++;
    check_words("palette words of no line", NOT_UNPACKED, KUTIMUQ_OUT_OF_RANGE);
    palettes_len--;
    check_words("palettes too short", NOT_UNPACKED, KUTIMUQ_AREA_TOO_SHORT);
    column = KUTIMUQ_SPECTRUM_WIDTH - 1;
    check("position", spectrum_position, POSITION, KUTIMUQ_ACCEPTED);
    column++;
    check("position of no column", spectrum_position, NOT_UNPACKED, KUTIMUQ_OUT_OF_RANGE);
}

static void pixels(void)
{
    KutimuqShape shape = kutimuq_shape(picture.resolution);
    whole = (KutimuqRectangle){0, 0, shape.width, shape.height};
    check("tally", tally, NOT_READ, KUTIMUQ_ACCEPTED);
    check("screen out", screen_out, NOT_READ, KUTIMUQ_ACCEPTED);
    check("screen in", screen_in, NOT_READ, KUTIMUQ_ACCEPTED);
}

/* One party sets an entry, the other may not; readings of both parties. */
static void legends(void)
{
    check("new legend", new_legend, LEGEND, KUTIMUQ_ACCEPTED);
    confidence = SURE;
    for (party = 2; party > 0; party--) {
        uint8_t expected = party == 2 ? KUTIMUQ_ACCEPTED : KUTIMUQ_NOT_OWNED;
        check("entry set", set_entry, LEGEND, expected);
        check("pond", pond, NOT_READ, KUTIMUQ_ACCEPTED);
    }
    party = 1;
    check("another's entry released", release_entry, LEGEND, KUTIMUQ_NOT_OWNED);
    confidence = TOO_SURE;
    check("entry out of range", set_entry, LEGEND, KUTIMUQ_OUT_OF_RANGE);
    check("pond out of range", pond, NOT_READ, KUTIMUQ_OUT_OF_RANGE);
    party = 2;
    check("entry released", release_entry, LEGEND, KUTIMUQ_ACCEPTED);
    check("free entry released", release_entry, LEGEND, KUTIMUQ_NOT_OWNED);
}

/* Every other scan line differs from byte to byte; the rest is 0. */
static void fill_screen(void)
{
    for (size_t i = 0; i < sizeof screen; i++) {
        screen[i] = i / LINE_BYTES % 2 == 0 ? (uint8_t)(i * i / 3) : 0;
    }
}

int main(int argc, char **argv)
{
    printing = argc == 2 && strcmp(argv[1], "--depths") == 0;
    fill_screen();
    converted_len = sizeof converted;
    for (picture.resolution = 0; picture.resolution < RESOLUTIONS; picture.resolution++) {
        raw_files();
        packed_files();
        record_steps();
        record_openings();
        animations();
        tiny_files();
        plain_files_converted();
        elite_files_converted();
        pixels();
        legends();
    }
    picture.resolution = 0;
    plates();
    scans();
    spectrum_files();
    spc_files();
    spectrum_words();
    printf("stack: %d passed, %d failed\n", passed, failed);
    return failed != 0;
}
