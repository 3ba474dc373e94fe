/*
 * Kutimuq: Atari ST pictures (DEGAS, DEGAS Elite, NEOchrome, Tiny, Spectrum 512),
 * MacPaint plates and GEM IMG scans.
 *
 * **NO POINTER MAY BE NULL, NOT EVEN ONE WITH LENGTH 0.** The proofs cover
 * memory that exists; they promise nothing for a null pointer. For no bytes
 * pass the address of any object and length 0.
 * **AREAS LENT TO ONE CALL MUST NOT OVERLAP**, a pointer must point to as many
 * bytes, or words where it points to words, as the length after it says, and
 * nothing else may write to them before the call returns.
 *
 * Every function takes every other input and answers. The number 0 means
 * accepted; any other number is a refusal. A refusal gives its number, a place,
 * and for numbers 6 and 7, except of a scan or a Spectrum 512 file, how far the
 * rows are good. All else is zero, except a legend or a step's cursor, which come
 * back as given; no byte of any lent area has changed. An accepted answer's
 * refusal is all 0.
 *
 * Resolutions: 0 low (320 x 200, 4 planes), 1 medium (640 x 200, 2 planes),
 * 2 high (640 x 400, 1 plane). A screen is the first 32,000 bytes of the area
 * lent for it; later bytes are not read and not changed. Words in files and
 * screens are big-endian; words in the structs below and in areas of words are
 * plain numbers.
 *
 * A Spectrum 512 picture is a screen at low resolution and 9,552 palette words,
 * the first of the area lent for them: three palettes of 16 words for each of the
 * scan lines 1 to 199. Line 0 has none and cannot be shown.
 *
 * A plate is 720 rows of 72 bytes, 576 pixels each, from the top: the first
 * 51,840 bytes of the area lent for it. The leftmost pixel is a byte's top bit;
 * 0 is white, 1 black.
 *
 * A scan is 1 to 400 lines of 1 to 640 pixels, from the top: (width + 7) / 8 bytes
 * a line, one line after another over the front of the 32,000 bytes lent for it.
 * Pixels are as a plate's; the bits after a line's last pixel are as the file has
 * them.
 */
#ifndef KUTIMUQ_H
#define KUTIMUQ_H

#include <stdbool.h>
#include <stddef.h>
#include <stdint.h>

#ifdef __cplusplus
extern "C" {
#endif

#define KUTIMUQ_VERSION_MAJOR 0
#define KUTIMUQ_VERSION_MINOR 10
#define KUTIMUQ_VERSION_PATCH 0
#define KUTIMUQ_VERSION "0.10.0"

/* The answer must be looked at; no pointer may be null. */
#ifdef __GNUC__
#define KUTIMUQ_MUST_USE __attribute__((warn_unused_result))
#define KUTIMUQ_NONNULL __attribute__((nonnull))
#else
#define KUTIMUQ_MUST_USE
#define KUTIMUQ_NONNULL
#endif

/* The numbers given back. The place is 0 where nothing else is said. */
enum KutimuqNumber {
    KUTIMUQ_ACCEPTED = 0,
    KUTIMUQ_AREA_TOO_SHORT = 1,
    /* Unknown kind (reading), form (writing) or list (animation); a DEGAS file
       that is packed or has a tail, where a plain one is needed; one that is not
       packed, where its records are asked for. */
    KUTIMUQ_UNKNOWN_KIND = 2,
    KUTIMUQ_WRONG_LENGTH = 3,
    /* Of a NEOchrome file. The list of 1989 has no flag: there it is 5. */
    KUTIMUQ_WRONG_FLAG = 4,
    KUTIMUQ_UNKNOWN_RESOLUTION = 5,
    /* Place: the offset of the control byte at fault, or the input's length if
       no byte is left. Within a map of an SPC file the map's end is the input's; in
       the colour map the place is the offset of the palette's vector. */
    KUTIMUQ_INPUT_ENDS = 6,
    /* Place: the record's control byte's offset. In one record this is judged
       before missing input. In an SPC file it is the end of the 31,840 bytes of all
       planes that is crossed. */
    KUTIMUQ_RECORD_CROSSES = 7,
    /* After a DEGAS body not exactly 32 bytes, after a MacPaint body or the last line
       of a GEM IMG file any. Place: the offset after the body or that line. */
    KUTIMUQ_WRONG_TAIL = 8,
    /* None below 32,000 bytes for DEGAS, below 51,200 for MacPaint. */
    KUTIMUQ_NO_PACKED_BODY = 9,
    /* Of a row width, line, column, machine, register, rectangle, party, class,
       floor, confidence, legend or cursor. */
    KUTIMUQ_OUT_OF_RANGE = 10,
    /* Of a Tiny file. Place: the control byte's offset, here and for 12. */
    KUTIMUQ_UNDEFINED_CONTROL = 11,
    /* Of a Tiny file. At one control byte a count cut short is judged before 11,
       a run too long after it. */
    KUTIMUQ_RUN_TOO_LONG = 12,
    /* Of a Tiny file; of an SPC file with more than one byte left in its data map or
       any in its colour map. */
    KUTIMUQ_SIZE_MISMATCH = 13,
    /* Of an SPC file: the flag not 5350 hex, "SP", or the word after it not 0. */
    KUTIMUQ_WRONG_HEADER = 14,
    /* Of an SPC file: no vector names entry 15. */
    KUTIMUQ_BIT_15_SET = 15,
    /* Of a plain DEGAS file to convert: reading ignores them, and no Elite file
       would keep them. */
    KUTIMUQ_IGNORED_BITS_SET = 17,
    /* Of a DEGAS file to convert to plain, which has no tail. */
    KUTIMUQ_NO_ZERO_TAIL = 18,
    /* Of a legend entry to set that another party owns, or to release that is
       free or another's. */
    KUTIMUQ_NOT_OWNED = 19,
    /* Of a MacPaint file. */
    KUTIMUQ_WRONG_VERSION = 20,
    /* Of a GEM IMG file: its version, the length of its header, its planes, pattern
       length, width or lines. */
    KUTIMUQ_OUTSIDE_PROFILE = 21,
    /* Of a GEM IMG file: one that follows a record of its line, has another flag than
       FF, or a count of 0 or past the last line. */
    KUTIMUQ_WRONG_SCANLINE_RUN = 22
};

/* What a number means, in words; never null. */
static inline const char *kutimuq_meaning(uint8_t number)
{
    switch (number) {
    case KUTIMUQ_ACCEPTED:
        return "accepted";
    case KUTIMUQ_AREA_TOO_SHORT:
        return "a lent area too short";
    case KUTIMUQ_UNKNOWN_KIND:
        return "unknown kind or form";
    case KUTIMUQ_WRONG_LENGTH:
        return "file length not allowed";
    case KUTIMUQ_WRONG_FLAG:
        return "NEOchrome flag not 0";
    case KUTIMUQ_UNKNOWN_RESOLUTION:
        return "resolution above 2";
    case KUTIMUQ_INPUT_ENDS:
        return "input ends before the screen or row is full";
    case KUTIMUQ_RECORD_CROSSES:
        return "a record crosses its row's end";
    case KUTIMUQ_WRONG_TAIL:
        return "bytes after the body not as the format has them";
    case KUTIMUQ_NO_PACKED_BODY:
        return "no packed body below the format's limit exists";
    case KUTIMUQ_OUT_OF_RANGE:
        return "a number out of range";
    case KUTIMUQ_UNDEFINED_CONTROL:
        return "a control byte or a count that is not defined";
    case KUTIMUQ_RUN_TOO_LONG:
        return "a count cut short, or a run past the words to make or the data";
    case KUTIMUQ_SIZE_MISMATCH:
        return "data left or words missing after the last run";
    case KUTIMUQ_WRONG_HEADER:
        return "SPC flag or reserved word wrong";
    case KUTIMUQ_BIT_15_SET:
        return "bit 15 of an SPC palette's vector set";
    case KUTIMUQ_IGNORED_BITS_SET:
        return "bits 2 to 14 of a plain file's first word not 0";
    case KUTIMUQ_NO_ZERO_TAIL:
        return "a tail absent or not all zero";
    case KUTIMUQ_NOT_OWNED:
        return "a legend entry of another party, or a free one to release";
    case KUTIMUQ_WRONG_VERSION:
        return "MacPaint version neither 0 nor 2";
    case KUTIMUQ_OUTSIDE_PROFILE:
        return "IMG header outside the screen profile";
    case KUTIMUQ_WRONG_SCANLINE_RUN:
        return "a scanline run out of place, or its flag or count wrong";
    default:
        return "unknown refusal";
    }
}

/* What can be read: kinds 1 to 3 by kutimuq_read, 4 and 5 by kutimuq_read_spectrum. */
enum {
    KUTIMUQ_KIND_DEGAS = 1,
    KUTIMUQ_KIND_NEO = 2,
    KUTIMUQ_KIND_TINY = 3,
    KUTIMUQ_KIND_SPU = 4,
    KUTIMUQ_KIND_SPC = 5
};

/* What can be written. */
enum {
    KUTIMUQ_FORM_PLAIN = 1,        /* DEGAS, 32,034 bytes */
    KUTIMUQ_FORM_ELITE_RAW = 2,    /* DEGAS Elite, 32,066 bytes */
    KUTIMUQ_FORM_ELITE_PACKED = 3, /* DEGAS Elite packed, at most 32,065 bytes */
    KUTIMUQ_FORM_NEO = 4           /* NEOchrome, 32,128 bytes */
};

/* The machine whose colours are shown. */
enum { KUTIMUQ_MACHINE_ST = 1, KUTIMUQ_MACHINE_STE = 2 };

/* What a record does. */
enum {
    KUTIMUQ_RECORD_LITERAL = 1, /* takes the bytes after its control byte as they stand */
    KUTIMUQ_RECORD_REPEAT = 2,  /* takes the byte after its control byte several times */
    KUTIMUQ_RECORD_NOTHING = 3  /* a control byte alone, which makes no byte */
};

/* The list of picture formats by which a NEOchrome header is read. */
enum { KUTIMUQ_LIST_1989 = 1, KUTIMUQ_LIST_2008 = 2 };

/* Which way the colours cycle. The directions in a DEGAS tail have other numbers:
   0 left, 1 off, 2 right. */
enum {
    KUTIMUQ_DIRECTION_STOPPED = 0,
    KUTIMUQ_DIRECTION_LEFT = 1, /* decreasing */
    KUTIMUQ_DIRECTION_RIGHT = 2 /* ascending */
};

/* Sizes in bytes. */
enum {
    KUTIMUQ_SCREEN_BYTES = 32000,      /* a screen */
    KUTIMUQ_LONGEST_FILE = 32128,      /* a DEGAS or NEOchrome file that can be accepted */
    KUTIMUQ_LONGEST_TINY_FILE = 48041, /* a Tiny file that can be accepted: a run for each word */
    KUTIMUQ_WRITE_AREA_BYTES = 32128,  /* the output lent for any form, and for converting */
    KUTIMUQ_WIDEST_LINE = 640,         /* the registers of a scan line */
    KUTIMUQ_WIDEST_ROW = 128,          /* a row to pack or unpack */
    KUTIMUQ_PACK_AREA_BYTES = 129,     /* the output lent for a packed row */
    KUTIMUQ_SPU_FILE_BYTES = 51104,    /* an SPU file */
    KUTIMUQ_IMG_BYTES = 32000,         /* the area lent for a scan */
    KUTIMUQ_PLATE_BYTES = 51840,       /* a plate */
    KUTIMUQ_PLATE_ROW_BYTES = 72,      /* a plate's row */
    KUTIMUQ_LONGEST_PLATE_FILE = 51711 /* a MacPaint file, also the output lent for it */
};

/* Pixels of a plate. */
enum { KUTIMUQ_PLATE_WIDTH = 576, KUTIMUQ_PLATE_HEIGHT = 720 };

/* The most pixels of a line and the most lines of a scan. */
enum { KUTIMUQ_IMG_MAX_WIDTH = 640, KUTIMUQ_IMG_MAX_LINES = 400 };

/* Of a Spectrum 512 picture. */
enum {
    KUTIMUQ_SPECTRUM_WIDTH = 320,            /* columns, also the words of a scan line */
    KUTIMUQ_SPECTRUM_LINES = 200,            /* 0 has no palette: 1 to 199 can be shown */
    KUTIMUQ_SPECTRUM_PALETTE_WORDS = 9552,   /* the area of palette words, in words */
    KUTIMUQ_SPECTRUM_LINE_PALETTE_WORDS = 48 /* of a scan line */
};

/* What a resolution stands for. Its registers are 0 to 2^planes - 1. */
typedef struct KutimuqShape {
    size_t width;
    size_t height;
    size_t planes;
    size_t row_bytes; /* of one plane of one scan line */
} KutimuqShape;

/* The shape of a resolution; all zero for one above 2. */
static inline KutimuqShape kutimuq_shape(uint16_t resolution)
{
    static const KutimuqShape shapes[] = {
        {320, 200, 4, 40}, {640, 200, 2, 80}, {640, 400, 1, 80}, {0, 0, 0, 0}};
    return shapes[resolution < 3 ? resolution : 3];
}

/* Why an input is refused; all 0 in an accepted answer. Plane row and good bytes
   come with numbers 6 and 7 only and are 0 otherwise: reading or converting a
   file or listing its records gives both, unpacking a row gives good bytes, and
   plane row 0, reading a GEM IMG or Spectrum 512 file gives neither. By themselves
   row 0 with 0 bytes cannot be told from "not given": the call and the number
   tell. */
typedef struct KutimuqRefusal {
    uint8_t number;
    size_t place;
    size_t plane_row;  /* the plane row with the record at fault, from 0 */
    size_t good_bytes; /* that row's bytes from the records before it */
} KutimuqRefusal;

/* Packed bytes used or written, and records, do-nothing ones included. */
typedef struct KutimuqRowAnswer {
    KutimuqRefusal refusal;
    size_t bytes;
    size_t records;
} KutimuqRowAnswer;

/* One of the tail's four tables. */
typedef struct KutimuqTable {
    uint16_t words[4];
} KutimuqTable;

/* A picture without its screen. The tail's tables are left limits, right
   limits, directions and delays; all zero where reading found no tail.
   TAIL_PRESENT MUST BE 0 OR 1, as it is where C code assigns it; of another
   byte, copied there by memcpy or through a union, the proofs promise nothing.
   Writing does not look at it: forms 2 and 3 write the tail's words as given. */
typedef struct KutimuqPicture {
    uint16_t resolution;
    uint16_t palette[16];
    bool tail_present;
    KutimuqTable tail[4];
} KutimuqPicture;

/* Body: the packed body's bytes; records: its records, do-nothing ones
   included. For a Tiny file the bytes of both sections and the runs. Both are 0
   for a raw file. */
typedef struct KutimuqReadAnswer {
    KutimuqRefusal refusal;
    KutimuqPicture picture;
    size_t body;
    size_t records;
} KutimuqReadAnswer;

/* Body: the packed body's bytes; records: its records, do-nothing ones
   included. */
typedef struct KutimuqBodyAnswer {
    KutimuqRefusal refusal;
    size_t body;
    size_t records;
} KutimuqBodyAnswer;

/* Length: the file's bytes. Body and records are 0 except for form 3 and a
   plate. */
typedef struct KutimuqWriteAnswer {
    KutimuqRefusal refusal;
    size_t length;
    size_t body;
    size_t records;
} KutimuqWriteAnswer;

/* The answer of a GEM IMG file read. */
typedef struct KutimuqImgAnswer {
    KutimuqRefusal refusal;
    uint16_t width; /* pixels of a line, 1 to 640; 0 where refused */
    uint16_t lines; /* 1 to 400; 0 where refused */
} KutimuqImgAnswer;

/* A position in the 48 palette words of a Spectrum 512 scan line. */
typedef struct KutimuqPositionAnswer {
    KutimuqRefusal refusal;
    uint8_t position; /* 0 to 47; 0 where refused */
} KutimuqPositionAnswer;

/* The palette word that a pixel of a Spectrum 512 picture shows. */
typedef struct KutimuqColourWordAnswer {
    KutimuqRefusal refusal;
    uint16_t word; /* 0 where refused */
} KutimuqColourWordAnswer;

/* Where the next step of a record list stands. */
typedef struct KutimuqRecordCursor {
    size_t offset;     /* of the next record's control byte, from the file's start */
    size_t plane_row;  /* the plane row which that record is in, from 0 */
    size_t good_bytes; /* that row's bytes from the records before it */
} KutimuqRecordCursor;

/* The answer of an opening. The cursor of a refusal is all 0. */
typedef struct KutimuqCursorAnswer {
    KutimuqRefusal refusal;
    KutimuqRecordCursor cursor;
} KutimuqCursorAnswer;

/* The answer of a step: a record; or, with kind 0, done where the refusal is all
   0, else the refusal. Of done and of a refusal offset, plane row and length are
   0 as well, and next is the cursor that was given. */
typedef struct KutimuqRecordAnswer {
    KutimuqRefusal refusal;
    uint8_t kind;             /* 0: no record */
    size_t offset;            /* of the record's control byte, from the file's start */
    size_t plane_row;         /* from 0 */
    size_t length;            /* bytes of the row made: 0 for nothing */
    KutimuqRecordCursor next; /* for the next step */
} KutimuqRecordAnswer;

/* The colour animation of a NEOchrome picture. Each field is shown by itself: the
   header may say on and stopped, or on with limits that are not valid. */
typedef struct KutimuqAnimationAnswer {
    KutimuqRefusal refusal;
    bool limits_valid;
    uint8_t left_limit;  /* 0 to 15; 0 where the limits are not valid */
    uint8_t right_limit; /* 0 to 15; 0 where the limits are not valid */
    bool on;
    uint8_t direction;   /* KUTIMUQ_DIRECTION_ of the speed, on or not */
    uint8_t vblanks;     /* between two cycles, 0 to 127; 0 where stopped */
    uint16_t step_count; /* for which a slide show keeps the picture; 0 by the list of 1989 */
} KutimuqAnimationAnswer;

/* Left plus columns must not exceed the width, top plus lines not the height,
   as whole numbers. No columns or no lines is an empty rectangle. */
typedef struct KutimuqRectangle {
    size_t left;
    size_t top;
    size_t columns;
    size_t lines;
} KutimuqRectangle;

/* Pixels of each register. */
typedef struct KutimuqTallyAnswer {
    KutimuqRefusal refusal;
    uint32_t counts[16];
} KutimuqTallyAnswer;

/* Each colour from 0 to 255. */
typedef struct KutimuqColourAnswer {
    KutimuqRefusal refusal;
    uint8_t red;
    uint8_t green;
    uint8_t blue;
} KutimuqColourAnswer;

/* For each register an owner (0 free, 1 or 2 a party), a class (0 to 255) and a
   confidence (0 to 100). A free entry has class 0 and confidence 0. */
typedef struct KutimuqLegend {
    uint8_t owners[16];
    uint8_t classes[16];
    uint8_t confidences[16];
} KutimuqLegend;

/* The answer of a set or a release, with the legend that it leaves: after a
   refusal the one that was given, unchanged. */
typedef struct KutimuqLegendAnswer {
    KutimuqRefusal refusal;
    KutimuqLegend legend;
} KutimuqLegendAnswer;

/* Pixels of the class at or above the floor and of the class below it, each in
   entries of the party, and all others. They add up to the rectangle's pixels. */
typedef struct KutimuqPondAnswer {
    KutimuqRefusal refusal;
    uint32_t sure;
    uint32_t unsure;
    uint32_t other;
} KutimuqPondAnswer;

/* The 16 palette words, register 0 first. */
typedef struct KutimuqPalette {
    uint16_t words[16];
} KutimuqPalette;

/*
 * Unpacks one PackBits row of `width` bytes, 1 to 128, to the front of `out`.
 * Input left after the full row is allowed; output past the width is unchanged.
 * Refusals in order: 10 width, 1 output below the width, 6 or 7 at the first
 * record at fault. Offsets count from the start of `packed`.
 */
KUTIMUQ_MUST_USE KUTIMUQ_NONNULL
KutimuqRowAnswer kutimuq_unpack_row(const uint8_t *packed, size_t packed_len, size_t width,
                                    uint8_t *out, size_t out_len);

/*
 * Packs a row of 1 to 128 bytes, the whole input, to the shortest byte string
 * that unpacks to it; among equally short ones to the first in dictionary order
 * of unsigned bytes. Output past that string is unchanged.
 * Refusals in order: 10 width, 1 output below 129 bytes.
 */
KUTIMUQ_MUST_USE KUTIMUQ_NONNULL
KutimuqRowAnswer kutimuq_pack_row(const uint8_t *row, size_t row_len, uint8_t *out,
                                  size_t out_len);

/*
 * Takes the registers of one scan line, one byte a pixel, from a screen.
 * Output past the width is unchanged.
 * Refusals in order: 1 screen below 32,000 bytes, 5, 10 line not below the
 * height, 1 output below the width.
 */
KUTIMUQ_MUST_USE KUTIMUQ_NONNULL
KutimuqRefusal kutimuq_line_out(const uint8_t *screen, size_t screen_len, uint16_t resolution,
                                size_t line, uint8_t *out, size_t out_len);

/*
 * Puts the registers of one scan line, one byte a pixel, into a screen. All
 * other bytes of the screen stay; entries past the width are not judged.
 * Refusals in order: 1 screen below 32,000 bytes, 5, 10 line not below the
 * height, 1 registers below the width, 10 a register not below 2^planes.
 */
KUTIMUQ_MUST_USE KUTIMUQ_NONNULL
KutimuqRefusal kutimuq_line_in(uint8_t *screen, size_t screen_len, uint16_t resolution,
                               size_t line, const uint8_t *registers, size_t registers_len);

/*
 * Takes the registers of all pixels, line after line from the top, one byte a
 * pixel, from a screen. Output past width * height is unchanged.
 * Refusals in order: 1 screen below 32,000 bytes, 5, 1 output below
 * width * height.
 */
KUTIMUQ_MUST_USE KUTIMUQ_NONNULL
KutimuqRefusal kutimuq_screen_out(const uint8_t *screen, size_t screen_len,
                                  uint16_t resolution, uint8_t *out, size_t out_len);

/*
 * Puts the registers of all pixels, line after line from the top, one byte a
 * pixel, into a screen. Bytes of the screen past 32,000 stay; entries past
 * width * height are not judged.
 * Refusals in order: 1 screen below 32,000 bytes, 5, 1 registers below
 * width * height, 10 a register not below 2^planes.
 */
KUTIMUQ_MUST_USE KUTIMUQ_NONNULL
KutimuqRefusal kutimuq_screen_in(uint8_t *screen, size_t screen_len, uint16_t resolution,
                                 const uint8_t *registers, size_t registers_len);

/*
 * Counts the pixels of each register in a rectangle.
 * Refusals in order: 1 screen below 32,000 bytes, 5, 10 rectangle.
 */
KUTIMUQ_MUST_USE KUTIMUQ_NONNULL
KutimuqTallyAnswer kutimuq_tally(const uint8_t *screen, size_t screen_len,
                                 uint16_t resolution, KutimuqRectangle rectangle);

/*
 * The colour of a register on a machine. On an ST bits 8-10 of its palette word
 * are red's level, 4-6 green's and 0-2 blue's, and level v is shown as 255v/7
 * rounded down. On an STE levels are 0 to 15: those bits are a level's upper
 * three, bits 11, 7 and 3 its lowest, and level v is shown as 17v. Other bits are
 * ignored. At high resolution register 0 is white and register 1 black, whatever
 * the palette and the machine.
 * Refusals in order: 5, 10 machine neither 1 nor 2, or register not below
 * 2^planes.
 */
KUTIMUQ_MUST_USE
KutimuqColourAnswer kutimuq_colour(uint16_t resolution, uint8_t machine, KutimuqPalette palette,
                                   uint8_t register_number);

/* A new legend: all 16 entries free. */
KUTIMUQ_MUST_USE
KutimuqLegend kutimuq_new_legend(void);

/*
 * A party sets a free entry or its own to a class and a confidence; the entry is
 * then the party's. No other entry changes.
 * Refusals in order: 10 party neither 1 nor 2, register above 15, class above
 * 255, confidence above 100, or a legend in which an owner is above 2, a
 * confidence above 100 or a free entry not zero; 19 another party's entry.
 */
KUTIMUQ_MUST_USE
KutimuqLegendAnswer kutimuq_set_entry(KutimuqLegend legend, uint8_t party,
                                      uint8_t register_number, uint16_t class_number,
                                      uint8_t confidence);

/*
 * A party releases its own entry, which is then free. No other entry changes.
 * Refusals in order: 10 party, register or legend, as above; 19 a free entry or
 * another party's.
 */
KUTIMUQ_MUST_USE
KutimuqLegendAnswer kutimuq_release_entry(KutimuqLegend legend, uint8_t party,
                                          uint8_t register_number);

/*
 * Counts the pixels of a class in a rectangle for a party, sure and unsure ones
 * apart: only entries that the party owns count as sure or unsure, the rest is
 * other.
 * Refusals in order: 1 screen below 32,000 bytes, 5, 10 rectangle, party, class
 * above 255, floor above 100, or legend, as above.
 */
KUTIMUQ_MUST_USE KUTIMUQ_NONNULL
KutimuqPondAnswer kutimuq_pond(const uint8_t *screen, size_t screen_len, uint16_t resolution,
                               KutimuqRectangle rectangle, uint8_t party,
                               uint16_t class_number, uint8_t floor, KutimuqLegend legend);

/*
 * Reads a DEGAS (kind 1), NEOchrome (kind 2) or Tiny (kind 3) file: the screen
 * goes to the first 32,000 bytes of `area`, later bytes are unchanged. A Tiny
 * file's rotation bytes are skipped; its picture has no tail.
 * Refusals in order: 1 area below 32,000 bytes, 2, 3 (DEGAS under 34 bytes,
 * NEOchrome not 32,128, Tiny under 37), 4, 5, 3 (raw not 32,034 or 32,066,
 * packed above 32,065, Tiny under 41 with rotation bytes or not what its counts
 * give), 6 or 7 at the first record at fault or 11 or 12 at the first control
 * byte at fault, 8 or 13. Offsets count from the file's start. A call takes under
 * 1,000 bytes of stack where the file is raw or the refusal is 1 to 5, else about
 * 34,000: 32,000 of them are the screen into which a packed DEGAS or a Tiny file
 * is unpacked until all is judged.
 */
KUTIMUQ_MUST_USE KUTIMUQ_NONNULL
KutimuqReadAnswer kutimuq_read(uint8_t kind, const uint8_t *file, size_t file_len,
                               uint8_t *area, size_t area_len);

/*
 * Opens the record list of a packed DEGAS file: the cursor of its first record.
 * The file's length and first word are judged, nothing else.
 * Refusals in order: 3 (under 34 bytes), 5, 2 not packed, 3 (above 32,065
 * bytes). A call takes under 1,000 bytes of stack, and so does a step.
 */
KUTIMUQ_MUST_USE KUTIMUQ_NONNULL
KutimuqCursorAnswer kutimuq_open_records(const uint8_t *file, size_t file_len);

/*
 * A step of the record list: the record at a cursor, and the cursor after it. A
 * row is finished the moment it is full: a do-nothing record after it belongs to
 * the next plane row. From the opening's cursor, each step given the cursor that
 * the last one left, the records of the body come in file order, each once; then
 * every step is done, or gives the refusal of kutimuq_read. A loop over them:
 *
 *     KutimuqRecordCursor first = kutimuq_open_records(file, file_len).cursor;
 *     KutimuqRecordAnswer step = kutimuq_next_record(file, file_len, first);
 *     while (step.kind != 0) {
 *         printf("plane row %zu: %zu bytes\n", step.plane_row, step.length);
 *         step = kutimuq_next_record(file, file_len, step.next);
 *     }
 *     return step.refusal.number;
 *
 * The loop need not look at the opening's refusal: each step judges the opening
 * again, whatever its cursor. Nothing is kept between calls, and a cursor that
 * no call gave is taken too: it is refused with 10, or the record there is
 * judged, in a row that has good_bytes bytes. A plane row equal to the number of
 * plane rows (800, 400 or 400) is past the last: done where exactly 32 bytes
 * follow the offset, else 8.
 * Refusals in order: the opening's; 10 offset below 34 or above the file's
 * length, plane row above the number of plane rows, or good bytes not below the
 * bytes of a plane row (40, 80 or 80); 7 or 6 of the record, or 8. Offsets count
 * from the file's start.
 */
KUTIMUQ_MUST_USE KUTIMUQ_NONNULL
KutimuqRecordAnswer kutimuq_next_record(const uint8_t *file, size_t file_len,
                                        KutimuqRecordCursor cursor);

/*
 * The colour animation (colour cycling) in a NEOchrome picture's header, as one
 * of two lists of picture formats reads it; not the format NEOchrome Animation
 * (*.ANI).
 * Both lists: the upper four bits of byte 49 are the left limit, the lower four
 * the right one; the high bit of byte 50 says on; byte 51 is a signed speed x:
 * below 0 left, above 0 right, and |x| - 1 vblanks between two cycles; 0 stopped.
 * List 1 (1989): bytes 0 to 3 are the resolution; the limits are always valid.
 * List 2 (2008): the word at 0 is the flag, the word at 2 the resolution; the high
 * bit of byte 48 says that the limits are valid; the word at 52 is the step count.
 * Both accept the same files, and show the same where that bit is set and the word
 * at 52 is 0. Other bits and bytes are ignored.
 * Refusals in order: 2 list neither 1 nor 2, 3 (not 32,128 bytes), 4 (list 2
 * only), 5 (list 1: also where the word at 0 is not 0). A call takes under 1,000
 * bytes of stack.
 */
KUTIMUQ_MUST_USE KUTIMUQ_NONNULL
KutimuqAnimationAnswer kutimuq_animation(uint8_t list, const uint8_t *file, size_t file_len);

/*
 * Writes a picture in form 1 to 4 to the front of `out`; output past the file
 * is unchanged. Forms 1 and 4 drop the tail; forms 2 and 3 write its words as
 * given, marked present or not.
 * Refusals in order: 1 screen below 32,000 or output below 32,128 bytes, 2, 5,
 * 9 (form 3 only).
 */
KUTIMUQ_MUST_USE KUTIMUQ_NONNULL
KutimuqWriteAnswer kutimuq_write(uint8_t form, KutimuqPicture picture, const uint8_t *screen,
                                 size_t screen_len, uint8_t *out, size_t out_len);

/*
 * Converts a plain DEGAS file to DEGAS Elite with a tail of zeros, to the front
 * of `out`: packed (form 3), or raw (form 2) exactly where no packed body below
 * 32,000 bytes exists; body and records are then 0. Output past the file is
 * unchanged. kutimuq_to_plain of the result gives the plain file back, byte for
 * byte.
 * Refusals in order: 1 output below 32,128 bytes, those of reading DEGAS (3, 5,
 * 3, 6 or 7, 8), 2 for a packed file or one with a tail, 17. A call takes under
 * 1,000 bytes of stack where the output is too short, about 67,000 where the file
 * is packed, else about 34,000: a screen of its own besides what reading takes.
 */
KUTIMUQ_MUST_USE KUTIMUQ_NONNULL
KutimuqWriteAnswer kutimuq_to_elite(const uint8_t *file, size_t file_len, uint8_t *out,
                                    size_t out_len);

/*
 * Converts a DEGAS Elite file, raw or packed, with a tail of zeros to plain DEGAS
 * (form 1), to the front of `out`; output past the file is unchanged. Bits 2 to
 * 14 of its first word are ignored.
 * Refusals in order: 1 output below 32,128 bytes, those of reading DEGAS (3, 5,
 * 3, 6 or 7, 8), 18. Stack as for kutimuq_to_elite.
 */
KUTIMUQ_MUST_USE KUTIMUQ_NONNULL
KutimuqWriteAnswer kutimuq_to_plain(const uint8_t *file, size_t file_len, uint8_t *out,
                                    size_t out_len);

/*
 * Reads a MacPaint file: 512 bytes of header, then the packed rows. The plate
 * goes to the first 51,840 bytes of `plate`, later bytes are unchanged. Of the
 * header only the version, its first four bytes, is judged.
 * Refusals in order: 1 plate below 51,840 bytes, 3 (under 512 or above 51,711
 * bytes), 20, 6 or 7 at the first record at fault, 8 for any byte left after the
 * 720 rows. Offsets count from the file's start; plane row is the plate's row,
 * from 0. A call takes under 1,000 bytes of stack where the refusal is 1, 3 or 20,
 * else about 54,000: 51,840 of them are the plate into which the file is unpacked
 * until all is judged.
 */
KUTIMUQ_MUST_USE KUTIMUQ_NONNULL
KutimuqBodyAnswer kutimuq_read_plate(const uint8_t *file, size_t file_len, uint8_t *plate,
                                     size_t plate_len);

/*
 * Writes a plate as a MacPaint file, a header of 512 zero bytes and the least
 * body, to the front of `out`; output past the file is unchanged.
 * Refusals in order: 1 output below 51,711 or plate below 51,840 bytes, 9 least
 * body not below 51,200 bytes.
 */
KUTIMUQ_MUST_USE KUTIMUQ_NONNULL
KutimuqWriteAnswer kutimuq_write_plate(const uint8_t *plate, size_t plate_len, uint8_t *out,
                                       size_t out_len);

/*
 * Reads a GEM IMG file of the screen profile: the header, then the packed lines.
 * The scan goes to the front of `area`, later bytes are unchanged. Of the header
 * the fifth and sixth words, a pixel's size, and those after the eighth are not
 * judged.
 * A record is a pattern run: 00, a count and the pattern, made as many times; a
 * literal: 80, a count and as many bytes, or none; a solid run: another byte, of
 * whose bits the high one says FF or 00 and the others how many; or a scanline
 * run: 00, 00, FF and a count, the times that the line after it is made. A
 * scanline run stands before every other record of its line, once. A line is
 * finished the moment it is full, and no record crosses its end.
 * Refusals in order: 1 area below 32,000 bytes, 3 (under 16 bytes, or below the
 * header's length, twice its second word), 21 (version not 1, header below 8
 * words, planes not 1, pattern not 1 to 8 bytes, width not 1 to 640, lines not 1
 * to 400), at the first record at fault 6 for a scanline run of under 4 bytes,
 * 22, 7 or 6, and 8 for any byte left after the last line. Offsets count from the
 * file's start. A call takes under 1,000 bytes of stack where the refusal is 1, 3
 * or 21, else about 33,000: 32,000 of them are the area into which the file is
 * unpacked until all is judged.
 */
KUTIMUQ_MUST_USE KUTIMUQ_NONNULL
KutimuqImgAnswer kutimuq_read_img(const uint8_t *file, size_t file_len, uint8_t *area,
                                  size_t area_len);

/*
 * Reads a Spectrum 512 picture, an SPU (kind 4) or SPC (kind 5) file: the screen
 * goes to the first 32,000 bytes of `screen`, the palettes to the first 9,552 words
 * of `palettes`; later bytes and words are unchanged.
 * SPU: the screen, then the palette words.
 * SPC: the flag 5350 hex, "SP"; a reserved word 0; the lengths of the data map and
 * of the colour map, four bytes each; the two maps. The data map unpacks to 31,840
 * bytes: planes 0 to 3, of each plane the words of the lines 1 to 199; line 0 is
 * zeros. A record of it has a signed control byte x: 0 to 127 takes the next x + 1
 * bytes as they stand, -128 to -1 takes the next byte -x + 2 times. After the
 * record that makes the last byte one byte may be left. The colour map has 597
 * palettes: a vector, then a word for each of its set bits from bit 0 on, the
 * palette's entry of that number. The other entries are those of the palette
 * before, in the first palette 0.
 * Refusals in order: 1 screen below 32,000 bytes or palettes below 9,552 words, 2
 * another kind, 3 (SPU not 51,104 bytes, SPC under 12 bytes or not 12 plus its
 * two lengths), 14, in the data map 7 or 6 at the first record at fault, 13 more than
 * one byte left, in the colour map palette by palette 6 vector cut short, 15, 6
 * words cut short, then 13 any byte left. Offsets count from the file's start. A
 * call takes under 1,000 bytes of stack where the file is SPU or the refusal is 1,
 * 2, 3 or 14, else about 33,000: 31,840 of them are the planes into which the data
 * map is unpacked until all is judged.
 */
KUTIMUQ_MUST_USE KUTIMUQ_NONNULL
KutimuqRefusal kutimuq_read_spectrum(uint8_t kind, const uint8_t *file, size_t file_len,
                                     uint8_t *screen, size_t screen_len, uint16_t *palettes,
                                     size_t palettes_len);

/*
 * The position in a scan line's 48 palette words of the one that register c shows
 * at column x: c where x is below t, c + 16 from t on, c + 32 from t + 160 on, with
 * t = 10c - 5 where c is odd, 10c + 1 where c is even.
 * Refusal: 10 column not below 320 or register not below 16. A call takes some 5,300
 * bytes of stack: the table of the 5,120 positions.
 */
KUTIMUQ_MUST_USE
KutimuqPositionAnswer kutimuq_spectrum_position(size_t column, uint8_t register_number);

/*
 * The palette word that the pixel at a column of a scan line shows: that at
 * 48 * (line - 1) + position of `palettes`, where position is that of the column and
 * of the pixel's register. For its colour give kutimuq_colour a palette that has it.
 * Refusals in order: 1 screen below 32,000 bytes or palettes below 9,552 words, 10
 * column not below 320 or line not 1 to 199. A call takes under 1,000 bytes of
 * stack.
 */
KUTIMUQ_MUST_USE KUTIMUQ_NONNULL
KutimuqColourWordAnswer kutimuq_spectrum_word(const uint8_t *screen, size_t screen_len,
                                              const uint16_t *palettes, size_t palettes_len,
                                              size_t column, size_t line);

/*
 * The palette words that the 320 pixels of a scan line show, from the left, to the
 * front of `out`; words past them are unchanged.
 * Refusals in order: 1 screen below 32,000 bytes or palettes below 9,552 words, 10
 * line not 1 to 199, 1 output below 320 words. A call takes some 3,000 bytes of
 * stack.
 */
KUTIMUQ_MUST_USE KUTIMUQ_NONNULL
KutimuqRefusal kutimuq_spectrum_line(const uint8_t *screen, size_t screen_len,
                                     const uint16_t *palettes, size_t palettes_len, size_t line,
                                     uint16_t *out, size_t out_len);

#ifdef __cplusplus
}
#endif

#endif
