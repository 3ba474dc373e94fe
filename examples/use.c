/*
 * Shows a picture file: what reading found, the registers it uses with their
 * colours, and the length of its shortest packed file. Of a MacPaint plate it
 * shows what reading found and the length of its shortest file, of a GEM IMG scan
 * its width, lines and black pixels, of a Spectrum 512 picture how many colours an
 * ST shows of it. Of a damaged packed DEGAS file it counts the records before the
 * fault; of a file that begins as a scan or as an SPC file it shows that reading's
 * refusal. Of a NEOchrome file it shows the colour animation too, as the lists of
 * 1989 and 2008 read it.
 *
 *     cc use.c $(pkg-config --cflags --libs kutimuq) -o use
 *     ./use ponds.pc1
 *
 * Exit status 0: accepted, 1: refused, 2: wrong use, or the file cannot be read.
 */

#include <inttypes.h>
#include <stdio.h>
#include <string.h>

#include <kutimuq.h>

enum {
    /* Of an SPC file: the header, a literal for each of 31,840 bytes, a byte left, and 15 words
       in each of 597 palettes. */
    LONGEST_SPC_FILE = 12 + 2 * 31840 + 1 + 597 * (2 + 2 * 15),
    /* The bits of a palette word that an ST shows. */
    ST_COLOUR = 0x777
};

/* As long as the longest file, and one more to see a file that is too long. A scan may be longer,
   by its header or by records that make no bytes: of such a one this reads only the front. */
static uint8_t file[LONGEST_SPC_FILE + 1];
static uint8_t screen[KUTIMUQ_SCREEN_BYTES];
static uint16_t palettes[KUTIMUQ_SPECTRUM_PALETTE_WORDS];
static uint8_t plate[KUTIMUQ_PLATE_BYTES];
static uint8_t scan[KUTIMUQ_IMG_BYTES];
static uint8_t packed[KUTIMUQ_LONGEST_PLATE_FILE];

static int refused(const char *what, KutimuqRefusal refusal)
{
    fprintf(stderr, "%s: refused %u at %zu: %s", what, refusal.number, refusal.place,
            kutimuq_meaning(refusal.number));
    if (refusal.plane_row != 0 || refusal.good_bytes != 0) { /* some readings give neither */
        fprintf(stderr, " (plane row %zu, %zu bytes good)", refusal.plane_row,
                refusal.good_bytes);
    }
    fputc('\n', stderr);
    return 1;
}

static void show_reading(const KutimuqReadAnswer *found)
{
    printf("resolution %u\n", found->picture.resolution);
    printf("records %zu\n", found->records);
    printf("body %zu\n", found->body);
    printf("tail %d\n", found->picture.tail_present);
}

/* The colour animation of a NEOchrome file that was read: no list refuses it. */
static void show_animation(const char *year, uint8_t list, size_t length)
{
    static const char *const directions[] = {"stopped", "left", "right"};
    KutimuqAnimationAnswer shown = kutimuq_animation(list, file, length);
    printf("animation by the list of %s: %s, %s, %u vblanks, %u steps", year,
           shown.on ? "on" : "off", directions[shown.direction], shown.vblanks, shown.step_count);
    if (shown.limits_valid) {
        printf(", registers %u to %u", shown.left_limit, shown.right_limit);
    }
    putchar('\n');
}

/* A line for each register that the picture uses: its colour and its pixels. */
static int show_registers(const KutimuqPicture *picture)
{
    KutimuqShape shape = kutimuq_shape(picture->resolution);
    KutimuqRectangle whole = {0, 0, shape.width, shape.height};
    KutimuqTallyAnswer tally = kutimuq_tally(screen, sizeof screen, picture->resolution, whole);
    if (tally.refusal.number != KUTIMUQ_ACCEPTED) {
        return refused("tally", tally.refusal);
    }
    KutimuqPalette palette;
    memcpy(palette.words, picture->palette, sizeof palette.words);
    for (unsigned number = 0; number < 1U << shape.planes; number++) {
        KutimuqColourAnswer colour =
            kutimuq_colour(picture->resolution, KUTIMUQ_MACHINE_ST, palette, (uint8_t)number);
        if (tally.counts[number] != 0) {
            printf("register %u #%02x%02x%02x %" PRIu32 "\n", number, colour.red, colour.green,
                   colour.blue, tally.counts[number]);
        }
    }
    return 0;
}

/* The picture as form 3; a picture that has none is none the worse. */
static void show_packed(const KutimuqPicture *picture)
{
    KutimuqWriteAnswer written = kutimuq_write(KUTIMUQ_FORM_ELITE_PACKED, *picture, screen,
                                               sizeof screen, packed, sizeof packed);
    if (written.refusal.number == KUTIMUQ_ACCEPTED) {
        printf("packed %zu\n", written.length);
    } else {
        printf("packed: %s\n", kutimuq_meaning(written.refusal.number));
    }
}

/* Counts the whole records before the fault of a packed DEGAS file; another file has none. */
static void show_good_records(size_t length)
{
    KutimuqRecordCursor first = kutimuq_open_records(file, length).cursor;
    KutimuqRecordAnswer step = kutimuq_next_record(file, length, first);
    size_t records = 0;
    while (step.kind != 0) {
        records++;
        step = kutimuq_next_record(file, length, step.next);
    }
    if (records != 0) {
        fprintf(stderr, "good records %zu\n", records);
    }
}

/* A MacPaint file has no mark of its own: it is one if it can be read as one. */
static bool show_plate(size_t length)
{
    KutimuqBodyAnswer found = kutimuq_read_plate(file, length, plate, sizeof plate);
    if (found.refusal.number != KUTIMUQ_ACCEPTED) {
        return false;
    }
    KutimuqWriteAnswer written =
        kutimuq_write_plate(plate, sizeof plate, packed, sizeof packed);
    printf("plate %d x %d\n", KUTIMUQ_PLATE_WIDTH, KUTIMUQ_PLATE_HEIGHT);
    printf("records %zu\n", found.records);
    printf("body %zu\n", found.body);
    printf("packed %zu\n", written.length); /* never refused: the body read is one below the limit */
    return true;
}

/* A GEM IMG file is one if it can be read as one, too. The bits after a line's last pixel do not
   count. */
static bool show_scan(size_t length)
{
    KutimuqImgAnswer found = kutimuq_read_img(file, length, scan, sizeof scan);
    if (found.refusal.number != KUTIMUQ_ACCEPTED) {
        return false;
    }
    size_t line_bytes = (found.width + 7U) / 8;
    unsigned black = 0;
    for (size_t y = 0; y < found.lines; y++) {
        for (size_t x = 0; x < found.width; x++) {
            black += scan[y * line_bytes + x / 8] >> (7 - x % 8) & 1U;
        }
    }
    printf("scan %u x %u\n", found.width, found.lines);
    printf("black %u\n", black);
    return true;
}

/* The first word of a GEM IMG file is its version, 1, and the third its planes, 1. A raw
   DEGAS file may begin with 1 too; its third word is a colour. */
static bool begins_as_scan(size_t length)
{
    return length >= 6 && file[0] == 0 && file[1] == 1 && file[4] == 0 && file[5] == 1;
}

/* An SPC file begins with "SP" and a word 0. */
static bool begins_as_spc(size_t length)
{
    return length >= 4 && memcmp(file, "SP\0", 4) == 0;
}

/* An SPU file has no mark of its own, only its length. */
static KutimuqRefusal read_spectrum(size_t length)
{
    uint8_t kind = begins_as_spc(length) ? KUTIMUQ_KIND_SPC : KUTIMUQ_KIND_SPU;
    return kutimuq_read_spectrum(kind, file, length, screen, sizeof screen, palettes,
                                 KUTIMUQ_SPECTRUM_PALETTE_WORDS);
}

/* Counts the colours of a line that no line before has. */
static unsigned new_colours(size_t line, bool shown[ST_COLOUR + 1])
{
    uint16_t words[KUTIMUQ_SPECTRUM_WIDTH];
    KutimuqRefusal refusal =
        kutimuq_spectrum_line(screen, sizeof screen, palettes, KUTIMUQ_SPECTRUM_PALETTE_WORDS, line,
                              words, KUTIMUQ_SPECTRUM_WIDTH);
    if (refusal.number != KUTIMUQ_ACCEPTED) {
        return 0;
    }
    unsigned colours = 0;
    for (size_t x = 0; x < KUTIMUQ_SPECTRUM_WIDTH; x++) {
        colours += !shown[words[x] & ST_COLOUR];
        shown[words[x] & ST_COLOUR] = true;
    }
    return colours;
}

static bool show_spectrum(size_t length)
{
    if (read_spectrum(length).number != KUTIMUQ_ACCEPTED) {
        return false;
    }
    bool shown[ST_COLOUR + 1] = {false};
    unsigned colours = 0;
    for (size_t line = 1; line < KUTIMUQ_SPECTRUM_LINES; line++) {
        colours += new_colours(line, shown);
    }
    printf("spectrum %d x %d\n", KUTIMUQ_SPECTRUM_WIDTH, KUTIMUQ_SPECTRUM_LINES);
    printf("colours %u\n", colours);
    return true;
}

/* Of a file that no reading accepts, the refusal of the one whose beginning it has. */
static int show_refusal(const char *path, size_t length, KutimuqRefusal refusal)
{
    if (begins_as_scan(length)) {
        return refused(path, kutimuq_read_img(file, length, scan, sizeof scan).refusal);
    }
    if (begins_as_spc(length)) {
        return refused(path, read_spectrum(length));
    }
    show_good_records(length);
    return refused(path, refusal);
}

/* Fills `file`; false where that failed. */
static bool load(const char *path, size_t *length)
{
    FILE *input = fopen(path, "rb");
    if (input == NULL) {
        return false;
    }
    *length = fread(file, 1, sizeof file, input);
    bool failed = ferror(input) != 0;
    return fclose(input) == 0 && !failed;
}

int main(int count, char **words)
{
    if (count != 2) {
        fprintf(stderr, "usage: use FILE\n");
        return 2;
    }
    size_t length;
    if (!load(words[1], &length)) {
        perror(words[1]);
        return 2;
    }

    if (show_plate(length) || show_scan(length) || show_spectrum(length)) {
        return 0;
    }
    /* No DEGAS file is as long as every NEOchrome file. */
    uint8_t kind = length == KUTIMUQ_LONGEST_FILE ? KUTIMUQ_KIND_NEO : KUTIMUQ_KIND_DEGAS;
    KutimuqReadAnswer found = kutimuq_read(kind, file, length, screen, sizeof screen);
    if (found.refusal.number != KUTIMUQ_ACCEPTED) {
        return show_refusal(words[1], length, found.refusal);
    }
    show_reading(&found);
    show_packed(&found.picture);
    if (kind == KUTIMUQ_KIND_NEO) {
        show_animation("1989", KUTIMUQ_LIST_1989, length);
        show_animation("2008", KUTIMUQ_LIST_2008, length);
    }
    return show_registers(&found.picture);
}
