/* Holds what doorwhisp.h says to what the calls do: prints what is not so. The exit status is 0, or 1 where something is not. */
#include <math.h>
#include <stdio.h>
#include <string.h>

#include "doorwhisp.h"

static int status = 0;

static void hold(int so, const char *what, int at) {
    if (so) return;
    printf("not so at %d: %s\n", at, what);
    status = 1;
}

/* Reads a file of at most 8 pixels as zune-hdr does, with an answer that was used before. */
static doorwhisp_answer read_file(const void *file, size_t length, float samples[24]) {
    doorwhisp_answer answer;
    uint8_t store[32];
    memset(&answer, 7, sizeof answer);
    doorwhisp_read((const uint8_t *)file, length, 65535, 65535, samples, 24, store, 32, &answer);
    return answer;
}

/* The same by the document. */
static doorwhisp_answer read_by_document(const void *file, size_t length, float samples[24]) {
    doorwhisp_answer answer;
    uint8_t store[32];
    memset(&answer, 7, sizeof answer);
    doorwhisp_read_document((const uint8_t *)file, length, 65535, 65535, samples, 24, store, 32, &answer);
    return answer;
}

static doorwhisp_answer read_text(const char *file, float samples[24]) {
    return read_file(file, strlen(file), samples);
}

/* Each refusal has words of its own, and so has what is none. */
static void hold_words(void) {
    int i, k;
    for (i = 0; i <= 17; i++)
        for (k = 0; k < i; k++) hold(strcmp(doorwhisp_words(i), doorwhisp_words(k)) != 0, "words of their own", i);
    hold(strcmp(doorwhisp_words(DOORWHISP_OLD_RUN), doorwhisp_words(17)) != 0, "words for an old run", 25);
    hold(strcmp(doorwhisp_words(DOORWHISP_NONE), doorwhisp_words(17)) != 0, "words for none", 255);
}

/*
 * Light is as the document has it, in the middle of its step; as zune-hdr reads, half a step below that at exponent bytes
 * 97 to 159, 0 at 0, and too bright or dark else.
 */
static void hold_exponents(void) {
    int e;
    for (e = 0; e <= 255; e++) {
        float found[3];
        double half = e == 0 ? 0.0 : ldexp(1.0, e - 137);
        doorwhisp_document_pixel_from_bytes(128, 0, 255, (uint8_t)e, found);
        hold(found[0] == 257 * half && found[1] == half && found[2] == 511 * half, "the document's light", e);
        doorwhisp_pixel_from_bytes(128, 0, 0, (uint8_t)e, found);
        hold((found[0] == 256 * half) == (e == 0 || (e >= 97 && e <= 159)), "half a step below the document's", e);
        hold(found[1] == 0.0f, "a mantissa of 0", e);
        hold(e == 0 || e > 96 || found[0] > 257 * half, "too bright below", e);
        hold(e < 160 || found[0] < 256 * half, "too dark above", e);
    }
}

/* A coded row of 8 that is cut: 9. As zune-hdr reads, the exponents that are missing after its last count are black. */
static void hold_cuts(void) {
    static const char head[] = "#?RGBE\n\n-Y 1 +X 8\n";
    static const uint8_t row[] = {2, 2, 0, 8, 136, 128, 136, 128, 136, 128, 8, 129, 129, 129, 129, 129, 129, 129, 129};
    const size_t start = sizeof head - 1;
    uint8_t file[64];
    size_t cut, i;
    memcpy(file, head, start);
    memcpy(file + start, row, sizeof row);
    for (cut = 0; cut <= sizeof row; cut++) {
        float samples[24];
        doorwhisp_answer answer = read_by_document(file, start + cut, samples);
        hold(answer.refusal == (cut < sizeof row ? DOORWHISP_BYTES_END : 0), "all cuts are refused", (int)cut);
        answer = read_file(file, start + cut, samples);
        hold(answer.refusal == (cut < 11 ? DOORWHISP_BYTES_END : 0), "which cuts are refused", (int)cut);
        for (i = 0; cut >= 11 && i < 24; i++)
            hold(samples[i] == (i / 3 + 11 < cut ? 1.0f : 0.0f), "which pixels are black", (int)cut);
    }
}

/* As zune-hdr reads, lines of the header are passed over; both axes are rows of w, and all eight numbers are filled. */
static void hold_header(void) {
    float plain[24], lines[24];
    int i;
    static const char text[] = "#?RGBE\n\n-Y 1 +X 2\nabc\x81" "def\x81";
    doorwhisp_answer answer = read_by_document(text, sizeof text - 1, lines);
    hold(answer.width == 2 && answer.height == 1 && answer.taken == 26, "the sizes and the count", 1);
    doorwhisp_read_document_header((const uint8_t *)text, sizeof text - 1, 2, 1, &answer);
    hold(answer.refusal == 0 && answer.width == 2 && answer.height == 1 && answer.taken == 18, "the header alone", 0);
    doorwhisp_read_document_header((const uint8_t *)text, sizeof text - 1, 1, 1, &answer);
    hold(answer.refusal == DOORWHISP_TOO_WIDE && answer.width == 0, "the header alone", 1);
    answer = read_text(text, plain);
    for (i = 0; i < 6; i++) hold(plain[i] + ldexp(1.0, -8) == lines[i], "half a step between the readings", i);
    hold(answer.width == 2 && answer.height == 1 && answer.taken == 26, "the sizes and the count", 0);
    hold(answer.colour == 0 && answer.exposure == 0, "nothing is stated", 0);
    hold(answer.orientation == DOORWHISP_MINUS_Y_PLUS_X, "rows from the top, each from the left", 0);
    answer = read_text("#?RGBE\nEXPOSURE=4\nFORMAT=32-bit_rle_xyze\n\n-Y 1 +X 2\nabc\x81" "def\x81", lines);
    hold(memcmp(plain, lines, 6 * sizeof *plain) == 0, "lines are passed over", 0);
    hold(answer.colour == DOORWHISP_NOT_STATED && answer.exposure == 0, "nothing is told of them", 0);
    answer = read_text("#?RGBE\nEXPOSURE=x\nFORMAT=x\n\n-Y 1 +X 2\nabc\x81" "def\x81", lines);
    hold(answer.refusal == 0 && memcmp(plain, lines, 6 * sizeof *plain) == 0, "lines are passed over", 1);
    answer = read_text("#?RGBE\n\n+X 2 -Y 1\nabc\x81" "def\x81", lines);
    hold(answer.width == 2 && answer.height == 1, "the other axes", 0);
    hold(answer.orientation == DOORWHISP_MINUS_Y_PLUS_X, "the other axes, from the top and from the left", 0);
    hold(memcmp(plain, lines, 6 * sizeof *plain) == 0, "the other axes, row by row", 0);
    answer = read_text("#?RGBE\n\n-Y 2 +X 0\n", lines);
    hold(answer.refusal == DOORWHISP_NO_WIDTH && answer.height == 0, "no values after a refusal", 0);
    hold(answer.orientation == 0, "no orientation after a refusal", 0);
}

/* What a header with these lines answers by the document, and as zune-hdr reads; both were used before. */
static doorwhisp_answer header_of(const char *lines, doorwhisp_answer *by_crate) {
    char text[2000];
    doorwhisp_answer answer;
    const size_t length = (size_t)sprintf(text, "#?RADIANCE\n%s\n-Y 1 +X 2\n", lines);
    memset(&answer, 7, sizeof answer);
    memset(by_crate, 7, sizeof *by_crate);
    doorwhisp_read_header((const uint8_t *)text, length, 2, 1, by_crate);
    doorwhisp_read_document_header((const uint8_t *)text, length, 2, 1, &answer);
    return answer;
}

/* What the lines of a header say, by the document; as zune-hdr reads they say nothing. */
static void hold_stated(void) {
    static const struct {
        const char *lines;
        uint64_t refusal, colour, exposure;
        float number;
    } headers[] = {
        {"", 0, DOORWHISP_NOT_STATED, 0, 1.0f},
        {"FORMAT=32-bit_rle_rgbe\n", 0, DOORWHISP_RGBE, 0, 1.0f},
        {"FORMAT=32-bit_rle_rgbe\nFORMAT= 32-bit_rle_xyze \r\n", 0, DOORWHISP_XYZE, 0, 1.0f},
        {"FORMAT=32-bit_rle_xyze\nFORMAT=32-bit_rle_rgbe\n", 0, DOORWHISP_RGBE, 0, 1.0f},
        {" FORMAT=x\nFORMAT =x\nEXPOSURE =x\n EXPOSURE=x\n", 0, DOORWHISP_NOT_STATED, 0, 1.0f},
        {"EXPOSURE=1\n", 0, DOORWHISP_NOT_STATED, 0x3f800000, 1.0f},
        {"EXPOSURE= .5\t\n", 0, DOORWHISP_NOT_STATED, 0x3f000000, 0.5f},
        {"EXPOSURE=3\nEXPOSURE=1.5e-1\n", 0, DOORWHISP_NOT_STATED, 0x3ee66667, 3 * 0.15f},
        {"EXPOSURE=3355445e1\n", 0, DOORWHISP_NOT_STATED, 0x4c000004, 33554448.0f},
        {"EXPOSURE=1e-10\nEXPOSURE=1e-10\nEXPOSURE=1e-10\nEXPOSURE=1e-10\n", 0, DOORWHISP_NOT_STATED, 0x000116c2, 1e-40f},
        {"FORMAT=16-bit_any\nFORMAT=32-bit_rle_rgbe\n", DOORWHISP_UNKNOWN_FORMAT, 0, 0, 1.0f},
        {"FORMAT=x\nEXPOSURE=x\n", DOORWHISP_UNKNOWN_FORMAT, 0, 0, 1.0f},
        {"EXPOSURE=x\nFORMAT=x\n", DOORWHISP_EXPOSURE, 0, 0, 1.0f},
        {"EXPOSURE=0\n", DOORWHISP_EXPOSURE, 0, 0, 1.0f},
        {"EXPOSURE=-1\n", DOORWHISP_EXPOSURE, 0, 0, 1.0f},
        {"EXPOSURE=12345678\n", DOORWHISP_EXPOSURE, 0, 0, 1.0f},
        {"EXPOSURE=1e11\n", DOORWHISP_EXPOSURE, 0, 0, 1.0f},
        {"EXPOSURE=1e10\nEXPOSURE=1e10\nEXPOSURE=1e10\nEXPOSURE=1e10\nEXPOSURE=1e-10\n", DOORWHISP_EXPOSURE, 0, 0, 1.0f},
    };
    static const char file[] = "#?RGBE\nEXPOSURE=4\nFORMAT=32-bit_rle_xyze\n\n-Y 1 +X 1\n\x08\x08\x08\x88";
    static const char wrong[] = "#?RGBE\nEXPOSURE=4\nFORMAT=x\n\n-Y 1 -X 1\n\x08\x08\x08\x88";
    float samples[24] = {0};
    doorwhisp_answer answer, by_crate;
    int i;
    for (i = 0; i < (int)(sizeof headers / sizeof *headers); i++) {
        answer = header_of(headers[i].lines, &by_crate);
        hold(answer.refusal == headers[i].refusal && answer.place == 0, "the refusal of a line", i);
        hold(answer.refusal != 0 || answer.width == 2, "the sizes behind the lines", i);
        hold(answer.colour == headers[i].colour, "the kind of colour", i);
        hold(answer.exposure == headers[i].exposure, "the exposure", i);
        hold(doorwhisp_exposure(&answer) == headers[i].number, "the exposure as a number", i);
        hold(by_crate.refusal == 0 && by_crate.width == 2, "lines are passed over", i);
        hold(by_crate.colour == 0 && by_crate.exposure == 0, "nothing is told of them", i);
    }
    answer = read_by_document(file, sizeof file - 1, samples);
    hold(answer.colour == DOORWHISP_XYZE && doorwhisp_exposure(&answer) == 4.0f, "what a file states", 0);
    hold(samples[0] == 8.5f && answer.taken == sizeof file - 1, "samples are as they are stored", 0);
    samples[0] = 7.0f;
    answer = read_by_document(wrong, sizeof wrong - 1, samples);
    hold(answer.refusal == DOORWHISP_UNKNOWN_FORMAT && samples[0] == 7.0f, "15 comes before 2, and nothing is changed", 0);
    answer = read_file(wrong, sizeof wrong - 1, samples);
    hold(answer.refusal == DOORWHISP_AXES, "as zune-hdr reads it is 2", 0);
}

/* A file of 3 by 2 grey pixels: its line of sizes, its pixels as they are stored, and how that is told. */
typedef struct turned {
    const char *sizes, *stored;
    uint64_t orientation;
    size_t row;
} turned;

/* The picture A B C over D E F in each of the eight orientations. */
static const turned all_eight[] = {
    {"-Y 2 +X 3", "ABCDEF", DOORWHISP_MINUS_Y_PLUS_X, 3},  {"-Y 2 -X 3", "CBAFED", DOORWHISP_MINUS_Y_MINUS_X, 3},
    {"+Y 2 -X 3", "FEDCBA", DOORWHISP_PLUS_Y_MINUS_X, 3},  {"+Y 2 +X 3", "DEFABC", DOORWHISP_PLUS_Y_PLUS_X, 3},
    {"+X 3 -Y 2", "ADBECF", DOORWHISP_PLUS_X_MINUS_Y, 2},  {"-X 3 -Y 2", "CFBEAD", DOORWHISP_MINUS_X_MINUS_Y, 2},
    {"-X 3 +Y 2", "FCEBDA", DOORWHISP_MINUS_X_PLUS_Y, 2},  {"+X 3 +Y 2", "DAEBFC", DOORWHISP_PLUS_X_PLUS_Y, 2},
};

/* Its bytes, and how many there are; at exponent byte 136 a step is 1. */
static size_t turned_file(const turned *t, uint8_t file[64]) {
    size_t length = (size_t)sprintf((char *)file, "#?RGBE\n\n%s\n", t->sizes), i;
    for (i = 0; i < 6; i++, length += 4) {
        memset(file + length, t->stored[i], 3);
        file[length + 3] = 136;
    }
    return length;
}

/* The pixels of a file that lacks so many stored rows are in their places, and the rest is as it was lent, 7. */
static void hold_places(const turned *t, const float *samples, size_t rows_missing, int at) {
    const char *missing = t->stored + 6 - rows_missing * t->row;
    int i;
    for (i = 0; i < 6; i++) {
        const float wanted = strchr(missing, "ABCDEF"[i]) ? 7.0f : (float)"ABCDEF"[i] + 0.5f;
        hold(samples[3 * i] == wanted && samples[3 * i + 2] == wanted, "each pixel in its place", 10 * at + i);
    }
}

/* By the document the picture is upright in all eight, by way of a row store as long as a stored row. */
static void hold_orientations(void) {
    int k;
    for (k = 0; k < 8; k++) {
        const turned *t = &all_eight[k];
        float samples[18], lent[18];
        uint8_t file[64], store[12];
        doorwhisp_answer answer;
        const size_t length = turned_file(t, file), row = 4 * t->row;
        int i;
        for (i = 0; i < 18; i++) samples[i] = lent[i] = 7.0f;
        doorwhisp_read_document_header(file, length, 3, 2, &answer);
        hold(answer.refusal == 0 && answer.width == 3 && answer.height == 2, "the sizes wherever they are named", k);
        hold(answer.orientation == t->orientation && answer.orientation == (uint64_t)k + 1, "the orientation", k);
        hold(doorwhisp_row_pixels(&answer) == t->row && doorwhisp_store_size(&answer) == row, "the row store", k);
        doorwhisp_read_document(file, length, 3, 2, samples, 18, store, row - 1, &answer);
        hold(answer.refusal == DOORWHISP_SHORT_STORE && memcmp(samples, lent, sizeof lent) == 0, "a byte less", k);
        doorwhisp_read_document(file, length - 1, 3, 2, samples, 18, store, row, &answer);
        hold(answer.refusal == DOORWHISP_BYTES_END && answer.place == 6 / t->row - 1, "9 in the last stored row", k);
        hold_places(t, samples, 1, k);
        doorwhisp_read_document(file, length, 3, 2, samples, 18, store, row, &answer);
        hold(answer.refusal == 0 && answer.taken == length, "the whole file", k);
        hold(answer.orientation == t->orientation, "the orientation of a file", k);
        hold_places(t, samples, 0, k);
        doorwhisp_read_header(file, length, 3, 2, &answer);
        hold((answer.refusal == DOORWHISP_AXES) == (k != 0 && k != 4), "as zune-hdr reads two are taken", k);
        hold(answer.orientation == (answer.refusal == 0), "as zune-hdr reads all are rows from the top", k);
    }
}

/* A height of 0 needs no row store where columns are stored, and a width of 0 is 7; other pairs of axes are 2. */
static void hold_other_sizes(void) {
    static const struct {
        const char *file;
        uint64_t refusal;
    } files[] = {
        {"#?RGBE\n\n+X 3 -Y 0\n", 0},
        {"#?RGBE\n\n-X 3 +Y 0\n", 0},
        {"#?RGBE\n\n-Y 0 -X 3\n", DOORWHISP_SHORT_STORE},
        {"#?RGBE\n\n+X 0 -Y 3\n", DOORWHISP_NO_WIDTH},
        {"#?RGBE\n\n-Y 0 +Y 3\n", DOORWHISP_AXES},
        {"#?RGBE\n\n+X 0 -X 3\n", DOORWHISP_AXES},
        {"#?RGBE\n\nY 0 X 3\n", DOORWHISP_AXES},
        {"#?RGBE\n\n+X 4 -Y 2\n", DOORWHISP_TOO_WIDE},
        {"#?RGBE\n\n+X 4 -Y 5\n", DOORWHISP_TOO_HIGH},
    };
    float out[1];
    uint8_t store[1];
    doorwhisp_answer answer;
    int i;
    for (i = 0; i < (int)(sizeof files / sizeof *files); i++) {
        doorwhisp_read_document((const uint8_t *)files[i].file, strlen(files[i].file), 3, 4, out, 0, store, 0, &answer);
        hold(answer.refusal == files[i].refusal, "sizes wherever they are named", i);
    }
}

/* Whether three samples are written as these four bytes. */
static int written_as(float r, float g, float b, const char *four) {
    uint8_t bytes[4];
    return doorwhisp_pixel_to_bytes(r, g, b, bytes) == 0 && memcmp(bytes, four, 4) == 0;
}

static void hold_writing(void) {
    uint8_t bytes[4] = {1, 2, 3, 4};
    doorwhisp_answer answer;
    hold(written_as(-1.0f, NAN, 1.0f, "\0\0\x80\x81"), "negative samples and no numbers are 0", 0);
    hold(written_as(1e-32f, 1e-32f, 1e-32f, "\0\0\0\0"), "1e-32 is black", 0);
    hold(doorwhisp_pixel_to_bytes(INFINITY, 0.0f, 0.0f, bytes) == DOORWHISP_TOO_BRIGHT, "plus infinity is too bright", 0);
    hold(memcmp(bytes, "\1\2\3\4", 4) == 0, "a refusal leaves the bytes", 0);
    doorwhisp_worst(8, 2, &answer);
    hold(answer.refusal == 0 && answer.width == 0 && answer.taken == 143, "a length is in taken", 0);
}

/* A flat row with a pixel 1, 1, 1, n is refused by 25, with its row; one byte of that pixel less, and it is 9. */
static void hold_old_runs(void) {
    static const char file[] = "#?RGBE\n\n-Y 2 +X 1\n\x09\x09\x09\x88\x01\x01\x01\x02";
    float samples[24] = {0};
    doorwhisp_answer answer = read_file(file, sizeof file - 1, samples);
    hold(answer.refusal == DOORWHISP_OLD_RUN && answer.place == 1 && answer.taken == 0, "refusal 25 in row 1", 0);
    hold(samples[0] == 9.0f && samples[2] == 9.0f && samples[3] == 0.0f, "the row before it", 0);
    answer = read_file(file, sizeof file - 2, samples);
    hold(answer.refusal == DOORWHISP_BYTES_END && answer.place == 1, "refusal 9 in row 1", 0);
}

/* By the document a pixel 1, 1, 1, n repeats the one before it, and a row that is none of its rows is 14. */
static void hold_broken_rows(void) {
    static const char repeats[] = "#?RGBE\n\n-Y 2 +X 3\n\x09\x09\x09\x88\x01\x01\x01\x02"
                                  "\x08\x08\x08\x88\x01\x01\x01\x03";
    static const char first[] = "#?RGBE\n\n-Y 2 +X 1\n\x09\x09\x09\x88\x01\x01\x01\x00";
    static const char mark[] = "#?RGBE\n\n-Y 1 +X 8\n\x02\x02\x00\x09";
    static const char count[] = "#?RGBE\n\n-Y 1 +X 8\n\x02\x02\x00\x08\x89";
    float samples[24] = {0};
    doorwhisp_answer answer = read_by_document(repeats, sizeof repeats - 1, samples);
    hold(answer.refusal == DOORWHISP_BROKEN_ROW && answer.place == 1 && answer.taken == 0, "a repeat past the end", 0);
    hold(samples[0] == 9.5f && samples[8] == 9.5f && samples[9] == 0.0f, "the row before it", 0);
    answer = read_by_document(repeats, sizeof repeats - 2, samples);
    hold(answer.refusal == DOORWHISP_BYTES_END && answer.place == 1, "refusal 9 in row 1", 1);
    answer = read_by_document(first, sizeof first - 1, samples);
    hold(answer.refusal == DOORWHISP_BROKEN_ROW && answer.place == 1, "a repeat of nothing", 0);
    answer = read_by_document(mark, sizeof mark - 1, samples);
    hold(answer.refusal == DOORWHISP_BROKEN_ROW && answer.place == 0, "another width in the mark", 0);
    answer = read_by_document(count, sizeof count - 1, samples);
    hold(answer.refusal == DOORWHISP_BROKEN_ROW && answer.place == 0, "a count past the end", 0);
}

/* How many rows so many bytes can hold, where the rule changes. */
static void hold_most_rows(void) {
    hold(doorwhisp_most_rows(7, 83) == 2 && doorwhisp_most_rows(7, 84) == 3, "four bytes to a pixel", 7);
    hold(doorwhisp_most_rows(32768, 131071) == 0 && doorwhisp_most_rows(32768, 131072) == 1, "the same", 32768);
    hold(doorwhisp_most_rows(8, 22) == 1 && doorwhisp_most_rows(8, 23) == 2, "a mark and four counts", 8);
    hold(doorwhisp_most_rows(128, 10) == 0 && doorwhisp_most_rows(128, 11) == 1, "a mark and four counts", 128);
    hold(doorwhisp_most_rows(129, 18) == 0 && doorwhisp_most_rows(129, 19) == 1, "a count for 127", 129);
    hold(doorwhisp_most_rows(32767, 2066) == 0 && doorwhisp_most_rows(32767, 2067) == 1, "a count for 127", 32767);
    hold(doorwhisp_most_rows(0, 0) == (uint64_t)-1, "no width", 0);
    hold(doorwhisp_document_most_rows(1, 7) == 1 && doorwhisp_document_most_rows(1, 8) == 2, "a pixel", 1);
    hold(doorwhisp_document_most_rows(2, 15) == 1 && doorwhisp_document_most_rows(2, 16) == 2, "two pixels", 2);
    hold(doorwhisp_document_most_rows(256, 7) == 0 && doorwhisp_document_most_rows(256, 8) == 1, "a repeat", 256);
    hold(doorwhisp_document_most_rows(257, 11) == 0 && doorwhisp_document_most_rows(257, 12) == 1, "two repeats", 257);
    hold(doorwhisp_document_most_rows(65535, 24) == 2, "two repeats", 65535);
    hold(doorwhisp_document_most_rows(0, 0) == (uint64_t)-1, "no width", 0);
}

/* 10000 * major + 100 * minor + patch is the number of the version. */
static void hold_version(void) {
    int major, minor, patch;
    hold(sscanf(DOORWHISP_VERSION, "%d.%d.%d", &major, &minor, &patch) == 3, "three numbers", 0);
    hold(10000 * major + 100 * minor + patch == DOORWHISP_VERSION_NUMBER, "the version as a number", 0);
}

int main(void) {
    hold_words();
    hold_exponents();
    hold_cuts();
    hold_old_runs();
    hold_broken_rows();
    hold_most_rows();
    hold_header();
    hold_stated();
    hold_orientations();
    hold_other_sizes();
    hold_writing();
    hold_version();
    return status;
}
