/*
 * Doorwhisp reads and writes Radiance HDR pictures. Each call below is proved, on every input, to do what the
 * definitions in crates/doorwhisp/specs say.
 *
 * Link with target/staticlib/libdoorwhisp.a, which bindings/archive makes. It is for x86-64 Linux and needs
 * nothing but `memset` of the C library: no -lm, no start-up call.
 *
 * THE ANSWER. Most calls fill a struct doorwhisp_answer that the caller lends; `answer` is the last parameter.
 *
 * LENT MEMORY. A list is a pointer to its first element and the count of its elements (not of bytes). A refusal
 * changes nothing in it, but for 9, 14 and 25, which leave the rows before theirs in the output, in their places.
 * Beyond a result nothing is changed.
 *
 * THE CALLER sees to it that
 *   - each pointer is not null and is aligned for its type, also where the count is 0 (nothing is then read or
 *     written through it, so any address that is not null will do);
 *   - what a call writes (out, store, answer, samples or bytes of one pixel) overlaps nothing else that it is lent,
 *     and no other thread uses it during the call;
 *   - floating point is as a program starts with it: rounding to nearest, no flush to zero.
 * Any contents are allowed: all bytes, all samples (no numbers and infinities too), all sizes and limits.
 *
 * No call keeps a pointer, has state, asks for memory, fails in another way than by its number, or never ends; any
 * thread may call at any time. doorwhisp_length and doorwhisp_write use 131,072 bytes of stack and a little more,
 * the others less than 4,096. The calls under "Reading", and those that make samples from the bytes of one pixel, have
 * no float divide and no square root (tools/no-divide looks for them).
 *
 * SAMPLES are three floats to a pixel, row by row from the top, each row from the left, red, green, blue. A four-byte
 * pixel is three mantissas and the exponent byte.
 *
 * THE READINGS are two. doorwhisp_read_document reads by the Radiance documents:
 *   - Light is (2m + 1) * 2^(E-137) at every exponent byte E from 1 to 255, the middle of its step, as Radiance's own
 *     library shows it. 0 is black; a mantissa of 0 at another exponent byte is half a step of grey.
 *   - A pixel 1, 1, 1, n in a flat row, an old run, repeats the pixel before it n * 256^k times, where k repeats stand
 *     directly ahead of it.
 *   - A row that is none of the document's is refusal 14: one with a mark whose width is not the row's length, a repeat
 *     with no pixel before it in its row, or a count or a repeat that passes the row's end.
 *   - A file that is cut in a row is refused by 9 in that row, wherever the cut is.
 *   - The picture comes upright from each of the eight orientations (enum doorwhisp_orientation). The first axis that
 *     the header names runs from row to row as they are stored, the second along such a row: +X w -Y h is w stored rows
 *     of h pixels, each a column of the picture. It is the stored row that a mark names the width of, that is coded at
 *     8 to 32,767 pixels, that the row store holds, and that 9 and 14 name; those before it are then in their places in
 *     the output. A height of 0 is a picture without pixels, and a width of 0 is refusal 7, wherever they are named.
 *   - The header's lines FORMAT= and EXPOSURE= are told, under "WHAT A HEADER SAYS". One that cannot be read is refusal
 *     15 or 16.
 * doorwhisp_read reads as zune-hdr 0.5.2 does, for programs that are to show what they showed:
 *   - Light is half a step below the document's at the exponent bytes 97 to 159, the lower edge of its step. At 1 to
 *     96 it is shown too bright, at 160 to 255 too dark, by 2^32 or a power of it. 0 is black, and so is a mantissa of
 *     0 at every exponent byte.
 *   - Of the cuts in a row, those among the bytes of the file's last count are not refused: where the last row is coded
 *     and the file ends after its last count, the exponent bytes that are missing, 128 at most, are read as 0, and
 *     those pixels are black. Every other cut in a row is refusal 9.
 *   - The mark's width is not compared with the header's, and a count that passes the row's end stops there.
 *   - A flat row with an old run is refusal 25: zune-hdr's way with them gives other pixels than the document's.
 *   - The header's lines are passed over, whatever they say: the kind of colour and the exposure are not stated.
 *   - +X w -Y h is read row by row, as -Y h +X w is, though by the document it lies column by column. The six other
 *     orientations are refusal 2.
 * In both
 *   - samples are as they are stored: they are not divided by the exposure, and those of a file that states
 *     32-bit_rle_xyze are X, Y and Z;
 *   - the format has no checksum: damage that leaves rows of either kind is read as some other picture.
 *
 * WHAT A HEADER SAYS, by the document, in the lines between its first and the blank one:
 *   - FORMAT=32-bit_rle_rgbe and FORMAT=32-bit_rle_xyze say the kind of colour, and the last such line counts. Every
 *     line FORMAT= with other words is refusal 15.
 *   - EXPOSURE= says a number by which all samples were multiplied: 1 to 7 digits (leading zeros count) with a point
 *     anywhere or none, no sign in front, then none or a power of ten: e or E, a sign or none, one or two digits. That
 *     power (0 where there is none) less the count of digits behind the point is from -10 to 10. It is rounded once, to
 *     the nearest float and of two as near to the even one. Several lines are multiplied in file order, each product
 *     rounded once. What is not written so, and a number or a product that is zero or infinite, is refusal 16, whatever
 *     follows.
 *   - A line counts if it starts with the name and the equals sign, in these letters: " FORMAT=" and "FORMAT =" do
 *     not. White space (bytes 9 to 13 and 32) around the rest has no part. A last line that is ended by the end of the
 *     bytes counts too.
 *   - Of several such faults the first in the file is answered.
 *
 * THE WRITING. A negative sample and one that is no number are written as 0, and a pixel whose largest sample is not
 * above 1e-32 as black; 2^127 and more, plus infinity too, is refusal 12. Each sample is rounded down to its step. Where
 * no sample is negative or no number, what is written comes back by the document at most half a step from each sample,
 * on either side, if each pixel's largest is 0 or above 1e-32; as zune-hdr reads, less than one step below it and never
 * above, if each largest is 0 or from 2^-32 to below 2^31: darker pixels come back too bright there and brighter ones
 * too dark. No pixel that is written from samples starts 1, 1, 1. Four-byte pixels are written as they are given: see
 * doorwhisp_write4.
 *
 * SAVING TWICE. A file that doorwhisp_write wrote, read and written again is the same bytes, if each pixel's largest
 * sample is at most 1e-32, or no sample of it is a number, or the largest is from 2^-106 to below 2^127 by
 * doorwhisp_read_document, from 2^-32 to below 2^31 by doorwhisp_read. Samples may be negative or no numbers: they come
 * back as 0, or in a pixel that is not black by the document as half a step.
 */
#ifndef DOORWHISP_H
#define DOORWHISP_H

#include <stddef.h>
#include <stdint.h>

/* The version of this header, as words and as a number: 10000 * major + 100 * minor + patch. */
#define DOORWHISP_VERSION "0.1.0"
#define DOORWHISP_VERSION_NUMBER 100

/* How the functions that stand in this header are declared. */
#if defined(__cplusplus) || (defined(__STDC_VERSION__) && __STDC_VERSION__ >= 199901L)
#define DOORWHISP_HERE static inline
#elif defined(__GNUC__)
#define DOORWHISP_HERE static __inline__
#else
#define DOORWHISP_HERE static
#endif

#ifdef __cplusplus
extern "C" {
#endif

/* The numbers of the refusals. Of several that apply, the one that comes first in its call's list is answered. */
enum doorwhisp_refusal {
    DOORWHISP_FIRST_LINE = 1,      /* the first line is neither #?RADIANCE nor #?RGBE */
    DOORWHISP_AXES = 2,            /* the axes are none of the eight pairs; as zune-hdr reads, not -Y +X or +X -Y */
    DOORWHISP_SIZE = 3,            /* the height or the width is no number below 2^64 */
    DOORWHISP_TOO_HIGH = 4,        /* the height is over the limit */
    DOORWHISP_TOO_WIDE = 5,        /* the width is over the limit */
    DOORWHISP_SHORT_OUTPUT = 6,    /* the output has fewer than 3 * width * height samples */
    DOORWHISP_NO_WIDTH = 7,        /* the width is 0 */
    DOORWHISP_SHORT_STORE = 8,     /* the row store has fewer bytes than a stored row, which has 4 to a pixel */
    DOORWHISP_BYTES_END = 9,       /* the bytes end too early, in the stored row that `place` names */
    DOORWHISP_OVER_LIMIT = 10,     /* writing: the width or the height is over 65,535 */
    DOORWHISP_WRONG_LENGTH = 11,   /* writing: the frame has not 3 samples (4 bytes) to a pixel */
    DOORWHISP_TOO_BRIGHT = 12,     /* writing: the pixel that `place` names has a sample of 2^127 or more */
    DOORWHISP_NO_ROOM = 13,        /* writing: the file is longer than the output */
    DOORWHISP_BROKEN_ROW = 14,     /* by the document: a width, count or repeat is wrong in the stored row at `place` */
    DOORWHISP_UNKNOWN_FORMAT = 15, /* by the document: a FORMAT is neither 32-bit_rle_rgbe nor 32-bit_rle_xyze */
    DOORWHISP_EXPOSURE = 16,       /* by the document: an exposure cannot be read, or is or becomes zero or infinite */
    DOORWHISP_OLD_RUN = 25,        /* as zune-hdr reads: the row that `place` names is flat and has a pixel 1, 1, 1, n */
    DOORWHISP_NONE = 255           /* the two buffer sizes alone: the number passes 2^64 - 1 */
};

/* The kinds of colour that a header states. */
enum doorwhisp_colour {
    DOORWHISP_NOT_STATED = 0, /* it states none, or it was read as zune-hdr reads */
    DOORWHISP_RGBE = 1,       /* red, green and blue */
    DOORWHISP_XYZE = 2        /* X, Y and Z */
};

/*
 * How the rows of a file lie in its picture, by the axes in the order in which the header names them. The numbers are
 * those of the Orientation tag of TIFF and EXIF. By the document the picture that is read is upright in each of them.
 */
enum doorwhisp_orientation {
    DOORWHISP_MINUS_Y_PLUS_X = 1,  /* rows from the top, each from the left: the usual one, and as zune-hdr reads */
    DOORWHISP_MINUS_Y_MINUS_X = 2, /* rows from the top, each from the right */
    DOORWHISP_PLUS_Y_MINUS_X = 3,  /* rows from the bottom, each from the right */
    DOORWHISP_PLUS_Y_PLUS_X = 4,   /* rows from the bottom, each from the left */
    DOORWHISP_PLUS_X_MINUS_Y = 5,  /* columns from the left, each from the top */
    DOORWHISP_MINUS_X_MINUS_Y = 6, /* columns from the right, each from the top */
    DOORWHISP_MINUS_X_PLUS_Y = 7,  /* columns from the right, each from the bottom */
    DOORWHISP_PLUS_X_PLUS_Y = 8    /* columns from the left, each from the bottom */
};

/*
 * What a call answers. A value that a call does not have is 0, and after a refusal all six are. Calls that answer one
 * count (a length, a buffer size) answer it in `taken`.
 */
typedef struct doorwhisp_answer {
    uint64_t refusal;     /* 0, or the number of the refusal */
    uint64_t place;       /* the row or the pixel that the refusal names, from 0; else 0 */
    uint64_t width;       /* of the picture that was read */
    uint64_t height;      /* of the picture that was read */
    uint64_t taken;       /* how many bytes of the input were taken; or the count that was asked for */
    uint64_t colour;      /* the kind of colour that the header states, or 0 */
    uint64_t exposure;    /* the bit pattern of the exposure that it states, a float above 0; or 0: not stated */
    uint64_t orientation; /* how the file's rows lie, 1 to 8; as zune-hdr reads always 1 */
} doorwhisp_answer;

/* The answer is 64 bytes, as the calls fill it: a compiler that lays it out in another way stops here. */
typedef char doorwhisp_answer_is_64_bytes[sizeof(struct doorwhisp_answer) == 64 ? 1 : -1];

/* What the number of a refusal means, as a sentence without a full stop. */
DOORWHISP_HERE const char *doorwhisp_words(uint64_t refusal) {
    switch (refusal) {
    case 0: return "nothing is wrong";
    case DOORWHISP_FIRST_LINE: return "this is no Radiance file, its first line is wrong";
    case DOORWHISP_AXES: return "the line of sizes does not name a pair of axes that is read";
    case DOORWHISP_SIZE: return "the file does not say its height and width in numbers";
    case DOORWHISP_TOO_HIGH: return "the picture is higher than the limit";
    case DOORWHISP_TOO_WIDE: return "the picture is wider than the limit";
    case DOORWHISP_SHORT_OUTPUT: return "the output is too short for the picture";
    case DOORWHISP_NO_WIDTH: return "the picture has no width";
    case DOORWHISP_SHORT_STORE: return "the row store is too short for a row";
    case DOORWHISP_BYTES_END: return "the file ends in this row";
    case DOORWHISP_OVER_LIMIT: return "the picture is over 65,535 wide or high";
    case DOORWHISP_WRONG_LENGTH: return "the frame does not have the length that its sizes ask for";
    case DOORWHISP_TOO_BRIGHT: return "this pixel is too bright for the format";
    case DOORWHISP_NO_ROOM: return "the output is too short for the file";
    case DOORWHISP_BROKEN_ROW: return "this row is broken, its width or a count or a repeat in it is wrong";
    case DOORWHISP_UNKNOWN_FORMAT: return "the file states a FORMAT that is not known";
    case DOORWHISP_EXPOSURE: return "the file states an EXPOSURE that is no number, or is or becomes zero or infinite";
    case DOORWHISP_OLD_RUN: return "this row has an old run, a pixel 1, 1, 1, n, which is not read";
    case DOORWHISP_NONE: return "the number passes 2^64 - 1";
    default: return "there is no such refusal";
    }
}

/* The exposure that an answer has, or 1 where none is stated: what samples are divided by to undo it. */
DOORWHISP_HERE float doorwhisp_exposure(const struct doorwhisp_answer *answer) {
    union {
        uint32_t pattern;
        float number;
    } exposure;
    if (answer->exposure == 0) return 1.0f;
    exposure.pattern = (uint32_t)answer->exposure;
    return exposure.number;
}

/* How many pixels a stored row of a picture has, by the answer that its header or the whole file had. */
DOORWHISP_HERE uint64_t doorwhisp_row_pixels(const struct doorwhisp_answer *answer) {
    return answer->orientation >= DOORWHISP_PLUS_X_MINUS_Y ? answer->height : answer->width;
}

/* How many bytes the row store needs for it. */
DOORWHISP_HERE uint64_t doorwhisp_store_size(const struct doorwhisp_answer *answer) {
    return 4 * doorwhisp_row_pixels(answer);
}

/*
 * How many rows of a width up to 65,535 so many bytes can hold at most, as doorwhisp_read reads; 2^64 - 1 of width 0. A
 * picture that is higher than what follows its header can hold is refused by 9 or 25 in one of these rows or the next:
 * so no memory need be had for more. That is proved (crates/kept/specs/Least.antt). The samples of these rows are less
 * than 191 times as many bytes.
 */
DOORWHISP_HERE uint64_t doorwhisp_most_rows(uint64_t width, uint64_t bytes) {
    if (width == 0) return (uint64_t)-1;
    if (width < 8 || width > 32767) return bytes / (4 * width);
    return (bytes + 1) / (4 + 8 * ((width + 125) / 127));
}

/*
 * The same as doorwhisp_read_document reads, where a pixel and two repeats of it can be a row of any width; the refusal
 * is then 9 or 14. These are stored rows, and the width is theirs (doorwhisp_row_pixels). The samples of these rows are
 * at most 65,535 times as many bytes.
 */
DOORWHISP_HERE uint64_t doorwhisp_document_most_rows(uint64_t width, uint64_t bytes) {
    if (width == 0) return (uint64_t)-1;
    return bytes / (width == 1 ? 4 : width <= 256 ? 8 : 12);
}

/* ---- Reading: by the document, or, in the calls without that word, as zune-hdr reads ---- */

/*
 * Reads the header at the start of the bytes: width, height, how many bytes the header takes, and by the document the
 * kind of colour, the exposure and the orientation. Call the one that belongs to the reading.
 * `widest` and `highest` are the largest width and height that the caller wants; above 65,535 they count as 65,535.
 * Refusals: 1; 15 or 16 (by the document alone), the one that comes first in the file; 2, 3, 4, 5.
 */
void doorwhisp_read_document_header(const uint8_t *bytes, size_t bytes_length, size_t widest, size_t highest,
                                    struct doorwhisp_answer *answer);
void doorwhisp_read_header(const uint8_t *bytes, size_t bytes_length, size_t widest, size_t highest,
                           struct doorwhisp_answer *answer);

/*
 * Reads a whole file: its samples into the start of `out`, by way of `store`, which holds one stored row. Answers
 * width, height, how many bytes the file took (bytes may follow), and by the document the kind of colour, the exposure
 * and the orientation.
 * `out` needs 3 * width * height samples, `store` as many bytes as doorwhisp_store_size says of the header's answer:
 * 4 * width, and by the document, where the header names X first, 4 * height. So ask for the header first.
 * Refusals: 1; 15 or 16 (by the document alone), the one that comes first in the file; 2, 3, 4, 5, 6, 7, 8; then, in
 * the first stored row at fault, 9 or 14 (as zune-hdr reads, 9 or 25). These in row k leave the stored rows 0 to k - 1
 * in their places in `out` and the rest of it as it was lent; `store` then holds what was read of row k over row k - 1.
 * By the document that is whole flat pixels, copies, runs and literals, and nothing of what is at fault; as zune-hdr
 * reads, every byte as it was read, the pixel 1, 1, 1, n too. On success the start of `store`, as long as it needs to
 * be, is the last stored row, or 0 where there is none.
 */
void doorwhisp_read_document(const uint8_t *bytes, size_t bytes_length, size_t widest, size_t highest, float *out,
                             size_t out_length, uint8_t *store, size_t store_length, struct doorwhisp_answer *answer);
void doorwhisp_read(const uint8_t *bytes, size_t bytes_length, size_t widest, size_t highest, float *out,
                    size_t out_length, uint8_t *store, size_t store_length, struct doorwhisp_answer *answer);

/*
 * How many samples a frame has: 3 * width * height in `taken`; or `refusal` is DOORWHISP_NONE, where that passes
 * 2^64 - 1.
 */
void doorwhisp_output_buffer_size(size_t width, size_t height, struct doorwhisp_answer *answer);

/* ---- Writing: the frame is `samples`, or, in the calls whose names end in 4, four-byte `pixels` ---- */

/*
 * How long the file of the frame is, to the byte, in `taken`.
 * Refusals: 7, 10, 11, 12 (12 not for four-byte pixels).
 */
void doorwhisp_length(size_t width, size_t height, const float *samples, size_t samples_length,
                      struct doorwhisp_answer *answer);
void doorwhisp_length4(size_t width, size_t height, const uint8_t *pixels, size_t pixels_length,
                       struct doorwhisp_answer *answer);

/*
 * The length that no file of that width and height passes, and that some file has, in `taken`.
 * Refusals: 7, 10.
 */
void doorwhisp_worst(size_t width, size_t height, struct doorwhisp_answer *answer);

/*
 * Writes the file of the frame to the start of `out`; its length is in `taken`. Room for the worst length is always
 * enough, and then the length is not counted first.
 * Refusals: 7, 10, 11, 12, 13 (12 not for four-byte pixels); each leaves `out` as it was lent.
 * doorwhisp_write4 writes the pixels as they are given, those that start 1, 1, 1 too: at widths 1 to 7 and over 32,767,
 * where rows are flat, they are repeats when the file is read, by the document, and 25 as zune-hdr reads. At other
 * widths the picture comes back.
 */
void doorwhisp_write(size_t width, size_t height, const float *samples, size_t samples_length, uint8_t *out,
                     size_t out_length, struct doorwhisp_answer *answer);
void doorwhisp_write4(size_t width, size_t height, const uint8_t *pixels, size_t pixels_length, uint8_t *out,
                      size_t out_length, struct doorwhisp_answer *answer);

/*
 * zune-hdr's guess at the length of a file, 4 * width * height + 1024, in `taken`; or `refusal` is DOORWHISP_NONE,
 * where that passes 2^64 - 1. Some files are longer: doorwhisp_worst is the length to trust.
 */
void doorwhisp_expected_buffer_size(size_t width, size_t height, struct doorwhisp_answer *answer);

/* ---- One pixel ---- */

/* The three samples of a four-byte pixel, as doorwhisp_read_document gives them, and as doorwhisp_read does. */
void doorwhisp_document_pixel_from_bytes(uint8_t r, uint8_t g, uint8_t b, uint8_t e, float samples[3]);
void doorwhisp_pixel_from_bytes(uint8_t r, uint8_t g, uint8_t b, uint8_t e, float samples[3]);

/*
 * The four bytes of three samples, as doorwhisp_write stores them. Returns 0; or DOORWHISP_TOO_BRIGHT, and `bytes` is
 * as it was lent.
 */
uint8_t doorwhisp_pixel_to_bytes(float r, float g, float b, uint8_t bytes[4]);

#ifdef __cplusplus
}
#endif

#endif
