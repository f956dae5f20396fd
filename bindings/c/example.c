/*
 * How a C program reads and writes Radiance HDR pictures with Doorwhisp.
 *
 *     example                     makes a small frame, writes it, and reads it back
 *     example [--crate] FILE..    says how large each picture is, how bright, and what its header states; or why it is
 *                                 refused
 *
 * Pictures are read by the document, or with --crate as zune-hdr reads them. The exit status is 0, or 1 where a file is
 * refused or cannot be had.
 */
#include <stdio.h>
#include <stdlib.h>
#include <string.h>

#include "doorwhisp.h"

/* The calls that belong to a reading. */
typedef struct reading {
    void (*header)(const uint8_t *, size_t, size_t, size_t, doorwhisp_answer *);
    void (*picture)(const uint8_t *, size_t, size_t, size_t, float *, size_t, uint8_t *, size_t, doorwhisp_answer *);
    uint64_t (*most_rows)(uint64_t, uint64_t);
} reading;

static const reading by_document = {doorwhisp_read_document_header, doorwhisp_read_document,
                                    doorwhisp_document_most_rows};
static const reading by_crate = {doorwhisp_read_header, doorwhisp_read, doorwhisp_most_rows};

/* A picture in memory: what it is called, its bytes, and how it is read. */
typedef struct picture {
    const char *name;
    const uint8_t *bytes;
    size_t length;
    const reading *by;
} picture;

/* Prints a refusal, and answers 1. */
static int refused(const char *name, const doorwhisp_answer *answer) {
    printf("%s: refusal %d at %lu: %s\n", name, (int)answer->refusal, (unsigned long)answer->place,
           doorwhisp_words(answer->refusal));
    return 1;
}

/* Prints the darkest and the brightest of some samples, if there are any. */
static void print_range(const float *samples, size_t count) {
    float darkest, brightest;
    size_t i;
    if (count == 0) return;
    darkest = brightest = samples[0];
    for (i = 1; i < count; i++) {
        if (samples[i] < darkest) darkest = samples[i];
        if (samples[i] > brightest) brightest = samples[i];
    }
    printf(", samples from %g to %g", darkest, brightest);
}

/* Prints what a header states of the kind of colour and the exposure, if it does, and axes that are not the usual ones. */
static void print_stated(const doorwhisp_answer *answer) {
    static const char *const axes[] = {"-Y -X", "+Y -X", "+Y +X", "+X -Y", "-X -Y", "-X +Y", "+X +Y"};
    if (answer->colour == DOORWHISP_RGBE) printf(", rgbe");
    if (answer->colour == DOORWHISP_XYZE) printf(", xyze");
    if (answer->exposure != 0) printf(", exposure %g", doorwhisp_exposure(answer));
    if (answer->orientation > DOORWHISP_MINUS_Y_PLUS_X)
        printf(", stored %s", axes[answer->orientation - DOORWHISP_MINUS_Y_MINUS_X]);
}

/* Reads a picture of which this is the header, and says what it is. */
static int show_rows(const picture *p, const doorwhisp_answer *head) {
    const size_t count = 3 * head->width * head->height, row = doorwhisp_store_size(head);
    float *out = malloc(count * sizeof *out + 1);
    uint8_t *store = malloc(row + 1);
    int status = 1;
    if (out == NULL || store == NULL) {
        printf("%s: no memory\n", p->name);
    } else {
        doorwhisp_answer answer;
        p->by->picture(p->bytes, p->length, 65535, 65535, out, count, store, row, &answer);
        status = answer.refusal != 0;
        if (status) {
            refused(p->name, &answer);
        } else {
            printf("%s: %lu by %lu pixels, %lu of %lu bytes taken", p->name, (unsigned long)answer.width,
                   (unsigned long)answer.height, (unsigned long)answer.taken, (unsigned long)p->length);
            print_range(out, count);
            print_stated(&answer);
            printf("\n");
        }
    }
    free(out);
    free(store);
    return status;
}

/* Says why a picture is refused within its first stored rows, which its bytes cannot hold: these are read alone. */
static int show_first(const picture *p, size_t start, size_t width, size_t height) {
    char header[64];
    const int said = sprintf(header, "#?RGBE\n\n-Y %lu +X %lu\n", (unsigned long)height, (unsigned long)width);
    const size_t length = (size_t)said;
    const doorwhisp_answer head = {0, 0, width, height, length, 0, 0, DOORWHISP_MINUS_Y_PLUS_X};
    uint8_t *file = malloc(length + p->length);
    picture first = *p;
    int status = 1;
    if (file == NULL) {
        printf("%s: no memory\n", p->name);
    } else {
        memcpy(file, header, length);
        memcpy(file + length, p->bytes + start, p->length - start);
        first.bytes = file;
        first.length = length + p->length - start;
        status = show_rows(&first, &head);
    }
    free(file);
    return status;
}

/* Reads a picture, and says what it is. Memory is asked for rows that its bytes can hold, and one. */
static int show(const char *name, const uint8_t *bytes, size_t length, const reading *by) {
    const picture p = {name, bytes, length, by};
    doorwhisp_answer head;
    uint64_t row, rows, most;
    by->header(bytes, length, 65535, 65535, &head);
    if (head.refusal != 0) return refused(name, &head);
    row = doorwhisp_row_pixels(&head);
    rows = row == head.width ? head.height : head.width;
    most = by->most_rows(row, length - head.taken);
    if (most < rows) return show_first(&p, head.taken, row, most + 1);
    return show_rows(&p, &head);
}

/* Reads a file into memory; the caller frees it. Answers a null pointer where the file cannot be had. */
static uint8_t *load(const char *name, size_t *length) {
    FILE *file = fopen(name, "rb");
    uint8_t *bytes = NULL;
    long size;
    if (file == NULL) return NULL;
    if (fseek(file, 0, SEEK_END) == 0 && (size = ftell(file)) >= 0 && fseek(file, 0, SEEK_SET) == 0) {
        bytes = malloc((size_t)size + 1);
        if (bytes != NULL) *length = fread(bytes, 1, (size_t)size, file);
    }
    fclose(file);
    return bytes;
}

/* Writes a frame of 8 by 2 pixels, and reads it back, whole and cut short; where one byte is lost, by both readings. */
static int own_frame(void) {
    float samples[3 * 8 * 2];
    uint8_t file[143];
    doorwhisp_answer answer;
    size_t i;

    for (i = 0; i < 3 * 8 * 2; i += 3) {
        samples[i] = 1.0f;
        samples[i + 1] = i % 2 == 0 ? 0.5f : 0.25f;
        samples[i + 2] = 0.3f;
    }
    doorwhisp_worst(8, 2, &answer);
    if (answer.refusal != 0) return refused("worst", &answer);
    printf("a file of 8 by 2 pixels has at most %lu bytes\n", (unsigned long)answer.taken);
    doorwhisp_write(8, 2, samples, 3 * 8 * 2, file, sizeof file, &answer);
    if (answer.refusal != 0) return refused("written", &answer);
    printf("this one has %lu\n", (unsigned long)answer.taken);
    show("cut short", file, (size_t)answer.taken - 2, &by_document);
    show("one byte cut off", file, (size_t)answer.taken - 1, &by_document);
    show("the same as zune-hdr reads it", file, (size_t)answer.taken - 1, &by_crate);
    return show("whole", file, (size_t)answer.taken, &by_document);
}

int main(int count, char **names) {
    const reading *by = &by_document;
    int status = 0, i = 1;
    if (count < 2) return own_frame();
    if (strcmp(names[1], "--crate") == 0) {
        by = &by_crate;
        i = 2;
    }
    for (; i < count; i++) {
        size_t length = 0;
        uint8_t *bytes = load(names[i], &length);
        if (bytes == NULL) {
            printf("%s: cannot be read\n", names[i]);
            status = 1;
        } else {
            status |= show(names[i], bytes, length, by);
            free(bytes);
        }
    }
    return status;
}
