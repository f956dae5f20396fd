/*
 * Holds a long header to the time that its length asks for: one with a million EXPOSURE lines, beside one with an eighth
 * of them. Prints how many times as long it takes. The exit status is 0, or 1 where that is far over 8, or an answer is
 * wrong.
 */
#include <stdio.h>
#include <stdlib.h>
#include <string.h>
#include <time.h>

#include "doorwhisp.h"

#define LINES 1000000
#define TIMES 5

/* A header with so many lines, EXPOSURE=2 and EXPOSURE=.5 in turn; the caller frees it. */
static char *header_of(int lines, size_t *length) {
    static const char first[] = "#?RADIANCE\n", last[] = "\n-Y 1 +X 2\n";
    char *text = malloc(sizeof first + sizeof last + 13 * (size_t)lines), *end = text;
    int i;
    if (text == NULL) return NULL;
    end += sprintf(end, "%s", first);
    for (i = 0; i < lines; i++) end += sprintf(end, i % 2 == 0 ? "EXPOSURE=2\n" : "EXPOSURE=.5\n");
    end += sprintf(end, "%s", last);
    *length = (size_t)(end - text);
    return text;
}

/* The least time that reading a header with so many lines took, in seconds; below 0 where its answer is wrong. */
static double time_of(int lines) {
    size_t length;
    char *text = header_of(lines, &length);
    double least = -1.0;
    int i;
    if (text == NULL) return -1.0;
    for (i = 0; i < TIMES; i++) {
        doorwhisp_answer answer;
        const clock_t start = clock();
        double taken;
        doorwhisp_read_document_header((const uint8_t *)text, length, 65535, 65535, &answer);
        taken = (double)(clock() - start) / CLOCKS_PER_SEC;
        if (answer.refusal != 0 || answer.taken != length || doorwhisp_exposure(&answer) != 1.0f) {
            printf("a header of %d lines: refusal %d, exposure %g\n", lines, (int)answer.refusal,
                   doorwhisp_exposure(&answer));
            least = -1.0;
            break;
        }
        if (least < 0.0 || taken < least) least = taken;
    }
    free(text);
    return least;
}

int main(void) {
    const double part = time_of(LINES / 8), whole = time_of(LINES);
    if (part <= 0.0 || whole < 0.0) return 1;
    printf("a header of %d EXPOSURE lines takes %.3f seconds, %.1f times as long as one of %d\n", LINES, whole,
           whole / part, LINES / 8);
    return whole > 24 * part;
}
