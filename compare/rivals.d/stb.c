/* Reads and writes by stb_image.h and stb_image_write.h, as a program of its own:
 * read FILE OUT: a line "ok W H" or "error WORDS"; the samples go to OUT
 * after FILE: what the call gave back after an error
 * write W H IN OUT: samples from IN, the file to OUT
 * Heap and stack are filled with the byte FILL of the environment beforehand, so that memory which was never set can be seen. */
#define STB_IMAGE_IMPLEMENTATION
#define STB_IMAGE_WRITE_IMPLEMENTATION
#include <stdio.h>
#include <stdlib.h>
#include <string.h>
#include <stb_image.h>
#include <stb_image_write.h>

/* Fills the stack below with one byte. */
__attribute__((noinline)) static void fill_stack(int byte)
{
    volatile unsigned char room[65536];
    for (size_t i = 0; i < sizeof room; i++)
        room[i] = (unsigned char)byte;
}

static int read_file(const char *path, const char *out)
{
    int w = -1, h = -1, n = -1;
    const char *fill = getenv("FILL");
    fill_stack(fill ? atoi(fill) : 0);
    float *samples = stbi_loadf(path, &w, &h, &n, 3);
    if (!samples) {
        printf("error %s\n", stbi_failure_reason());
        return 0;
    }
    FILE *file = fopen(out, "wb");
    if (!file || fwrite(samples, 12, (size_t)w * h, file) != (size_t)w * h || fclose(file))
        return 2;
    printf("ok %d %d\n", w, h);
    return 0;
}

static int after_error(const char *path)
{
    int w = -1, h = -1, n = -1;
    float *samples = stbi_loadf(path, &w, &h, &n, 3);
    printf("ok stbi_loadf gives %s; sizes told: %d by %d\n", samples ? "a picture" : "NULL", w, h);
    return 0;
}

static int write_file(int w, int h, const char *in, const char *out)
{
    size_t count = (size_t)w * h;
    float *samples = malloc(count * 12);
    FILE *file = fopen(in, "rb");
    if (!samples || !file || fread(samples, 12, count, file) != count)
        return 2;
    puts(stbi_write_hdr(out, w, h, 3, samples) ? "ok" : "error 0 returned");
    return 0;
}

int main(int count, char **words)
{
    if (count == 4 && !strcmp(words[1], "read"))
        return read_file(words[2], words[3]);
    if (count == 3 && !strcmp(words[1], "after"))
        return after_error(words[2]);
    if (count == 6 && !strcmp(words[1], "write"))
        return write_file(atoi(words[2]), atoi(words[3]), words[4], words[5]);
    return 2;
}
