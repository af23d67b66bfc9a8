/* SPDX-License-Identifier: Apache-2.0
 *
 * replace IN SECTION OUT LIMIT VALUE
 *
 * Masks hot pixels: writes to OUT a copy of the file IN in which, in the frame of one section, every pixel above LIMIT is
 * VALUE, such as -1 where the element type is signed. Where the file or the new frame is refused, OUT is not made.
 *
 * OUT is a new file, and never one that is there already, so also not IN: whoever writes straight over a file that others
 * edit loses their edits, and a full disk or a kill then leaves a file that is neither the old one nor the new one. An
 * edit in place takes a lock, a temporary file and a rename; `mel replace` and `mel mask` do it (docs/ON-DISK.md).
 */
#define _POSIX_C_SOURCE 200809L
#include <mooringelm.h>

#include <errno.h>
#include <fcntl.h>
#include <inttypes.h>
#include <stdio.h>
#include <stdlib.h>

static void fail(const char *why)
{
    fprintf(stderr, "replace: %s\n", why);
    exit(2);
}

/* The length of an answer, which has a refusal number, 0 for none. */
static size_t length(mel_answer answer)
{
    if (answer.refusal != 0) {
        printf("refused %" PRIu32 " at %" PRIu32 "\n", answer.refusal, answer.place);
        fprintf(stderr, "replace: %s\n", mel_refusal_text(answer.refusal));
        exit(1);
    }
    return answer.length;
}

static int64_t number(const char *text)
{
    char *end;
    long long n;

    errno = 0;
    n = strtoll(text, &end, 10);
    if (end == text || *end != '\0' || errno != 0)
        fail("SECTION, LIMIT and VALUE are whole numbers");
    return n;
}

/* Memory for count elements of that size. */
static void *memory(size_t count, size_t size)
{
    void *p = count <= SIZE_MAX / size ? malloc(count * size) : NULL;

    if (p == NULL && count > 0)
        fail("not enough memory");
    return p;
}

static uint8_t *read_file(const char *name, size_t *len)
{
    FILE *in = fopen(name, "rb");
    uint8_t *file;
    long end;

    if (in == NULL || fseek(in, 0, SEEK_END) != 0 || (end = ftell(in)) < 0)
        fail("IN cannot be read");
    rewind(in);
    *len = (size_t)end;
    file = memory(*len, 1);
    if (fread(file, 1, *len, in) != *len)
        fail("IN cannot be read");
    fclose(in);
    return file;
}

static void write_file(const char *name, const uint8_t *bytes, size_t len)
{
    int file = open(name, O_WRONLY | O_CREAT | O_EXCL, 0666);
    FILE *out;

    if (file < 0 && errno == EEXIST)
        fail("OUT is there already; to edit a file in place use mel replace or mel mask");
    out = file < 0 ? NULL : fdopen(file, "wb");
    if (out == NULL || fwrite(bytes, 1, len, out) != len || fclose(out) != 0)
        fail("OUT cannot be written");
}

/* Returns how many pixels were above the limit. */
static size_t mask(int64_t *pixels, size_t count, int64_t limit, int64_t value)
{
    size_t i, masked = 0;

    for (i = 0; i < count; i++) {
        if (pixels[i] > limit) {
            pixels[i] = value;
            masked++;
        }
    }
    return masked;
}

int main(int argc, char **argv)
{
    size_t len, section, count, masked, room, written;
    uint8_t *file, *out;
    int64_t *pixels;

    if (argc != 6)
        fail("usage: replace IN SECTION OUT LIMIT VALUE");
    section = (size_t)number(argv[2]);
    file = read_file(argv[1], &len);
    pixels = memory(len, sizeof *pixels); /* No section has more pixels than the file has bytes. */
    count = length(mel_unpack(file, len, section, pixels, len));
    masked = mask(pixels, count, number(argv[4]), number(argv[5]));

    if (count > (SIZE_MAX - len - 1000) / 15)
        fail("not enough memory");
    room = len + 1000 + 15 * count; /* Always enough. */
    out = memory(room, 1);
    written = length(mel_replace(file, len, section, pixels, count, out, room));
    write_file(argv[3], out, written);
    printf("frame %zu: %zu of %zu pixels masked, %zu bytes written\n", section, masked, count, written);

    free(out);
    free(pixels);
    free(file);
    return 0;
}
