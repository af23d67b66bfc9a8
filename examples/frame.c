/* SPDX-License-Identifier: Apache-2.0
 *
 * frame FILE [SECTION]
 *
 * Prints the listing of a Crystallographic Binary File, and then how many pixels the frame in one of its sections has, with
 * the least, the greatest and the total of them. Without SECTION it is the first one, if the file has any.
 */
#include <mooringelm.h>

#include <inttypes.h>
#include <stdio.h>
#include <stdlib.h>

static uint8_t listing[MEL_LISTING_LIMIT];

static void fail(const char *why)
{
    fprintf(stderr, "frame: %s\n", why);
    exit(2);
}

/* Every answer has a refusal number, 0 for none. */
static void check(uint32_t refusal, uint32_t place)
{
    if (refusal != 0) {
        printf("refused %" PRIu32 " at %" PRIu32 "\n", refusal, place);
        fprintf(stderr, "frame: %s\n", mel_refusal_text(refusal));
        exit(1);
    }
}

/* The whole file, its length in *len. */
static uint8_t *read_file(const char *name, size_t *len)
{
    FILE *in = fopen(name, "rb");
    uint8_t *file;
    long end;

    if (in == NULL || fseek(in, 0, SEEK_END) != 0 || (end = ftell(in)) < 0)
        fail("the file cannot be read");
    rewind(in);
    *len = (size_t)end;
    file = malloc(*len);
    if (file == NULL && *len > 0)
        fail("not enough memory for the file");
    if (fread(file, 1, *len, in) != *len)
        fail("the file cannot be read");
    fclose(in);
    return file;
}

static void print_pixels(const int64_t *pixels, size_t count)
{
    int64_t least, greatest, total = 0;
    size_t i;

    printf("%zu pixels", count);
    if (count > 0) {
        least = greatest = pixels[0];
        for (i = 0; i < count; i++) {
            if (pixels[i] < least)
                least = pixels[i];
            if (pixels[i] > greatest)
                greatest = pixels[i];
            total += pixels[i];
        }
        printf(", least %" PRId64 ", greatest %" PRId64 ", total %" PRId64, least, greatest, total);
    }
    printf("\n");
}

static void print_frame(const uint8_t *file, size_t len, size_t number)
{
    mel_section_answer section = mel_section(file, len, number);
    mel_answer answer;
    int64_t *pixels;

    check(section.refusal, section.place);
    pixels = malloc(section.elements * sizeof *pixels);
    if (pixels == NULL && section.elements > 0)
        fail("not enough memory for the pixels");
    answer = mel_unpack(file, len, number, pixels, section.elements);
    check(answer.refusal, answer.place);
    printf("frame %zu: ", number);
    print_pixels(pixels, answer.length);
    free(pixels);
}

int main(int argc, char **argv)
{
    size_t len;
    uint8_t *file;
    mel_answer answer;

    if (argc != 2 && argc != 3)
        fail("usage: frame FILE [SECTION]");
    file = read_file(argv[1], &len);

    answer = mel_listing(file, len, listing, sizeof listing);
    check(answer.refusal, answer.place);
    fwrite(listing, 1, answer.length, stdout);

    answer = mel_count(file, len);
    check(answer.refusal, answer.place);
    if (argc == 3)
        print_frame(file, len, (size_t)strtoull(argv[2], NULL, 10));
    else if (answer.length > 0)
        print_frame(file, len, 1);

    free(file);
    return 0;
}
