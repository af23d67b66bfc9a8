/* SPDX-License-Identifier: Apache-2.0
 *
 * One call of each program, measured: our library's and CBFlib's. fabio's calls are made in pixels.py and files.py.
 *
 * Our functions come as pointers: several builds of our library can be measured in one process, each a shared object of
 * its own.
 *
 * Each function here returns the nanoseconds of what it measures, or -1 where that did not do its work. Memory is lent
 * by the caller and was touched before.
 */
#define _GNU_SOURCE
#include <stdint.h>
#include <stdio.h>
#include <string.h>
#include <time.h>
#include <cbf.h>
#include <cbf_byte_offset.h>
#include <cbf_file.h>
#include <mooringelm.h>

#if __has_include(<valgrind/callgrind.h>)
#include <valgrind/callgrind.h>
#else
#define CALLGRIND_ZERO_STATS
#define CALLGRIND_TOGGLE_COLLECT
#define CALLGRIND_START_INSTRUMENTATION
#define CALLGRIND_DUMP_STATS_AT(label) (void)(label)
#endif

typedef __typeof__(mel_pack) pack_call;
typedef __typeof__(mel_unpack_octets) unpack_octets_call;
typedef __typeof__(mel_unpack) unpack_call;
typedef __typeof__(mel_replace) replace_call;

/* The label of the call that instructions are counted for; empty while time is measured. */
static char counted[256];
static int64_t began;

void peers_count(const char *label) {
    snprintf(counted, sizeof counted, "%s", label);
    CALLGRIND_START_INSTRUMENTATION;
}

static int64_t thread_time(void) {
    struct timespec now;
    clock_gettime(CLOCK_THREAD_CPUTIME_ID, &now);
    return now.tv_sec * INT64_C(1000000000) + now.tv_nsec;
}

void peers_begin(void) {
    if (counted[0] != 0) {
        CALLGRIND_ZERO_STATS;
        CALLGRIND_TOGGLE_COLLECT;
    } else {
        began = thread_time();
    }
}

int64_t peers_end(void) {
    if (counted[0] == 0)
        return thread_time() - began;
    CALLGRIND_TOGGLE_COLLECT;
    CALLGRIND_DUMP_STATS_AT(counted);
    return 0;
}

int64_t peers_memcpy(void *to, const void *from, size_t size) {
    peers_begin();
    memcpy(to, from, size);
    return peers_end();
}

/* Ours: octets to pixels, and pixels to octets. */

int64_t ours_unpack_octets(unpack_octets_call *call, uint8_t element_type, const uint8_t *octets, size_t size,
                           size_t count, int64_t *pixels) {
    peers_begin();
    mel_answer answer = call(element_type, MEL_BYTE_OFFSET, octets, size, count, pixels, count);
    int64_t took = peers_end();
    return answer.refusal == 0 && answer.length == count ? took : -1;
}

int64_t ours_pack(pack_call *call, uint8_t element_type, const int64_t *pixels, size_t count, uint8_t *out, size_t room,
                  size_t *size) {
    peers_begin();
    mel_answer answer = call(element_type, pixels, count, out, room);
    int64_t took = peers_end();
    *size = answer.length;
    return answer.refusal == 0 ? took : -1;
}

/* CBFlib: the codec reads and writes through a cbf_file. One that has no stream is what the library itself packs to and
 * unpacks from in memory. Its buffer is set before the call, so that nothing is read, grown or flushed in it. */

static int memory_file(cbf_file **file) {
    return *file == NULL ? cbf_make_file(file, NULL) : 0;
}

/* The octets are where the file's buffer would be. */
int64_t cbflib_unpack_octets(size_t element_size, int element_sign, const uint8_t *octets, size_t size, size_t count,
                             void *pixels) {
    static cbf_file *file;
    size_t got = 0;
    if (memory_file(&file) != 0)
        return -1;
    char *own = file->characters;
    file->characters = (char *)octets;
    file->characters_used = size;
    peers_begin();
    int error = cbf_decompress_byte_offset(pixels, element_size, element_sign, count, &got, size, CBF_BYTE_OFFSET,
                                           8 * (int)element_size, element_sign, file, 0, "little_endian", count, count,
                                           0, 0, 0);
    int64_t took = peers_end();
    file->characters = own;
    file->characters_used = 0;
    return error == 0 && got == count ? took : -1;
}

static cbf_file *packed_to;

int64_t cbflib_pack(size_t element_size, int element_sign, void *pixels, size_t count, size_t *size) {
    int bits = 0;
    *size = 0;
    if (memory_file(&packed_to) != 0 || cbf_set_io_buffersize(packed_to, 32 * count + 4096) != 0)
        return -1;
    cbf_file before = *packed_to;
    peers_begin();
    int error = cbf_compress_byte_offset(pixels, element_size, element_sign, count, CBF_BYTE_OFFSET, packed_to, size,
                                         &bits, 0, "little_endian", count, 0, 0, 0);
    int64_t took = peers_end();
    int moved = packed_to->characters_base != before.characters_base;
    before.characters_base = packed_to->characters_base;
    *packed_to = before;
    return error == 0 && !moved ? took : -1;
}

/* Where the octets are that cbflib_pack wrote last. */
const char *cbflib_packed(void) {
    return packed_to->characters_base;
}

const char *cbflib_version(void) {
    return CBF_API_VERSION;
}

/* Ours: files. Every frame of a file of that many sections, the next one `stride` pixels after the one before. */
int64_t ours_frames(unpack_call *call, const uint8_t *file, size_t file_len, size_t sections, int64_t *pixels,
                    size_t each, size_t stride) {
    int right = 1;
    peers_begin();
    for (size_t section = 1; section <= sections; section++)
        right &= call(file, file_len, section, pixels + (section - 1) * stride, each).length == each;
    int64_t took = peers_end();
    return right ? took : -1;
}

int64_t ours_replace(replace_call *call, const uint8_t *file, size_t file_len, const int64_t *frame, size_t count,
                     uint8_t *out, size_t room, size_t *size) {
    peers_begin();
    mel_answer answer = call(file, file_len, 1, frame, count, out, room);
    int64_t took = peers_end();
    *size = answer.length;
    return answer.refusal == 0 ? took : -1;
}

/* CBFlib: files. No digest is looked at. A file is read from memory, or by its path where there is one. */

static int cbflib_read(cbf_handle handle, const char *path, const uint8_t *file, size_t file_len) {
    if (path == NULL)
        return cbf_read_buffered_file(handle, NULL, MSG_NODIGEST, (const char *)file, file_len);
    FILE *stream = fopen(path, "rb");
    return stream == NULL ? CBF_FILEOPEN : cbf_read_file(handle, stream, MSG_NODIGEST);
}

/* Goes to the binary section of a data block. */
static int cbflib_find(cbf_handle handle, unsigned block) {
    return cbf_select_datablock(handle, block) | cbf_find_category(handle, "array_data") |
           cbf_find_column(handle, "data") | cbf_select_row(handle, 0);
}

/* Freeing the handle is not measured. */
int64_t cbflib_frames(const char *path, const uint8_t *file, size_t file_len, size_t sections, int32_t *pixels,
                      size_t each, size_t stride) {
    cbf_handle handle;
    int error = 0, id = 0;
    unsigned blocks = 0;
    peers_begin();
    error |= cbf_make_handle(&handle);
    error |= cbflib_read(handle, path, file, file_len);
    error |= cbf_count_datablocks(handle, &blocks);
    for (unsigned block = 0; error == 0 && block < blocks; block++) {
        size_t got = 0;
        error |= cbflib_find(handle, block);
        error |= cbf_get_integerarray(handle, &id, pixels + block * stride, sizeof(int32_t), 1, each, &got);
        error |= got != each;
    }
    int64_t took = peers_end();
    cbf_free_handle(handle);
    return error == 0 && blocks == sections ? took : -1;
}

/* The file was read before, which is not measured; setting the frame and writing the file is. CBFlib makes an MD5 of
 * the octets, whatever it is told. */
int64_t cbflib_replace(const uint8_t *file, size_t file_len, int32_t *frame, size_t width, size_t height, uint8_t *out,
                       size_t room, size_t *size) {
    cbf_handle handle;
    int error = cbf_make_handle(&handle);
    error |= cbflib_read(handle, NULL, file, file_len);
    error |= cbflib_find(handle, 0);
    FILE *stream = fmemopen(out, room, "wb");
    if (error != 0 || stream == NULL)
        return -1;
    peers_begin();
    error |= cbf_set_integerarray_wdims(handle, CBF_BYTE_OFFSET, 1, frame, sizeof(int32_t), 1, width * height,
                                        "little_endian", width, height, 0, 0);
    error |= cbf_write_file(handle, stream, 0, CBF, MIME_HEADERS | MSG_NODIGEST, ENC_NONE);
    error |= fflush(stream);
    int64_t took = peers_end();
    *size = (size_t)ftell(stream);
    cbf_free_handle(handle);
    fclose(stream);
    return error == 0 ? took : -1;
}
