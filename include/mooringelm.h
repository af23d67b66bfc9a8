/* SPDX-License-Identifier: Apache-2.0
 *
 * Mooringelm: Crystallographic Binary Files and their pixels, for C and whatever calls C.
 *
 * Link with -lmooringelm (libmooringelm.a or libmooringelm.so; `pkg-config --cflags --libs mooringelm` has the words).
 * Every function is proved to answer every input as stated here, and to touch no other memory than what it is lent.
 *
 * What a caller owes, and nothing else: each pointer is valid for as many elements as the length after it says, and
 * aligned for its type; nobody writes to what is lent while a call runs; and what is lent for writing overlaps nothing
 * else that is lent. A length of 0 goes with any pointer, NULL among them. (How that is known: the proof lets a
 * function touch an element only where its index is below the length; the code that the compiler is given marks no
 * pointer as not null; and the tests pass NULL with 0 for every pointer of every function.)
 *
 * An answer comes back by value. `refusal` is 0 where nothing is refused; then `place` and `item` are 0. Else it is the
 * number of the refusal, `place` is the offset in the file where it was met (0 where it has none), and every other field
 * is 0. `item` is 0 in all of today's calls. A refusal leaves all lent memory as it was; success leaves what lies beyond
 * the answer's length as it was.
 *
 * A function that takes a file reads all of it before it writes anything. Sections are numbered from 1, as in the
 * listing. There is no state: any number of threads may call at the same time, on the same file too. No memory is
 * allocated, and 256 KiB of stack are enough for every call.
 */
#ifndef MOORINGELM_H
#define MOORINGELM_H

#include <stddef.h>
#include <stdint.h>

#ifdef __cplusplus
extern "C" {
#endif

#define MEL_VERSION "0.1.0"

/* Element types. */
#define MEL_U8 1
#define MEL_S8 2
#define MEL_U16 3
#define MEL_S16 4
#define MEL_U32 5
#define MEL_S32 6

/* Compressions. */
#define MEL_UNCOMPRESSED 0
#define MEL_BYTE_OFFSET 1

/* Transfer encodings. */
#define MEL_BINARY 0
#define MEL_BASE64 1

/* The most that a file has in bytes and in sections, a section in pixels, a listing and a catalogue in bytes. */
#define MEL_FILE_LIMIT 1073741824
#define MEL_SECTION_LIMIT 512
#define MEL_PIXEL_LIMIT 67108864
#define MEL_LISTING_LIMIT 92672
#define MEL_CATALOGUE_LIMIT 32776

typedef struct {
    uint32_t refusal, place, item, length;
} mel_answer;

typedef struct {
    uint32_t refusal, place, item, length;
    uint64_t start;
} mel_octets_answer;

typedef struct {
    uint32_t refusal, place, item;
    uint32_t boundary, span_end, position, size, elements, id, fastest, second, third, name_start, name_length;
    uint8_t compression, type, encoding;
} mel_section_answer;

/* Counts the sections of a file. The answer is their number, at most MEL_SECTION_LIMIT.
 * Refusals: 1 to 11 for what is wrong in the file, with its place. */
mel_answer mel_count(const uint8_t *file, size_t file_len);

/* Tells what a section's headers say and where it lies. Its span, from the opening boundary's first hyphen to the closing
 * boundary's last, is the bytes from `boundary` up to, not including, `span_end`; `position` is the place of its first
 * octet (BASE64: of its text); `size` is the number of its octets. An ID or a dimension that is absent is 0. The name of
 * its data block is the `name_length` bytes at file + name_start, which lie in the file.
 * Refusals, in this order: 1 to 11 for what is wrong in the file, with its place; 12 at 0 for a section number that is 0
 * or above the count. */
mel_section_answer mel_section(const uint8_t *file, size_t file_len, size_t section);

/* Finds the octets of a BINARY section, which lie in the file as they are: they are the `length` bytes at file + start.
 * Nothing is copied.
 * Refusals, in this order: 1 to 11 for what is wrong in the file, with its place; 12 at 0 for a section number that is 0
 * or above the count; 18 at 0 for a BASE64 section. */
mel_octets_answer mel_octets(const uint8_t *file, size_t file_len, size_t section);

/* Unpacks the pixels of a section, of either encoding and either compression. The answer is how many they are, at most
 * MEL_PIXEL_LIMIT. Room for as many pixels as the file has bytes is always enough; `elements` of mel_section is exact.
 * Refusals, in this order: 1 to 11 for what is wrong in the file, with its place; 12 at 0 for a section number that is 0
 * or above the count; 13 for octets that run out or remain, or a pixel that leaves its type, at the section's first octet
 * (BASE64: the byte after the empty line); 15 at 0 for too little room. */
mel_answer mel_unpack(const uint8_t *file, size_t file_len, size_t section, int64_t *pixels, size_t room);

/* Writes the listing of a file: a line for each section with its number, position, size, elements, compression, type and
 * data block. The answer is the number of bytes, at most MEL_LISTING_LIMIT.
 * Refusals: 1 to 11 for what is wrong in the file, with its place; 15 at 0 for too little room. */
mel_answer mel_listing(const uint8_t *file, size_t file_len, uint8_t *out, size_t room);

/* Writes the catalogue of a file: 8 bytes, then 64 for each section. The answer is the number of bytes, at most
 * MEL_CATALOGUE_LIMIT.
 * Refusals, in this order: 1 to 11 for what is wrong in the file, with its place; 17 for a data block name of more than
 * 32 characters, at the boundary line of the first such section; 15 at 0 for too little room. */
mel_answer mel_catalogue(const uint8_t *file, size_t file_len, uint8_t *out, size_t room);

/* Writes a copy of a file in which the frame of one BINARY section is another. That section is rewritten with byte-offset
 * compression; it keeps its element type, ID and dimensions, and its other headers go. Every byte before its opening
 * boundary and after its closing boundary stays as it is. The old octets need not unpack. The answer is the number of
 * bytes of the copy. Room for file_len + 1,000 + 15 * frame_len bytes is always enough.
 * Refusals, in this order: 1 to 11 for what is wrong in the file, with its place; then, each at 0: 12 for a section
 * number that is 0 or above the count; 18 for a BASE64 section; 14 for a frame of another number of pixels than the
 * section has elements, or a pixel outside the element type; 15 for too little room, or for a copy of more than
 * MEL_FILE_LIMIT bytes. */
mel_answer mel_replace(const uint8_t *file, size_t file_len, size_t section, const int64_t *frame, size_t frame_len,
                       uint8_t *out, size_t room);

/* Packs pixels by the byte-offset rule. The answer is the number of octets, at least one and at most 15 a pixel.
 * Refusals, each at 0, in this order: 14 for an unknown element type, more than MEL_PIXEL_LIMIT pixels, or a pixel
 * outside its type; 15 for too little room. */
mel_answer mel_pack(uint8_t element_type, const int64_t *pixels, size_t count, uint8_t *out, size_t room);

/* Unpacks count pixels from all of octets. The answer is count.
 * Refusals, each at 0, in this order: 13 for an unknown element type or compression, more than MEL_PIXEL_LIMIT pixels,
 * octets that run out or remain, or a pixel that leaves its type; 15 for too little room. */
mel_answer mel_unpack_octets(uint8_t element_type, uint8_t compression, const uint8_t *octets, size_t octets_len,
                             size_t count, int64_t *pixels, size_t room);

/* What a refusal number means, as a short sentence. docs/REFUSALS.md says what usually causes it, and what to do. A
 * number that is withdrawn there is unknown here, and is not used again. */
static inline const char *mel_refusal_text(uint32_t number)
{
    switch (number) {
    case 0: return "no refusal";
    case 1: return "no CBF identifier in the first line";
    case 2: return "text line of more than 80 characters";
    case 3: return "byte that is neither printable text nor a tab";
    case 4: return "file too long, or more than 512 sections";
    case 5: return "header line malformed";
    case 6: return "header repeated, with a bad value, or missing";
    case 7: return "size, elements and dimensions disagree";
    case 8: return "start marker of the octets missing";
    case 9: return "data cut short or closing wrong";
    case 10: return "BASE64 text wrong";
    case 11: return "file ends inside a field";
    case 12: return "no section has this number";
    case 13: return "octets do not unpack";
    case 14: return "wrong number of pixels, or a pixel outside its type";
    case 15: return "too little room, or result file too long";
    case 17: return "data block name of more than 32 characters";
    case 18: return "section is BASE64, not BINARY";
    default: return "unknown refusal number";
    }
}

#ifdef __cplusplus
}
#endif

#endif
