/* Calls the library through its C header: the boxes M and C of document 01, the last field of every struct, the three writers, several
   private parts, the program header, the signature parts, the root signature, the settings files, the figures, the section places and the
   pairs of names of document 02, every byte of the answers of every call, null pointers. */
#include "qollqamir.h"

#include <stdio.h>
#include <stdlib.h>
#include <string.h>

static int checks;

#define CHECK(condition)                                                            \
    do {                                                                            \
        checks++;                                                                   \
        if (!(condition)) {                                                         \
            fprintf(stderr, "%s:%d: failed: %s\n", __FILE__, __LINE__, #condition); \
            exit(1);                                                                \
        }                                                                           \
    } while (0)

#define REFUSED(answer, n, p) CHECK((answer).verdict.number == (n) && (answer).verdict.place == (p))
#define ACCEPTED(answer) REFUSED(answer, 0, 0)
#define SET(field, n) CHECK((field).set == 1 && (field).value == (n))
#define UNSET(field) CHECK((field).set == 0 && (field).value == 0)

static const uint8_t *name(const char *four) { return (const uint8_t *)four; }

static uint32_t get32(const uint8_t *at) {
    return (uint32_t)at[0] | (uint32_t)at[1] << 8 | (uint32_t)at[2] << 16 | (uint32_t)at[3] << 24;
}

static size_t put32(uint8_t *at, uint32_t number) {
    for (int i = 0; i < 4; i++) {
        at[i] = (uint8_t)(number >> 8 * i);
    }
    return 4;
}

static size_t put(uint8_t *at, const void *bytes, size_t len) {
    memcpy(at, bytes, len);
    return len;
}

/* A container of a DXIL part, whose data start at byte 48, and a PSV0 part. */
static size_t shader_of(uint8_t *out, const void *dxil, size_t dxil_len, const uint8_t *psv0, size_t len) {
    size_t n = 0;
    n += put(out + n, "DXBC", 4);
    memset(out + n, 0xd1, 16);
    n += 16;
    n += put32(out + n, 1);
    n += put32(out + n, (uint32_t)(56 + dxil_len + len));
    n += put32(out + n, 2);
    n += put32(out + n, 40);
    n += put32(out + n, (uint32_t)(48 + dxil_len));
    n += put(out + n, "DXIL", 4);
    n += put32(out + n, (uint32_t)dxil_len);
    n += put(out + n, dxil, dxil_len);
    n += put(out + n, "PSV0", 4);
    n += put32(out + n, (uint32_t)len);
    n += put(out + n, psv0, len);
    return n;
}

/* The same with four bytes in the DXIL part. */
static size_t shader(uint8_t *out, const uint8_t *psv0, size_t len) { return shader_of(out, "code", 4, psv0, len); }

/* PSV0 data of box M with a runtime record of the stated size and of s bytes. */
static size_t box_m(uint8_t *out, uint32_t stated, size_t s) {
    size_t n = put32(out, stated);
    memset(out + n, 0, s);
    n += s;
    return n + put32(out + n, 0);
}

/* PSV0 data of box C with a runtime record of s bytes and an entry name offset. */
static size_t box_c(uint8_t *out, size_t s, uint32_t offset) {
    size_t n = put32(out, (uint32_t)s);
    memset(out + n, 0, s);
    out[n + 24] = 5;
    put32(out + n + 36, 8);
    put32(out + n + 40, 4);
    put32(out + n + 44, 2);
    put32(out + n + 48, offset);
    n += s;
    n += put32(out + n, 0);
    n += put32(out + n, 8);
    n += put(out + n, "\0main\0\0\0", 8);
    return n + put32(out + n, 0);
}

/* DXIL data of 32 bytes: program version 6.10, bitcode version 252.11, the bytes after the headers numbered from 24 on. */
static void dxil(uint8_t *out, uint32_t stage, uint32_t offset, uint32_t size) {
    put(out, "\x6a\xe1", 2);
    out[2] = (uint8_t)stage;
    out[3] = (uint8_t)(stage >> 8);
    put32(out + 4, 0x12345678);
    put(out + 8, "DXIL\x0b\xfc\xe2\xe3", 8);
    put32(out + 16, offset);
    put32(out + 20, size);
    for (uint8_t i = 24; i < 32; i++) {
        out[i] = i;
    }
}

/* PSV0 data of edition 3 with the names A and BC in the input list, BC in the output list, an empty one and A in the patch list. */
static size_t box_s(uint8_t *out) {
    static const uint32_t names[5] = {1, 3, 3, 0, 1};
    size_t n = put32(out, 52);
    memset(out + n, 0, 52);
    out[n + 24] = 13;
    put(out + n + 28, "\x02\x01\x02", 3);
    n += 52;
    n += put32(out + n, 0);
    n += put32(out + n, 8);
    n += put(out + n, "\0A\0BC\0\0\0", 8);
    n += put32(out + n, 0);
    n += put32(out + n, 16);
    for (int i = 0; i < 5; i++) {
        memset(out + n, 0, 16);
        put32(out + n, names[i]);
        n += 16;
    }
    return n;
}

/* Signature data of count elements from byte 8 on, whose bytes are numbered but for the name offsets, and strings after them. */
static size_t sg1(uint8_t *out, uint32_t count, const uint32_t *names, const void *strings, size_t len) {
    size_t n = put32(out, count);
    n += put32(out + n, 8);
    for (size_t i = 0; i < 32 * (size_t)count; i++) {
        out[n + i] = (uint8_t)(0x10 + i);
    }
    for (uint32_t i = 0; i < count; i++) {
        put32(out + n + 4, names[i]);
        n += 32;
    }
    return n + put(out + n, strings, len);
}

/* A container of a DXIL part, a PSV0 part and one more, whose data are its last bytes. */
static size_t shader_with(uint8_t *out, const uint8_t *psv0, size_t psv0_len, const char *four, const void *more, size_t len) {
    uint8_t names[12], data[512];
    const uint32_t sizes[3] = {4, (uint32_t)psv0_len, (uint32_t)len};
    put(names, "DXILPSV0", 8);
    put(names + 8, four, 4);
    size_t n = put(data, "code", 4);
    n += put(data + n, psv0, psv0_len);
    n += put(data + n, more, len);
    qollqamir_written written = qollqamir_assemble(names, 12, sizes, 3, data, n, name("0123456789abcdef"), 16, out, 512);
    ACCEPTED(written);
    return written.len;
}

/* A span shows these bytes, which are no string. */
static bool shows(const uint8_t *bytes, qollqamir_span span, const void *expected, size_t len) {
    return span.verdict.number == 0 && span.len == len && memcmp(bytes + span.start, expected, len) == 0 && span.is_string == 0 &&
           span.points == 0;
}

/* The code points of well-formed text: its bytes outside 80 to BF. */
static size_t code_points(const uint8_t *text, size_t len) {
    size_t n = 0;
    while (len-- > 0) {
        n += (text[len] & 0xc0) != 0x80;
    }
    return n;
}

/* A span shows this string. */
static bool says(const uint8_t *bytes, qollqamir_span span, const void *text, size_t len) {
    return span.verdict.number == 0 && span.len == len && memcmp(bytes + span.start, text, len) == 0 && span.is_string == 1 &&
           span.points == code_points(text, len);
}

/* ---- the part table */

static void same_found(qollqamir_found got, qollqamir_found expected) { CHECK(memcmp(&got, &expected, sizeof got) == 0); }

#define FOUND(number, offset, size) ((qollqamir_found){{0, 0}, number, offset, size})
#define NOT_FOUND(n, p) ((qollqamir_found){.verdict = {n, p}})

/* A table that passes, beside the bytes: each entry is what stands there, the occurrence and the gap are counted anew, nothing is set past
   the count, no pairs are, and the sum is the length. Each part is found by its name and occurrence, and none past the last one of its
   name. */
static void table_holds(const qollqamir_parts *parts, const uint8_t *bytes, size_t len) {
    size_t count = get32(bytes + 28), end = 32 + 4 * count, sum = end;
    CHECK(parts->count == count && count <= 96);
    UNSET(parts->pairs);
    for (size_t i = 0; i < count; i++) {
        size_t offset = get32(bytes + 32 + 4 * i), size = get32(bytes + offset + 4), earlier = 0, all = 0;
        const uint8_t *four = bytes + offset;
        CHECK(parts->names[i] == get32(four) && parts->offsets[i] == offset && parts->sizes[i] == size);
        for (size_t k = 0; k < count; k++) {
            bool same_name = get32(bytes + get32(bytes + 32 + 4 * k)) == get32(four);
            all += same_name;
            earlier += same_name && k < i;
        }
        CHECK(all == 1 || memcmp(four, "PRIV", 4) == 0);
        CHECK(parts->occurrences[i] == earlier && parts->gaps[i] == offset - end);
        same_found(qollqamir_table_part_occurrence(bytes, len, four, earlier), FOUND(i, offset, size));
        same_found(qollqamir_table_part_occurrence(bytes, len, four, all), NOT_FOUND(26, 0));
        end = offset + 8 + size;
        sum += parts->gaps[i] + (size_t)8 + parts->sizes[i];
    }
    CHECK(end <= len && sum + (len - end) == len);
    static const uint32_t none[96];
    size_t rest = (96 - count) * sizeof *none;
    CHECK(memcmp(parts->names + count, none, rest) == 0 && memcmp(parts->offsets + count, none, rest) == 0);
    CHECK(memcmp(parts->sizes + count, none, rest) == 0 && memcmp(parts->occurrences + count, none, rest) == 0);
    CHECK(memcmp(parts->gaps + count, none, rest) == 0);
}

/* The pairs of names that are compared for 9: for each part in turn, the earlier ones in order, and a match ends the count; none where an
   earlier check refuses. The verdict on the bytes is 9 at the part that matches, 0 where none does. */
static uint32_t pairs_of(qollqamir_verdict verdict, const uint8_t *bytes) {
    if (verdict.number >= 1 && verdict.number <= 8) {
        return 0;
    }
    uint32_t pairs = 0;
    size_t count = get32(bytes + 28);
    for (size_t k = 0; k < count; k++) {
        const uint8_t *four = bytes + get32(bytes + 32 + 4 * k);
        for (size_t j = 0; j < k; j++) {
            pairs++;
            if (memcmp(four, bytes + get32(bytes + 32 + 4 * j), 4) == 0 && memcmp(four, "PRIV", 4) != 0) {
                CHECK(verdict.number == 9 && verdict.place == k && pairs <= count * (count - 1) / 2);
                return pairs;
            }
        }
    }
    CHECK(verdict.number == 0 && pairs == count * (count - 1) / 2);
    return pairs;
}

/* The table with its pairs counted, beside a refusal too; all else is as without. */
static qollqamir_parts shown_counted(const uint8_t *bytes, size_t len) {
    qollqamir_parts parts = qollqamir_table(bytes, len);
    parts.pairs = (qollqamir_field){1, pairs_of(parts.verdict, bytes)};
    return parts;
}

/* Reads a table, also with its pairs counted, and checks all of it, beside a refusal too. */
static qollqamir_parts read_table(const uint8_t *bytes, size_t len) {
    qollqamir_parts parts = qollqamir_table(bytes, len), nothing = {.verdict = parts.verdict};
    if (parts.verdict.number == 0) {
        table_holds(&parts, bytes, len);
    } else {
        CHECK(memcmp(&parts, &nothing, sizeof parts) == 0);
    }
    qollqamir_parts with_pairs = qollqamir_table_counted(bytes, len), expected = shown_counted(bytes, len);
    SET(with_pairs.pairs, expected.pairs.value);
    CHECK(memcmp(&with_pairs, &expected, sizeof expected) == 0);
    return parts;
}

static void test_box_m(void) {
    uint8_t psv0[64], m[128];
    size_t psv0_len = box_m(psv0, 24, 24);
    size_t len = shader(m, psv0, psv0_len);
    CHECK(psv0_len == 32 && len == 92);

    qollqamir_parts parts = read_table(m, len);
    ACCEPTED(parts);
    CHECK(parts.count == 2);
    CHECK(parts.names[0] == get32(name("DXIL")) && parts.offsets[0] == 40 && parts.sizes[0] == 4);
    CHECK(parts.names[1] == get32(name("PSV0")) && parts.offsets[1] == 52 && parts.sizes[1] == 32);
    for (size_t i = 0; i < 96; i++) {
        CHECK(parts.occurrences[i] == 0 && parts.gaps[i] == 0);
        CHECK(i < 2 || (parts.names[i] == 0 && parts.offsets[i] == 0 && parts.sizes[i] == 0));
    }

    for (size_t edition = 0; edition <= 3; edition++) {
        qollqamir_opening opening = qollqamir_open(m, len, edition);
        ACCEPTED(opening);
        CHECK(opening.parts == 2 && opening.file_edition == 0 && opening.edition_read == 0);
        opening = qollqamir_psv0_open(psv0, psv0_len, edition);
        ACCEPTED(opening);
        CHECK(opening.parts == 0 && opening.file_edition == 0 && opening.edition_read == 0);

        qollqamir_info info = qollqamir_runtime_info(m, len, edition);
        ACCEPTED(info);
        SET(info.minimum_wave_lanes, 0);
        SET(info.maximum_wave_lanes, 0);
        UNSET(info.stage);
        UNSET(info.output_vectors_3);
        UNSET(info.entry_name_offset);

        qollqamir_list_lengths lengths = qollqamir_lengths(m, len, edition);
        ACCEPTED(lengths);
        SET(lengths.resources, 0);
        UNSET(lengths.strings);
        UNSET(lengths.indices);
        UNSET(lengths.elements);

        CHECK(shows(m, qollqamir_view(m, len, edition, QOLLQAMIR_STAGE_UNION, 0), psv0 + 4, 16));
        REFUSED(qollqamir_view(m, len, edition, QOLLQAMIR_ENTRY_NAME, 0), 26, 0);
        REFUSED(qollqamir_view(m, len, edition, QOLLQAMIR_MASK, 0), 26, 0);
        REFUSED(qollqamir_view(m, len, edition, 5, 0), 26, 0);
        CHECK(shows(m, qollqamir_section(m, len, edition, QOLLQAMIR_RUNTIME_RECORD), psv0 + 4, 24));
        CHECK(shows(m, qollqamir_section(m, len, edition, QOLLQAMIR_MASKS), "", 0));
        REFUSED(qollqamir_section(m, len, edition, 6), 26, 0);
        REFUSED(qollqamir_resource(m, len, edition, 0), 26, 0);
        REFUSED(qollqamir_element(m, len, edition, 0), 26, 0);
    }
    REFUSED(qollqamir_open(m, len, 4), 25, 0);
    REFUSED(qollqamir_open(m, 0, SIZE_MAX), 25, 0);
    REFUSED(qollqamir_psv0_open(psv0, psv0_len, 4), 25, 0);

    REFUSED(read_table(m, 31), 1, 0);
    REFUSED(qollqamir_open(m, 31, 3), 1, 0);
    REFUSED(qollqamir_open(m, 0, 3), 1, 0);
    REFUSED(read_table(m, len - 1), 5, 0);
    m[0] = 'X';
    REFUSED(read_table(m, len), 3, 0);
    m[0] = 'D';
    m[22] = 1;
    REFUSED(read_table(m, len), 4, 0);
    m[22] = 0;
    put32(m + 28, 97);
    REFUSED(read_table(m, len), 6, 0);
    put32(m + 28, 96);
    REFUSED(read_table(m, len), 7, 0);
    put32(m + 28, 2);
    put32(m + 36, 51);
    parts = read_table(m, len);
    REFUSED(parts, 8, 1);
    CHECK(parts.count == 0 && parts.names[0] == 0 && parts.offsets[0] == 0 && parts.sizes[95] == 0);
    put32(m + 36, 52);
    put(m + 52, "DXIL", 4);
    REFUSED(read_table(m, len), 9, 1);
    put(m + 52, "STAT", 4);
    ACCEPTED(read_table(m, len));
    REFUSED(qollqamir_open(m, len, 0), 11, 0);
    put(m + 40, "SHEX", 4);
    REFUSED(qollqamir_open(m, len, 0), 10, 0);

    /* Runtime records of 28, 26 and 20 bytes. */
    len = shader(m, psv0, box_m(psv0, 28, 28));
    ACCEPTED(qollqamir_open(m, len, 3));
    CHECK(len == 96 && qollqamir_open(m, len, 3).file_edition == 0);
    len = shader(m, psv0, box_m(psv0, 26, 28));
    REFUSED(qollqamir_open(m, len, 3), 12, 0);
    len = shader(m, psv0, box_m(psv0, 20, 24));
    REFUSED(qollqamir_open(m, len, 3), 12, 0);
    len = shader(m, psv0, box_m(psv0, 32, 24));
    REFUSED(qollqamir_open(m, len, 3), 13, 0);
    len = shader(m, psv0, box_m(psv0, 28, 24));
    REFUSED(qollqamir_open(m, len, 3), 14, 0);
}

static void test_box_c(void) {
    uint8_t psv0[128], c[192];
    size_t psv0_len = box_c(psv0, 52, 1);
    size_t len = shader(c, psv0, psv0_len);
    CHECK(psv0_len == 76 && len == 136);

    for (size_t edition = 0; edition <= 3; edition++) {
        qollqamir_opening opening = qollqamir_open(c, len, edition);
        ACCEPTED(opening);
        CHECK(opening.parts == 2 && opening.file_edition == 3 && opening.edition_read == edition);
    }
    qollqamir_opening opening = qollqamir_open_default(c, len);
    ACCEPTED(opening);
    CHECK(opening.parts == 2 && opening.file_edition == 3 && opening.edition_read == 3 && QOLLQAMIR_DEFAULT_EDITION == 3);
    CHECK(says(c, qollqamir_view(c, len, QOLLQAMIR_DEFAULT_EDITION, QOLLQAMIR_ENTRY_NAME, 0), "main", 4));

    qollqamir_info info = qollqamir_runtime_info(c, len, 3);
    ACCEPTED(info);
    SET(info.stage, 5);
    SET(info.uses_view_id, 0);
    UNSET(info.max_vertex_count);
    UNSET(info.patch_vectors);
    UNSET(info.mesh_topology);
    SET(info.input_elements, 0);
    SET(info.output_vectors_3, 0);
    SET(info.threads_x, 8);
    SET(info.threads_y, 4);
    SET(info.threads_z, 2);
    SET(info.entry_name_offset, 1);
    info = qollqamir_psv0_runtime_info(psv0, psv0_len, 2);
    SET(info.threads_z, 2);
    UNSET(info.entry_name_offset);
    info = qollqamir_runtime_info(c, len, 1);
    SET(info.stage, 5);
    UNSET(info.threads_x);
    info = qollqamir_runtime_info(c, len, 4);
    REFUSED(info, 25, 0);
    UNSET(info.minimum_wave_lanes);
    UNSET(info.entry_name_offset);

    CHECK(says(c, qollqamir_view(c, len, 3, QOLLQAMIR_ENTRY_NAME, 77), "main", 4));
    CHECK(says(psv0, qollqamir_psv0_view(psv0, psv0_len, 3, QOLLQAMIR_ENTRY_NAME, 0), "main", 4));
    qollqamir_span span = qollqamir_view(c, len, 1, QOLLQAMIR_ENTRY_NAME, 0);
    REFUSED(span, 26, 0);
    CHECK(span.start == 0 && span.len == 0 && span.is_string == 0 && span.points == 0);
    CHECK(shows(c, qollqamir_view(c, len, 1, QOLLQAMIR_MASK, 10), "", 0));
    REFUSED(qollqamir_view(c, len, 1, QOLLQAMIR_MASK, 11), 26, 0);
    REFUSED(qollqamir_view(c, len, 1, QOLLQAMIR_ELEMENT_STRING, 0), 26, 0);
    REFUSED(qollqamir_view(c, len, 1, QOLLQAMIR_ELEMENT_ARRAY, SIZE_MAX), 26, 0);
    CHECK(shows(c, qollqamir_section(c, len, 1, QOLLQAMIR_STRING_TABLE), "\0main\0\0\0", 8));

    qollqamir_found found = qollqamir_part(c, len, 3, name("PSV0"));
    ACCEPTED(found);
    CHECK(found.number == 1 && found.offset == 52 && found.size == 76);
    found = qollqamir_table_part(c, len, name("PSV0"));
    ACCEPTED(found);
    CHECK(found.number == 1 && found.offset == 52 && found.size == 76);
    found = qollqamir_table_part(c, len, name("VERS"));
    REFUSED(found, 26, 0);
    CHECK(found.number == 0 && found.offset == 0 && found.size == 0);
    REFUSED(qollqamir_part(c, len, 3, name("VERS")), 26, 0);
    REFUSED(qollqamir_part(c, len, 4, name("PSV0")), 25, 0);
    CHECK(qollqamir_known(name("VERS")) && qollqamir_known(name("DXBC")) && !qollqamir_known(name("XXXX")));

    /* Name offsets 5 and 8; a longer runtime record. */
    len = shader(c, psv0, box_c(psv0, 52, 5));
    CHECK(says(c, qollqamir_view(c, len, 3, QOLLQAMIR_ENTRY_NAME, 0), "", 0));
    len = shader(c, psv0, box_c(psv0, 52, 8));
    REFUSED(qollqamir_open(c, len, 3), 24, 0);
    REFUSED(qollqamir_view(c, len, 3, QOLLQAMIR_ENTRY_NAME, 0), 24, 0);
    for (size_t edition = 0; edition <= 2; edition++) {
        opening = qollqamir_open(c, len, edition);
        ACCEPTED(opening);
        CHECK(opening.parts == 2 && opening.file_edition == 3 && opening.edition_read == edition);
    }
    opening = qollqamir_open_default(c, len);
    REFUSED(opening, 24, 0);
    CHECK(opening.parts == 0 && opening.file_edition == 0 && opening.edition_read == 0);
    len = shader(c, psv0, box_c(psv0, 56, 1));
    CHECK(len == 140);
    CHECK(says(c, qollqamir_view(c, len, 3, QOLLQAMIR_ENTRY_NAME, 0), "main", 4));
}

/* 96 parts, so that the last entry of every array is looked at; 97 are refused. */
static void test_last_entries(void) {
    uint8_t names[4 * 97], digest[16] = {0}, data[97], out[2048];
    uint32_t sizes[97];
    for (uint32_t i = 0; i < 97; i++) {
        put32(names + 4 * i, 0x41414100 + i);
        sizes[i] = 1;
        data[i] = (uint8_t)i;
    }
    memset(out, 0xee, sizeof out);
    REFUSED(qollqamir_assemble(names, sizeof names, sizes, 97, data, 97, digest, 16, out, sizeof out), 6, 0);
    CHECK(out[0] == 0xee);
    qollqamir_written written = qollqamir_assemble(names, 4 * 96, sizes, 96, data, 96, digest, 16, out, sizeof out);
    ACCEPTED(written);
    CHECK(written.len == 32 + 4 * 96 + 12 * 96 - 3);
    CHECK(out[written.len - 1] == 95 && out[written.len] == 0xee);
    qollqamir_parts parts = read_table(out, written.len);
    ACCEPTED(parts);
    CHECK(parts.count == 96);
    for (uint32_t i = 0; i < 96; i++) {
        CHECK(parts.names[i] == 0x41414100 + i && parts.offsets[i] == 416 + 12 * i && parts.sizes[i] == 1);
        CHECK(parts.occurrences[i] == 0 && parts.gaps[i] == (i == 0 ? 0 : 3));
    }
    qollqamir_found found = qollqamir_table_part(out, written.len, names + 4 * 95);
    ACCEPTED(found);
    CHECK(found.number == 95 && found.offset == 416 + 12 * 95 && found.size == 1);
}

/* The sections of a hull shader with something in each. */
struct sections {
    uint8_t runtime[52], resources[48], strings[16], indices[24], elements[48], masks[4 * 52];
};

static struct sections hull(void) {
    struct sections s;
    for (int i = 0; i < 16; i++) {
        s.runtime[i] = (uint8_t)(0xa0 + i);
    }
    put32(s.runtime + 16, 4);
    put32(s.runtime + 20, 0xffffffff);
    put(s.runtime + 24, "\x03\x01\x09\x77\x01\x01\x01\x03\x09\0\0\0", 12);
    memset(s.runtime + 36, 0, 12);
    put32(s.runtime + 48, 1);
    for (uint32_t i = 0; i < 12; i++) {
        put32(s.resources + 4 * i, 100 + i);
    }
    put(s.strings, "\0main\0POS\0B\0\0\0\0", 16);
    static const uint32_t numbers[6] = {2, 7, 8, 0, 1, 9};
    for (int i = 0; i < 6; i++) {
        put32(s.indices + 4 * i, numbers[i]);
    }
    put32(s.elements, 6);
    put32(s.elements + 4, 0);
    put(s.elements + 8, "\x03\x02\xe3\x04\x05\x06\xff\x07", 8);
    put32(s.elements + 16, 10);
    put32(s.elements + 20, 6);
    memset(s.elements + 24, 0, 8);
    put32(s.elements + 32, 0);
    put32(s.elements + 36, 4);
    put(s.elements + 40, "\x02\xff\xff\xff\xff\xff\xff\xff", 8);
    for (size_t i = 0; i < sizeof s.masks; i++) {
        s.masks[i] = (uint8_t)i;
    }
    return s;
}

/* The hull shader goes through both writers and is read back. */
static void test_writers(void) {
    struct sections s = hull();
    uint8_t psv0[512];
    size_t whole = 4 + 52 + 4 + 4 + 48 + 4 + 16 + 4 + 24 + 4 + 48 + sizeof s.masks;
#define WRITE(edition, runtime_len, masks_len, out_len)                                                                   \
    qollqamir_write_psv0(edition, s.runtime, runtime_len, s.resources, sizeof s.resources, s.strings, sizeof s.strings,   \
                         s.indices, sizeof s.indices, s.elements, sizeof s.elements, s.masks, masks_len, psv0, out_len)
    memset(psv0, 0xee, sizeof psv0);
    qollqamir_written written = WRITE(4, 52, sizeof s.masks, sizeof psv0);
    REFUSED(written, 25, 0);
    CHECK(written.len == 0);
    REFUSED(WRITE(3, 48, sizeof s.masks, sizeof psv0), 27, 0);
    REFUSED(WRITE(3, 52, sizeof s.masks - 4, sizeof psv0), 27, 0);
    REFUSED(WRITE(3, 52, sizeof s.masks, whole - 1), 28, 0);
    REFUSED(WRITE(3, 52, sizeof s.masks, 0), 28, 0);
    put32(s.elements + 36, 5);
    REFUSED(WRITE(3, 52, sizeof s.masks, sizeof psv0), 23, 2);
    put32(s.elements + 20, 7);
    REFUSED(WRITE(3, 52, sizeof s.masks, sizeof psv0), 23, 1);
    put32(s.elements + 20, 6);
    put32(s.elements + 16, 16);
    REFUSED(WRITE(3, 52, sizeof s.masks, sizeof psv0), 22, 1);
    put32(s.elements + 36, 4);
    put32(s.elements + 16, 10);
    for (size_t i = 0; i < sizeof psv0; i++) {
        CHECK(psv0[i] == 0xee);
    }
    written = WRITE(3, 52, sizeof s.masks, whole);
    ACCEPTED(written);
    CHECK(written.len == whole);
    for (size_t i = whole; i < sizeof psv0; i++) {
        CHECK(psv0[i] == 0xee);
    }

    uint8_t out[1024], data[4 + 512];
    uint32_t sizes[2] = {4, (uint32_t)whole};
    put(data, "code", 4);
    put(data + 4, psv0, whole);
#define ASSEMBLE(names, digest_len, out_len) \
    qollqamir_assemble(name(names), 8, sizes, 2, data, 4 + whole, name("0123456789abcdef"), digest_len, out, out_len)
    memset(out, 0xee, sizeof out);
    REFUSED(ASSEMBLE("DXILPSV0", 15, sizeof out), 27, 0);
    REFUSED(ASSEMBLE("DXILDXIL", 16, sizeof out), 9, 1);
    REFUSED(ASSEMBLE("DXILPSV0", 16, 60 + whole - 1), 28, 0);
    for (size_t i = 0; i < sizeof out; i++) {
        CHECK(out[i] == 0xee);
    }
    written = ASSEMBLE("DXILPSV0", 16, sizeof out);
    ACCEPTED(written);
    size_t len = written.len;
    CHECK(len == 60 + whole);
    for (size_t i = len; i < sizeof out; i++) {
        CHECK(out[i] == 0xee);
    }
    CHECK(memcmp(out + 4, "0123456789abcdef", 16) == 0);

    qollqamir_opening opening = qollqamir_open(out, len, 3);
    ACCEPTED(opening);
    CHECK(opening.parts == 2 && opening.file_edition == 3 && opening.edition_read == 3);
    qollqamir_info info = qollqamir_runtime_info(out, len, 3);
    SET(info.minimum_wave_lanes, 4);
    SET(info.maximum_wave_lanes, 0xffffffff);
    SET(info.patch_vectors, 9);
    UNSET(info.mesh_topology);
    SET(info.entry_name_offset, 1);
    qollqamir_list_lengths lengths = qollqamir_lengths(out, len, 3);
    SET(lengths.resources, 2);
    SET(lengths.strings, 16);
    SET(lengths.indices, 6);
    SET(lengths.elements, 3);
    qollqamir_resource_record resource = qollqamir_resource(out, len, 3, 1);
    SET(resource.binding_type, 106);
    SET(resource.upper_bound, 109);
    SET(resource.kind, 110);
    SET(resource.flags, 111);
    resource = qollqamir_psv0_resource(psv0, whole, 1, 1);
    SET(resource.binding_type, 106);
    UNSET(resource.kind);
    UNSET(resource.flags);
    REFUSED(qollqamir_resource(out, len, 3, 2), 26, 0);
    qollqamir_element_record element = qollqamir_element(out, len, 3, 0);
    SET(element.name_offset, 6);
    SET(element.index_reference, 0);
    SET(element.rows, 3);
    SET(element.start_row, 2);
    SET(element.columns, 3);
    SET(element.start_column, 2);
    SET(element.allocated, 1);
    SET(element.semantic_kind, 4);
    SET(element.component_type, 5);
    SET(element.interpolation, 6);
    SET(element.dynamic_mask, 15);
    SET(element.stream, 3);
    SET(element.reserved, 7);
    element = qollqamir_psv0_element(psv0, whole, 3, 2);
    SET(element.index_reference, 4);
    SET(element.reserved, 255);
    REFUSED(qollqamir_element(out, len, 3, 3), 26, 0);
    CHECK(says(out, qollqamir_view(out, len, 3, QOLLQAMIR_ELEMENT_STRING, 0), "POS", 3));
    /* As many numbers as the element has rows; the second has none, and its reference is at the end of the table. */
    CHECK(shows(out, qollqamir_view(out, len, 3, QOLLQAMIR_ELEMENT_ARRAY, 0), s.indices, 12));
    CHECK(shows(out, qollqamir_view(out, len, 3, QOLLQAMIR_ELEMENT_ARRAY, 1), "", 0));
    CHECK(shows(out, qollqamir_view(out, len, 3, QOLLQAMIR_ELEMENT_ARRAY, 2), s.indices + 16, 8));
    CHECK(says(out, qollqamir_view(out, len, 3, QOLLQAMIR_ENTRY_NAME, 0), "main", 4));
    CHECK(shows(out, qollqamir_view(out, len, 3, QOLLQAMIR_MASK, 4), s.masks + 8, 8));
    CHECK(shows(out, qollqamir_view(out, len, 3, QOLLQAMIR_MASK, 5), s.masks + 16, 96));
    CHECK(shows(out, qollqamir_view(out, len, 3, QOLLQAMIR_MASK, 9), s.masks + 112, 96));

    static const uint8_t *const none = (const uint8_t *)"";
    const uint8_t *given[6] = {s.runtime, s.resources, s.strings, s.indices, s.elements, s.masks};
    const size_t given_len[6] = {52, 48, 16, 24, 48, sizeof s.masks};
    for (uint32_t section = 0; section < 6; section++) {
        CHECK(shows(out, qollqamir_section(out, len, 3, section), given[section], given_len[section]));
        CHECK(shows(psv0, qollqamir_psv0_section(psv0, whole, 3, section), given[section], given_len[section]));
    }

    /* Edition 0 with nothing but its record. */
    memset(psv0, 0xee, sizeof psv0);
    written = qollqamir_write_psv0(0, s.runtime, 24, none, 0, none, 0, none, 0, none, 0, none, 0, psv0, 33);
    ACCEPTED(written);
    CHECK(written.len == 32 && get32(psv0) == 24 && memcmp(psv0 + 4, s.runtime, 24) == 0 && get32(psv0 + 28) == 0);
    CHECK(psv0[32] == 0xee);
    /* A container without parts. */
    written = qollqamir_assemble(none, 0, sizes, 0, none, 0, name("0123456789abcdef"), 16, out, 32);
    ACCEPTED(written);
    CHECK(written.len == 32);
    CHECK(read_table(out, 32).verdict.number == 0 && read_table(out, 32).count == 0);
    REFUSED(qollqamir_open(out, 32, 0), 10, 0);
#undef WRITE
#undef ASSEMBLE
}

/* ---- several private parts */

/* A part to lay out, with the bytes before its header, and what the table is to show of it. */
struct entry {
    const char *name;
    uint32_t gap, offset, size, occurrence;
    const void *data;
};

/* PSV0 data of box M. */
static const uint8_t plain[32] = {24};

/* Lays out parts by their gaps and sizes, with bytes after the last one. */
static size_t lay_out(uint8_t *out, const struct entry *entries, uint32_t count, size_t after) {
    size_t n = 32 + 4 * (size_t)count;
    for (uint32_t i = 0; i < count; i++) {
        memset(out + n, 0xcc, entries[i].gap);
        n += entries[i].gap;
        put32(out + 32 + 4 * i, (uint32_t)n);
        n += put(out + n, entries[i].name, 4);
        n += put32(out + n, entries[i].size);
        n += put(out + n, entries[i].data, entries[i].size);
    }
    memset(out + n, 0xcc, after);
    n += after;
    put(out, "DXBC", 4);
    memset(out + 4, 0xd1, 16);
    put32(out + 20, 1);
    put32(out + 24, (uint32_t)n);
    put32(out + 28, count);
    return n;
}

/* Two private parts, no bytes, one and seven before headers; with two bytes after the last part 134 bytes. */
static const struct entry two[4] = {
    {"DXIL", 0, 48, 4, 0, "code"},
    {"PRIV", 1, 61, 3, 0, "one"},
    {"PSV0", 0, 72, 32, 0, plain},
    {"PRIV", 7, 119, 5, 1, "other"},
};

/* Three, the first of them the first part and empty, four bytes after the offset table, and many before the last; 454 bytes. */
static const struct entry three[6] = {
    {"PRIV", 4, 60, 0, 0, ""},
    {"DXIL", 0, 68, 4, 0, "code"},
    {"PRIV", 0, 80, 2, 1, "no"},
    {"PSV0", 1, 91, 32, 0, plain},
    {"PRIV", 300, 431, 1, 2, "t"},
    {"VERS", 0, 440, 6, 0, "verses"},
};

/* What is found by a name and an occurrence, from the table alone and in the container, where what opening it gives comes first. The calls
   that take no occurrence find the same as at 0. */
static void finds(const uint8_t *bytes, size_t len, const void *four, size_t occurrence, qollqamir_found expected) {
    same_found(qollqamir_table_part_occurrence(bytes, len, four, occurrence), expected);
    if (occurrence == 0) {
        same_found(qollqamir_table_part(bytes, len, four), expected);
    }
    for (size_t edition = 0; edition <= 4; edition++) {
        qollqamir_verdict opened = qollqamir_open(bytes, len, edition).verdict;
        qollqamir_found here = opened.number == 0 ? expected : NOT_FOUND(opened.number, opened.place);
        CHECK(edition < 4 || opened.number == 25);
        same_found(qollqamir_part_occurrence(bytes, len, edition, four, occurrence), here);
        if (occurrence == 0) {
            same_found(qollqamir_part(bytes, len, edition, four), here);
        }
    }
}

/* No part of a name from an occurrence on. A number of more than 32 bits is too great as a whole. */
static void finds_none_from(const uint8_t *bytes, size_t len, const void *four, size_t occurrence) {
    const size_t numbers[] = {occurrence, occurrence + 1, 95, 96, 97, UINT32_MAX, (size_t)1 << 32, ((size_t)1 << 32) + 1, SIZE_MAX};
    for (size_t k = 0; k < sizeof numbers / sizeof *numbers; k++) {
        if (numbers[k] >= occurrence) {
            finds(bytes, len, four, numbers[k], NOT_FOUND(26, 0));
        }
    }
}

/* The table and the queries show these entries, so many of them private, and so many bytes lie after the last. */
static void shows_entries(const uint8_t *bytes, size_t len, const struct entry *entries, size_t count, size_t private_parts, size_t after) {
    qollqamir_parts parts = read_table(bytes, len);
    ACCEPTED(parts);
    CHECK(parts.count == count);
    size_t sum = 32 + 4 * count;
    for (size_t i = 0; i < count; i++) {
        const struct entry *e = &entries[i];
        CHECK(parts.names[i] == get32(name(e->name)) && parts.offsets[i] == e->offset && parts.sizes[i] == e->size);
        CHECK(parts.occurrences[i] == e->occurrence && parts.gaps[i] == e->gap);
        finds(bytes, len, e->name, e->occurrence, FOUND(i, e->offset, e->size));
        CHECK(memcmp(bytes + e->offset + 8, e->data, e->size) == 0);
        sum += e->gap + (size_t)8 + e->size;
        if (memcmp(e->name, "PRIV", 4) != 0) {
            finds_none_from(bytes, len, e->name, 1);
        }
    }
    CHECK(sum + after == len);
    finds_none_from(bytes, len, "PRIV", private_parts);
    finds_none_from(bytes, len, "HASH", 0);
}

static void test_private(void) {
    uint8_t bytes[512];
    size_t len = lay_out(bytes, two, 4, 2);
    CHECK(len == 134);
    ACCEPTED(qollqamir_open(bytes, len, 0));
    shows_entries(bytes, len, two, 4, 2, 2);
    len = lay_out(bytes, three, 6, 0);
    CHECK(len == 454);
    ACCEPTED(qollqamir_open_default(bytes, len));
    shows_entries(bytes, len, three, 6, 3, 0);

    /* The same once more in plain numbers. */
    qollqamir_found found = qollqamir_part_occurrence(bytes, len, 3, name("PRIV"), 2);
    ACCEPTED(found);
    CHECK(found.number == 4 && found.offset == 431 && found.size == 1 && bytes[found.offset + 8] == 't');
    found = qollqamir_table_part_occurrence(bytes, len, name("PRIV"), 1);
    ACCEPTED(found);
    CHECK(found.number == 2 && found.offset == 80 && found.size == 2);
    REFUSED(qollqamir_part_occurrence(bytes, len, 3, name("PRIV"), 3), 26, 0);
    REFUSED(qollqamir_part_occurrence(bytes, len, 3, name("DXIL"), 1), 26, 0);
    REFUSED(qollqamir_part_occurrence(bytes, len, 4, name("PRIV"), 3), 25, 0);
    CHECK(qollqamir_part(bytes, len, 3, name("PRIV")).offset == 60 && qollqamir_table_part(bytes, len, name("PRIV")).offset == 60);

    /* Private parts alone, end to end: no container that opens. */
    static const struct entry alone[2] = {{"PRIV", 0, 40, 1, 0, "a"}, {"PRIV", 0, 49, 2, 1, "bc"}};
    len = lay_out(bytes, alone, 2, 0);
    CHECK(len == 59);
    shows_entries(bytes, len, alone, 2, 2, 0);
    REFUSED(qollqamir_part_occurrence(bytes, len, 3, name("PRIV"), 1), 10, 0);
    /* The second may not be the first once more, nor start a byte before its end. */
    put32(bytes + 36, 40);
    REFUSED(read_table(bytes, len), 8, 1);
    put32(bytes + 36, 48);
    memmove(bytes + 48, bytes + 49, 10);
    REFUSED(read_table(bytes, len), 8, 1);
    finds(bytes, len, "PRIV", 1, NOT_FOUND(8, 1));

    /* Without parts all that follows the header lies after the offset table. */
    static const size_t after[] = {0, 1, 4, 400};
    for (size_t k = 0; k < 4; k++) {
        len = lay_out(bytes, NULL, 0, after[k]);
        CHECK(len == 32 + after[k]);
        shows_entries(bytes, len, NULL, 0, 0, after[k]);
    }
}

/* Every other name is refused where it stands again, whatever private parts stand around it, by the assembler too. */
static void test_repeated(void) {
    /* The 24 known names, then others, most of them near PRIV. */
    static const char all[] = "DXILHASHILDBILDNISG1ISGNOSG1OSG5OSGNPCSGPDBIPRIVPSG1PSV0RDATRDEFRTS0SFI0SHDRSHEXDXBCSRCISTATVERS"
                              "priv\0RIVP\0IVPR\0VPRI\0QRIVPSIVPRHVPRIWPRIUVIRP\0\0\0\0\xff\xff\xff\xff";
    static const uint32_t sizes[5] = {1, 0, 2, 3, 1};
    for (size_t k = 0; k < sizeof all - 1; k += 4) {
        const char *other = all + k;
        CHECK(qollqamir_known(name(other)) == (k < 4 * 24));
        if (memcmp(other, "PRIV", 4) == 0) {
            continue;
        }
        /* Five parts, at least two of them private and the others of one name: the first place where that stands again. */
        for (unsigned set = 0; set < 32; set++) {
            uint8_t names[20], bytes[256], out[256];
            struct entry entries[5];
            size_t place = 0, others = 0, privates = 0;
            for (uint32_t i = 0; i < 5; i++) {
                bool private_part = set >> i & 1;
                entries[i] = (struct entry){.name = private_part ? "PRIV" : other, .gap = i % 3, .size = sizes[i], .data = "data"};
                put(names + 4 * i, entries[i].name, 4);
                others += !private_part;
                privates += private_part;
                if (!private_part && others == 2) {
                    place = i;
                }
            }
            if (privates < 2) {
                continue;
            }
            size_t len = lay_out(bytes, entries, 5, 1);
            memset(out, 0xee, sizeof out);
            qollqamir_written written =
                qollqamir_assemble(names, 20, sizes, 5, name("dataabc"), 7, name("0123456789abcdef"), 16, out, sizeof out);
            if (others < 2) {
                ACCEPTED(read_table(bytes, len));
                ACCEPTED(written);
                CHECK(read_table(out, written.len).count == 5);
                continue;
            }
            REFUSED(read_table(bytes, len), 9, place);
            for (size_t occurrence = 0; occurrence < 3; occurrence++) {
                finds(bytes, len, "PRIV", occurrence, NOT_FOUND(9, place));
                finds(bytes, len, other, occurrence, NOT_FOUND(9, place));
            }
            REFUSED(written, 9, place);
            CHECK(written.len == 0);
            for (size_t i = 0; i < sizeof out; i++) {
                CHECK(out[i] == 0xee);
            }
        }
    }

    /* 8 of a later part comes before it. */
    uint8_t bytes[512];
    size_t len = lay_out(bytes, three, 6, 0);
    put(bytes + 91, "DXIL", 4);
    REFUSED(read_table(bytes, len), 9, 3);
    put(bytes + 440, "DXIL", 4);
    REFUSED(read_table(bytes, len), 9, 3);
    put32(bytes + 52, 439);
    REFUSED(read_table(bytes, len), 8, 5);
    finds(bytes, len, "PRIV", 1, NOT_FOUND(8, 5));
}

/* 96 private parts, then 94 among which a shader stands. */
static void test_many_private(void) {
    uint8_t names[4 * 97], data[4 * 97 + 36], digest[16] = {0}, out[2048];
    uint32_t sizes[97];
    size_t n = 0;
    for (size_t i = 0; i < 97; i++) {
        put(names + 4 * i, "PRIV", 4);
        sizes[i] = i % 5;
        memset(data + n, (int)i, sizes[i]);
        n += i < 96 ? sizes[i] : 0;
    }
    memset(out, 0xee, sizeof out);
    REFUSED(qollqamir_assemble(names, 4 * 97, sizes, 97, data, n + sizes[96], digest, 16, out, sizeof out), 6, 0);
    put(names, "DXIL", 4);
    put(names + 4 * 95, "DXIL", 4);
    REFUSED(qollqamir_assemble(names, 4 * 96, sizes, 96, data, n, digest, 16, out, sizeof out), 9, 95);
    put(names, "PRIV", 4);
    put(names + 4 * 95, "PRIV", 4);
    CHECK(out[0] == 0xee && memcmp(out, out + 1, sizeof out - 1) == 0);
    qollqamir_written written = qollqamir_assemble(names, 4 * 96, sizes, 96, data, n, digest, 16, out, sizeof out);
    ACCEPTED(written);
    /* Five parts take 56 bytes; the last of the 96 is the first of its five, and empty. */
    CHECK(written.len == 416 + 19 * 56 + 8);
    qollqamir_parts parts = read_table(out, written.len);
    ACCEPTED(parts);
    static const uint32_t starts[5] = {0, 8, 20, 32, 44}, gaps[5] = {0, 0, 3, 2, 1};
    for (uint32_t i = 0; i < 96; i++) {
        uint32_t offset = 416 + 56 * (i / 5) + starts[i % 5];
        CHECK(parts.names[i] == get32(name("PRIV")) && parts.offsets[i] == offset && parts.sizes[i] == i % 5);
        CHECK(parts.occurrences[i] == i && parts.gaps[i] == gaps[i % 5]);
        finds(out, written.len, "PRIV", i, FOUND(i, offset, i % 5));
        for (size_t k = 0; k < i % 5; k++) {
            CHECK(out[offset + 8 + k] == i);
        }
    }
    finds_none_from(out, written.len, "PRIV", 96);
    REFUSED(qollqamir_part_occurrence(out, written.len, 3, name("PRIV"), 95), 10, 0);
    /* Another name twice among them, far apart. */
    put(out + 416, "VERS", 4);
    put(out + parts.offsets[95], "VERS", 4);
    REFUSED(read_table(out, written.len), 9, 95);

    put(names + 4 * 40, "DXIL", 4);
    put(names + 4 * 60, "PSV0", 4);
    n = 0;
    for (size_t i = 0; i < 96; i++) {
        sizes[i] = i == 40 ? 4 : i == 60 ? 32 : 1;
        memset(data + n, (int)i, sizes[i]);
        n += sizes[i];
    }
    put(data + 63, plain, 32);
    written = qollqamir_assemble(names, 4 * 96, sizes, 96, data, n, digest, 16, out, sizeof out);
    ACCEPTED(written);
    ACCEPTED(qollqamir_open(out, written.len, 3));
    for (size_t i = 0; i < 96; i++) {
        size_t offset = 416 + 12 * i + (i > 60 ? 28 : 0);
        if (i != 40 && i != 60) {
            finds(out, written.len, "PRIV", i - (i > 40) - (i > 60), FOUND(i, offset, 1));
            CHECK(out[offset + 8] == i);
        }
    }
    finds(out, written.len, "DXIL", 0, FOUND(40, 416 + 12 * 40, 4));
    finds(out, written.len, "PSV0", 0, FOUND(60, 416 + 12 * 60, 32));
    finds_none_from(out, written.len, "PRIV", 94);
    finds_none_from(out, written.len, "DXIL", 1);
    read_table(out, written.len);
}

/* Private parts among others through the assembler, which fills up to multiples of 4, and back. */
static void test_assembled_private(void) {
    static const struct entry entries[6] = {
        {"PRIV", 0, 56, 3, 0, "abc"},
        {"DXIL", 1, 68, 4, 0, "code"},
        {"PRIV", 0, 80, 2, 1, "de"},
        {"PSV0", 2, 92, 32, 0, plain},
        {"PRIV", 0, 132, 5, 2, "fghij"},
        {"PRIV", 3, 148, 1, 3, "k"},
    };
    uint8_t names[24], data[64], out[256];
    uint32_t sizes[6];
    size_t n = 0;
    for (size_t i = 0; i < 6; i++) {
        put(names + 4 * i, entries[i].name, 4);
        sizes[i] = entries[i].size;
        n += put(data + n, entries[i].data, entries[i].size);
    }
#define ASSEMBLE(data_len, out_len) qollqamir_assemble(names, 24, sizes, 6, data, data_len, name("0123456789abcdef"), 16, out, out_len)
    memset(out, 0xee, sizeof out);
    REFUSED(ASSEMBLE(n, 156), 28, 0);
    put(names + 12, "DXIL", 4);
    put(names + 20, "DXIL", 4);
    /* 27 comes before 9, and 9 before 28. */
    REFUSED(ASSEMBLE(n - 1, sizeof out), 27, 0);
    REFUSED(ASSEMBLE(n, sizeof out), 9, 3);
    REFUSED(ASSEMBLE(n, 0), 9, 3);
    put(names + 12, "PSV0", 4);
    REFUSED(ASSEMBLE(n, sizeof out), 9, 5);
    put(names + 20, "PRIV", 4);
    for (size_t i = 0; i < sizeof out; i++) {
        CHECK(out[i] == 0xee);
    }
    qollqamir_written written = ASSEMBLE(n, 157);
    ACCEPTED(written);
    CHECK(written.len == 157 && out[157] == 0xee);
    shows_entries(out, 157, entries, 6, 4, 0);
    CHECK(qollqamir_open(out, 157, 3).parts == 6);
#undef ASSEMBLE
}

/* The greatest length, and room for one byte more. */
enum { GREATEST = 16777216 };
static uint8_t greatest[GREATEST + 1];

/* The greatest length, which a gap takes up, and one more, which every call on a container's parts refuses. */
static void test_greatest_length(void) {
    uint8_t *bytes = greatest;
    static const struct entry far[2] = {{"PRIV", 0, 40, 1, 0, "a"}, {"PRIV", 16777159, 16777208, 0, 1, ""}};
    size_t len = lay_out(bytes, far, 2, 0);
    CHECK(len == GREATEST);
    shows_entries(bytes, len, far, 2, 2, 0);
    len = lay_out(bytes, far, 1, GREATEST - 45);
    CHECK(len == GREATEST);
    CHECK(read_table(bytes, len).gaps[0] == 0);
    put32(bytes + 24, GREATEST + 1);
    REFUSED(read_table(bytes, GREATEST + 1), 2, 0);
    for (size_t occurrence = 0; occurrence < 2; occurrence++) {
        finds(bytes, GREATEST + 1, "PRIV", occurrence, NOT_FOUND(2, 0));
    }
}

/* ---- the pairs of names that are compared */

/* The table gives this verdict, and so many pairs beside it. */
static void compares(const uint8_t *bytes, size_t len, size_t number, size_t place, size_t pairs) {
    REFUSED(read_table(bytes, len), number, place);
    qollqamir_parts parts = qollqamir_table_counted(bytes, len);
    REFUSED(parts, number, place);
    SET(parts.pairs, pairs);
}

/* A container of so many parts without data, each of another name, end to end; and the length of one with 96. */
enum { NAMED = 32 + 12 * 96 };
static size_t put_named(uint8_t *out, uint32_t count) {
    uint8_t names[97][4];
    struct entry entries[97];
    for (uint32_t i = 0; i < count; i++) {
        put32(names[i], 0x41414100 + i);
        entries[i] = (struct entry){.name = (const char *)names[i], .data = ""};
    }
    return lay_out(out, entries, count, 0);
}

/* Names a part, or several in a row from one on. */
static void name_part(uint8_t *bytes, size_t i, const void *four) { put(bytes + get32(bytes + 32 + 4 * i), four, 4); }

static void name_parts(uint8_t *bytes, size_t from, size_t to, const void *four) {
    for (size_t i = from; i < to; i++) {
        name_part(bytes, i, four);
    }
}

/* Names by letters, where P is PRIV; every number of parts that passes, and one too many. */
static void test_pairs(void) {
    static const struct { const char *letters; size_t number, place, pairs; } cases[] = {
        {"", 0, 0, 0}, {"a", 0, 0, 0}, {"ab", 0, 0, 1}, {"abc", 0, 0, 3}, {"abcdefgh", 0, 0, 28},
        {"aa", 9, 1, 1}, {"aab", 9, 1, 1}, {"aba", 9, 2, 2}, {"abb", 9, 2, 3}, {"abcdefga", 9, 7, 22}, {"abcdefgg", 9, 7, 28},
        /* Several matches: the first part that has one ends the count. */
        {"aaa", 9, 1, 1}, {"aaaaaaaa", 9, 1, 1}, {"abab", 9, 2, 2}, {"abba", 9, 2, 3}, {"abcab", 9, 3, 4}, {"abcca", 9, 3, 6},
        {"abcbcb", 9, 3, 5}, {"abcdeed", 9, 5, 15},
        /* A PRIV with a PRIV counts and ends nothing: alone, before a match, between its parts, after it. */
        {"P", 0, 0, 0}, {"PP", 0, 0, 1}, {"PPP", 0, 0, 3}, {"PPPPPPPP", 0, 0, 28}, {"PaPbPc", 0, 0, 15},
        {"PPaa", 9, 3, 6}, {"aPPa", 9, 3, 4}, {"aaPP", 9, 1, 1}, {"PaPa", 9, 3, 5}, {"aPaP", 9, 2, 2}, {"PaPaP", 9, 3, 5},
        {"PaPaPaP", 9, 3, 5}, {"aPbPbPa", 9, 4, 9}, {"PPPaPPPaPPP", 9, 7, 25},
    };
    uint8_t bytes[NAMED + 12];
    for (size_t i = 0; i < sizeof cases / sizeof *cases; i++) {
        size_t count = strlen(cases[i].letters), len = put_named(bytes, (uint32_t)count);
        for (size_t k = 0; k < count; k++) {
            const char four[4] = {'N', 'O', '.', cases[i].letters[k]};
            name_part(bytes, k, four[3] == 'P' ? "PRIV" : four);
        }
        compares(bytes, len, cases[i].number, cases[i].place, cases[i].pairs);
    }
    for (uint32_t count = 0; count <= 96; count++) {
        compares(bytes, put_named(bytes, count), 0, 0, count * (count - 1) / 2);
    }
    compares(bytes, NAMED, 0, 0, 4560);
    name_parts(bytes, 0, 96, "PRIV");
    compares(bytes, NAMED, 0, 0, 4560);
    compares(bytes, put_named(bytes, 97), 6, 0, 0);

    /* Every way to name six parts by four names: the rule has the number. */
    static const char *const names[4] = {"DXIL", "PSV0", "PRIV", "PRIW"};
    size_t len = put_named(bytes, 6), passed = 0;
    for (unsigned way = 0; way < 4096; way++) {
        for (size_t i = 0; i < 6; i++) {
            name_part(bytes, i, names[way >> 2 * i & 3]);
        }
        passed += read_table(bytes, len).verdict.number == 0;
    }
    /* Each of the three others stands once or not at all. */
    CHECK(passed == 1 + 6 * 3 + 15 * 6 + 20 * 6);
}

/* Every pair of 96 parts as the one match, among other names and among private parts; then private parts before, between and after one. */
static void test_pairs_one_match(void) {
    uint8_t bytes[NAMED], was[2][4];
    for (int private_parts = 0; private_parts < 2; private_parts++) {
        size_t len = put_named(bytes, 96), pairs = 0;
        name_parts(bytes, 0, private_parts ? 96 : 0, "PRIV");
        for (size_t k = 0; k < 96; k++) {
            for (size_t j = 0; j < k; j++) {
                put(was[0], bytes + 416 + 8 * j, 4);
                put(was[1], bytes + 416 + 8 * k, 4);
                name_part(bytes, j, "DXIL");
                name_part(bytes, k, "DXIL");
                compares(bytes, len, 9, k, k * (k - 1) / 2 + j + 1);
                CHECK(++pairs == k * (k - 1) / 2 + j + 1);
                name_part(bytes, j, was[0]);
                name_part(bytes, k, was[1]);
            }
        }
        CHECK(pairs == 4560);
        compares(bytes, len, 0, 0, 4560);
    }
    for (unsigned set = 0; set < 8; set++) {
        size_t len = put_named(bytes, 96);
        name_parts(bytes, 0, set & 1 ? 40 : 0, "PRIV");
        name_parts(bytes, 41, set & 2 ? 70 : 0, "PRIV");
        name_parts(bytes, 71, set & 4 ? 96 : 0, "PRIV");
        compares(bytes, len, 0, 0, 4560);
        name_part(bytes, 40, "DXIL");
        name_part(bytes, 70, "DXIL");
        compares(bytes, len, 9, 70, 2456);
        /* One more of the name, and another name twice, later. */
        name_part(bytes, 80, "DXIL");
        name_part(bytes, 81, "PSV0");
        name_part(bytes, 82, "PSV0");
        compares(bytes, len, 9, 70, 2456);
    }
}

/* Names one bit away from PRIV and from another name, which they don't match; twice, each is refused. At different places in memory. */
static void test_pairs_one_bit(void) {
    uint8_t room[16 + 32 + 12 * 8];
    for (uint32_t bit = 0; bit < 32; bit++) {
        uint8_t *bytes = room + bit % 16, near[4], other[4];
        size_t len = put_named(bytes, 8);
        put32(near, get32(name("PRIV")) ^ (uint32_t)1 << bit);
        put32(other, get32(name("DXIL")) ^ (uint32_t)1 << bit);
        for (size_t k = 0; k < 8; k++) {
            name_parts(bytes, 0, 8, "PRIV");
            name_part(bytes, k, near);
            compares(bytes, len, 0, 0, 28);
            for (size_t j = 0; j < k; j++) {
                name_part(bytes, j, near);
                compares(bytes, len, 9, k, k * (k - 1) / 2 + j + 1);
                name_part(bytes, j, "DXIL");
                name_part(bytes, k, other);
                compares(bytes, len, 0, 0, 28);
                name_part(bytes, j, "PRIV");
                name_part(bytes, k, near);
            }
        }
    }
}

/* Each refusal before 9 has 0 pairs, whatever the names: different, one name, private. */
static void test_pairs_refused(void) {
    uint8_t bytes[NAMED];
    compares(NULL, 0, 1, 0, 0);
    for (int names = 0; names < 3; names++) {
        size_t len = put_named(bytes, 96);
        const size_t number = names == 1 ? 9 : 0, place = names == 1, pairs = names == 1 ? 1 : 4560;
        name_parts(bytes, 0, names == 0 ? 0 : 96, names == 1 ? "DXIL" : "PRIV");
        compares(bytes, len, number, place, pairs);
        for (size_t n = 0; n < len; n++) {
            compares(bytes, n, n < 32 ? 1 : 5, 0, 0);
        }
        /* The magic, the version and the file size. */
        for (size_t i = 0; i < 28; i++) {
            if (i < 4 || i >= 20) {
                bytes[i] ^= 0x10;
                compares(bytes, len, i < 4 ? 3 : i < 24 ? 4 : 5, 0, 0);
                bytes[i] ^= 0x10;
            }
        }
        put32(bytes + 28, 97);
        compares(bytes, len, 6, 0, 0);
        put32(bytes + 28, UINT32_MAX);
        compares(bytes, len, 6, 0, 0);
        put32(bytes + 28, 96);
        for (uint32_t n = 32; n < 416; n++) {
            put32(bytes + 24, n);
            compares(bytes, n, 7, 0, 0);
        }
        put32(bytes + 24, (uint32_t)len);
        compares(bytes, len, number, place, pairs);
        /* Each part a byte too early, with its header past the end, with its data past the end; or the one before a byte too long. */
        for (uint32_t i = 0; i < 96; i++) {
            uint32_t offset = 416 + 8 * i, end = (uint32_t)len;
            const uint32_t offsets[] = {offset - 1, 0, end - 7, end, UINT32_MAX}, sizes[] = {end - offset - 7, UINT32_MAX};
            for (size_t k = 0; k < sizeof offsets / sizeof *offsets; k++) {
                put32(bytes + 32 + 4 * i, offsets[k]);
                compares(bytes, len, 8, i, 0);
            }
            put32(bytes + 32 + 4 * i, offset);
            for (size_t k = 0; k < sizeof sizes / sizeof *sizes; k++) {
                put32(bytes + offset + 4, sizes[k]);
                compares(bytes, len, 8, i, 0);
            }
            put32(bytes + offset + 4, 1);
            compares(bytes, len, 8, i < 95 ? i + 1 : 95, 0);
            put32(bytes + offset + 4, 0);
        }
        compares(bytes, len, number, place, pairs);
        /* The greatest length, and one byte more. */
        put(greatest, bytes, len);
        put32(greatest + 24, GREATEST);
        compares(greatest, GREATEST, number, place, pairs);
        put32(greatest + 24, GREATEST + 1);
        compares(greatest, GREATEST + 1, 2, 0, 0);
    }
}

/* ---- the program header */

/* Both calls on DXIL data: alone, and in the boxes M and C at every edition. The stage of C is 5. */
static void program(const uint8_t *data, size_t len, size_t number) {
    qollqamir_program_data alone = qollqamir_dxil_program(data, len);
    if (number == 0) {
        ACCEPTED(alone);
        qollqamir_program_header h = alone.header;
        CHECK(h.version_major == 6 && h.version_minor == 10 && h.words == 0x12345678);
        CHECK(h.bitcode_major == 252 && h.bitcode_minor == 11);
        CHECK(h.stage == (uint32_t)(data[2] + 256 * data[3]));
        CHECK(h.bitcode_offset == get32(data + 16) && h.bitcode_size == get32(data + 20));
        CHECK(alone.start == 8 + (size_t)h.bitcode_offset && alone.len == h.bitcode_size && alone.start + alone.len <= len);
    } else {
        qollqamir_program_data nothing = {.verdict = {number, 0}};
        CHECK(memcmp(&alone, &nothing, sizeof alone) == 0);
    }

    for (int box = 0; box < 2; box++) {
        uint8_t psv0[128], bytes[192];
        size_t psv0_len = box == 0 ? box_m(psv0, 24, 24) : box_c(psv0, 52, 1);
        size_t n = shader_of(bytes, data, len, psv0, psv0_len);
        for (size_t edition = 0; edition <= 3; edition++) {
            ACCEPTED(qollqamir_open(bytes, n, edition));
            qollqamir_program_report report = qollqamir_program(bytes, n, edition);
            if (number != 0) {
                qollqamir_program_report nothing = {.verdict = {number, 0}};
                CHECK(memcmp(&report, &nothing, sizeof report) == 0);
                continue;
            }
            ACCEPTED(report);
            CHECK(memcmp(&report.header, &alone.header, sizeof report.header) == 0);
            CHECK(report.start == 48 + alone.start && report.len == alone.len);
            CHECK(memcmp(bytes + report.start, data + alone.start, alone.len) == 0);
            if (box == 0 || edition == 0) {
                UNSET(report.psv0_stage);
                CHECK(report.stages == QOLLQAMIR_STAGES_UNSET);
            } else {
                SET(report.psv0_stage, 5);
                CHECK(report.stages == (alone.header.stage == 5 ? QOLLQAMIR_STAGES_EQUAL : QOLLQAMIR_STAGES_DIFFERENT));
            }
        }
        REFUSED(qollqamir_program(bytes, n, 4), 25, 0);
        REFUSED(qollqamir_program(bytes, n - 1, 3), 5, 0);
    }
}

static void test_program(void) {
    uint8_t data[32];
    static const uint32_t stages[] = {5, 6, 0, 255, 261, 0x0500, 0xffff};
    for (size_t i = 0; i < sizeof stages / sizeof *stages; i++) {
        dxil(data, stages[i], 18, 3);
        program(data, 32, 0);
    }
    /* The same once more in plain numbers. */
    uint8_t psv0[128], c[192];
    dxil(data, 5, 18, 3);
    size_t len = shader_of(c, data, 32, psv0, box_c(psv0, 52, 1));
    qollqamir_program_report report = qollqamir_program(c, len, 3);
    ACCEPTED(report);
    CHECK(report.header.stage == 5 && report.header.bitcode_offset == 18 && report.header.bitcode_size == 3);
    CHECK(report.start == 74 && report.len == 3 && memcmp(c + 74, "\x1a\x1b\x1c", 3) == 0);
    SET(report.psv0_stage, 5);
    CHECK(report.stages == QOLLQAMIR_STAGES_EQUAL);
    dxil(data, 261, 18, 3);
    len = shader_of(c, data, 32, psv0, box_c(psv0, 52, 1));
    report = qollqamir_program(c, len, 3);
    CHECK(report.header.stage == 261 && report.stages == QOLLQAMIR_STAGES_DIFFERENT);

    /* Under 24 bytes. */
    program(name("code"), 4, 40);
    dxil(data, 5, 16, 0);
    program(data, 23, 40);
    program(data, 24, 0);
    /* The mark is looked at before the bitcode's end. */
    for (size_t i = 8; i < 12; i++) {
        for (unsigned bit = 0; bit < 8; bit++) {
            dxil(data, 5, 16, bit % 2 == 0 ? 8 : 9);
            data[i] ^= (uint8_t)(1 << bit);
            program(data, 32, 41);
            program(data, 23, 40);
        }
    }
    /* The bitcode ends with the data or one byte past them, by either number; an offset below 16 is not judged. */
    for (uint32_t offset = 0; offset <= 24; offset++) {
        dxil(data, 5, offset, 24 - offset);
        program(data, 32, 0);
        dxil(data, 5, offset, 25 - offset);
        program(data, 32, 42);
    }
    dxil(data, 5, 25, 0);
    program(data, 32, 42);
    /* At or past 2^32, where 32 bits would take the sum back inside the data. */
    static const uint32_t past[][2] = {
        {0xffffffff, 0}, {0xffffffff, 1}, {0xffffffff, 25}, {0xffffffff, 0xffffffff}, {0xfffffff8, 0}, {0xfffffff8, 32},
        {0, 0xffffffff}, {16, 0xffffffff}, {25, 0xffffffff}, {16, 0xffffffe8}, {0x80000000, 0x80000000}, {0x80000000, 0x7ffffff8},
    };
    for (size_t i = 0; i < sizeof past / sizeof *past; i++) {
        dxil(data, 5, past[i][0], past[i][1]);
        program(data, 32, 42);
    }
    /* The refusals of opening come first: with a wrong entry name only reader 3 doesn't open the container. */
    len = shader_of(c, data, 32, psv0, box_c(psv0, 52, 8));
    REFUSED(qollqamir_program(c, len, 2), 42, 0);
    REFUSED(qollqamir_program(c, len, 3), 24, 0);
}

/* ---- the signature parts */

/* ---- strings */

/* Some bytes as the entry name, as the name of the second of two elements and as that of the second of three signature elements, the first
   of which has a good one: shown, or refused with 24, 22 and 52. Written, then read. */
static void string(const uint8_t *text, size_t len, bool good) {
    uint8_t strings[64] = {0}, runtime[52] = {0}, elements[32] = {0}, psv0[512], bytes[1024], data[256] = {0};
    memcpy(strings + 4, text, len);
    size_t table = (4 + len + 4) / 4 * 4;
    runtime[24] = 1;
    for (int elements_len = 0; elements_len <= 32; elements_len += 32) {
        runtime[28] = (uint8_t)(elements_len / 16);
        put32(runtime + 48, elements_len ? 0 : 4);
        put32(elements + 16, 4);
        memset(psv0, 0xee, sizeof psv0);
        qollqamir_written written =
            qollqamir_write_psv0(3, runtime, 52, runtime, 0, strings, table, runtime, 0, elements, (size_t)elements_len, runtime, 0, psv0, 512);
        if (!good) {
            REFUSED(written, elements_len ? 22 : 24, elements_len ? 1 : 0);
            CHECK(written.len == 0 && psv0[0] == 0xee && psv0[511] == 0xee);
            /* The same data laid out by hand. */
            size_t n = put32(psv0, 52);
            n += put(psv0 + n, runtime, 52);
            n += put32(psv0 + n, 0);
            n += put32(psv0 + n, (uint32_t)table);
            n += put(psv0 + n, strings, table);
            n += put32(psv0 + n, 0);
            if (elements_len) {
                n += put32(psv0 + n, 16);
                n += put(psv0 + n, elements, 32);
            }
            written.len = n;
        }
        size_t n = shader(bytes, psv0, written.len);
        for (size_t edition = 1; edition <= 3; edition++) {
            bool judged = !good && (elements_len || edition == 3);
            REFUSED(qollqamir_psv0_open(psv0, written.len, edition), judged ? (elements_len ? 22 : 24) : 0, judged && elements_len ? 1 : 0);
            REFUSED(qollqamir_open(bytes, n, edition), judged ? (elements_len ? 22 : 24) : 0, judged && elements_len ? 1 : 0);
        }
        if (good && elements_len) {
            CHECK(says(bytes, qollqamir_view(bytes, n, 1, QOLLQAMIR_ELEMENT_STRING, 1), text, len));
            CHECK(says(psv0, qollqamir_psv0_view(psv0, written.len, 3, QOLLQAMIR_ELEMENT_STRING, 0), "", 0));
        } else if (good) {
            CHECK(says(bytes, qollqamir_view(bytes, n, 3, QOLLQAMIR_ENTRY_NAME, 0), text, len));
        }
    }
    put32(data, 3);
    put32(data + 4, 8);
    put32(data + 12, 104);
    put32(data + 44, 106);
    put(data + 104, "A", 2);
    put(data + 106, text, len);
    size_t data_len = 106 + len + 1;
    qollqamir_signature_data read = qollqamir_sg1_read(data, data_len);
    REFUSED(read, good ? 0 : 52, good ? 0 : 1);
    CHECK(read.count == (good ? 3u : 0u));
    CHECK(says(data, qollqamir_sg1_name(data, data_len, 0), "A", 1) == good);
    CHECK(says(data, qollqamir_sg1_name(data, data_len, 1), text, len) == good);
    REFUSED(qollqamir_sg1_element_alone(data, data_len, 0), 0, 0);
    qollqamir_signature_record alone = qollqamir_sg1_element_alone(data, data_len, 1);
    REFUSED(alone, good ? 0 : 52, good ? 0 : 1);
    CHECK(alone.named == good && alone.name_points == (good ? code_points(text, len) : 0));
    /* 45 of an earlier element comes first, that of a later one after. */
    put32(data + 76, (uint32_t)data_len);
    REFUSED(qollqamir_sg1_read(data, data_len), good ? 45 : 52, good ? 2 : 1);
    put32(data + 12, (uint32_t)data_len);
    REFUSED(qollqamir_sg1_read(data, data_len), 45, 0);
}

/* The table of well-formed sequences, at both ends of every range and one past them. */
static void test_strings(void) {
    static const uint8_t rows[9][4][2] = {
        {{0x01, 0x7f}},
        {{0xc2, 0xdf}, {0x80, 0xbf}},
        {{0xe0, 0xe0}, {0xa0, 0xbf}, {0x80, 0xbf}},
        {{0xe1, 0xec}, {0x80, 0xbf}, {0x80, 0xbf}},
        {{0xed, 0xed}, {0x80, 0x9f}, {0x80, 0xbf}},
        {{0xee, 0xef}, {0x80, 0xbf}, {0x80, 0xbf}},
        {{0xf0, 0xf0}, {0x90, 0xbf}, {0x80, 0xbf}, {0x80, 0xbf}},
        {{0xf1, 0xf3}, {0x80, 0xbf}, {0x80, 0xbf}, {0x80, 0xbf}},
        {{0xf4, 0xf4}, {0x80, 0x8f}, {0x80, 0xbf}, {0x80, 0xbf}},
    };
    for (int r = 0; r < 9; r++) {
        size_t len = r == 0 ? 1 : r == 1 ? 2 : r < 6 ? 3 : 4;
        for (int ends = 0; ends < 1 << len; ends++) {
            uint8_t text[6] = {'a'};
            for (size_t k = 0; k < len; k++) {
                text[1 + k] = rows[r][k][ends >> k & 1];
            }
            /* With and without a letter before it. */
            string(text + 1, len, true);
            string(text, len + 1, true);
            for (size_t k = 1; k < len; k++) {
                uint8_t end = text[1 + k];
                text[1 + k] = (uint8_t)(ends >> k & 1 ? end + 1 : end - 1);
                string(text, len + 1, false);
                text[1 + k] = end;
                /* Cut before this byte, and its middle alone. */
                string(text, 1 + k, false);
                string(text + 1 + k, len - k, false);
            }
        }
    }
    /* First bytes that no row has. */
    for (int lead = 0x80; lead <= 0xff; lead++) {
        uint8_t text[4] = {(uint8_t)lead, 0x80, 0x80, 0x80};
        if (lead < 0xc2 || lead > 0xf4) {
            for (size_t len = 1; len <= 4; len++) {
                string(text, len, false);
            }
        }
    }
    /* U+FEFF and noncharacters are well formed; surrogates and overlong forms are not. */
    static const char *const good[] = {"\xef\xbb\xbf", "\xef\xbf\xbe", "\xef\xbf\xbf", "\xf4\x8f\xbf\xbf", "\xef\xb7\x90", ""};
    static const char *const bad[] = {"\xed\xa0\x80", "\xed\xbf\xbf", "\xc0\x80", "\xe0\x80\x80", "\xf0\x80\x80\x80", "\xf4\x90\x80\x80"};
    for (int i = 0; i < 6; i++) {
        string(name(good[i]), strlen(good[i]), true);
        string(name(bad[i]), strlen(bad[i]), false);
    }
}

static const char *const signature_parts[] = {"ISG1", "OSG1", "PSG1"};
enum { PARTS = 3 };

/* What element i of accepted data shows, where the data start at a place. */
static qollqamir_signature_record shown(const uint8_t *data, size_t i, size_t at) {
    const uint8_t *e = data + get32(data + 4) + 32 * i;
    uint32_t o = get32(e + 4);
    return (qollqamir_signature_record){
        .stream = get32(e),
        .name_offset = o,
        .index = get32(e + 8),
        .system_value = get32(e + 12),
        .component_type = get32(e + 16),
        .register_number = get32(e + 20),
        .mask = e[24],
        .exclusive_mask = e[25],
        .precision = get32(e + 28),
        .named = o != 0,
        .name_start = o == 0 ? 0 : at + o,
        .name_len = o == 0 ? 0 : strlen((const char *)data + o),
        .name_points = o == 0 ? 0 : code_points(data + o, strlen((const char *)data + o)),
    };
}

static void same_record(qollqamir_signature_record got, qollqamir_signature_record expected) {
    CHECK(memcmp(&got, &expected, sizeof got) == 0);
}

/* A name is that of the record, or 26; beside a refusal it is empty. */
static void same_name(qollqamir_span got, qollqamir_signature_record record) {
    qollqamir_span expected = {record.verdict, record.name_start, record.name_len, record.named, record.name_points};
    if (record.verdict.number == 0 && record.named == 0) {
        expected.verdict.number = 26;
    }
    CHECK(memcmp(&got, &expected, sizeof got) == 0);
}

/* The four calls on a part of a container, refused. */
static void no_signature(const uint8_t *bytes, size_t n, size_t edition, uint32_t part, size_t number, size_t place) {
    qollqamir_signature_report report = qollqamir_signature(bytes, n, edition, part), no_report = {.verdict = {number, place}};
    qollqamir_difference first = qollqamir_signature_difference(bytes, n, edition, part), no_first = {.verdict = {number, place}};
    qollqamir_signature_record record = {.verdict = {number, place}};
    CHECK(memcmp(&report, &no_report, sizeof report) == 0);
    CHECK(memcmp(&first, &no_first, sizeof first) == 0);
    static const size_t numbers[] = {0, 1, SIZE_MAX};
    for (int k = 0; k < 3; k++) {
        same_record(qollqamir_signature_element(bytes, n, edition, part, numbers[k]), record);
        same_name(qollqamir_signature_name(bytes, n, edition, part, numbers[k]), record);
    }
}

/* Every call on signature data, and on each part of a container that has them, at every edition; accepted where number is 0. */
static void signature(const uint8_t *data, size_t len, size_t number, size_t place) {
    size_t count = number == 0 ? get32(data) : 0;
    qollqamir_signature_data read = qollqamir_sg1_read(data, len);
    REFUSED(read, number, place);
    CHECK(read.count == count);
    qollqamir_signature_record past = {.verdict = {number == 0 ? 26 : number, place}};
    const size_t beyond[] = {count, count + 1, (size_t)1 << 27, SIZE_MAX};
    for (size_t i = 0; i < count; i++) {
        qollqamir_signature_record expected = shown(data, i, 0);
        same_record(qollqamir_sg1_element(data, len, i), expected);
        same_record(qollqamir_sg1_element_alone(data, len, i), expected);
        same_name(qollqamir_sg1_name(data, len, i), expected);
    }
    for (int k = 0; k < 4; k++) {
        same_record(qollqamir_sg1_element(data, len, beyond[k]), past);
        same_name(qollqamir_sg1_name(data, len, beyond[k]), past);
    }

    uint8_t psv0[192], bytes[512];
    size_t psv0_len = box_s(psv0);
    for (uint32_t part = 0; part < PARTS; part++) {
        size_t n = shader_with(bytes, psv0, psv0_len, signature_parts[part], data, len);
        for (size_t edition = 0; edition <= 3; edition++) {
            ACCEPTED(qollqamir_open(bytes, n, edition));
            for (uint32_t other = 0; other < 5; other++) {
                if (other != part) {
                    no_signature(bytes, n, edition, other, 26, 0);
                }
            }
            no_signature(bytes, n, edition, UINT32_MAX - part, 26, 0);
            if (number != 0) {
                no_signature(bytes, n, edition, part, number, place);
                continue;
            }
            qollqamir_signature_report report = qollqamir_signature(bytes, n, edition, part);
            ACCEPTED(report);
            CHECK(report.count == count && report.start == n - len && report.len == len);
            for (size_t i = 0; i < count; i++) {
                qollqamir_signature_record expected = shown(data, i, report.start);
                same_record(qollqamir_signature_element(bytes, n, edition, part, i), expected);
                same_name(qollqamir_signature_name(bytes, n, edition, part, i), expected);
                /* The stretch is data that were judged. */
                same_record(qollqamir_sg1_element_alone(bytes + report.start, report.len, i), shown(data, i, 0));
            }
            for (int k = 0; k < 4; k++) {
                same_record(qollqamir_signature_element(bytes, n, edition, part, beyond[k]), past);
                same_name(qollqamir_signature_name(bytes, n, edition, part, beyond[k]), past);
            }
            ACCEPTED(qollqamir_signature_difference(bytes, n, edition, part));
        }
        no_signature(bytes, n, 4, part, 25, 0);
        no_signature(bytes, n, 4, PARTS, 25, 0);
        no_signature(bytes, n - 1, 3, part, 5, 0);
        no_signature(bytes, n - 1, 3, PARTS, 5, 0);
    }
}

static void test_signature(void) {
    uint8_t data[128], bytes[512], psv0[192];
    static const uint32_t names[3] = {104, 0, 106}, unset[3] = {0, 0, 0};
    size_t len = sg1(data, 3, names, "A\0BC\0", 5);
    signature(data, len, 0, 0);
    /* The same once more in plain numbers. */
    CHECK(len == 109 && qollqamir_sg1_read(data, len).count == 3);
    qollqamir_signature_record record = qollqamir_sg1_element(data, len, 2);
    ACCEPTED(record);
    CHECK(record.stream == 0x53525150 && record.name_offset == 106 && record.index == 0x5b5a5958);
    CHECK(record.system_value == 0x5f5e5d5c && record.component_type == 0x63626160 && record.register_number == 0x67666564);
    CHECK(record.mask == 0x68 && record.exclusive_mask == 0x69 && record.precision == 0x6f6e6d6c);
    CHECK(record.named == 1 && record.name_start == 106 && record.name_len == 2);
    CHECK(says(data, qollqamir_sg1_name(data, len, 2), "BC", 2));
    record = qollqamir_sg1_element(data, len, 1);
    ACCEPTED(record);
    CHECK(record.precision == 0x4f4e4d4c && record.named == 0 && record.name_start == 0 && record.name_len == 0);
    REFUSED(qollqamir_sg1_name(data, len, 1), 26, 0);
    REFUSED(qollqamir_sg1_element(data, len, 3), 26, 0);
    size_t n = shader_with(bytes, psv0, box_s(psv0), "OSG1", data, len);
    qollqamir_signature_report report = qollqamir_signature(bytes, n, 3, QOLLQAMIR_OSG1);
    ACCEPTED(report);
    CHECK(n == 341 && report.count == 3 && report.start == 232 && report.len == 109);
    CHECK(qollqamir_signature_element(bytes, n, 3, QOLLQAMIR_OSG1, 2).name_start == 338);
    CHECK(says(bytes, qollqamir_signature_name(bytes, n, 3, QOLLQAMIR_OSG1, 2), "BC", 2));
    REFUSED(qollqamir_signature_name(bytes, n, 3, QOLLQAMIR_OSG1, 1), 26, 0);
    REFUSED(qollqamir_signature(bytes, n, 3, QOLLQAMIR_ISG1), 26, 0);

    /* Under 8 bytes. */
    for (len = 0; len < 8; len++) {
        signature(data, len, 43, 0);
    }
    signature(data, 8, 44, 0);
    /* Elements that end with the data or one byte past them, by the offset, the count or the length; none may start anywhere up to the
       end. */
    len = sg1(data, 3, unset, "", 0);
    CHECK(len == 104);
    for (uint32_t count = 0; count <= 3; count++) {
        put32(data, count);
        put32(data + 4, 104 - 32 * count);
        signature(data, len, 0, 0);
        signature(data, len - 1, 44, 0);
        put32(data + 4, 105 - 32 * count);
        signature(data, len, 44, 0);
        put32(data, count + 1);
        put32(data + 4, 104 - 32 * count);
        signature(data, len, 44, 0);
    }
    put32(data, 0);
    for (uint32_t offset = 0; offset <= 8; offset++) {
        put32(data + 4, offset);
        signature(data, 8, 0, 0);
    }
    put32(data + 4, 9);
    signature(data, 8, 44, 0);
    /* At or past 2^32, where 32 bits would take the sum back inside the data. */
    static const uint32_t past[][2] = {
        {0x08000000, 0}, {0x08000000, 8}, {0x08000003, 8}, {0x10000003, 8}, {0x07ffffff, 0x20}, {0x07ffffff, 0x88}, {0x80000000, 8},
        {0xffffffff, 8}, {0xffffffff, 0x28}, {0xffffffff, 0xffffffff}, {0, 0xffffffff}, {1, 0xffffffe0}, {3, 0xffffffa0}, {3, 0xffffffff},
    };
    for (size_t i = 0; i < sizeof past / sizeof *past; i++) {
        put32(data, past[i][0]);
        put32(data + 4, past[i][1]);
        signature(data, len, 44, 0);
    }

    /* The last zero byte is at 105. Up to there a name is good wherever it starts, in the header and in an element too; from there on it is
       not, and the first such element counts. */
    for (uint32_t i = 0; i < 3; i++) {
        len = sg1(data, 3, names, "A\0BC", 4);
        put32(data + 12 + 32 * 2, 0);
        for (uint32_t o = 1; o <= 105; o++) {
            put32(data + 12 + 32 * i, o);
            signature(data, len, 0, 0);
        }
        static const uint32_t bad[] = {106, 107, 108, 109, 0x80000000, 0xffffffff};
        for (size_t k = 0; k < sizeof bad / sizeof *bad; k++) {
            put32(data + 12 + 32 * i, bad[k]);
            signature(data, len, 45, i);
            put32(data + 12 + 32 * 2, 108);
            signature(data, len, 45, i);
            put32(data + 12 + 32 * 2, i == 2 ? bad[k] : 0);
        }
        /* 44 comes before it. */
        put32(data, 4);
        signature(data, len, 44, 0);
    }
    /* With a zero for its last byte a name may start there: it is set, and empty. */
    len = sg1(data, 3, names, "A\0BC\0", 5);
    put32(data + 12, 108);
    signature(data, len, 0, 0);
    record = qollqamir_sg1_element(data, len, 0);
    CHECK(record.named == 1 && record.name_start == 108 && record.name_len == 0);
    CHECK(says(data, qollqamir_sg1_name(data, len, 0), "", 0));

    /* An element by itself: the others may be bad. 26 comes before 44, and 44 before 45. */
    static const uint32_t middle[3] = {104, 106, 105};
    len = sg1(data, 3, middle, "A\0BC", 4);
#define ALONE(i, n, p) same_record(qollqamir_sg1_element_alone(data, len, i), (qollqamir_signature_record){.verdict = {n, p}})
    static const uint32_t counts[] = {3, 4, 0xffffffff};
    for (int k = 0; k < 3; k++) {
        bool inside = counts[k] == 3;
        put32(data, counts[k]);
        REFUSED(qollqamir_sg1_element(data, len, 0), inside ? 45 : 44, inside ? 1 : 0);
        same_record(qollqamir_sg1_element_alone(data, len, 0), shown(data, 0, 0));
        ALONE(1, 45, 1);
        same_record(qollqamir_sg1_element_alone(data, len, 2), shown(data, 2, 0));
        ALONE(3, inside ? 26 : 44, 0);
        if (!inside) {
            ALONE(counts[k] - 1, 44, 0);
        }
        ALONE(counts[k], 26, 0);
        ALONE(SIZE_MAX, 26, 0);
    }
    put32(data, 1);
    put32(data + 4, 76);
    put32(data + 80, 0);
    same_record(qollqamir_sg1_element_alone(data, len, 0), shown(data, 0, 0));
    put32(data + 80, 108);
    ALONE(0, 45, 0);
    put32(data + 4, 77);
    ALONE(0, 44, 0);
    put32(data + 4, 0xffffffff);
    ALONE(0, 44, 0);
    ALONE(1, 26, 0);
    len = 7;
    ALONE(0, 43, 0);
    ALONE(1, 43, 0);
#undef ALONE

    /* The refusals of opening come first: with a wrong entry name only reader 3 doesn't open the container. */
    len = box_c(psv0, 52, 8);
    n = shader_with(bytes, psv0, len, "ISG1", "short", 5);
    for (uint32_t part = 0; part <= PARTS; part++) {
        no_signature(bytes, n, 2, part, part == QOLLQAMIR_ISG1 ? 43 : 26, 0);
        no_signature(bytes, n, 3, part, 24, 0);
    }
}

/* A part with these names, each a letter: A, b for BC, B, d for BCD, e for an empty one, - for none. first is the number of the first that
   differs from PSV0's, or -1. */
static void difference(uint32_t part, const char *letters, int first) {
    static const char known[] = "AbBde";
    static const uint32_t places[] = {0, 2, 5, 7, 1};
    uint32_t names[4] = {0}, count = (uint32_t)strlen(letters);
    for (uint32_t i = 0; i < count; i++) {
        names[i] = letters[i] == '-' ? 0 : 8 + 32 * count + places[strchr(known, letters[i]) - known];
    }
    uint8_t data[192], psv0[192], bytes[512];
    size_t len = sg1(data, count, names, "A\0BC\0B\0BCD\0", 11);
    size_t named = strspn(letters, "-");
    /* PSV0 data of edition 3, then of edition 0. */
    for (int box = 0; box < 2; box++) {
        size_t psv0_len = box == 0 ? box_s(psv0) : box_m(psv0, 24, 24);
        size_t n = shader_with(bytes, psv0, psv0_len, signature_parts[part], data, len);
        for (size_t edition = 0; edition <= 3; edition++) {
            qollqamir_difference got = qollqamir_signature_difference(bytes, n, edition, part);
            ACCEPTED(got);
            if (box == 0 && edition > 0) {
                CHECK(got.found == (first >= 0) && got.number == (size_t)(first < 0 ? 0 : first));
            } else {
                /* Without lists the first name is missing there. */
                CHECK(got.found == (named < count) && got.number == (named < count ? named : 0));
            }
        }
    }
}

static void test_difference(void) {
    difference(QOLLQAMIR_ISG1, "", -1);
    difference(QOLLQAMIR_ISG1, "--", -1);
    difference(QOLLQAMIR_ISG1, "Ab", -1);
    difference(QOLLQAMIR_ISG1, "A", -1);
    difference(QOLLQAMIR_ISG1, "-b", -1);
    difference(QOLLQAMIR_ISG1, "A--", -1);
    difference(QOLLQAMIR_ISG1, "bb", 0);
    difference(QOLLQAMIR_ISG1, "bA", 0);
    difference(QOLLQAMIR_ISG1, "eb", 0);
    /* The start of PSV0's name, one that PSV0's is the start of, none of it. */
    difference(QOLLQAMIR_ISG1, "AB", 1);
    difference(QOLLQAMIR_ISG1, "Ad", 1);
    difference(QOLLQAMIR_ISG1, "Ae", 1);
    difference(QOLLQAMIR_ISG1, "-A", 1);
    /* Past the list, where an empty name is missing too. */
    difference(QOLLQAMIR_ISG1, "AbA", 2);
    difference(QOLLQAMIR_ISG1, "Abe", 2);
    difference(QOLLQAMIR_ISG1, "---e", 3);
    /* The output list starts after the input list, the patch list after both. */
    difference(QOLLQAMIR_OSG1, "b", -1);
    difference(QOLLQAMIR_OSG1, "A", 0);
    difference(QOLLQAMIR_OSG1, "be", 1);
    difference(QOLLQAMIR_OSG1, "-A", 1);
    difference(QOLLQAMIR_PSG1, "eA", -1);
    difference(QOLLQAMIR_PSG1, "-A", -1);
    difference(QOLLQAMIR_PSG1, "AA", 0);
    difference(QOLLQAMIR_PSG1, "eb", 1);
    difference(QOLLQAMIR_PSG1, "eAb", 2);
}

/* ---- the root signature */

/* Data of 192 bytes in version 1 or 2: a table of two ranges, constants, a descriptor and a static sampler, whose own bytes are at 24, 36, 48
   and 140; the parameters' data are at 60, 68 and 80, the ranges from 92 on. The three levels of detail are bits. */
enum { RTS0 = 192, ITEMS = 4 };

static void rts0(uint8_t *out, uint32_t version, const uint32_t *lods) {
    const uint32_t words[RTS0 / 4] = {
        version, 3, 24, 1, 140, 0x90909090,
        0, 5, 60, 1, 0x81818181, 68, 4, 3, 80,
        2, 92, 0x21212121, 22, 23, 31, 0x32323232, 33,
        41, 42, 43, 44, 45, 46, 51, 52, 53, 54, 0x55555555, 0xffffffff,
        1, 2, 3, 4, lods[0], 6, 7, 8, lods[1], lods[2], 11, 12, 13,
    };
    for (size_t i = 0; i < RTS0 / 4; i++) {
        put32(out + 4 * i, words[i]);
    }
}

static const uint32_t some_lods[3] = {0x7fa00001, 0x80000000, 0x3fc00000};

/* What item i of accepted data shows, from the bytes. */
static qollqamir_root_record shown_item(const uint8_t *data, size_t i) {
    size_t parameters = get32(data + 4);
    qollqamir_root_record record = {.verdict = {0, 0}};
    if (i >= parameters) {
        uint32_t w[13];
        for (size_t k = 0; k < 13; k++) {
            w[k] = get32(data + get32(data + 16) + 52 * (i - parameters) + 4 * k);
        }
        return (qollqamir_root_record){
            .filter = w[0], .address_u = w[1], .address_v = w[2], .address_w = w[3], .lod_bias.bits = w[4], .anisotropy = w[5],
            .comparison = w[6], .border = w[7], .least_lod.bits = w[8], .greatest_lod.bits = w[9], .register_number = w[10],
            .space = w[11], .visibility = w[12],
        };
    }
    const uint8_t *own = data + get32(data + 8) + 12 * i, *more = data + get32(own + 8);
    record.parameter_type = (qollqamir_field){1, get32(own)};
    record.visibility = get32(own + 4);
    if (get32(own) == QOLLQAMIR_TABLE) {
        record.ranges = get32(more);
        record.ranges_offset = get32(more + 4);
        return record;
    }
    record.register_number = get32(more);
    record.space = get32(more + 4);
    if (get32(own) == QOLLQAMIR_CONSTANTS) {
        record.count = get32(more + 8);
    } else if (get32(data) == 2) {
        record.flags = (qollqamir_field){1, get32(more + 8)};
    }
    return record;
}

/* What range j of item i shows, or the refusal 26. */
static qollqamir_range_record shown_range(const uint8_t *data, size_t i, size_t j) {
    qollqamir_root_record item = shown_item(data, i);
    if (item.parameter_type.set == 0 || item.parameter_type.value != QOLLQAMIR_TABLE || j >= item.ranges) {
        return (qollqamir_range_record){.verdict = {26, 0}};
    }
    bool first = get32(data) == 1;
    const uint8_t *r = data + item.ranges_offset + (first ? 20 : 24) * j;
    return (qollqamir_range_record){
        .range_type = get32(r), .descriptors = get32(r + 4), .base_register = get32(r + 8), .space = get32(r + 12),
        .flags = first ? (qollqamir_field){0, 0} : (qollqamir_field){1, get32(r + 16)}, .offset = get32(r + (first ? 16 : 20)),
    };
}

static void same_item(qollqamir_root_record got, qollqamir_root_record expected) { CHECK(memcmp(&got, &expected, sizeof got) == 0); }

static void same_range(qollqamir_range_record got, qollqamir_range_record expected) { CHECK(memcmp(&got, &expected, sizeof got) == 0); }

#define NO_ITEM(n, p) ((qollqamir_root_record){.verdict = {n, p}})
#define NO_RANGE(n, p) ((qollqamir_range_record){.verdict = {n, p}})

/* The three calls on a container's root signature, refused. */
static void no_root(const uint8_t *bytes, size_t n, size_t edition, size_t number, size_t place) {
    qollqamir_root_report report = qollqamir_root_signature(bytes, n, edition), no_report = {.verdict = {number, place}};
    CHECK(memcmp(&report, &no_report, sizeof report) == 0);
    static const size_t numbers[] = {0, 3, SIZE_MAX};
    for (int k = 0; k < 3; k++) {
        same_item(qollqamir_root_item(bytes, n, edition, numbers[k]), NO_ITEM(number, place));
        same_range(qollqamir_root_range(bytes, n, edition, numbers[k], 0), NO_RANGE(number, place));
    }
}

/* Every call on root signature data, and on a container that has them, at every edition; accepted where number is 0. */
static void root(const uint8_t *data, size_t len, size_t number, size_t place) {
    bool good = number == 0;
    qollqamir_root_data read = qollqamir_rts0_read(data, len), header = {.verdict = {number, place}};
    if (good) {
        header = (qollqamir_root_data){{0, 0}, get32(data), get32(data + 4), get32(data + 12), get32(data + 20)};
    }
    CHECK(memcmp(&read, &header, sizeof read) == 0);
    size_t items = (size_t)header.parameters + header.samplers;
    const size_t beyond[] = {items, items + 1, (size_t)1 << 32, (size_t)1 << 33, SIZE_MAX};

    uint8_t psv0[64], bytes[512];
    size_t n = shader_with(bytes, psv0, box_m(psv0, 24, 24), "RTS0", data, len);
    for (size_t edition = 0; edition <= 3; edition++) {
        if (!good) {
            no_root(bytes, n, edition, number, place);
            continue;
        }
        qollqamir_root_report report = qollqamir_root_signature(bytes, n, edition);
        ACCEPTED(report);
        CHECK(report.version == header.version && report.parameters == header.parameters && report.samplers == header.samplers);
        CHECK(report.flags == header.flags && report.start == n - len && report.len == len);
        for (size_t i = 0; i < items; i++) {
            same_item(qollqamir_root_item(bytes, n, edition, i), shown_item(data, i));
            for (size_t j = 0; j < 4; j++) {
                same_range(qollqamir_root_range(bytes, n, edition, i, j), shown_range(data, i, j));
            }
        }
        for (int k = 0; k < 5; k++) {
            same_item(qollqamir_root_item(bytes, n, edition, beyond[k]), NO_ITEM(26, 0));
            same_range(qollqamir_root_range(bytes, n, edition, beyond[k], 0), NO_RANGE(26, 0));
        }
    }
    no_root(bytes, n, 4, 25, 0);
    no_root(bytes, n - 1, 3, 5, 0);

    for (size_t i = 0; i < items; i++) {
        same_item(qollqamir_rts0_item(data, len, i), shown_item(data, i));
        same_item(qollqamir_rts0_item_alone(data, len, i), shown_item(data, i));
        for (size_t j = 0; j < 4; j++) {
            same_range(qollqamir_rts0_range(data, len, i, j), shown_range(data, i, j));
            same_range(qollqamir_rts0_range_alone(data, len, i, j), shown_range(data, i, j));
        }
        same_range(qollqamir_rts0_range(data, len, i, SIZE_MAX), NO_RANGE(26, 0));
        same_range(qollqamir_rts0_range_alone(data, len, i, SIZE_MAX), NO_RANGE(26, 0));
    }
    for (int k = 0; k < 5; k++) {
        same_item(qollqamir_rts0_item(data, len, beyond[k]), NO_ITEM(good ? 26 : number, place));
        same_range(qollqamir_rts0_range(data, len, beyond[k], 0), NO_RANGE(good ? 26 : number, place));
        if (good) {
            same_item(qollqamir_rts0_item_alone(data, len, beyond[k]), NO_ITEM(26, 0));
            same_range(qollqamir_rts0_range_alone(data, len, beyond[k], 0), NO_RANGE(26, 0));
        }
    }
}

/* A float has the file's bits, whatever they are. */
static void same_bits(qollqamir_single single, uint32_t bits) {
    volatile float value = single.value;
    float copy = value;
    uint32_t back;
    memcpy(&back, &copy, sizeof back);
    CHECK(single.bits == bits && back == bits);
}

static void test_root(void) {
    uint8_t data[RTS0];
    for (uint32_t version = 1; version <= 2; version++) {
        rts0(data, version, some_lods);
        root(data, RTS0, 0, 0);
        for (size_t len = 0; len < 24; len++) {
            root(data, len, 46, 0);
        }
        /* The first item that doesn't fit: a parameter's own bytes, its data, its ranges (which end at 140, in 1.0 at 132), the sampler. */
        for (size_t len = 24; len < RTS0; len++) {
            size_t end = version == 1 ? 132 : 140;
            root(data, len, len < 36 ? 48 : len < 68 ? 50 : len < end ? 51 : 48, len < end ? 0 : 3);
        }
    }
    static const uint32_t versions[] = {0, 3, 258, 0x01000001, 0xffffffff};
    for (size_t k = 0; k < 5; k++) {
        rts0(data, versions[k], some_lods);
        root(data, RTS0, 47, 0);
    }

    /* The same once more in plain numbers. */
    rts0(data, 2, some_lods);
    qollqamir_root_data read = qollqamir_rts0_read(data, RTS0);
    CHECK(read.version == 2 && read.parameters == 3 && read.samplers == 1 && read.flags == 0x90909090);
    qollqamir_root_record item = qollqamir_rts0_item(data, RTS0, 0);
    SET(item.parameter_type, QOLLQAMIR_TABLE);
    CHECK(item.visibility == 5 && item.ranges == 2 && item.ranges_offset == 92);
    item = qollqamir_rts0_item(data, RTS0, 1);
    SET(item.parameter_type, QOLLQAMIR_CONSTANTS);
    CHECK(item.visibility == 0x81818181 && item.register_number == 0x21212121 && item.space == 22 && item.count == 23);
    item = qollqamir_rts0_item(data, RTS0, 2);
    SET(item.parameter_type, QOLLQAMIR_UAV);
    SET(item.flags, 33);
    CHECK(item.visibility == 3 && item.register_number == 31 && item.space == 0x32323232);
    item = qollqamir_rts0_item(data, RTS0, 3);
    UNSET(item.parameter_type);
    CHECK(item.filter == 1 && item.address_w == 4 && item.lod_bias.bits == 0x7fa00001 && item.border == 8 && item.visibility == 13);
    /* In 1.1 the flags stand before the offset; in 1.0 there are none. */
    qollqamir_range_record range = qollqamir_rts0_range(data, RTS0, 0, 1);
    SET(range.flags, 0x55555555);
    CHECK(range.range_type == 51 && range.descriptors == 52 && range.base_register == 53 && range.space == 54 && range.offset == 0xffffffff);
    put32(data, 1);
    range = qollqamir_rts0_range(data, RTS0, 0, 0);
    UNSET(range.flags);
    CHECK(range.range_type == 41 && range.space == 44 && range.offset == 45);
    CHECK(qollqamir_rts0_range(data, RTS0, 0, 1).range_type == 46);
    UNSET(qollqamir_rts0_item(data, RTS0, 2).flags);

    /* NaNs, quiet and signalling, infinities, zeros, subnormals and others, in each of the three places. */
    static const uint32_t patterns[] = {
        0x7fc00000, 0xffc00000, 0x7fffffff, 0xffd23456, 0x7f800001, 0xff800001, 0x7fa00000, 0xffbfffff, 0x7f800000, 0xff800000,
        0x00000000, 0x80000000, 0x00000001, 0x807fffff, 0x00800000, 0x3f800000, 0xc1234567, 0x7f7fffff,
    };
    enum { PATTERNS = sizeof patterns / sizeof *patterns };
    for (size_t k = 0; k < PATTERNS; k++) {
        const uint32_t lods[3] = {patterns[k], patterns[(k + 1) % PATTERNS], patterns[(k + 2) % PATTERNS]};
        rts0(data, 2, lods);
        root(data, RTS0, 0, 0);
        item = qollqamir_rts0_item(data, RTS0, 3);
        same_bits(item.lod_bias, lods[0]);
        same_bits(item.least_lod, lods[1]);
        same_bits(item.greatest_lod, lods[2]);
    }

    /* Each check of parameter i, where all before it are good; a sampler's place is after the parameters'. */
    static const uint32_t kinds[3] = {0, 1, 4};
    for (uint32_t i = 0; i < 3; i++) {
        for (uint32_t version = 1; version <= 2; version++) {
            rts0(data, version, some_lods);
            uint8_t *own = data + 24 + 12 * i;
            uint32_t size = kinds[i] == 0 || (kinds[i] == 4 && version == 1) ? 8 : 12;
            static const uint32_t bad[] = {5, 256, 0x80000000, 0xffffffff};
            for (int k = 0; k < 4; k++) {
                put32(own, bad[k]);
                put32(own + 8, 0xffffffff);
                root(data, RTS0, 49, i);
            }
            put32(own, kinds[i]);
            root(data, RTS0, 50, i);
            static const uint32_t past[] = {1, 7, 12, 0xffffff00, 0x7fffffff};
            for (int k = 0; k < 5; k++) {
                put32(own + 8, RTS0 - size + past[k]);
                root(data, RTS0, 50, i);
            }
            if (kinds[i] != 0) {
                put32(own + 8, RTS0 - size);
                root(data, RTS0, 0, 0);
            }
        }
    }
    rts0(data, 2, some_lods);
    put32(data + 16, RTS0 - 51);
    root(data, RTS0, 48, 3);
    put32(data + 12, 0);
    root(data, RTS0, 0, 0);
    put32(data + 4, 0);
    put32(data + 8, 0xffffffff);
    root(data, RTS0, 0, 0);
    put32(data + 12, 1);
    root(data, RTS0, 48, 0);
    /* Counts near 2^32 end at the first item outside. Item 14 would start at 192; that the bytes of 3 to 13 are no good parameters is
       mended by types that are. */
    rts0(data, 2, some_lods);
    for (size_t at = 24; at < RTS0; at += 12) {
        put32(data + at, 1);
        put32(data + at + 8, 0);
    }
    static const uint32_t many[] = {15, 0x15555556, 0x15555557, 0x80000000, 0xffffffff};
    for (int k = 0; k < 5; k++) {
        put32(data + 4, many[k]);
        put32(data + 12, many[(k + 1) % 5]);
        root(data, RTS0, 48, 14);
        same_item(qollqamir_rts0_item_alone(data, RTS0, 13), shown_item(data, 13));
        same_item(qollqamir_rts0_item_alone(data, RTS0, many[k] - 1), NO_ITEM(48, many[k] - 1));
        size_t all = (size_t)many[k] + many[(k + 1) % 5];
        same_item(qollqamir_rts0_item_alone(data, RTS0, all), NO_ITEM(26, 0));
        same_range(qollqamir_rts0_range_alone(data, RTS0, all, 0), NO_RANGE(26, 0));
    }

    /* A table's ranges: their end is exact; with none they may start at the end and not past it. */
    static const struct { uint32_t version, count, offset; size_t number; } ends[] = {
        {2, 0, RTS0, 0}, {2, 0, RTS0 + 1, 51}, {2, 0, 0xffffffff, 51}, {2, 1, RTS0 - 24, 0}, {2, 1, RTS0 - 23, 51}, {1, 1, RTS0 - 20, 0},
        {1, 1, RTS0 - 19, 51}, {2, 8, 0, 0}, {2, 9, 0, 51}, {1, 9, 12, 0}, {1, 9, 13, 51}, {2, 178956971, 0, 51}, {2, 178956970, 32, 51},
        {1, 214748365, 0, 51}, {2, 0xffffffff, 0, 51}, {1, 0xffffffff, 0xffffffff, 51}, {2, 0x0aaaaaab, 0xfffffff8, 51},
    };
    for (size_t k = 0; k < sizeof ends / sizeof *ends; k++) {
        rts0(data, ends[k].version, some_lods);
        put32(data + 60, ends[k].count);
        put32(data + 64, ends[k].offset);
        root(data, RTS0, ends[k].number, 0);
    }

    /* An item by itself: the others may be bad. */
    rts0(data, 2, some_lods);
    put32(data + 36, 5);
    root(data, RTS0, 49, 1);
    same_item(qollqamir_rts0_item_alone(data, RTS0, 0), shown_item(data, 0));
    same_item(qollqamir_rts0_item_alone(data, RTS0, 1), NO_ITEM(49, 1));
    same_item(qollqamir_rts0_item_alone(data, RTS0, 3), shown_item(data, 3));
    same_range(qollqamir_rts0_range_alone(data, RTS0, 0, 1), shown_range(data, 0, 1));
    same_range(qollqamir_rts0_range_alone(data, RTS0, 0, 2), NO_RANGE(26, 0));
    same_range(qollqamir_rts0_range_alone(data, RTS0, 1, 0), NO_RANGE(49, 1));
    same_range(qollqamir_rts0_range_alone(data, RTS0, 2, 0), NO_RANGE(26, 0));
    put32(data, 3);
    same_item(qollqamir_rts0_item_alone(data, RTS0, 9), NO_ITEM(47, 0));
    same_item(qollqamir_rts0_item_alone(data, 23, 9), NO_ITEM(46, 0));

    /* The refusals of opening come first: without a DXIL part 10, and with a wrong entry name only reader 3 doesn't open the container. */
    uint8_t psv0[128], bytes[512];
    const uint32_t size = RTS0;
    qollqamir_written written =
        qollqamir_assemble(name("RTS0"), 4, &size, 1, data, RTS0, name("0123456789abcdef"), 16, bytes, sizeof bytes);
    ACCEPTED(written);
    no_root(bytes, written.len, 3, 10, 0);
    size_t n = shader_with(bytes, psv0, box_c(psv0, 52, 8), "RTS0", "short", 5);
    no_root(bytes, n, 2, 46, 0);
    no_root(bytes, n, 3, 24, 0);
    n = shader_with(bytes, psv0, box_c(psv0, 52, 1), "rts0", data, RTS0);
    no_root(bytes, n, 3, 26, 0);
}

/* ---- settings files */

/* The rules once more, as the calls answer. A number from a byte on, by itself: 0 or 53 to 55, where it ends and its value. */
struct number {
    size_t fault, end;
    uint32_t value;
};

static struct number number_at(const uint8_t *bytes, size_t len, size_t at) {
    uint64_t sum = 0;
    for (size_t k = 0; k < 5; k++) {
        if (at >= len || k >= len - at) {
            return (struct number){.fault = 55};
        }
        uint8_t group = bytes[at + k];
        sum |= (uint64_t)(group & 0x7f) << 7 * k;
        if (group < 0x80) {
            return (struct number){k > 0 && group == 0 ? 53 : sum > UINT32_MAX ? 54 : 0, at + k + 1, (uint32_t)sum};
        }
    }
    return (struct number){.fault = 54};
}

/* The row from a byte on, after a row of version last. */
static qollqamir_setting_row_alone shown_row_alone(const uint8_t *bytes, size_t len, size_t at, uint32_t last) {
    static const uint32_t greatest[4] = {0, 3, UINT32_MAX, 1};
    uint32_t row[3];
    for (int i = 0; i < 3; i++) {
        struct number number = number_at(bytes, len, at);
        row[i] = number.value;
        size_t fault = number.fault;
        if (fault == 0) {
            bool good = i == 0 ? row[0] >= last : i == 1 ? row[1] >= 1 && row[1] <= 3 : row[2] <= greatest[row[1]];
            fault = good ? 0 : i == 0 ? 59 : i == 1 ? 57 : 58;
        }
        if (fault != 0) {
            return (qollqamir_setting_row_alone){.verdict = {fault, at}};
        }
        at = number.end;
    }
    return (qollqamir_setting_row_alone){{0, 0}, row[0], row[1], row[2], at};
}

static qollqamir_settings shown_settings(const uint8_t *bytes, size_t len) {
    struct number rows = number_at(bytes, len, 0);
    if (rows.fault != 0 || rows.value > 512) {
        return (qollqamir_settings){.verdict = {rows.fault != 0 ? rows.fault : 56, 0}};
    }
    qollqamir_setting_row_alone row = {.end = rows.end};
    for (size_t i = 0; i < rows.value; i++) {
        row = shown_row_alone(bytes, len, row.end, row.version);
        if (row.verdict.number != 0) {
            return (qollqamir_settings){.verdict = row.verdict};
        }
    }
    if (row.end < len) {
        return (qollqamir_settings){.verdict = {60, row.end}};
    }
    return (qollqamir_settings){{0, 0}, rows.value, rows.end};
}

static qollqamir_setting_row shown_row(const uint8_t *bytes, size_t len, size_t i) {
    qollqamir_settings file = shown_settings(bytes, len);
    if (file.verdict.number != 0 || i >= file.rows) {
        return (qollqamir_setting_row){.verdict = file.verdict.number != 0 ? file.verdict : (qollqamir_verdict){26, 0}};
    }
    qollqamir_setting_row_alone row = {.end = file.first};
    for (size_t k = 0; k <= i; k++) {
        row = shown_row_alone(bytes, len, row.end, row.version);
    }
    return (qollqamir_setting_row){{0, 0}, row.version, row.key, row.value};
}

static qollqamir_setting shown_value(const uint8_t *bytes, size_t len, uint32_t key, uint32_t version) {
    qollqamir_settings file = shown_settings(bytes, len);
    qollqamir_setting shown = {.verdict = file.verdict};
    qollqamir_setting_row_alone row = {.end = file.first};
    for (size_t i = 0; i < file.rows; i++) {
        row = shown_row_alone(bytes, len, row.end, row.version);
        if (row.key == key && row.version <= version) {
            shown.setting = (qollqamir_field){1, (uint32_t)row.value};
        }
    }
    return shown;
}

static size_t put_number(uint8_t *at, uint32_t number) {
    size_t n = 0;
    for (; number >= 0x80; number >>= 7) {
        at[n++] = (uint8_t)(number | 0x80);
    }
    at[n++] = (uint8_t)number;
    return n;
}

/* Room for the longest file and for a few rows more than there may be, good or not. */
enum { MOST_ROWS = 512, LONGEST = 2 + 11 * MOST_ROWS, ROOM = 10000 };

/* The file of rows as numbers, whatever they are. */
static size_t put_rows(uint8_t *out, const uint32_t *rows, size_t numbers) {
    size_t n = put_number(out, (uint32_t)(numbers / 3));
    for (size_t i = 0; i < numbers; i++) {
        n += put_number(out + n, rows[i]);
    }
    return n;
}

/* What the writer gives: 27, what reading its result gives, 28. */
static qollqamir_written shown_written(const uint32_t *rows, size_t numbers, size_t room) {
    static uint8_t file[ROOM];
    size_t len = put_rows(file, rows, numbers);
    qollqamir_verdict verdict = numbers % 3 != 0 ? (qollqamir_verdict){27, 0} : shown_settings(file, len).verdict;
    if (verdict.number == 0 && room < len) {
        verdict = (qollqamir_verdict){28, 0};
    }
    return (qollqamir_written){verdict, verdict.number == 0 ? len : 0};
}

#define SAME(type, got, expected)                          \
    do {                                                   \
        type given = got, wanted = expected;               \
        CHECK(memcmp(&given, &wanted, sizeof(type)) == 0); \
    } while (0)

/* The writer with room to spare, with just enough, with less and with none. It gives this refusal, or writes the file of these rows; the
   rest of the output stays. Reading its result gives the same. */
static void writes(const uint32_t *rows, size_t numbers, size_t number, size_t place) {
    static uint8_t file[ROOM], out[ROOM], stood[ROOM];
    size_t len = put_rows(file, rows, numbers);
    if (numbers % 3 == 0) {
        REFUSED(qollqamir_settings_read(file, len), number, place);
    }
    const size_t rooms[] = {ROOM, len + 1, len, len - 1, len / 2, 0};
    for (size_t k = 0; k < sizeof rooms / sizeof *rooms; k++) {
        memset(out, k % 2 == 0 ? 0xee : 0x11, ROOM);
        memcpy(stood, out, ROOM);
        qollqamir_written written = qollqamir_write_settings(rows, numbers, rooms[k] == 0 ? NULL : out, rooms[k]);
        if (number != 0) {
            REFUSED(written, number, place);
        } else {
            REFUSED(written, rooms[k] < len ? 28 : 0, 0);
        }
        CHECK(written.len == (written.verdict.number == 0 ? len : 0));
        CHECK(memcmp(out, file, written.len) == 0 && memcmp(out + written.len, stood + written.len, ROOM - written.len) == 0);
        SAME(qollqamir_written, written, shown_written(rows, numbers, rooms[k]));
    }
}

/* Every key at a version, a few more too. */
static void values_at(const uint8_t *bytes, size_t len, uint32_t version) {
    static const uint32_t keys[] = {0, 1, 2, 3, 4, 257, 65538, UINT32_MAX};
    for (size_t k = 0; k < sizeof keys / sizeof *keys; k++) {
        SAME(qollqamir_setting, qollqamir_settings_value(bytes, len, keys[k], version), shown_value(bytes, len, keys[k], version));
    }
}

/* Every call on a settings file, which is accepted where number is 0. Then listing it gives each row and ends at its length, and writing
   its rows again gives the same bytes. */
static void settings(const uint8_t *bytes, size_t len, size_t number, size_t place) {
    qollqamir_settings read = qollqamir_settings_read(bytes, len);
    REFUSED(read, number, place);
    SAME(qollqamir_settings, read, shown_settings(bytes, len));
    const size_t beyond[] = {read.rows, read.rows + 1, 511, 512, 513, (size_t)1 << 32, SIZE_MAX};
    for (size_t k = 0; k < sizeof beyond / sizeof *beyond; k++) {
        SAME(qollqamir_setting_row, qollqamir_settings_row(bytes, len, beyond[k]), shown_row(bytes, len, beyond[k]));
    }
    values_at(bytes, len, 0);
    values_at(bytes, len, UINT32_MAX);

    static uint32_t rows[3 * MOST_ROWS];
    qollqamir_setting_row_alone row = {.end = read.first};
    for (size_t i = 0; i < read.rows; i++) {
        uint32_t last = row.version;
        size_t at = row.end;
        row = qollqamir_settings_row_alone(bytes, len, at, last);
        SAME(qollqamir_setting_row_alone, row, shown_row_alone(bytes, len, at, last));
        qollqamir_setting_row numbered = qollqamir_settings_row(bytes, len, i);
        SAME(qollqamir_setting_row, numbered, ((qollqamir_setting_row){{0, 0}, row.version, row.key, row.value}));
        rows[3 * i] = row.version;
        rows[3 * i + 1] = row.key;
        rows[3 * i + 2] = (uint32_t)row.value;
        /* Of a long file, about the first and the last versions. */
        if (i < 8 || i + 8 > read.rows) {
            values_at(bytes, len, row.version - 1);
            values_at(bytes, len, row.version);
            values_at(bytes, len, row.version + 1);
        }
    }
    if (number == 0) {
        CHECK(row.end == len);
        writes(rows, 3 * read.rows, 0, 0);
        static uint8_t file[ROOM];
        CHECK(put_rows(file, rows, 3 * read.rows) == len && memcmp(file, bytes, len) == 0);
    }
}

/* The bytes of a literal, and how many. */
#define BYTES(literal) (literal), sizeof(literal) - 1

/* Forms of a number: good, long, too large, cut. A cut one is followed by nothing. */
static const struct {
    const char *bytes;
    size_t len, fault;
    uint32_t value;
} forms[] = {
    {BYTES("\x00"), 0, 0},
    {BYTES("\x01"), 0, 1},
    {BYTES("\x02"), 0, 2},
    {BYTES("\x03"), 0, 3},
    {BYTES("\x04"), 0, 4},
    {BYTES("\x7f"), 0, 127},
    {BYTES("\x80\x01"), 0, 128},
    {BYTES("\x81\x02"), 0, 257},
    {BYTES("\xff\x03"), 0, 511},
    {BYTES("\x80\x04"), 0, 512},
    {BYTES("\x81\x04"), 0, 513},
    {BYTES("\xff\x7f"), 0, 16383},
    {BYTES("\x80\x80\x01"), 0, 16384},
    {BYTES("\x81\x80\x04"), 0, 65537},
    {BYTES("\xff\xff\x7f"), 0, 2097151},
    {BYTES("\x80\x80\x80\x01"), 0, 2097152},
    {BYTES("\xff\xff\xff\x7f"), 0, 268435455},
    {BYTES("\x80\x80\x80\x80\x01"), 0, 268435456},
    {BYTES("\x81\x80\x80\x80\x08"), 0, 2147483649},
    {BYTES("\xff\xff\xff\xff\x0f"), 0, 4294967295},
    {BYTES("\x80\x00"), 53, 0},
    {BYTES("\x81\x00"), 53, 0},
    {BYTES("\xff\x00"), 53, 0},
    {BYTES("\x80\x80\x00"), 53, 0},
    {BYTES("\x81\x80\x00"), 53, 0},
    {BYTES("\xff\xff\x00"), 53, 0},
    {BYTES("\x80\x80\x80\x00"), 53, 0},
    {BYTES("\xff\xff\xff\x00"), 53, 0},
    {BYTES("\x80\x80\x80\x80\x00"), 53, 0},
    {BYTES("\x81\x80\x80\x80\x00"), 53, 0},
    {BYTES("\xff\xff\xff\xff\x00"), 53, 0},
    {BYTES("\x80\x80\x80\x80\x10"), 54, 0},
    {BYTES("\x81\x80\x80\x80\x10"), 54, 0},
    {BYTES("\xff\xff\xff\xff\x1f"), 54, 0},
    {BYTES("\x80\x80\x80\x80\x20"), 54, 0},
    {BYTES("\x82\x80\x80\x80\x40"), 54, 0},
    {BYTES("\xff\xff\xff\xff\x7f"), 54, 0},
    {BYTES("\x80\x80\x80\x80\x80"), 54, 0},
    {BYTES("\x81\x80\x80\x80\x80"), 54, 0},
    {BYTES("\xff\xff\xff\xff\x8f"), 54, 0},
    {BYTES("\xff\xff\xff\xff\xff"), 54, 0},
    {BYTES(""), 55, 0},
    {BYTES("\x80"), 55, 0},
    {BYTES("\x81"), 55, 0},
    {BYTES("\xff"), 55, 0},
    {BYTES("\x80\x80"), 55, 0},
    {BYTES("\x80\x80\x80"), 55, 0},
    {BYTES("\xff\xff\xff"), 55, 0},
    {BYTES("\x80\x80\x80\x80"), 55, 0},
    {BYTES("\xff\xff\xff\xff"), 55, 0},
};

/* Each form as the row count and as each number of a first and a second row, with different bytes after it. */
static void test_settings_numbers(void) {
    static const struct { const char *before; size_t len; int kind; } places[] = {
        {BYTES(""), 0},
        {BYTES("\x01"), 1},
        {BYTES("\x01\x05"), 2},
        {BYTES("\x01\x05\x02"), 3},
        {BYTES("\x02\x00\x02\xff\x01"), 1},
        {BYTES("\x02\x00\x02\xff\x01\x80\x01"), 2},
        {BYTES("\x02\x00\x02\xff\x01\x80\x01\x02"), 3},
    };
    static const struct { const char *bytes; size_t len; } tails[] = {
        {BYTES("")}, {BYTES("\x00")}, {BYTES("\x01")}, {BYTES("\x80")}, {BYTES("\x02\x07")}, {BYTES("\x80\x00\x80\x00")},
        {BYTES("\xff\xff\xff\xff\xff")},
    };
    uint8_t file[LONGEST];
    for (size_t f = 0; f < sizeof forms / sizeof *forms; f++) {
        for (size_t s = 0; s < sizeof places / sizeof *places; s++) {
            size_t place = put(file, places[s].before, places[s].len), fault = forms[f].fault;
            size_t n = place + put(file + place, forms[f].bytes, forms[f].len);
            if (fault == 55) {
                settings(file, n, 55, place);
                continue;
            }
            if (fault == 0 && places[s].kind == 0) {
                fault = forms[f].value > 512 ? 56 : 0;
            }
            if (fault == 0 && places[s].kind == 2) {
                fault = forms[f].value < 1 || forms[f].value > 3 ? 57 : 0;
            }
            for (size_t t = 0; fault != 0 && t < sizeof tails / sizeof *tails; t++) {
                settings(file, n + put(file + n, tails[t].bytes, tails[t].len), fault, place);
            }
            if (fault != 0) {
                continue;
            }
            /* A good one: the file goes on as it needs to. */
            for (uint32_t i = 0; places[s].kind == 0 && i < forms[f].value; i++) {
                n += put(file + n, "\x05\x02\x07", 3);
            }
            if (places[s].kind == 1 || places[s].kind == 2) {
                n += put(file + n, places[s].kind == 1 ? "\x02\x07" : "\x01", places[s].kind == 1 ? 2 : 1);
            }
            settings(file, n, 0, 0);
            qollqamir_settings read = qollqamir_settings_read(file, n);
            qollqamir_setting_row row = qollqamir_settings_row(file, n, read.rows - 1);
            CHECK(places[s].kind != 0 || (read.rows == forms[f].value && read.first == forms[f].len));
            CHECK(places[s].kind != 1 || row.version == forms[f].value);
            CHECK(places[s].kind != 2 || row.key == forms[f].value);
            CHECK(places[s].kind != 3 || row.value == forms[f].value);
        }
    }
    /* The edges once more in plain numbers. */
    REFUSED(qollqamir_settings_read(NULL, 0), 55, 0);
    REFUSED(qollqamir_settings_read(name("\x80\x80\x80\x80\x80\x00"), 6), 54, 0);
    REFUSED(qollqamir_settings_read(name("\x80\x80\x80\x80\x80"), 5), 54, 0);
    REFUSED(qollqamir_settings_read(name("\x80\x80\x80\x80"), 4), 55, 0);
    REFUSED(qollqamir_settings_read(name("\x80\x80\x80\x80\x00"), 5), 53, 0);
    REFUSED(qollqamir_settings_read(name("\xff\xff\xff\xff\x0f"), 5), 56, 0);
    qollqamir_setting_row row = qollqamir_settings_row(name("\x01\xff\xff\xff\xff\x0f\x02\xff\xff\xff\xff\x0f"), 12, 0);
    ACCEPTED(row);
    CHECK(row.version == 4294967295 && row.key == 2 && row.value == 4294967295);
    REFUSED(qollqamir_settings_row(name("\x01\x00\x02\x80\x80\x80\x80\x10"), 8, 0), 54, 3);
}

/* Row counts about each edge, with as many rows, fewer and more, of the fewest bytes and of the most. */
static void test_settings_count(void) {
    static const uint32_t counts[] = {0, 1, 2, 127, 128, 511, 512, 513, 514, 600};
    static uint32_t rows[3 * 600];
    static uint8_t file[ROOM];
    for (size_t k = 0; k < sizeof counts / sizeof *counts; k++) {
        size_t count = counts[k], number = count > 512 ? 56 : 0;
        for (int most = 0; most < 2; most++) {
            for (uint32_t i = 0; i < count; i++) {
                rows[3 * i] = most ? UINT32_MAX - 600 + i : 0;
                rows[3 * i + 1] = most ? 2 : 1 + i % 3;
                rows[3 * i + 2] = most ? UINT32_MAX - i : i % 2;
            }
            writes(rows, 3 * count, number, 0);
            size_t len = put_rows(file, rows, 3 * count), first = count < 128 ? 1 : 2, size = most ? 11 : 3;
            CHECK(len == first + size * count && (count != 512 || !most || len == LONGEST));
            settings(file, len, number, 0);
            file[len] = 0;
            settings(file, len + 1, number != 0 ? number : 60, number != 0 ? 0 : len);
            /* Cut in the last value, before the last row and right after the count. */
            if (count > 0) {
                settings(file, len - 1, number != 0 ? number : 55, number != 0 ? 0 : len - (most ? 5 : 1));
                settings(file, len - size, number != 0 ? number : 55, number != 0 ? 0 : len - size);
                settings(file, first, number != 0 ? number : 55, number != 0 ? 0 : first);
            }
            /* One row fewer than there are, where the count has the same length. */
            if (count > 1 && count != 128) {
                put_number(file, (uint32_t)count - 1);
                settings(file, len, count > 513 ? 56 : 60, count > 513 ? 0 : len - size);
            }
        }
    }
    /* The last rows, which are looked at as the others are. */
    qollqamir_settings read = qollqamir_settings_read(file, put_rows(file, rows, 3 * MOST_ROWS));
    ACCEPTED(read);
    CHECK(read.rows == 512 && read.first == 2);
    SET(qollqamir_settings_value(file, LONGEST, 2, UINT32_MAX).setting, UINT32_MAX - 511);
    CHECK(qollqamir_settings_row(file, LONGEST, 511).value == UINT32_MAX - 511);
    REFUSED(qollqamir_settings_row(file, LONGEST, 512), 26, 0);
    static const struct { size_t number, at; uint32_t bad; } faults[] = {
        {59, 1533, 0}, {57, 1534, 4}, {57, 1534, 0}, {59, 1530, UINT32_MAX},
    };
    for (size_t k = 0; k < 4; k++) {
        uint32_t was = rows[faults[k].at];
        rows[faults[k].at] = faults[k].bad;
        size_t len = put_rows(file, rows, 3 * MOST_ROWS), place = LONGEST - (faults[k].number == 57 ? 6 : 11);
        settings(file, len, faults[k].number, place);
        writes(rows, 3 * MOST_ROWS, faults[k].number, place);
        /* With one row more that is no matter. */
        writes(rows, 3 * MOST_ROWS + 3, 56, 0);
        rows[faults[k].at] = was;
    }
}

/* Versions, keys and values at the edges of what is good, in the second of three rows. */
static void test_settings_ranges(void) {
    static const struct { uint32_t row[3]; size_t number, place; } seconds[] = {
        {{300, 2, 0}, 0, 0},
        {{301, 2, 0}, 0, 0},
        {{UINT32_MAX, 2, 0}, 0, 0},
        {{299, 2, 0}, 59, 5},
        {{0, 2, 0}, 59, 5},
        {{44, 2, 0}, 59, 5},
        {{300, 0, 0}, 57, 7},
        {{300, 4, 0}, 57, 7},
        {{300, 127, 0}, 57, 7},
        {{300, 128, 0}, 57, 7},
        {{300, 257, 0}, 57, 7},
        {{300, 65538, 0}, 57, 7},
        {{300, 0x80000003, 0}, 57, 7},
        {{300, UINT32_MAX, 0}, 57, 7},
        {{300, 1, 0}, 0, 0},
        {{300, 1, 3}, 0, 0},
        {{300, 1, 4}, 58, 8},
        {{300, 1, 128}, 58, 8},
        {{300, 1, 256}, 58, 8},
        {{300, 1, 65536}, 58, 8},
        {{300, 1, 0x80000000}, 58, 8},
        {{300, 1, UINT32_MAX}, 58, 8},
        {{300, 2, UINT32_MAX}, 0, 0},
        {{300, 3, 0}, 0, 0},
        {{300, 3, 1}, 0, 0},
        {{300, 3, 2}, 58, 8},
        {{300, 3, 3}, 58, 8},
        {{300, 3, 256}, 58, 8},
        {{300, 3, UINT32_MAX}, 58, 8},
        /* Two faults of one row. */
        {{299, 4, 0}, 59, 5},
        {{299, 1, 4}, 59, 5},
        {{300, 4, UINT32_MAX}, 57, 7},
    };
    for (size_t k = 0; k < sizeof seconds / sizeof *seconds; k++) {
        const uint32_t *second = seconds[k].row;
        uint32_t rows[9] = {300, 3, 1, second[0], second[1], second[2], UINT32_MAX, 1, 2};
        uint8_t file[64];
        size_t len = put_rows(file, rows, 9);
        settings(file, len, seconds[k].number, seconds[k].place);
        writes(rows, 9, seconds[k].number, seconds[k].place);
        /* A fault in the third row comes after. */
        rows[7] = 0;
        size_t third = len - 2;
        len = put_rows(file, rows, 9);
        settings(file, len, seconds[k].number != 0 ? seconds[k].number : 57, seconds[k].number != 0 ? seconds[k].place : third);
        writes(rows, 9, seconds[k].number != 0 ? seconds[k].number : 57, seconds[k].number != 0 ? seconds[k].place : third);
    }
    /* A version is held against that of the row before, not the first or the greatest: the third falls. */
    static const uint32_t falls[12] = {5, 2, 0, 9, 2, 0, 8, 2, 0, 9, 2, 0};
    writes(falls, 12, 59, 7);
    writes(falls, 6, 0, 0);
    static const uint32_t levels[12] = {0, 2, 0, 0, 1, 0, UINT32_MAX, 3, 0, UINT32_MAX, 3, 1};
    writes(levels, 12, 0, 0);
}

/* A file of two rows, number by number, and ways in which one of them is bad: as many numbers as apply at one byte, the first of which
   decides. Where the file is cut, it ends in that number. */
static const struct { const char *bytes; size_t len; } slots[] = {
    {BYTES("\x02")}, {BYTES("\x85\x01")}, {BYTES("\x01")}, {BYTES("\x03")},
    {BYTES("\x85\x01")}, {BYTES("\x03")}, {BYTES("\x01")}, {BYTES("")},
};
enum { SLOTS = sizeof slots / sizeof *slots };

static const struct way {
    size_t slot;
    const char *bytes;
    size_t len, number;
    bool cut;
} ways[] = {
    /* The row count. 513 in a long form, 2^32 and more, and a cut one that can only be above 512 are not 56. */
    {0, BYTES("\x82\x00"), 53, false},
    {0, BYTES("\x81\x84\x00"), 53, false},
    {0, BYTES("\x80\x80\x80\x80\x10"), 54, false},
    {0, BYTES("\x82\x80\x80\x80\x10"), 54, false},
    {0, BYTES("\xff\xff\xff\xff\xff"), 54, false},
    {0, BYTES(""), 55, true},
    {0, BYTES("\x82"), 55, true},
    {0, BYTES("\xff\xff"), 55, true},
    {0, BYTES("\xff\xff\xff\xff"), 55, true},
    {0, BYTES("\x81\x04"), 56, false},
    {0, BYTES("\xff\xff\xff\xff\x0f"), 56, false},
    /* The first version, below which none can be. */
    {1, BYTES("\x80\x00"), 53, false},
    {1, BYTES("\xff\xff\xff\xff\x10"), 54, false},
    {1, BYTES("\x85\x81\x80\x80\x80"), 54, false},
    {1, BYTES(""), 55, true},
    {1, BYTES("\x85"), 55, true},
    /* Keys, good and unknown ones in a bad form. */
    {2, BYTES("\x81\x00"), 53, false},
    {2, BYTES("\x84\x00"), 53, false},
    {2, BYTES("\x81\x80\x80\x80\x10"), 54, false},
    {2, BYTES("\x80\x80\x80\x80\x80"), 54, false},
    {2, BYTES(""), 55, true},
    {2, BYTES("\x84"), 55, true},
    {2, BYTES("\x00"), 57, false},
    {2, BYTES("\x04"), 57, false},
    {2, BYTES("\x81\x01"), 57, false},
    /* Values of key 1. */
    {3, BYTES("\x83\x00"), 53, false},
    {3, BYTES("\x84\x00"), 53, false},
    {3, BYTES("\x81\x80\x80\x80\x10"), 54, false},
    {3, BYTES("\x84\x80\x80\x80\x80"), 54, false},
    {3, BYTES(""), 55, true},
    {3, BYTES("\x84\x84"), 55, true},
    {3, BYTES("\x04"), 58, false},
    {3, BYTES("\xff\xff\xff\xff\x0f"), 58, false},
    /* The second version, good and falling ones in a bad form. */
    {4, BYTES("\x85\x81\x00"), 53, false},
    {4, BYTES("\x84\x00"), 53, false},
    {4, BYTES("\x84\x80\x80\x80\x10"), 54, false},
    {4, BYTES("\x84\x81\x80\x80\x80"), 54, false},
    {4, BYTES(""), 55, true},
    {4, BYTES("\x84"), 55, true},
    {4, BYTES("\x84\x81\x80\x80"), 55, true},
    {4, BYTES("\x84\x01"), 59, false},
    {4, BYTES("\x00"), 59, false},
    {5, BYTES("\x83\x00"), 53, false},
    {5, BYTES("\x84\x00"), 53, false},
    {5, BYTES("\x83\x80\x80\x80\x10"), 54, false},
    {5, BYTES(""), 55, true},
    {5, BYTES("\x84"), 55, true},
    {5, BYTES("\x00"), 57, false},
    {5, BYTES("\x04"), 57, false},
    /* Values of key 3. */
    {6, BYTES("\x81\x00"), 53, false},
    {6, BYTES("\x82\x00"), 53, false},
    {6, BYTES("\x81\x80\x80\x80\x10"), 54, false},
    {6, BYTES("\x82\x80\x80\x80\x80"), 54, false},
    {6, BYTES(""), 55, true},
    {6, BYTES("\x82"), 55, true},
    {6, BYTES("\x02"), 58, false},
    {7, BYTES("\x00"), 60, false},
    {7, BYTES("\x80"), 60, false},
    {7, BYTES("\xff\xff\xff\xff\xff"), 60, false},
};

/* Each fault alone, and with each fault of a later number: the earlier place wins. */
static void test_settings_faults(void) {
    enum { WAYS = sizeof ways / sizeof *ways };
    for (size_t a = 0; a < WAYS; a++) {
        for (size_t b = 0; b < WAYS; b++) {
            /* The way with itself is that one alone. */
            if (a != b && (ways[b].slot <= ways[a].slot || ways[a].cut)) {
                continue;
            }
            uint8_t file[64];
            size_t n = 0, place = 0;
            for (size_t s = 0; s < SLOTS; s++) {
                const struct way *way = s == ways[a].slot ? &ways[a] : s == ways[b].slot ? &ways[b] : NULL;
                place = s == ways[a].slot ? n : place;
                n += way != NULL ? put(file + n, way->bytes, way->len) : put(file + n, slots[s].bytes, slots[s].len);
                if (way != NULL && way->cut) {
                    break;
                }
            }
            settings(file, n, ways[a].number, place);
        }
    }
}

static void test_settings_values(void) {
    static const uint32_t rows[] = {5, 1, 1, 5, 1, 2, 9, 2, UINT32_MAX, 9, 1, 0, 9, 3, 1, 20, 2, 0, 20, 3, 0, 20, 1, 3};
    enum { COUNT = sizeof rows / sizeof *rows / 3 };
    uint8_t file[64];
    size_t len = put_rows(file, rows, 3 * COUNT);
    settings(file, len, 0, 0);
    qollqamir_settings read = qollqamir_settings_read(file, len);
    CHECK(read.rows == COUNT && read.first == 1);
#define VALUE(key, version) qollqamir_settings_value(file, len, key, version).setting
    UNSET(VALUE(1, 0));
    UNSET(VALUE(1, 4));
    SET(VALUE(1, 5), 2);
    SET(VALUE(1, 8), 2);
    SET(VALUE(1, 9), 0);
    SET(VALUE(1, 19), 0);
    SET(VALUE(1, 20), 3);
    SET(VALUE(1, UINT32_MAX), 3);
    UNSET(VALUE(2, 8));
    SET(VALUE(2, 9), UINT32_MAX);
    SET(VALUE(2, 19), UINT32_MAX);
    SET(VALUE(2, 20), 0);
    UNSET(VALUE(3, 5));
    UNSET(VALUE(3, 8));
    SET(VALUE(3, 9), 1);
    SET(VALUE(3, 19), 1);
    SET(VALUE(3, 21), 0);
    UNSET(VALUE(0, 20));
    UNSET(VALUE(4, 20));
    UNSET(VALUE(UINT32_MAX, UINT32_MAX));
#undef VALUE
    /* A last row above all others changes nothing below its version. */
    for (uint32_t key = 1; key <= 3; key++) {
        uint32_t more[3 * (COUNT + 1)];
        uint8_t longer[64];
        memcpy(more, rows, sizeof rows);
        more[3 * COUNT] = 21;
        more[3 * COUNT + 1] = key;
        more[3 * COUNT + 2] = 1;
        size_t n = put_rows(longer, more, 3 * (COUNT + 1));
        settings(longer, n, 0, 0);
        for (uint32_t asked_key = 0; asked_key <= 4; asked_key++) {
            for (uint32_t version = 0; version <= 20; version++) {
                SAME(qollqamir_setting, qollqamir_settings_value(longer, n, asked_key, version),
                     qollqamir_settings_value(file, len, asked_key, version));
            }
        }
        SET(qollqamir_settings_value(longer, n, key, 21).setting, 1);
    }
    /* No row, and each row by its number. */
    settings(name("\x00"), 1, 0, 0);
    UNSET(qollqamir_settings_value(name("\x00"), 1, 1, UINT32_MAX).setting);
    REFUSED(qollqamir_settings_row(name("\x00"), 1, 0), 26, 0);
    for (size_t i = 0; i < COUNT; i++) {
        qollqamir_setting_row row = qollqamir_settings_row(file, len, i);
        ACCEPTED(row);
        CHECK(row.version == rows[3 * i] && row.key == rows[3 * i + 1] && row.value == rows[3 * i + 2]);
    }
    qollqamir_setting_row none = qollqamir_settings_row(file, len, COUNT);
    REFUSED(none, 26, 0);
    CHECK(none.version == 0 && none.key == 0 && none.value == 0);
    /* A refused file shows nothing, the rows and values before its fault neither. */
    file[len] = 0;
    none = qollqamir_settings_row(file, len + 1, 0);
    REFUSED(none, 60, len);
    CHECK(none.version == 0 && none.key == 0 && none.value == 0);
    qollqamir_setting value = qollqamir_settings_value(file, len + 1, 1, 5);
    REFUSED(value, 60, len);
    UNSET(value.setting);
    REFUSED(qollqamir_settings_value(file, len + 1, 0, 0), 60, len);
    read = qollqamir_settings_read(file, len + 1);
    REFUSED(read, 60, len);
    CHECK(read.rows == 0 && read.first == 0);
}

/* A row by itself, from every byte on, after different versions and whatever stands around it. */
static void test_settings_row_alone(void) {
    static const char bytes[] = "\xff\xff\xff\xff\xff\x00\x85\x01\x02\xff\x7f\x85\x01\x03\x01\x04\x01\x04\x80\x00\x01\x03\x81\x00\xff";
    const uint8_t *file = name(bytes);
    static const uint32_t lasts[] = {0, 1, 2, 3, 4, 5, 127, 128, 132, 133, 134, 256, 261, 16383, 65536, 0x80000085, UINT32_MAX};
    for (size_t len = 0; len < sizeof bytes; len++) {
        for (size_t at = 0; at <= len + 2; at++) {
            for (size_t k = 0; k < sizeof lasts / sizeof *lasts; k++) {
                qollqamir_setting_row_alone row = qollqamir_settings_row_alone(file, len, at, lasts[k]);
                SAME(qollqamir_setting_row_alone, row, shown_row_alone(file, len, at, lasts[k]));
            }
        }
        const size_t past[] = {len, len + 1, len + 5, (size_t)1 << 32, ((size_t)1 << 32) + 6, (size_t)1 << 63, SIZE_MAX - 5, SIZE_MAX - 4,
                               SIZE_MAX - 1, SIZE_MAX};
        for (size_t k = 0; k < sizeof past / sizeof *past; k++) {
            qollqamir_setting_row_alone row = qollqamir_settings_row_alone(file, len, past[k], 0);
            REFUSED(row, 55, past[k]);
            CHECK(row.version == 0 && row.key == 0 && row.value == 0 && row.end == 0);
        }
    }
    /* The same once more in plain numbers. */
    size_t len = sizeof bytes - 1;
    qollqamir_setting_row_alone row = qollqamir_settings_row_alone(file, len, 6, 0);
    ACCEPTED(row);
    CHECK(row.version == 133 && row.key == 2 && row.value == 16383 && row.end == 11);
    row = qollqamir_settings_row_alone(file, len, row.end, row.version);
    ACCEPTED(row);
    CHECK(row.version == 133 && row.key == 3 && row.value == 1 && row.end == 15);
    row = qollqamir_settings_row_alone(file, len, 6, 134);
    REFUSED(row, 59, 6);
    CHECK(row.version == 0 && row.key == 0 && row.value == 0 && row.end == 0);
    REFUSED(qollqamir_settings_row_alone(file, len, 15, 4), 58, 17);
    REFUSED(qollqamir_settings_row_alone(file, len, 15, 5), 59, 15);
    REFUSED(qollqamir_settings_row_alone(file, len, 16, 0), 57, 17);
    REFUSED(qollqamir_settings_row_alone(file, len, 0, 0), 54, 0);
    REFUSED(qollqamir_settings_row_alone(file, len, 18, 0), 53, 18);
    REFUSED(qollqamir_settings_row_alone(file, len, 20, 1), 53, 22);
    REFUSED(qollqamir_settings_row_alone(file, 9, 6, 133), 55, 9);
    REFUSED(qollqamir_settings_row_alone(file, 10, 6, 133), 55, 9);
    REFUSED(qollqamir_settings_row_alone(NULL, 0, 0, 0), 55, 0);
    REFUSED(qollqamir_settings_row_alone(NULL, 0, 7, 0), 55, 7);
}

static void test_write_settings(void) {
    /* Places are those in the result, where the rows begin at 1, 5 and 14. */
    static const uint32_t good[] = {300, 3, 1, 70000, 2, 4294967295, 70000, 1, 3};
    writes(good, 9, 0, 0);
    uint8_t out[32];
    memset(out, 0xee, sizeof out);
    qollqamir_written written = qollqamir_write_settings(good, 9, out, 19);
    ACCEPTED(written);
    CHECK(written.len == 19);
    CHECK(memcmp(out, "\x03\xac\x02\x03\x01\xf0\xa2\x04\x02\xff\xff\xff\xff\x0f\xf0\xa2\x04\x01\x03\xee", 20) == 0);
    settings(out, written.len, 0, 0);
    static const struct { size_t at; uint32_t bad; size_t number, place; } faults[] = {
        {1, 0, 57, 3}, {1, 4, 57, 3}, {2, 2, 58, 4}, {3, 299, 59, 5}, {3, 0, 59, 5}, {4, 5, 57, 8}, {4, 1, 58, 9},
        {6, 69999, 59, 14}, {7, UINT32_MAX, 57, 17}, {8, 4, 58, 18}, {0, 70001, 59, 6},
    };
    for (size_t k = 0; k < sizeof faults / sizeof *faults; k++) {
        uint32_t rows[9];
        memcpy(rows, good, sizeof rows);
        rows[faults[k].at] = faults[k].bad;
        writes(rows, 9, faults[k].number, faults[k].place);
        /* 27 comes first, whatever the rows are. */
        writes(rows, 8, 27, 0);
        writes(rows, 7, 27, 0);
    }
    for (size_t numbers = 0; numbers <= 9; numbers++) {
        writes(good, numbers, numbers % 3 == 0 ? 0 : 27, 0);
    }
    static uint32_t many[3 * 520];
    for (size_t i = 0; i < 520; i++) {
        many[3 * i + 1] = 3;
    }
    for (size_t numbers = 3 * 511; numbers <= 3 * 514; numbers++) {
        writes(many, numbers, numbers % 3 != 0 ? 27 : numbers > 3 * 512 ? 56 : 0, 0);
    }
}

/* ---- figures */

/* The counts of figures stand one after the other, from opened to unset; the number of one among them. */
enum { COUNTS = 52 };
#define COUNT(field) ((offsetof(qollqamir_figures, field) - offsetof(qollqamir_figures, opened)) / sizeof(uint16_t))

static uint16_t *counts(qollqamir_figures *figures) {
    return (uint16_t *)(void *)((uint8_t *)figures + offsetof(qollqamir_figures, opened));
}

/* The sum, or the most where it would be above that. */
static uint64_t sum_up_to(uint64_t most, uint64_t a, uint64_t b) { return b > most - a ? most : a + b; }

static void one_more(uint16_t *count) { *count = (uint16_t)sum_up_to(UINT16_MAX, *count, 1); }

/* What the rules give for one container more, by what the calls on it alone show. */
static qollqamir_figures_added shown_added(qollqamir_figures figures, const uint8_t *bytes, size_t len) {
    if (figures.opened == QOLLQAMIR_MOST_OPENED) {
        return (qollqamir_figures_added){QOLLQAMIR_FULL, {0, 0}, figures};
    }
    qollqamir_opening opening = qollqamir_open(bytes, len, figures.edition);
    qollqamir_field stage = qollqamir_runtime_info(bytes, len, figures.edition).stage;
    one_more(&figures.opened);
    if (opening.verdict.number != 0) {
        one_more(&figures.refused);
        one_more(&figures.refusals[opening.verdict.number]);
    } else {
        one_more(&figures.accepted);
        one_more(&figures.editions[opening.file_edition]);
        one_more(stage.set == 1 ? &figures.stages[stage.value] : &figures.unset);
        figures.bytes = sum_up_to(UINT64_MAX, figures.bytes, len);
    }
    return (qollqamir_figures_added){QOLLQAMIR_COUNTED, opening.verdict, figures};
}

static qollqamir_figures_joined shown_joined(qollqamir_figures figures, qollqamir_figures more) {
    if (figures.edition != more.edition) {
        return (qollqamir_figures_joined){QOLLQAMIR_OTHER_EDITION, figures};
    }
    if (figures.opened + more.opened > QOLLQAMIR_MOST_OPENED) {
        return (qollqamir_figures_joined){QOLLQAMIR_FULL, figures};
    }
    figures.bytes = sum_up_to(UINT64_MAX, figures.bytes, more.bytes);
    for (size_t k = 0; k < COUNTS; k++) {
        counts(&figures)[k] = (uint16_t)sum_up_to(UINT16_MAX, counts(&figures)[k], counts(&more)[k]);
    }
    return (qollqamir_figures_joined){QOLLQAMIR_JOINED, figures};
}

/* Both calls: by the rules, and what the caller holds stays. */
static qollqamir_figures_added add(qollqamir_figures figures, const uint8_t *bytes, size_t len) {
    qollqamir_figures held = figures;
    qollqamir_figures_added added = qollqamir_figures_add(held, bytes, len);
    SAME(qollqamir_figures, held, figures);
    SAME(qollqamir_figures_added, added, shown_added(figures, bytes, len));
    return added;
}

static qollqamir_figures_joined join(qollqamir_figures figures, qollqamir_figures more) {
    qollqamir_figures held[2] = {figures, more};
    qollqamir_figures_joined joined = qollqamir_figures_join(held[0], held[1]);
    SAME(qollqamir_figures, held[0], figures);
    SAME(qollqamir_figures, held[1], more);
    SAME(qollqamir_figures_joined, joined, shown_joined(figures, more));
    return joined;
}

/* Figures that no list gives, every count another number, in the ways 0 and 1; any two of one edition join. */
static qollqamir_figures made_up(size_t edition, uint16_t way) {
    qollqamir_figures figures = {.edition = edition, .bytes = 0x0123456789abcdef + way};
    for (uint16_t k = 0; k < COUNTS; k++) {
        counts(&figures)[k] = (uint16_t)(0x1101 + 0x0203 * k + way * (0x0102 + k));
    }
    return figures;
}

/* A container by itself gives these figures, and raises made-up ones by them, up to the greatest number of each count and of the sum. */
static void counts_as(const uint8_t *bytes, size_t len, qollqamir_figures one) {
    SAME(qollqamir_figures, add(qollqamir_figures_start(one.edition), bytes, len).figures, one);
    for (size_t k = COUNT(accepted); k < COUNTS; k++) {
        for (size_t number = 65533; number <= 65535; number++) {
            qollqamir_figures figures = made_up(one.edition, 0), after;
            counts(&figures)[k] = (uint16_t)number;
            after = add(figures, bytes, len).figures;
            CHECK(counts(&after)[k] == (number == 65535 ? number : number + counts(&one)[k]));
        }
    }
    const uint64_t rooms[] = {0, 1, len - 1, len, len + 1, UINT64_MAX};
    for (size_t k = 0; k < sizeof rooms / sizeof *rooms; k++) {
        qollqamir_figures figures = made_up(one.edition, 0);
        figures.bytes = UINT64_MAX - rooms[k];
        CHECK(add(figures, bytes, len).figures.bytes == (one.bytes > rooms[k] ? UINT64_MAX : figures.bytes + one.bytes));
    }
}

/* Editions to count at, in order: two above 3 are two editions. */
static const size_t figures_editions[] = {0, 1, 2, 3, 4, 5, 256, (size_t)1 << 32, SIZE_MAX};
enum { FIGURES_EDITIONS = sizeof figures_editions / sizeof *figures_editions };

/* PSV0 data with a runtime record of s bytes, more than 24, a number where edition 1 has the stage, and four empty strings. */
static size_t box_stage(uint8_t *out, size_t s, uint8_t stage) {
    memset(out, 0, s + 20);
    put32(out, (uint32_t)s);
    out[4 + 24] = stage;
    put32(out + 4 + s + 4, 4);
    return s + 20;
}

/* A container with a number put in. */
static size_t changed(uint8_t *bytes, size_t len, size_t at, uint32_t number) {
    put32(bytes + at, number);
    return len;
}

/* Container i of a list whose figures are worked out below. */
enum { WORKED = 13 };
static size_t worked(uint8_t *out, size_t i) {
    uint8_t psv0[256];
    switch (i) {
    case 0: return shader(out, psv0, box_m(psv0, 24, 24));     /* 92 bytes, edition 0 */
    case 1: return shader(out, psv0, box_c(psv0, 52, 1));      /* 136, edition 3, stage 5 */
    case 2: return shader(out, psv0, box_c(psv0, 52, 8));      /* the same; 24 at edition 3 */
    case 3: return 0;                                          /* 1 */
    case 4: return changed(out, worked(out, 0), 36, 51);       /* 92; 8 at part 1 */
    case 5: return shader(out, psv0, box_s(psv0));             /* 220, edition 3, stage 13 */
    case 6: return shader(out, psv0, box_stage(psv0, 36, 0));  /* 116, edition 1, stage 0 */
    case 7: return shader(out, psv0, box_stage(psv0, 48, 15)); /* 128, edition 2, stage 15 */
    case 8: return shader(out, psv0, box_stage(psv0, 36, 16)); /* 116, edition 1; 15 but at edition 0 */
    case 9: return shader(out, psv0, box_c(psv0, 56, 1));      /* 140, edition 3, stage 5 */
    case 10: return lay_out(out, two, 4, 2);                   /* 134, edition 0 */
    case 11: return changed(out, worked(out, 5), 188, 8);      /* 220, edition 3; 22 at element 3 but at edition 0 */
    default: return shader(out, psv0, box_stage(psv0, 32, 5)); /* 112, edition 0, where the 5 is no stage */
    }
}

/* What opening each of them at the editions 0 to 3 gives; and the figures then. */
static const qollqamir_verdict worked_verdicts[4][WORKED] = {
    {[3] = {1, 0}, [4] = {8, 1}},
    {[3] = {1, 0}, [4] = {8, 1}, [8] = {15, 0}, [11] = {22, 3}},
    {[3] = {1, 0}, [4] = {8, 1}, [8] = {15, 0}, [11] = {22, 3}},
    {[2] = {24, 0}, [3] = {1, 0}, [4] = {8, 1}, [8] = {15, 0}, [11] = {22, 3}},
};
static const qollqamir_figures worked_figures[4] = {
    {.edition = 0, .bytes = 1550, .opened = 13, .accepted = 11, .refused = 2, .refusals = {[1] = 1, [8] = 1},
     .editions = {3, 2, 1, 5}, .unset = 11},
    {.edition = 1, .bytes = 1214, .opened = 13, .accepted = 9, .refused = 4, .refusals = {[1] = 1, [8] = 1, [15] = 1, [22] = 1},
     .editions = {3, 1, 1, 4}, .stages = {[0] = 1, [5] = 3, [13] = 1, [15] = 1}, .unset = 3},
    {.edition = 2, .bytes = 1214, .opened = 13, .accepted = 9, .refused = 4, .refusals = {[1] = 1, [8] = 1, [15] = 1, [22] = 1},
     .editions = {3, 1, 1, 4}, .stages = {[0] = 1, [5] = 3, [13] = 1, [15] = 1}, .unset = 3},
    {.edition = 3, .bytes = 1078, .opened = 13, .accepted = 8, .refused = 5,
     .refusals = {[1] = 1, [8] = 1, [15] = 1, [22] = 1, [24] = 1},
     .editions = {3, 1, 1, 3}, .stages = {[0] = 1, [5] = 2, [13] = 1, [15] = 1}, .unset = 3},
};

/* The figures of so many containers of the list from one on, the first again after the last. */
static qollqamir_figures figures_of(size_t edition, size_t from, size_t count) {
    qollqamir_figures figures = qollqamir_figures_start(edition);
    for (size_t i = from; i < from + count; i++) {
        uint8_t bytes[256];
        size_t len = worked(bytes, i % WORKED);
        qollqamir_verdict expected = edition > 3 ? (qollqamir_verdict){25, 0} : worked_verdicts[edition][i % WORKED];
        qollqamir_figures_added added = add(figures, bytes, len);
        CHECK(added.answer == QOLLQAMIR_COUNTED && added.figures.opened == i - from + 1);
        REFUSED(added, expected.number, expected.place);
        figures = added.figures;
    }
    return figures;
}

static void test_figures(void) {
    CHECK(COUNT(accepted) == 1 && COUNT(unset) == COUNTS - 1 && sizeof(qollqamir_figures) == 16 + 2 * COUNTS);
    CHECK(QOLLQAMIR_MOST_OPENED == 65535 && QOLLQAMIR_COUNTED == 0 && QOLLQAMIR_JOINED == 0);
    CHECK(QOLLQAMIR_FULL == 1 && QOLLQAMIR_OTHER_EDITION == 2);
    for (size_t e = 0; e < FIGURES_EDITIONS; e++) {
        size_t edition = figures_editions[e];
        SAME(qollqamir_figures, qollqamir_figures_start(edition), ((qollqamir_figures){.edition = edition}));
        qollqamir_figures expected = {.edition = edition, .opened = WORKED, .refused = WORKED, .refusals = {[25] = WORKED}};
        if (edition <= 3) {
            expected = worked_figures[edition];
        }
        /* In any order, and split in two. */
        for (size_t from = 0; from < WORKED; from++) {
            SAME(qollqamir_figures, figures_of(edition, from, WORKED), expected);
            qollqamir_figures_joined joined = join(figures_of(edition, 0, from), figures_of(edition, from, WORKED - from));
            CHECK(joined.answer == QOLLQAMIR_JOINED);
            SAME(qollqamir_figures, joined.figures, expected);
        }
    }
    /* A null pointer with length 0 is no container, and at edition 4 it isn't looked at. */
    qollqamir_figures_added added = add(qollqamir_figures_start(1), NULL, 0);
    CHECK(added.answer == QOLLQAMIR_COUNTED && added.figures.refusals[1] == 1 && added.figures.refused == 1);
    REFUSED(added, 1, 0);
    added = add(qollqamir_figures_start(4), NULL, 0);
    CHECK(added.answer == QOLLQAMIR_COUNTED && added.figures.refusals[25] == 1 && added.figures.refusals[1] == 0);
    REFUSED(added, 25, 0);
    counts_as(NULL, 0, (qollqamir_figures){.edition = 4, .opened = 1, .refused = 1, .refusals = {[25] = 1}});
}

/* Every stage in a file of every edition, each at every edition: the file's edition is counted, the stage is that of the reading. */
static void test_figures_stages(void) {
    static const struct { size_t s, edition; } sizes[] = {{28, 0}, {32, 0}, {36, 1}, {44, 1}, {48, 2}, {52, 3}, {56, 3}, {100, 3}};
    for (size_t edition = 0; edition <= 3; edition++) {
        qollqamir_figures all = qollqamir_figures_start(edition);
        for (size_t k = 0; k < sizeof sizes / sizeof *sizes; k++) {
            for (uint8_t stage = 0; stage < 16; stage++) {
                uint8_t psv0[128], bytes[192];
                size_t len = shader(bytes, psv0, box_stage(psv0, sizes[k].s, stage));
                CHECK(len == 80 + sizes[k].s);
                qollqamir_figures expected = {.edition = edition, .bytes = len, .opened = 1, .accepted = 1};
                expected.editions[sizes[k].edition] = 1;
                *(edition == 0 || sizes[k].edition == 0 ? &expected.unset : &expected.stages[stage]) = 1;
                counts_as(bytes, len, expected);
                all = add(all, bytes, len).figures;
            }
        }
        /* 80 x 8 + 396 bytes for each of 16 stages. */
        qollqamir_figures expected = {.edition = edition, .bytes = 16576, .opened = 128, .accepted = 128, .editions = {32, 32, 16, 48}};
        for (size_t stage = 0; stage < 16; stage++) {
            expected.stages[stage] = edition == 0 ? 0 : 6;
        }
        expected.unset = edition == 0 ? 128 : 32;
        SAME(qollqamir_figures, all, expected);
    }
}

/* A number put into the container of box S, and what reader 3 then gives. */
static const struct { size_t at; uint32_t put; size_t number, place; } faults_in_s[] = {
    {0, 0, 3, 0}, {20, 2, 4, 0}, {24, 221, 5, 0}, {28, 97, 6, 0}, {28, 96, 7, 0}, {36, 51, 8, 1}, {52, 0x4c495844, 9, 1}, {40, 0, 10, 0},
    {52, 0, 11, 0}, {60, 26, 12, 0}, {60, 400, 13, 0}, {116, 1, 14, 0}, {88, 16, 15, 0}, {88, 0x20d, 16, 0}, {96, 0x100, 17, 0},
    {120, 7, 18, 0}, {132, 1000, 19, 0}, {136, 15, 20, 0}, {88, 0x1010d, 21, 0}, {188, 8, 22, 3}, {212, 1, 23, 4}, {112, 8, 24, 0},
};
enum { FAULTS_IN_S = sizeof faults_in_s / sizeof *faults_in_s };

/* Box M with bytes after it up to the greatest length. */
static void box_longest(void) {
    static const struct entry m[2] = {{"DXIL", 0, 40, 4, 0, "code"}, {"PSV0", 0, 52, 32, 0, plain}};
    CHECK(lay_out(greatest, m, 2, GREATEST - 92) == GREATEST);
}

/* What such a container counts as at an edition: 15 to 23 are judged from edition 1 on, 24 at 3. */
static qollqamir_figures one_with_fault(size_t edition, size_t number) {
    qollqamir_figures one = {.edition = edition, .opened = 1};
    if (number < 15 || (edition >= 1 && number < 24) || edition == 3) {
        one.refused = 1;
        one.refusals[number] = 1;
    } else {
        one.bytes = 220;
        one.accepted = 1;
        one.editions[3] = 1;
        *(edition == 0 ? &one.unset : &one.stages[13]) = 1;
    }
    return one;
}

/* Each refusal number by itself and then all of them: 22 faults, 31 bytes, the greatest length and one byte more. */
static void test_figures_refusals(void) {
    static const qollqamir_figures totals[4] = {
        {.edition = 0, .bytes = GREATEST + 2200, .opened = 25, .accepted = 11, .refused = 14, .editions = {1, 0, 0, 10}, .unset = 11},
        {.edition = 1, .bytes = GREATEST + 220, .opened = 25, .accepted = 2, .refused = 23, .editions = {1, 0, 0, 1}, .stages = {[13] = 1},
         .unset = 1},
        {.edition = 2, .bytes = GREATEST + 220, .opened = 25, .accepted = 2, .refused = 23, .editions = {1, 0, 0, 1}, .stages = {[13] = 1},
         .unset = 1},
        {.edition = 3, .bytes = GREATEST, .opened = 25, .accepted = 1, .refused = 24, .editions = {1}, .unset = 1},
    };
    box_longest();
    for (size_t edition = 0; edition <= 3; edition++) {
        qollqamir_figures all = qollqamir_figures_start(edition);
        for (size_t k = 0; k < FAULTS_IN_S; k++) {
            uint8_t bytes[256];
            size_t len = changed(bytes, worked(bytes, 5), faults_in_s[k].at, faults_in_s[k].put);
            qollqamir_figures one = one_with_fault(edition, faults_in_s[k].number);
            counts_as(bytes, len, one);
            qollqamir_figures_added added = add(all, bytes, len);
            CHECK(added.answer == QOLLQAMIR_COUNTED);
            REFUSED(added, one.refused == 1 ? faults_in_s[k].number : 0, one.refused == 1 ? faults_in_s[k].place : 0);
            all = added.figures;
        }
        counts_as(greatest, 31, one_with_fault(edition, 1));
        counts_as(greatest, GREATEST + 1, one_with_fault(edition, 2));
        counts_as(greatest, GREATEST,
                  (qollqamir_figures){.edition = edition, .bytes = GREATEST, .opened = 1, .accepted = 1, .editions = {1}, .unset = 1});
        all = add(all, greatest, 31).figures;
        all = add(all, greatest, GREATEST).figures;
        qollqamir_figures_added added = add(all, greatest, GREATEST + 1);
        REFUSED(added, 2, 0);
        /* The numbers from 1 on, once each. */
        qollqamir_figures expected = totals[edition];
        for (size_t number = 1; number <= expected.refused; number++) {
            expected.refusals[number] = 1;
        }
        SAME(qollqamir_figures, added.figures, expected);
    }
}

/* 65,537 additions of the list over and over, of the greatest length and of nothing: the last two change nothing. */
static void test_figures_most(void) {
    box_longest();
    qollqamir_figures figures[3] = {qollqamir_figures_start(1), qollqamir_figures_start(3), qollqamir_figures_start(0)};
    for (size_t i = 1; i <= 65537; i++) {
        uint8_t bytes[256];
        const uint8_t *const next[3] = {bytes, greatest, NULL};
        const size_t lengths[3] = {worked(bytes, (i - 1) % WORKED), GREATEST, 0};
        for (int k = 0; k < 3; k++) {
            qollqamir_figures_added added = add(figures[k], next[k], lengths[k]);
            if (i <= 65535) {
                CHECK(added.answer == QOLLQAMIR_COUNTED && added.figures.opened == i);
            } else {
                CHECK(added.answer == QOLLQAMIR_FULL);
                REFUSED(added, 0, 0);
                SAME(qollqamir_figures, added.figures, figures[k]);
            }
            figures[k] = added.figures;
        }
    }
    /* The list 5041 times and two containers of it more. */
    SAME(qollqamir_figures, figures[0],
         ((qollqamir_figures){.edition = 1, .bytes = 6120002, .opened = 65535, .accepted = 45371, .refused = 20164,
                              .refusals = {[1] = 5041, [8] = 5041, [15] = 5041, [22] = 5041}, .editions = {15124, 5041, 5041, 20165},
                              .stages = {[0] = 5041, [5] = 15124, [13] = 5041, [15] = 5041}, .unset = 15124}));
    SAME(qollqamir_figures, figures[1],
         ((qollqamir_figures){.edition = 3, .bytes = 1099494850560, .opened = 65535, .accepted = 65535, .editions = {65535},
                              .unset = 65535}));
    SAME(qollqamir_figures, figures[2], ((qollqamir_figures){.opened = 65535, .refused = 65535, .refusals = {[1] = 65535}}));
}

/* Made-up figures near the most, at every edition: the number opened alone decides. */
static void test_figures_full(void) {
    for (size_t e = 0; e < FIGURES_EDITIONS; e++) {
        for (size_t i = 0; i < WORKED; i++) {
            uint8_t bytes[256];
            size_t len = worked(bytes, i);
            qollqamir_verdict verdict = qollqamir_open(bytes, len, figures_editions[e]).verdict;
            qollqamir_figures figures = made_up(figures_editions[e], 0);
            for (size_t opened = 65533; opened <= 65535; opened++) {
                figures.opened = (uint16_t)opened;
                qollqamir_figures_added added = add(figures, bytes, len);
                CHECK(added.answer == (opened < 65535 ? QOLLQAMIR_COUNTED : QOLLQAMIR_FULL));
                REFUSED(added, opened < 65535 ? verdict.number : 0, opened < 65535 ? verdict.place : 0);
                CHECK(added.figures.opened == (opened < 65535 ? opened + 1 : 65535));
                CHECK((memcmp(&added.figures, &figures, sizeof figures) == 0) == (opened == 65535));
                /* What an opening never gives is kept. */
                CHECK(added.figures.refusals[0] == figures.refusals[0] && added.figures.refusals[26] == figures.refusals[26]);
                CHECK(added.figures.refusals[27] == figures.refusals[27] && added.figures.edition == figures.edition);
            }
            figures = qollqamir_figures_start(figures_editions[e]);
            figures.opened = 65535;
            CHECK(add(figures, bytes, len).answer == QOLLQAMIR_FULL);
            memset(counts(&figures), 0xff, COUNTS * sizeof(uint16_t));
            figures.opened = 65534;
            CHECK(add(figures, bytes, len).answer == QOLLQAMIR_COUNTED);
        }
    }
}

/* Which figures join: the editions are looked at first, then the sum of the numbers opened. */
static void test_figures_join(void) {
    static const struct { uint16_t opened, more; size_t answer; } pairs[] = {
        {0, 0, QOLLQAMIR_JOINED}, {1, 1, QOLLQAMIR_JOINED}, {0, 65535, QOLLQAMIR_JOINED}, {65535, 0, QOLLQAMIR_JOINED},
        {1, 65534, QOLLQAMIR_JOINED}, {65534, 1, QOLLQAMIR_JOINED}, {32767, 32768, QOLLQAMIR_JOINED}, {32768, 32767, QOLLQAMIR_JOINED},
        {1, 65535, QOLLQAMIR_FULL}, {65535, 1, QOLLQAMIR_FULL}, {2, 65534, QOLLQAMIR_FULL}, {65534, 2, QOLLQAMIR_FULL},
        {32768, 32768, QOLLQAMIR_FULL}, {65535, 65535, QOLLQAMIR_FULL},
    };
    for (size_t p = 0; p < sizeof pairs / sizeof *pairs; p++) {
        for (size_t e = 0; e < FIGURES_EDITIONS * FIGURES_EDITIONS; e++) {
            qollqamir_figures figures = made_up(figures_editions[e / FIGURES_EDITIONS], 0);
            qollqamir_figures more = made_up(figures_editions[e % FIGURES_EDITIONS], 1);
            figures.opened = pairs[p].opened;
            more.opened = pairs[p].more;
            qollqamir_figures_joined joined = join(figures, more);
            CHECK(joined.answer == (figures.edition != more.edition ? QOLLQAMIR_OTHER_EDITION : pairs[p].answer));
            if (joined.answer != QOLLQAMIR_JOINED) {
                SAME(qollqamir_figures, joined.figures, figures);
            } else {
                CHECK(joined.figures.opened == pairs[p].opened + pairs[p].more);
            }
        }
    }
    /* Every count is summed, those that an opening never raises too. */
    qollqamir_figures figures = made_up(3, 0), more = made_up(3, 1), both = join(figures, more).figures;
    CHECK(both.edition == 3 && both.bytes == 0x02468acf13579bdf);
    for (size_t k = 0; k < COUNTS; k++) {
        CHECK(counts(&both)[k] == 2 * (0x1101 + 0x0203 * k) + 0x0102 + k);
    }
    /* The worked list twice, at edition 3, and nothing more. */
    SAME(qollqamir_figures, join(worked_figures[3], worked_figures[3]).figures,
         ((qollqamir_figures){.edition = 3, .bytes = 2156, .opened = 26, .accepted = 16, .refused = 10,
                              .refusals = {[1] = 2, [8] = 2, [15] = 2, [22] = 2, [24] = 2}, .editions = {6, 2, 2, 6},
                              .stages = {[0] = 2, [5] = 4, [13] = 2, [15] = 2}, .unset = 6}));
    SAME(qollqamir_figures, join(worked_figures[1], qollqamir_figures_start(1)).figures, worked_figures[1]);
    SAME(qollqamir_figures, join(qollqamir_figures_start(1), worked_figures[1]).figures, worked_figures[1]);
}

/* Every count, and the sum of the lengths, up to its greatest and past it. */
static void test_figures_join_stays(void) {
    static const uint16_t pairs[][3] = {
        {65535, 0, 65535}, {0, 65535, 65535}, {65534, 1, 65535}, {1, 65534, 65535}, {65533, 1, 65534}, {65535, 1, 65535}, {1, 65535, 65535},
        {65534, 2, 65535}, {32768, 32768, 65535}, {32767, 32768, 65535}, {65535, 65535, 65535}, {255, 1, 256},
    };
    for (size_t p = 0; p < sizeof pairs / sizeof *pairs; p++) {
        for (size_t k = COUNT(accepted); k < COUNTS; k++) {
            qollqamir_figures figures = made_up(2, 0), more = made_up(2, 1), both;
            counts(&figures)[k] = pairs[p][0];
            counts(&more)[k] = pairs[p][1];
            both = join(figures, more).figures;
            CHECK(counts(&both)[k] == pairs[p][2]);
        }
    }
    static const uint64_t sums[][3] = {
        {UINT64_MAX, 0, UINT64_MAX}, {0, UINT64_MAX, UINT64_MAX}, {UINT64_MAX, 1, UINT64_MAX}, {1, UINT64_MAX, UINT64_MAX},
        {UINT64_MAX - 1, 1, UINT64_MAX}, {UINT64_MAX - 2, 1, UINT64_MAX - 1}, {UINT64_MAX - 1, 2, UINT64_MAX},
        {(uint64_t)1 << 63, (uint64_t)1 << 63, UINT64_MAX}, {((uint64_t)1 << 63) - 1, (uint64_t)1 << 63, UINT64_MAX},
        {UINT64_MAX, UINT64_MAX, UINT64_MAX}, {UINT32_MAX, 1, (uint64_t)1 << 32}, {65535, 1, 65536},
    };
    for (size_t p = 0; p < sizeof sums / sizeof *sums; p++) {
        qollqamir_figures figures = made_up(0, 0), more = made_up(0, 1);
        figures.bytes = sums[p][0];
        more.bytes = sums[p][1];
        CHECK(join(figures, more).figures.bytes == sums[p][2]);
    }
}

/* ---- places */

/* The sizes of a runtime record by its edition. */
static const uint32_t runtime_sizes[4] = {24, 36, 48, 52};

/* n bytes at a place lie inside. Products of numbers of 32 bits and their sums don't pass 64. */
static bool inside(size_t len, uint64_t at, uint64_t n) { return at <= len && n <= len - at; }

static uint32_t size_by(qollqamir_places p) { return runtime_sizes[p.edition > 3 ? 3 : p.edition]; }

static qollqamir_field set_if(bool has, uint32_t n) { return (qollqamir_field){has, has ? n : 0}; }

/* The words of masks, by the bytes of a runtime record of edition 1 or more. */
static void words_of(const uint8_t *r, uint32_t *words) {
    uint32_t stage = r[24], view = r[25] == 1, u = r[31], p = stage == 3 || stage == 4 || stage == 13 ? r[26] : 0;
    for (int i = 0; i < 4; i++) {
        words[i] = view * ((r[32 + i] + 7u) / 8);
        words[5 + i] = (r[32 + i] + 7u) / 8 * u * 4;
    }
    words[4] = view * (stage == 3 || stage == 13) * ((p + 7) / 8);
    words[9] = (stage == 3) * ((p + 7) / 8) * u * 4;
    words[10] = (stage == 4) * ((r[32] + 7u) / 8) * p * 4;
}

static size_t edition_of(uint32_t s) { return s < 36 ? 0 : s < 48 ? 1 : s < 52 ? 2 : 3; }

/* The places of accepted PSV0 data that start at a byte, by the order of the sections in document 01. */
static qollqamir_places shown_places(const uint8_t *data, size_t at, size_t edition) {
    uint32_t s = get32(data), from = (uint32_t)at, n = 4 + s;
    qollqamir_places p = {.edition = (uint32_t)(edition < edition_of(s) ? edition : edition_of(s)), .runtime = from + 4};
    p.resource_count = get32(data + n);
    n += 4;
    if (p.resource_count > 0) {
        p.resource_size = get32(data + n);
        n += 4;
    }
    p.resources = from + n;
    if (p.edition == 0) {
        return p;
    }
    n += p.resource_count * p.resource_size;
    p.stage = data[4 + 24];
    p.string_bytes = get32(data + n);
    p.strings = from + n + 4;
    n += 4 + p.string_bytes;
    p.index_count = get32(data + n);
    p.indices = from + n + 4;
    n += 4 + 4 * p.index_count;
    p.element_count = (uint32_t)data[4 + 28] + data[4 + 29] + data[4 + 30];
    if (p.element_count > 0) {
        p.element_size = get32(data + n);
        n += 4;
    }
    p.elements = from + n;
    p.masks = from + n + p.element_count * p.element_size;
    words_of(data + 4, p.mask_words);
    return p;
}

/* The part with a name, which there is. */
static size_t part_at(const uint8_t *bytes, const char *four) {
    size_t i = 0;
    while (memcmp(bytes + get32(bytes + 32 + 4 * i), four, 4) != 0) {
        i++;
    }
    return get32(bytes + 32 + 4 * i);
}

static qollqamir_opened shown_opened(const uint8_t *bytes, size_t len, size_t edition, bool alone) {
    qollqamir_opened a = {.verdict = (alone ? qollqamir_psv0_open : qollqamir_open)(bytes, len, edition).verdict};
    if (a.verdict.number == 0) {
        size_t at = alone ? 0 : part_at(bytes, "PSV0") + 8;
        a.parts = alone ? 0 : get32(bytes + 28);
        a.file_edition = (uint32_t)edition_of(get32(bytes + at));
        a.places = shown_places(bytes + at, at, edition);
        a.edition_read = a.places.edition;
    }
    return a;
}

/* The recorded edition and stage decide what is set; the numbers are those of the bytes. */
static qollqamir_info shown_info(const uint8_t *b, size_t len, qollqamir_places p) {
    if (!inside(len, p.runtime, size_by(p))) {
        return (qollqamir_info){.verdict = {29, 0}};
    }
    uint8_t r[52] = {0};
    memcpy(r, b + p.runtime, size_by(p));
    bool one = p.edition >= 1, patch = p.stage == 3 || p.stage == 4 || p.stage == 13;
    bool threads = p.edition >= 2 && (p.stage == 5 || p.stage == 13 || p.stage == 14);
    return (qollqamir_info){
        {0, 0},
        set_if(true, get32(r + 16)),
        set_if(true, get32(r + 20)),
        set_if(one, r[24]),
        set_if(one, r[25]),
        set_if(one && p.stage == 2, r[26] + 256u * r[27]),
        set_if(one && patch, r[26]),
        set_if(one && p.stage == 13, r[27]),
        set_if(one, r[28]),
        set_if(one, r[29]),
        set_if(one, r[30]),
        set_if(one, r[31]),
        set_if(one, r[32]),
        set_if(one, r[33]),
        set_if(one, r[34]),
        set_if(one, r[35]),
        set_if(threads, get32(r + 36)),
        set_if(threads, get32(r + 40)),
        set_if(threads, get32(r + 44)),
        set_if(p.edition >= 3, get32(r + 48)),
    };
}

static qollqamir_resource_record shown_resource(const uint8_t *b, size_t len, qollqamir_places p, size_t i) {
    bool late = p.edition >= 2 && p.resource_size >= 24;
    uint64_t at = p.resources + (uint64_t)i * p.resource_size;
    if (i >= p.resource_count || !inside(len, at, late ? 24 : 16)) {
        return (qollqamir_resource_record){.verdict = {i >= p.resource_count ? 26 : 29, 0}};
    }
    const uint8_t *r = b + at;
    return (qollqamir_resource_record){
        {0, 0},
        set_if(true, get32(r)),
        set_if(true, get32(r + 4)),
        set_if(true, get32(r + 8)),
        set_if(true, get32(r + 12)),
        set_if(late, late ? get32(r + 16) : 0),
        set_if(late, late ? get32(r + 20) : 0),
    };
}

/* Element i: 26, 29, or 0 and its place. */
static size_t element_by(size_t len, qollqamir_places p, size_t i, uint64_t *at) {
    if (p.edition == 0 || i >= p.element_count) {
        return 26;
    }
    *at = p.elements + (uint64_t)i * p.element_size;
    return inside(len, *at, 16) ? 0 : 29;
}

static qollqamir_element_record shown_element(const uint8_t *b, size_t len, qollqamir_places p, size_t i) {
    uint64_t at;
    size_t number = element_by(len, p, i, &at);
    if (number != 0) {
        return (qollqamir_element_record){.verdict = {number, 0}};
    }
    const uint8_t *r = b + at;
    return (qollqamir_element_record){
        {0, 0},
        set_if(true, get32(r)),
        set_if(true, get32(r + 4)),
        set_if(true, r[8]),
        set_if(true, r[9]),
        set_if(true, r[10] & 15),
        set_if(true, r[10] >> 4 & 3),
        set_if(true, r[10] >> 6 & 1),
        set_if(true, r[11]),
        set_if(true, r[12]),
        set_if(true, r[13]),
        set_if(true, r[14] & 15),
        set_if(true, r[14] >> 4 & 3),
        set_if(true, r[15]),
    };
}

static qollqamir_list_lengths shown_lengths(qollqamir_places p) {
    bool one = p.edition >= 1;
    return (qollqamir_list_lengths){{0, 0}, {1, p.resource_count}, set_if(one, p.string_bytes), set_if(one, p.index_count),
                                    set_if(one, p.element_count)};
}

/* The length of the well-formed sequence that text begins with, 0 where there is none: table 3-7 of the Unicode Standard. */
static size_t sequence(const uint8_t *text, size_t len) {
    uint8_t lead = text[0];
    size_t n = lead < 0x80 ? 1 : lead < 0xc2 ? 0 : lead < 0xe0 ? 2 : lead < 0xf0 ? 3 : lead < 0xf5 ? 4 : 0;
    if (n > len) {
        return 0;
    }
    for (size_t k = 1; k < n; k++) {
        uint8_t least = k > 1 ? 0x80 : lead == 0xe0 ? 0xa0 : lead == 0xf0 ? 0x90 : 0x80;
        uint8_t most = k > 1 ? 0xbf : lead == 0xed ? 0x9f : lead == 0xf4 ? 0x8f : 0xbf;
        if (text[k] < least || text[k] > most) {
            return 0;
        }
    }
    return n;
}

#define NO_SPAN(n) ((qollqamir_span){.verdict = {n, 0}})

static qollqamir_span stretch_by(size_t len, uint64_t at, uint64_t n) {
    return inside(len, at, n) ? (qollqamir_span){{0, 0}, (size_t)at, (size_t)n, 0, 0} : NO_SPAN(29);
}

/* The string at a reference; the whole table must lie inside. */
static qollqamir_span string_by(const uint8_t *b, size_t len, qollqamir_places p, uint32_t o) {
    if (!inside(len, p.strings, p.string_bytes) || o >= p.string_bytes) {
        return NO_SPAN(29);
    }
    const uint8_t *text = b + p.strings + o, *zero = memchr(text, 0, p.string_bytes - o);
    if (zero == NULL) {
        return NO_SPAN(29);
    }
    size_t n = (size_t)(zero - text), points = 0;
    for (size_t at = 0, step; at < n; at += step, points++) {
        step = sequence(text + at, n - at);
        if (step == 0) {
            return NO_SPAN(29);
        }
    }
    return (qollqamir_span){{0, 0}, p.strings + (size_t)o, n, 1, points};
}

static qollqamir_span shown_view(const uint8_t *b, size_t len, qollqamir_places p, uint32_t kind, size_t number) {
    uint64_t at = p.masks, n = 0;
    switch (kind) {
    case QOLLQAMIR_STAGE_UNION:
        return inside(len, p.runtime, size_by(p)) ? stretch_by(len, p.runtime, 16) : NO_SPAN(29);
    case QOLLQAMIR_ELEMENT_STRING:
    case QOLLQAMIR_ELEMENT_ARRAY:
        n = element_by(len, p, number, &at);
        if (n != 0) {
            return NO_SPAN(n);
        }
        if (kind == QOLLQAMIR_ELEMENT_STRING) {
            return string_by(b, len, p, get32(b + at));
        }
        if (!inside(len, p.indices, (uint64_t)p.index_count * 4) || (uint64_t)get32(b + at + 4) + b[at + 8] > p.index_count) {
            return NO_SPAN(29);
        }
        return stretch_by(len, p.indices + (uint64_t)get32(b + at + 4) * 4, b[at + 8] * 4u);
    case QOLLQAMIR_ENTRY_NAME:
        if (p.edition < 3) {
            return NO_SPAN(26);
        }
        return inside(len, p.runtime, 52) ? string_by(b, len, p, get32(b + p.runtime + 48)) : NO_SPAN(29);
    case QOLLQAMIR_MASK:
        if (p.edition == 0 || number > 10) {
            return NO_SPAN(26);
        }
        for (size_t k = 0; k < number; k++) {
            at += (uint64_t)p.mask_words[k] * 4;
        }
        return stretch_by(len, at, (uint64_t)p.mask_words[number] * 4);
    default:
        return NO_SPAN(26);
    }
}

static qollqamir_span shown_section(size_t len, qollqamir_places p, uint32_t section) {
    if (section > 5) {
        return NO_SPAN(26);
    }
    uint64_t words = 0;
    for (size_t k = 0; k < 11; k++) {
        words += p.mask_words[k];
    }
    const struct { uint64_t at, n; } all[6] = {
        {p.runtime, size_by(p)},
        {p.resources, (uint64_t)p.resource_count * p.resource_size},
        {p.strings, p.string_bytes},
        {p.indices, (uint64_t)p.index_count * 4},
        {p.elements, (uint64_t)p.element_count * p.element_size},
        {p.masks, words * 4},
    };
    return p.edition == 0 && section >= 2 ? stretch_by(len, 0, 0) : stretch_by(len, all[section].at, all[section].n);
}

/* Whether PSV0 data that reader 3 accepts are in plain form. */
static bool is_plain(const uint8_t *data, size_t len) {
    qollqamir_places p = shown_places(data, 0, 3);
    size_t end = p.resources + p.resource_count * p.resource_size;
    if (p.edition >= 1) {
        end = p.masks;
        for (size_t k = 0; k < 11; k++) {
            end += p.mask_words[k] * (size_t)4;
        }
    }
    return get32(data) == runtime_sizes[p.edition] && (p.resource_count == 0 || p.resource_size == (p.edition < 2 ? 16 : 24)) &&
           (p.element_count == 0 || p.element_size == 16) && end == len;
}

/* A container that opens, with other PSV0 data. */
static size_t put_replaced(uint8_t *out, const uint8_t *bytes, size_t len, const uint8_t *part, size_t part_len) {
    size_t at = part_at(bytes, "PSV0"), size = get32(bytes + at + 4), end = at + 8 + size;
    size_t n = put(out, bytes, at + 4);
    n += put32(out + n, (uint32_t)part_len);
    n += put(out + n, part, part_len);
    n += put(out + n, bytes + end, len - end);
    put32(out + 24, (uint32_t)n);
    for (uint32_t i = 0; i < get32(bytes + 28); i++) {
        size_t offset = get32(bytes + 32 + 4 * i);
        put32(out + 32 + 4 * i, (uint32_t)(offset > at ? offset + part_len - size : offset));
    }
    return n;
}

static qollqamir_replaced shown_replaced(const uint8_t *bytes, size_t len, size_t edition, const uint8_t *part, size_t part_len,
                                         size_t room) {
    qollqamir_replaced a = {.verdict = qollqamir_open(bytes, len, edition).verdict};
    if (a.verdict.number == 0) {
        a.verdict = qollqamir_psv0_open(part, part_len, 3).verdict;
    }
    if (a.verdict.number != 0) {
        return a;
    }
    size_t at = part_at(bytes, "PSV0"), result = len - get32(bytes + at + 4) + part_len;
    a.verdict.number = !is_plain(part, part_len) ? 27 : result > GREATEST ? 2 : result > room ? 28 : 0;
    if (a.verdict.number == 0) {
        a.len = (uint32_t)result;
        a.places = shown_places(part, at + 8, edition);
    }
    return a;
}

/* What PSV0 data are made of: the size of the runtime record, bytes 24 to 35 of it, how many records of what size, and the lengths of both
   tables. Elements take the size alone. */
struct shape {
    uint32_t s;
    uint8_t stage, view, patch, topology, counts[3], u, v[4];
    uint32_t resources, resource_size, strings, indices, element_size;
};

/* Editions 0 to 3, with runtime records and records of the least size and longer ones, with and without records; among them each mask has
   words. The first four and the last two are in plain form. */
static const struct shape shapes[] = {
    {.s = 24},
    {.s = 36, .stage = 1, .counts = {1, 0, 0}, .resources = 1, .resource_size = 16, .strings = 8, .indices = 2, .element_size = 16},
    {.s = 48, .stage = 14, .u = 2, .v = {9}, .resources = 2, .resource_size = 24, .strings = 4},
    {.s = 52, .stage = 3, .view = 1, .patch = 9, .counts = {1, 1, 1}, .u = 3, .v = {9}, .resources = 2, .resource_size = 24, .strings = 16,
     .indices = 6, .element_size = 16},
    {.s = 32, .resources = 3, .resource_size = 20},
    {.s = 44, .stage = 2, .view = 1, .patch = 3, .topology = 1, .counts = {1, 1, 0}, .u = 2, .v = {1, 9, 17, 25}, .strings = 8,
     .indices = 3, .element_size = 20},
    {.s = 48, .stage = 4, .patch = 5, .counts = {0, 0, 1}, .u = 3, .v = {9}, .resources = 1, .resource_size = 20, .strings = 4,
     .element_size = 16},
    {.s = 60, .stage = 3, .view = 1, .patch = 9, .counts = {2, 0, 1}, .u = 3, .v = {17}, .resources = 2, .resource_size = 28, .strings = 12,
     .indices = 4, .element_size = 24},
    {.s = 52, .stage = 13, .view = 1, .patch = 17, .topology = 2, .u = 1, .v = {1}, .resources = 3, .resource_size = 24, .strings = 4},
    {.s = 52, .stage = 5, .strings = 4},
};
enum { SHAPES = sizeof shapes / sizeof *shapes };

static bool plain_shape(size_t k) { return k < 4 || k >= 8; }

/* PSV0 data of a shape, every byte that is left open another, and their places at the file's edition as they are laid out, counted from a
   byte. A string table has letters with zeros among them and ends in one. */
static size_t box_of(uint8_t *out, const struct shape *h, size_t at, qollqamir_places *places) {
    qollqamir_places p = {.edition = (uint32_t)edition_of(h->s)};
    for (size_t i = 0; i < 1000; i++) {
        out[i] = (uint8_t)(0x41 + 7 * i + h->s + h->stage);
    }
    size_t n = put32(out, h->s);
    p.runtime = (uint32_t)(at + n);
    if (h->s >= 36) {
        uint8_t *r = out + n;
        put(r + 24, &h->stage, 12);
        words_of(r, p.mask_words);
        p.stage = h->stage;
    }
    if (h->s >= 52) {
        put32(out + n + 48, h->strings - 1 - (h->strings > 4 ? 2 : 0));
    }
    n += h->s;
    n += put32(out + n, h->resources);
    if (h->resources > 0) {
        n += put32(out + n, h->resource_size);
    }
    p.resources = (uint32_t)(at + n);
    p.resource_count = h->resources;
    p.resource_size = h->resource_size;
    n += h->resources * h->resource_size;
    if (p.edition >= 1) {
        n += put32(out + n, h->strings);
        p.strings = (uint32_t)(at + n);
        p.string_bytes = h->strings;
        for (uint32_t i = 0; i < h->strings; i++) {
            out[n + i] = i % 4 == 3 ? 0 : (uint8_t)('A' + i);
        }
        n += h->strings;
        n += put32(out + n, h->indices);
        p.indices = (uint32_t)(at + n);
        p.index_count = h->indices;
        n += h->indices * 4;
        p.element_count = (uint32_t)h->counts[0] + h->counts[1] + h->counts[2];
        p.element_size = h->element_size;
        if (p.element_count > 0) {
            n += put32(out + n, h->element_size);
        }
        p.elements = (uint32_t)(at + n);
        for (uint32_t i = 0; i < p.element_count; i++) {
            /* Two rows at the end of the table, then one and none before it. */
            uint32_t rows = h->indices < 2 || i > 2 ? 0 : 2 - i;
            put32(out + n, i % h->strings);
            put32(out + n + 4, h->indices - rows);
            out[n + 8] = (uint8_t)rows;
            n += h->element_size;
        }
        p.masks = (uint32_t)(at + n);
        for (size_t i = 0; i < 11; i++) {
            n += p.mask_words[i] * (size_t)4;
        }
    }
    *places = p;
    return n;
}

static size_t box_shape(uint8_t *out, size_t k, size_t at, qollqamir_places *places) { return box_of(out, &shapes[k], at, places); }

/* The same read at an edition. */
static qollqamir_places read_at(qollqamir_places p, size_t edition) {
    if (edition == 0) {
        return (qollqamir_places){
            .runtime = p.runtime, .resources = p.resources, .resource_count = p.resource_count, .resource_size = p.resource_size};
    }
    p.edition = p.edition < edition ? p.edition : (uint32_t)edition;
    return p;
}

/* The places of the shapes' PSV0 data alone in plain numbers, worked out by hand. */
static const qollqamir_places shape_places[SHAPES] = {
    {0, 4, 32, 0, 0, 0, 0, 0, 0, 0, 0, 0, 0, {0}, 0},
    {1, 4, 48, 1, 16, 68, 8, 80, 2, 92, 1, 16, 108, {0}, 1},
    {2, 4, 60, 2, 24, 112, 4, 120, 0, 120, 0, 0, 120, {0, 0, 0, 0, 0, 16, 0, 0, 0, 0, 0}, 14},
    {3, 4, 64, 2, 24, 116, 16, 136, 6, 164, 3, 16, 212, {2, 0, 0, 0, 2, 24, 0, 0, 0, 24, 0}, 3},
    {0, 4, 44, 3, 20, 0, 0, 0, 0, 0, 0, 0, 0, {0}, 0},
    {1, 4, 52, 0, 0, 56, 8, 68, 3, 84, 2, 20, 124, {1, 2, 3, 4, 0, 8, 16, 24, 32, 0, 0}, 2},
    {2, 4, 60, 1, 20, 84, 4, 92, 0, 96, 1, 16, 112, {0, 0, 0, 0, 0, 24, 0, 0, 0, 0, 40}, 4},
    {3, 4, 72, 2, 28, 132, 12, 148, 4, 168, 3, 24, 240, {3, 0, 0, 0, 2, 36, 0, 0, 0, 24, 0}, 3},
    {3, 4, 64, 3, 24, 140, 4, 148, 0, 148, 0, 0, 148, {1, 0, 0, 0, 3, 4, 0, 0, 0, 0, 0}, 13},
    {3, 4, 60, 0, 0, 64, 4, 72, 0, 72, 0, 0, 72, {0}, 5},
};
static const size_t shape_lengths[SHAPES] = {32, 108, 184, 420, 104, 484, 368, 500, 180, 72};

/* A container with its PSV0 data first, in the middle or last, between gaps and with bytes after the last part, no two of these bytes
   alike in a row. Its data start where "at" says. */
enum { WAYS = 4 };
static const size_t data_at[WAYS] = {48, 55, 82, 104};
static size_t box_placed(uint8_t *out, size_t way, const uint8_t *psv0, size_t len) {
    const struct entry code = {"DXIL", way == 1 ? 0 : 2, 0, 4, 0, "code"}, data = {"PSV0", way % 2 ? 3 : 0, 0, (uint32_t)len, 0, psv0};
    const struct entry one = {"PRIV", 1, 0, 3, 0, "one"}, other = {"PRIV", 6, 0, 5, 0, "other"};
    const struct entry entries[WAYS][4] = {{data, code}, {data, one, code}, {one, code, data, other}, {one, code, other, data}};
    static const uint32_t counts[WAYS] = {2, 3, 4, 4};
    static const size_t after[WAYS] = {0, 5, 9, 0};
    size_t n = lay_out(out, entries[way], counts[way], after[way]), from = 32 + 4 * (size_t)counts[way];
    uint8_t filler = 0x80;
    for (uint32_t i = 0; i <= counts[way]; i++) {
        size_t to = i < counts[way] ? get32(out + 32 + 4 * i) : n;
        while (from < to) {
            out[from++] = filler++;
        }
        from = to + 8 + (i < counts[way] ? entries[way][i].size : 0);
    }
    put(out + 4, "0123456789abcdef", 16);
    return n;
}

/* ---- every byte of an answer */

/* The calls. Those up to OPEN_DEFAULT take no edition, nor do those from DXIL_PROGRAM on but WRITE_PSV0, REPLACE_PSV0 and FIGURES_START;
   those on PSV0 data alone stand in the order of those on containers, and so do those by places; a call that takes an occurrence follows
   the one that takes none. The answers of those from CALLS on don't begin with a verdict. */
enum call {
    TABLE, TABLE_COUNTED, TABLE_PART, TABLE_PART_OCCURRENCE, KNOWN, OPEN_DEFAULT, PART, PART_OCCURRENCE, PROGRAM,
    SIGNATURE, SIGNATURE_ELEMENT, SIGNATURE_NAME, SIGNATURE_DIFFERENCE, ROOT, ROOT_ITEM, ROOT_RANGE,
    OPEN, INFO, RESOURCE, ELEMENT, LENGTHS, VIEW, SECTION, OPEN_PLACES,
    PSV0_OPEN, PSV0_INFO, PSV0_RESOURCE, PSV0_ELEMENT, PSV0_LENGTHS, PSV0_VIEW, PSV0_SECTION, PSV0_OPEN_PLACES,
    DXIL_PROGRAM, SG1_READ, SG1_ELEMENT, SG1_ELEMENT_ALONE, SG1_NAME,
    RTS0_READ, RTS0_ITEM, RTS0_ITEM_ALONE, RTS0_RANGE, RTS0_RANGE_ALONE,
    PLACES_INFO, PLACES_RESOURCE, PLACES_ELEMENT, PLACES_LENGTHS, PLACES_VIEW, PLACES_SECTION,
    SETTINGS_READ, SETTINGS_ROW, SETTINGS_VALUE, SETTINGS_ROW_ALONE, WRITE_PSV0, ASSEMBLE, WRITE_SETTINGS, REPLACE_PSV0, CALLS,
    FIGURES_START = CALLS, FIGURES_ADD, FIGURES_JOIN
};

/* The greatest refusal number of any call is below the one, the greatest place that is come by below the other. */
enum { NUMBERS = 61, PLACES = 17 };

/* A call and what it is handed; a signature part's number is its kind, and so is a range's; an occurrence is its number. A setting's key is
   its kind, its version its number; a row alone begins at its number, after the version that is its kind. A writer's byte arguments lie end
   to end in bytes, and pieces has their lengths, so do a container and its other PSV0 data; rows lie there as numbers. Figures are two, of
   which joining alone takes the second. Places are any. */
struct question {
    enum call call;
    const uint8_t *bytes;
    size_t len, edition;
    const char *name;
    uint32_t kind;
    size_t number;
    const size_t *pieces;
    const uint32_t *sizes;
    uint8_t *out;
    size_t room;
    const qollqamir_figures *figures;
    qollqamir_places places;
};

/* Where a writer's argument i starts; the last ones have less or nothing where bytes are cut short. */
static size_t start(const struct question *q, int i) {
    size_t at = 0;
    while (i-- > 0) {
        at += q->pieces[i];
    }
    return at < q->len ? at : q->len;
}

/* The call that was made last. */
static const char *called;

/* The answer stands in this frame before it is copied, padding and all. */
__attribute__((noinline)) static size_t answer(const struct question *q, uint8_t *to) {
    const uint8_t *b = q->bytes, *four = (const uint8_t *)q->name;
    size_t n = q->len, e = q->edition, i = q->number;
    uint32_t k = q->kind;
#define ANSWER(type, call)        \
    {                             \
        called = #call;           \
        type a = call;            \
        memcpy(to, &a, sizeof a); \
        return sizeof a;          \
    }
#define PIECE(i) b + start(q, i), start(q, i + 1) - start(q, i)
#define ROWS (const uint32_t *)(const void *)b, n / sizeof(uint32_t)
    switch (q->call) {
    case TABLE: ANSWER(qollqamir_parts, qollqamir_table(b, n))
    case TABLE_COUNTED: ANSWER(qollqamir_parts, qollqamir_table_counted(b, n))
    case TABLE_PART: ANSWER(qollqamir_found, qollqamir_table_part(b, n, four))
    case TABLE_PART_OCCURRENCE: ANSWER(qollqamir_found, qollqamir_table_part_occurrence(b, n, four, i))
    case KNOWN: ANSWER(bool, qollqamir_known(four))
    case OPEN_DEFAULT: ANSWER(qollqamir_opening, qollqamir_open_default(b, n))
    case PART: ANSWER(qollqamir_found, qollqamir_part(b, n, e, four))
    case PART_OCCURRENCE: ANSWER(qollqamir_found, qollqamir_part_occurrence(b, n, e, four, i))
    case PROGRAM: ANSWER(qollqamir_program_report, qollqamir_program(b, n, e))
    case SIGNATURE: ANSWER(qollqamir_signature_report, qollqamir_signature(b, n, e, k))
    case SIGNATURE_ELEMENT: ANSWER(qollqamir_signature_record, qollqamir_signature_element(b, n, e, k, i))
    case SIGNATURE_NAME: ANSWER(qollqamir_span, qollqamir_signature_name(b, n, e, k, i))
    case SIGNATURE_DIFFERENCE: ANSWER(qollqamir_difference, qollqamir_signature_difference(b, n, e, k))
    case ROOT: ANSWER(qollqamir_root_report, qollqamir_root_signature(b, n, e))
    case ROOT_ITEM: ANSWER(qollqamir_root_record, qollqamir_root_item(b, n, e, i))
    case ROOT_RANGE: ANSWER(qollqamir_range_record, qollqamir_root_range(b, n, e, i, k))
    case OPEN: ANSWER(qollqamir_opening, qollqamir_open(b, n, e))
    case INFO: ANSWER(qollqamir_info, qollqamir_runtime_info(b, n, e))
    case RESOURCE: ANSWER(qollqamir_resource_record, qollqamir_resource(b, n, e, i))
    case ELEMENT: ANSWER(qollqamir_element_record, qollqamir_element(b, n, e, i))
    case LENGTHS: ANSWER(qollqamir_list_lengths, qollqamir_lengths(b, n, e))
    case VIEW: ANSWER(qollqamir_span, qollqamir_view(b, n, e, k, i))
    case SECTION: ANSWER(qollqamir_span, qollqamir_section(b, n, e, k))
    case PSV0_OPEN: ANSWER(qollqamir_opening, qollqamir_psv0_open(b, n, e))
    case PSV0_INFO: ANSWER(qollqamir_info, qollqamir_psv0_runtime_info(b, n, e))
    case PSV0_RESOURCE: ANSWER(qollqamir_resource_record, qollqamir_psv0_resource(b, n, e, i))
    case PSV0_ELEMENT: ANSWER(qollqamir_element_record, qollqamir_psv0_element(b, n, e, i))
    case PSV0_LENGTHS: ANSWER(qollqamir_list_lengths, qollqamir_psv0_lengths(b, n, e))
    case PSV0_VIEW: ANSWER(qollqamir_span, qollqamir_psv0_view(b, n, e, k, i))
    case PSV0_SECTION: ANSWER(qollqamir_span, qollqamir_psv0_section(b, n, e, k))
    case OPEN_PLACES: ANSWER(qollqamir_opened, qollqamir_open_places(b, n, e))
    case PSV0_OPEN_PLACES: ANSWER(qollqamir_opened, qollqamir_psv0_open_places(b, n, e))
    case PLACES_INFO: ANSWER(qollqamir_info, qollqamir_places_runtime_info(b, n, q->places))
    case PLACES_RESOURCE: ANSWER(qollqamir_resource_record, qollqamir_places_resource(b, n, q->places, i))
    case PLACES_ELEMENT: ANSWER(qollqamir_element_record, qollqamir_places_element(b, n, q->places, i))
    case PLACES_LENGTHS: ANSWER(qollqamir_list_lengths, qollqamir_places_lengths(b, n, q->places))
    case PLACES_VIEW: ANSWER(qollqamir_span, qollqamir_places_view(b, n, q->places, k, i))
    case PLACES_SECTION: ANSWER(qollqamir_span, qollqamir_places_section(b, n, q->places, k))
    case DXIL_PROGRAM: ANSWER(qollqamir_program_data, qollqamir_dxil_program(b, n))
    case SG1_READ: ANSWER(qollqamir_signature_data, qollqamir_sg1_read(b, n))
    case SG1_ELEMENT: ANSWER(qollqamir_signature_record, qollqamir_sg1_element(b, n, i))
    case SG1_ELEMENT_ALONE: ANSWER(qollqamir_signature_record, qollqamir_sg1_element_alone(b, n, i))
    case SG1_NAME: ANSWER(qollqamir_span, qollqamir_sg1_name(b, n, i))
    case RTS0_READ: ANSWER(qollqamir_root_data, qollqamir_rts0_read(b, n))
    case RTS0_ITEM: ANSWER(qollqamir_root_record, qollqamir_rts0_item(b, n, i))
    case RTS0_ITEM_ALONE: ANSWER(qollqamir_root_record, qollqamir_rts0_item_alone(b, n, i))
    case RTS0_RANGE: ANSWER(qollqamir_range_record, qollqamir_rts0_range(b, n, i, k))
    case RTS0_RANGE_ALONE: ANSWER(qollqamir_range_record, qollqamir_rts0_range_alone(b, n, i, k))
    case SETTINGS_READ: ANSWER(qollqamir_settings, qollqamir_settings_read(b, n))
    case SETTINGS_ROW: ANSWER(qollqamir_setting_row, qollqamir_settings_row(b, n, i))
    case SETTINGS_VALUE: ANSWER(qollqamir_setting, qollqamir_settings_value(b, n, k, (uint32_t)i))
    case SETTINGS_ROW_ALONE: ANSWER(qollqamir_setting_row_alone, qollqamir_settings_row_alone(b, n, i, k))
    case WRITE_PSV0:
        ANSWER(qollqamir_written, qollqamir_write_psv0(e, PIECE(0), PIECE(1), PIECE(2), PIECE(3), PIECE(4), PIECE(5), q->out, q->room))
    case ASSEMBLE:
        ANSWER(qollqamir_written, qollqamir_assemble(PIECE(0), q->sizes, q->pieces[0] / 4, PIECE(1), PIECE(2), q->out, q->room))
    case WRITE_SETTINGS: ANSWER(qollqamir_written, qollqamir_write_settings(ROWS, q->out, q->room))
    case REPLACE_PSV0: ANSWER(qollqamir_replaced, qollqamir_replace_psv0(PIECE(0), e, PIECE(1), q->out, q->room))
    case FIGURES_START: ANSWER(qollqamir_figures, qollqamir_figures_start(e))
    case FIGURES_ADD: ANSWER(qollqamir_figures_added, qollqamir_figures_add(q->figures[0], b, n))
    case FIGURES_JOIN: ANSWER(qollqamir_figures_joined, qollqamir_figures_join(q->figures[0], q->figures[1]))
    }
    return 0;
}

/* The same from deeper in the stack. */
__attribute__((noinline)) static size_t answer_deeper(const struct question *q, uint8_t *to) {
    volatile uint8_t frame[1000];
    frame[0] = 0;
    return answer(q, to) + frame[0];
}

/* Fills the stack that the caller's next call will use, several times what any call needs. Called through a volatile pointer, memset is
   not left out. */
__attribute__((noinline)) static void fill(uint8_t pattern) {
    static void *(*const volatile set)(void *, int, size_t) = memset;
    uint8_t stack[32768];
    set(stack, pattern, sizeof stack);
}

static void same(const char *what, const uint8_t *a, const uint8_t *b, size_t len) {
    checks++;
    if (memcmp(a, b, len) != 0) {
        size_t i = 0;
        while (a[i] == b[i]) {
            i++;
        }
        fprintf(stderr, "%s: %s differ at byte %zu of %zu: %02x and %02x\n", called, what, i, len, a[i], b[i]);
        exit(1);
    }
}

static size_t asked, paired, triples, accepted[CALLS], refused[CALLS];

/* How often an addition to figures gave each number. */
static size_t counted[NUMBERS];

/* The first refused answer of a call with a number and a place, and the bytes that it refused. */
static struct refusal {
    uint8_t answer[sizeof(qollqamir_parts)], bytes[1000];
    size_t answer_len, len;
    bool paired;
} refusals[CALLS][NUMBERS][PLACES];

/* An assembled container shows the parts that it was made of, each found by its name and occurrence with its own data, zeros before headers
   and nothing after the last part. */
static void reads_back(const struct question *q, const uint8_t *out, size_t len) {
    qollqamir_parts parts = read_table(out, len);
    ACCEPTED(parts);
    CHECK(parts.count == q->pieces[0] / 4);
    size_t end = 32 + 4 * parts.count;
    const uint8_t *data = q->bytes + q->pieces[0];
    for (size_t i = 0; i < parts.count; i++) {
        qollqamir_found found = qollqamir_table_part_occurrence(out, len, q->bytes + 4 * i, parts.occurrences[i]);
        same_found(found, FOUND(i, parts.offsets[i], q->sizes[i]));
        CHECK(found.offset % 4 == 0 && found.offset - end < 4 && memcmp(out + end, "\0\0", found.offset - end) == 0);
        CHECK(memcmp(out + found.offset + 8, data, found.size) == 0);
        data += found.size;
        end = found.offset + 8 + found.size;
    }
    CHECK(end == len);
}

/* The numbers that lie in the bytes of a question on rows, and how many. */
static size_t rows_of(const struct question *q, uint32_t *rows) {
    size_t numbers = q->len / sizeof *rows;
    if (numbers > 0) {
        memcpy(rows, q->bytes, numbers * sizeof *rows);
    }
    return numbers;
}

/* What the rules give for a question on pairs of names, settings files, rows, figures or places; nothing for any other. */
static size_t ruled(const struct question *q, uint8_t *to) {
    uint32_t rows[250];
#define PIECES(i) q->bytes + start(q, i), start(q, i + 1) - start(q, i)
#define RULED(type, rule)             \
    {                                 \
        type a = rule;                \
        return put(to, &a, sizeof a); \
    }
    switch (q->call) {
    case TABLE_COUNTED: RULED(qollqamir_parts, shown_counted(q->bytes, q->len))
    case SETTINGS_READ: RULED(qollqamir_settings, shown_settings(q->bytes, q->len))
    case SETTINGS_ROW: RULED(qollqamir_setting_row, shown_row(q->bytes, q->len, q->number))
    case SETTINGS_VALUE: RULED(qollqamir_setting, shown_value(q->bytes, q->len, q->kind, (uint32_t)q->number))
    case SETTINGS_ROW_ALONE: RULED(qollqamir_setting_row_alone, shown_row_alone(q->bytes, q->len, q->number, q->kind))
    case WRITE_SETTINGS: RULED(qollqamir_written, shown_written(rows, rows_of(q, rows), q->room))
    case OPEN_PLACES: RULED(qollqamir_opened, shown_opened(q->bytes, q->len, q->edition, false))
    case PSV0_OPEN_PLACES: RULED(qollqamir_opened, shown_opened(q->bytes, q->len, q->edition, true))
    case PLACES_INFO: RULED(qollqamir_info, shown_info(q->bytes, q->len, q->places))
    case PLACES_RESOURCE: RULED(qollqamir_resource_record, shown_resource(q->bytes, q->len, q->places, q->number))
    case PLACES_ELEMENT: RULED(qollqamir_element_record, shown_element(q->bytes, q->len, q->places, q->number))
    case PLACES_LENGTHS: RULED(qollqamir_list_lengths, shown_lengths(q->places))
    case PLACES_VIEW: RULED(qollqamir_span, shown_view(q->bytes, q->len, q->places, q->kind, q->number))
    case PLACES_SECTION: RULED(qollqamir_span, shown_section(q->len, q->places, q->kind))
    case REPLACE_PSV0: RULED(qollqamir_replaced, shown_replaced(PIECES(0), q->edition, PIECES(1), q->room))
    case FIGURES_START: RULED(qollqamir_figures, ((qollqamir_figures){.edition = q->edition}))
    case FIGURES_ADD: RULED(qollqamir_figures_added, shown_added(q->figures[0], q->bytes, q->len))
    case FIGURES_JOIN: RULED(qollqamir_figures_joined, shown_joined(q->figures[0], q->figures[1]))
    default: return 0;
    }
#undef RULED
#undef PIECES
}

/* Where an empty stretch that is accepted starts is left open, but inside the bytes. */
static void settle_start(const struct question *q, uint8_t *answer) {
    qollqamir_span span;
    memcpy(&span, answer, sizeof span);
    if (span.verdict.number == 0 && span.len == 0) {
        CHECK(span.start <= q->len);
        memset(answer + offsetof(qollqamir_span, start), 0, sizeof span.start);
    }
}

static bool is_span(enum call call) {
    return call == VIEW || call == SECTION || call == PSV0_VIEW || call == PSV0_SECTION || call == PLACES_VIEW || call == PLACES_SECTION;
}

/* How many bytes of the output are a writer's result. */
static size_t result_of(const struct question *q, const uint8_t *answer) {
    qollqamir_written written;
    qollqamir_replaced replaced;
    if (q->call < WRITE_PSV0 || q->call >= CALLS) {
        return 0;
    }
    if (q->call == REPLACE_PSV0) {
        memcpy(&replaced, answer, sizeof replaced);
        return replaced.len;
    }
    memcpy(&written, answer, sizeof written);
    return written.len;
}

/* Asks twice and compares. The second time the stack and the answer's place hold another pattern, and the bytes, the output and the stack
   are at other addresses: what stood in memory before would differ, and an address too. The bytes and figures stay as they are, and so does
   the output but for a result. Beside a refusal all is 0 but pairs of names that were counted; but for those, a refused answer is also
   compared with the first that has the same call, number and place. An accepted table, an assembled container and one with other PSV0 data
   are checked as a whole, and every answer on pairs of names, settings files, figures and places against the rules. */
static qollqamir_verdict ask(const struct question *question) {
    static const uint8_t patterns[4] = {0x00, 0xa5, 0xff, 0x5a};
    static uint8_t answers[2][sizeof(qollqamir_parts)], outs[2][1000], stood[1000];
    static _Alignas(uint32_t) uint8_t bytes[2][1000];
    static qollqamir_figures figures[2][2];
    struct question copy = *question, *q = &copy;
    size_t len = 0;
    for (size_t i = 0; i < 2; i++) {
        uint8_t pattern = patterns[(asked + i) % 4];
        if (question->bytes != NULL) {
            q->bytes = bytes[i];
            put(bytes[i], question->bytes, q->len);
        }
        if (question->figures != NULL) {
            q->figures = memcpy(figures[i], question->figures, sizeof figures[i]);
        }
        q->out = outs[i];
        memset(outs[i], 0xee, sizeof outs[i]);
        memset(answers[i], pattern, sizeof answers[i]);
        fill(pattern);
        len = i == 0 ? answer(q, answers[i]) : answer_deeper(q, answers[i]);
        if (question->bytes != NULL) {
            same("bytes handed in", q->bytes, question->bytes, q->len);
        }
        if (question->figures != NULL) {
            same("figures handed in", (const uint8_t *)q->figures, (const uint8_t *)question->figures, sizeof figures[i]);
        }
    }
    asked++;
    same("answers", answers[0], answers[1], len);
    same("outputs", outs[0], outs[1], sizeof outs[0]);
    size_t result = result_of(q, answers[0]);
    CHECK(result <= q->room);
    if (stood[0] == 0) {
        memset(stood, 0xee, sizeof stood);
    }
    same("the output past the result and what stood there", outs[0] + result, stood + result, sizeof stood - result);
    uint8_t rules[sizeof(qollqamir_parts)];
    size_t rules_len = ruled(q, rules);
    if (is_span(q->call)) {
        settle_start(q, answers[0]);
        if (rules_len > 0) {
            settle_start(q, rules);
        }
    }
    same("the answer and the rules", answers[0], rules, rules_len);
    if (q->call == TABLE_COUNTED) {
        memset(answers[0] + offsetof(qollqamir_parts, pairs), 0, sizeof(qollqamir_field));
    }

    qollqamir_verdict verdict = {0, 0};
    if (q->call == KNOWN) {
        (answers[0][0] ? accepted : refused)[KNOWN]++;
        return verdict;
    }
    if (q->call >= CALLS) {
        if (q->call == FIGURES_ADD) {
            memcpy(&verdict, answers[0] + offsetof(qollqamir_figures_added, verdict), sizeof verdict);
            CHECK(verdict.number < NUMBERS);
            counted[verdict.number]++;
        }
        return verdict;
    }
    memcpy(&verdict, answers[0], sizeof verdict);
    if (verdict.number == 0) {
        accepted[q->call]++;
        if (q->call == TABLE || q->call == TABLE_COUNTED) {
            qollqamir_parts parts;
            memcpy(&parts, answers[0], sizeof parts);
            table_holds(&parts, q->bytes, q->len);
        } else if (q->call == ASSEMBLE) {
            qollqamir_written written;
            memcpy(&written, answers[0], sizeof written);
            reads_back(q, outs[0], written.len);
        } else if (q->call == WRITE_SETTINGS) {
            uint32_t rows[250];
            uint8_t file[1000];
            same("the result and the rows", outs[0], file, put_rows(file, rows, rows_of(q, rows)));
        } else if (q->call == REPLACE_PSV0) {
            uint8_t file[1000];
            const uint8_t *part = q->bytes + start(q, 1);
            same("the result and the rule", outs[0], file, put_replaced(file, q->bytes, start(q, 1), part, start(q, 2) - start(q, 1)));
        }
        return verdict;
    }
    refused[q->call]++;
    static const uint8_t zeros[sizeof(qollqamir_parts)];
    same("a refused answer and zeros", answers[0] + sizeof verdict, zeros, len - sizeof verdict);
    if (q->call == SETTINGS_ROW_ALONE && verdict.place >= PLACES) {
        return verdict; /* Far in the bytes or past them; the rules had its place. */
    }
    CHECK(verdict.number < NUMBERS && verdict.place < PLACES);
    struct refusal *first = &refusals[q->call][verdict.number][verdict.place];
    if (first->answer_len == 0) {
        first->answer_len = put(first->answer, answers[0], len);
        first->len = q->len == 0 ? 0 : put(first->bytes, q->bytes, q->len);
    }
    same("refused answers", first->answer, answers[0], len);
    if (first->len != q->len || (q->len != 0 && memcmp(first->bytes, q->bytes, q->len) != 0)) {
        paired++;
        triples += !first->paired;
        first->paired = true;
    }
    return verdict;
}

/* What is asked of a container; from OPEN on, of PSV0 data alone too. */
static const struct question queries[] = {
    {.call = TABLE},
    {.call = TABLE_COUNTED},
    {.call = TABLE_PART, .name = "PSV0"},
    {.call = TABLE_PART, .name = "VERS"},
    {.call = TABLE_PART, .name = "PRIV"},
    {.call = TABLE_PART_OCCURRENCE, .name = "PSV0", .number = 0},
    {.call = TABLE_PART_OCCURRENCE, .name = "PSV0", .number = 1},
    {.call = TABLE_PART_OCCURRENCE, .name = "PRIV", .number = 1},
    {.call = TABLE_PART_OCCURRENCE, .name = "PRIV", .number = 2},
    {.call = TABLE_PART_OCCURRENCE, .name = "PRIV", .number = SIZE_MAX},
    {.call = OPEN_DEFAULT},
    {.call = PART, .name = "PSV0"},
    {.call = PART, .name = "VERS"},
    {.call = PART, .name = "PRIV"},
    {.call = PART_OCCURRENCE, .name = "PSV0", .number = 0},
    {.call = PART_OCCURRENCE, .name = "PSV0", .number = 1},
    {.call = PART_OCCURRENCE, .name = "PRIV", .number = 1},
    {.call = PART_OCCURRENCE, .name = "PRIV", .number = 2},
    {.call = PART_OCCURRENCE, .name = "PRIV", .number = SIZE_MAX},
    {.call = PROGRAM},
    {.call = SIGNATURE, .kind = QOLLQAMIR_ISG1},
    {.call = SIGNATURE, .kind = QOLLQAMIR_OSG1},
    {.call = SIGNATURE, .kind = QOLLQAMIR_PSG1},
    {.call = SIGNATURE, .kind = PARTS},
    {.call = SIGNATURE_ELEMENT, .kind = QOLLQAMIR_ISG1, .number = 0},
    {.call = SIGNATURE_ELEMENT, .kind = QOLLQAMIR_OSG1, .number = 0},
    {.call = SIGNATURE_ELEMENT, .kind = QOLLQAMIR_PSG1, .number = 1},
    {.call = SIGNATURE_ELEMENT, .kind = QOLLQAMIR_ISG1, .number = 9},
    {.call = SIGNATURE_ELEMENT, .kind = PARTS},
    {.call = SIGNATURE_NAME, .kind = QOLLQAMIR_ISG1, .number = 0},
    {.call = SIGNATURE_NAME, .kind = QOLLQAMIR_OSG1, .number = 0},
    {.call = SIGNATURE_NAME, .kind = QOLLQAMIR_PSG1, .number = 0},
    {.call = SIGNATURE_NAME, .kind = QOLLQAMIR_ISG1, .number = 9},
    {.call = SIGNATURE_NAME, .kind = PARTS},
    {.call = SIGNATURE_DIFFERENCE, .kind = QOLLQAMIR_ISG1},
    {.call = SIGNATURE_DIFFERENCE, .kind = QOLLQAMIR_OSG1},
    {.call = SIGNATURE_DIFFERENCE, .kind = QOLLQAMIR_PSG1},
    {.call = SIGNATURE_DIFFERENCE, .kind = PARTS},
    {.call = ROOT},
    {.call = ROOT_ITEM, .number = 0},
    {.call = ROOT_ITEM, .number = 3},
    {.call = ROOT_ITEM, .number = 9},
    {.call = ROOT_RANGE, .number = 0, .kind = 1},
    {.call = ROOT_RANGE, .number = 1, .kind = 0},
    {.call = OPEN},
    {.call = INFO},
    {.call = RESOURCE, .number = 0},
    {.call = RESOURCE, .number = 9},
    {.call = ELEMENT, .number = 0},
    {.call = ELEMENT, .number = 9},
    {.call = LENGTHS},
    {.call = VIEW, .kind = QOLLQAMIR_STAGE_UNION},
    {.call = VIEW, .kind = QOLLQAMIR_ELEMENT_STRING, .number = 0},
    {.call = VIEW, .kind = QOLLQAMIR_ELEMENT_STRING, .number = 9},
    {.call = VIEW, .kind = QOLLQAMIR_ELEMENT_ARRAY, .number = 0},
    {.call = VIEW, .kind = QOLLQAMIR_ELEMENT_ARRAY, .number = 9},
    {.call = VIEW, .kind = QOLLQAMIR_ENTRY_NAME},
    {.call = VIEW, .kind = QOLLQAMIR_MASK, .number = 0},
    {.call = VIEW, .kind = QOLLQAMIR_MASK, .number = 4},
    {.call = VIEW, .kind = QOLLQAMIR_MASK, .number = 10},
    {.call = VIEW, .kind = QOLLQAMIR_MASK, .number = 11},
    {.call = VIEW, .kind = 5},
    {.call = SECTION, .kind = QOLLQAMIR_RUNTIME_RECORD},
    {.call = SECTION, .kind = QOLLQAMIR_RESOURCE_RECORDS},
    {.call = SECTION, .kind = QOLLQAMIR_STRING_TABLE},
    {.call = SECTION, .kind = QOLLQAMIR_INDEX_TABLE},
    {.call = SECTION, .kind = QOLLQAMIR_ELEMENT_RECORDS},
    {.call = SECTION, .kind = QOLLQAMIR_MASKS},
    {.call = SECTION, .kind = 6},
    {.call = OPEN_PLACES},
};
enum { QUERIES = sizeof queries / sizeof *queries };

/* What is asked of a settings file. */
static const struct question settings_queries[] = {
    {.call = SETTINGS_READ},
    {.call = SETTINGS_ROW, .number = 0},
    {.call = SETTINGS_ROW, .number = 1},
    {.call = SETTINGS_ROW, .number = 2},
    {.call = SETTINGS_ROW, .number = SIZE_MAX},
    {.call = SETTINGS_VALUE, .kind = 0, .number = 133},
    {.call = SETTINGS_VALUE, .kind = 1, .number = 4},
    {.call = SETTINGS_VALUE, .kind = 1, .number = 5},
    {.call = SETTINGS_VALUE, .kind = 2, .number = 132},
    {.call = SETTINGS_VALUE, .kind = 2, .number = UINT32_MAX},
    {.call = SETTINGS_VALUE, .kind = 3, .number = 133},
    {.call = SETTINGS_VALUE, .kind = 4, .number = UINT32_MAX},
    {.call = SETTINGS_ROW_ALONE, .number = 0, .kind = 0},
    {.call = SETTINGS_ROW_ALONE, .number = 1, .kind = 0},
    {.call = SETTINGS_ROW_ALONE, .number = 1, .kind = 6},
    {.call = SETTINGS_ROW_ALONE, .number = 4, .kind = 5},
    {.call = SETTINGS_ROW_ALONE, .number = 4, .kind = 134},
    {.call = SETTINGS_ROW_ALONE, .number = 8, .kind = 133},
    {.call = SETTINGS_ROW_ALONE, .number = 15, .kind = 0},
    {.call = SETTINGS_ROW_ALONE, .number = 1000000, .kind = 0},
    {.call = SETTINGS_ROW_ALONE, .number = SIZE_MAX, .kind = UINT32_MAX},
};
enum { SETTINGS_QUERIES = sizeof settings_queries / sizeof *settings_queries };

/* A call that takes no occurrence means the first part. */
static void ask_first(struct question q) {
    uint8_t answers[2][sizeof(qollqamir_found)];
    answer(&q, answers[0]);
    q.call++;
    q.number = 0;
    same("the first part and occurrence 0", answers[0], answers[1], answer(&q, answers[1]));
}

/* One container more, in figures of none and in made-up ones. */
static void ask_figures(struct question q) {
    qollqamir_figures figures[2] = {qollqamir_figures_start(q.edition)};
    q.call = FIGURES_ADD;
    q.figures = figures;
    ask(&q);
    figures[0] = made_up(q.edition, 0);
    ask(&q);
}

/* What is asked by places, in the order of the calls on a container's bytes. */
static const struct question places_queries[] = {
    {.call = PLACES_INFO},
    {.call = PLACES_RESOURCE, .number = 0},
    {.call = PLACES_RESOURCE, .number = 1},
    {.call = PLACES_RESOURCE, .number = 9},
    {.call = PLACES_ELEMENT, .number = 0},
    {.call = PLACES_ELEMENT, .number = 2},
    {.call = PLACES_ELEMENT, .number = 9},
    {.call = PLACES_LENGTHS},
    {.call = PLACES_VIEW, .kind = QOLLQAMIR_STAGE_UNION, .number = 7},
    {.call = PLACES_VIEW, .kind = QOLLQAMIR_ELEMENT_STRING, .number = 0},
    {.call = PLACES_VIEW, .kind = QOLLQAMIR_ELEMENT_STRING, .number = 1},
    {.call = PLACES_VIEW, .kind = QOLLQAMIR_ELEMENT_STRING, .number = 9},
    {.call = PLACES_VIEW, .kind = QOLLQAMIR_ELEMENT_ARRAY, .number = 0},
    {.call = PLACES_VIEW, .kind = QOLLQAMIR_ELEMENT_ARRAY, .number = 2},
    {.call = PLACES_VIEW, .kind = QOLLQAMIR_ELEMENT_ARRAY, .number = 9},
    {.call = PLACES_VIEW, .kind = QOLLQAMIR_ENTRY_NAME, .number = 7},
    {.call = PLACES_VIEW, .kind = QOLLQAMIR_MASK, .number = 0},
    {.call = PLACES_VIEW, .kind = QOLLQAMIR_MASK, .number = 1},
    {.call = PLACES_VIEW, .kind = QOLLQAMIR_MASK, .number = 2},
    {.call = PLACES_VIEW, .kind = QOLLQAMIR_MASK, .number = 3},
    {.call = PLACES_VIEW, .kind = QOLLQAMIR_MASK, .number = 4},
    {.call = PLACES_VIEW, .kind = QOLLQAMIR_MASK, .number = 5},
    {.call = PLACES_VIEW, .kind = QOLLQAMIR_MASK, .number = 6},
    {.call = PLACES_VIEW, .kind = QOLLQAMIR_MASK, .number = 7},
    {.call = PLACES_VIEW, .kind = QOLLQAMIR_MASK, .number = 8},
    {.call = PLACES_VIEW, .kind = QOLLQAMIR_MASK, .number = 9},
    {.call = PLACES_VIEW, .kind = QOLLQAMIR_MASK, .number = 10},
    {.call = PLACES_VIEW, .kind = QOLLQAMIR_MASK, .number = 11},
    {.call = PLACES_VIEW, .kind = 5},
    {.call = PLACES_SECTION, .kind = QOLLQAMIR_RUNTIME_RECORD},
    {.call = PLACES_SECTION, .kind = QOLLQAMIR_RESOURCE_RECORDS},
    {.call = PLACES_SECTION, .kind = QOLLQAMIR_STRING_TABLE},
    {.call = PLACES_SECTION, .kind = QOLLQAMIR_INDEX_TABLE},
    {.call = PLACES_SECTION, .kind = QOLLQAMIR_ELEMENT_RECORDS},
    {.call = PLACES_SECTION, .kind = QOLLQAMIR_MASKS},
    {.call = PLACES_SECTION, .kind = 6},
};
enum { PLACES_QUERIES = sizeof places_queries / sizeof *places_queries };

/* Every query by places, of any bytes. */
static void ask_places(const uint8_t *bytes, size_t len, qollqamir_places places) {
    for (size_t i = 0; i < PLACES_QUERIES; i++) {
        struct question q = places_queries[i];
        q.bytes = bytes;
        q.len = len;
        q.places = places;
        ask(&q);
    }
}

/* By the places of the bytes every query gives what it gives on the bytes alone. */
static void same_as_fresh(const uint8_t *bytes, size_t len, size_t edition, bool alone, qollqamir_places places) {
    for (size_t i = 0; i < PLACES_QUERIES; i++) {
        uint8_t answers[2][sizeof(qollqamir_info)];
        struct question q = places_queries[i];
        q.bytes = bytes;
        q.len = len;
        q.edition = edition;
        q.places = places;
        size_t n = answer(&q, answers[0]);
        q.call += (alone ? PSV0_INFO : INFO) - PLACES_INFO;
        answer(&q, answers[1]);
        if (is_span(q.call)) {
            settle_start(&q, answers[0]);
            settle_start(&q, answers[1]);
        }
        same("the answers by places and on the bytes", answers[0], answers[1], n);
    }
}

static void ask_own_places(const uint8_t *bytes, size_t len, size_t edition, bool alone) {
    qollqamir_opened opened = (alone ? qollqamir_psv0_open_places : qollqamir_open_places)(bytes, len, edition);
    if (opened.verdict.number == 0) {
        same_as_fresh(bytes, len, edition, alone, opened.places);
    }
}

/* The places at each edition of the bytes as they were; null where none are kept. */
static const qollqamir_places *kept;

static const qollqamir_places *keep(qollqamir_places *places, const uint8_t *bytes, size_t len, bool alone) {
    for (size_t edition = 0; edition <= 3; edition++) {
        qollqamir_opened opened = (alone ? qollqamir_psv0_open_places : qollqamir_open_places)(bytes, len, edition);
        ACCEPTED(opened);
        places[edition] = opened.places;
    }
    return places;
}

/* Every query of a container, or of PSV0 data alone, at every edition and one that there is not; by places that were kept too. */
static void ask_reader(struct question file) {
    bool alone = file.call == PSV0_OPEN;
    for (size_t edition = 0; edition <= 4; edition++) {
        for (size_t i = 0; i < QUERIES; i++) {
            struct question q = queries[i];
            if ((alone && q.call < OPEN) || (edition != 0 && q.call <= OPEN_DEFAULT)) {
                continue;
            }
            q.call += alone ? PSV0_OPEN - OPEN : 0;
            q.bytes = file.bytes;
            q.len = file.len;
            q.edition = edition;
            ask(&q);
            if (q.call == TABLE_PART || q.call == PART) {
                ask_first(q);
            }
        }
        if (!alone) {
            ask_figures((struct question){.bytes = file.bytes, .len = file.len, .edition = edition});
        }
        ask_own_places(file.bytes, file.len, edition, alone);
        if (kept != NULL && edition <= 3) {
            ask_places(file.bytes, file.len, kept[edition]);
        }
    }
}

static void ask_dxil(struct question q) { ask(&q); }

/* Every call on signature data, of each element up to one that there is not. */
static void ask_sg1(struct question q) {
    for (q.call = SG1_READ; q.call <= SG1_NAME; q.call++) {
        for (q.number = 0; q.number < (q.call == SG1_READ ? 1 : 4); q.number++) {
            ask(&q);
        }
    }
}

/* Every call on root signature data, of each item and range up to one that there is not. */
static void ask_rts0(struct question q) {
    for (q.call = RTS0_READ; q.call <= RTS0_RANGE_ALONE; q.call++) {
        for (q.number = 0; q.number <= (q.call == RTS0_READ ? 0 : ITEMS); q.number++) {
            for (q.kind = 0; q.kind <= (q.call >= RTS0_RANGE ? 2 : 0); q.kind++) {
                ask(&q);
            }
        }
    }
}

/* Every query of a settings file. */
static void ask_settings(struct question file) {
    for (size_t i = 0; i < SETTINGS_QUERIES; i++) {
        struct question q = settings_queries[i];
        q.bytes = file.bytes;
        q.len = file.len;
        ask(&q);
    }
}

/* The writer of settings files with room to spare, for all, with a byte too little and with none. */
static void ask_rows(struct question q) {
    uint32_t rows[250];
    uint8_t file[1000];
    size_t len = put_rows(file, rows, rows_of(&q, rows));
    const size_t rooms[] = {sizeof file, len, len - 1, 0};
    for (size_t k = 0; k < sizeof rooms / sizeof *rooms; k++) {
        q.room = rooms[k];
        ask(&q);
    }
}

/* A writer with room for all and with a byte too little, at every edition where it takes one. */
static void ask_writer(struct question q) {
    for (q.edition = 0; q.edition <= (q.call == WRITE_PSV0 || q.call == REPLACE_PSV0 ? 4 : 0); q.edition++) {
        ask(&q);
        q.room--;
        ask(&q);
        q.room++;
    }
}

/* The bytes are read as a settings file too, whatever they are. */
static void ask_file(void (*ask_all)(struct question), struct question q) {
    ask_settings(q);
    if (ask_all != ask_settings) {
        ask_all(q);
    }
}

/* The bytes, every prefix of them, and the bytes with each one changed in turn. */
static void around(void (*ask_all)(struct question), struct question q, uint8_t *bytes) {
    static const uint8_t changes[] = {0x01, 0x40, 0x80, 0xff};
    size_t len = q.len;
    q.bytes = bytes;
    for (q.len = 0; q.len < len; q.len++) {
        ask_file(ask_all, q);
    }
    ask_file(ask_all, q);
    for (size_t i = 0; i < len; i++) {
        for (size_t k = 0; k < sizeof changes; k++) {
            bytes[i] ^= changes[k];
            ask_file(ask_all, q);
            bytes[i] ^= changes[k];
        }
    }
}

/* PSV0 data of the hull shader. */
static size_t box_hull(uint8_t *out) {
    struct sections s = hull();
    qollqamir_written written =
        qollqamir_write_psv0(3, s.runtime, sizeof s.runtime, s.resources, sizeof s.resources, s.strings, sizeof s.strings, s.indices,
                             sizeof s.indices, s.elements, sizeof s.elements, s.masks, sizeof s.masks, out, 512);
    ACCEPTED(written);
    return written.len;
}

/* A container and its other PSV0 data end to end, with every byte changed in turn; then one name twice, which no single changed byte
   makes. */
static void ask_replacing(void) {
    static const size_t ways[][3] = {{0, 1, 9}, {1, 2, 1}, {8, 3, 0}, {0, 0, 3}};
    for (size_t k = 0; k < sizeof ways / sizeof *ways; k++) {
        uint8_t psv0[1000], bytes[1000];
        qollqamir_places places;
        size_t pieces[2] = {box_placed(bytes, ways[k][1], psv0, box_shape(psv0, ways[k][0], 0, &places)), 0};
        pieces[1] = box_shape(psv0, ways[k][2], 0, &places);
        size_t len = pieces[0] + put(bytes + pieces[0], psv0, pieces[1]);
        struct question q = {.call = REPLACE_PSV0, .len = len, .pieces = pieces};
        q.room = pieces[0] - shape_lengths[ways[k][0]] + pieces[1];
        around(ask_writer, q, bytes);
        q.bytes = bytes;
        put(bytes + get32(bytes + 36), bytes + get32(bytes + 32), 4);
        ask_writer(q);
    }
}

/* The bytes of the sections of PSV0 data end to end, and their lengths. */
static size_t sections_of(const uint8_t *psv0, size_t len, uint8_t *out, size_t *pieces) {
    size_t n = 0;
    for (uint32_t section = 0; section < 6; section++) {
        qollqamir_span span = qollqamir_psv0_section(psv0, len, 3, section);
        ACCEPTED(span);
        pieces[section] = span.len;
        n += put(out + n, psv0 + span.start, span.len);
    }
    return n;
}

/* A container of DXIL, PSV0 and all three signature parts. The second input element and the first patch element have no name; the size of
   the output part is 66, which one changed byte takes below 8. */
static size_t box_signed(uint8_t *out) {
    static const uint32_t names[][2] = {{72, 0}, {40, 0}, {0, 72}};
    uint8_t data[512];
    uint32_t sizes[5] = {4};
    size_t n = put(data, "code", 4);
    n += sizes[1] = (uint32_t)box_s(data + n);
    n += sizes[2] = (uint32_t)sg1(data + n, 2, names[0], "A", 2);
    n += sizes[3] = (uint32_t)sg1(data + n, 1, names[1], "BC\0.......................", 26);
    n += sizes[4] = (uint32_t)sg1(data + n, 2, names[2], "A", 2);
    qollqamir_written written =
        qollqamir_assemble(name("DXILPSV0ISG1OSG1PSG1"), 20, sizes, 5, data, n, name("0123456789abcdef"), 16, out, 512);
    ACCEPTED(written);
    return written.len;
}

/* Private parts in a container, with every byte changed in turn; then another name twice among them, at each place. */
static void ask_private(void) {
    uint8_t bytes[512];
    around(ask_reader, (struct question){.call = OPEN, .len = lay_out(bytes, two, 4, 2)}, bytes);
    for (int box = 0; box < 2; box++) {
        const struct entry *entries = box == 0 ? two : three;
        uint32_t count = box == 0 ? 4 : 6;
        struct question q = {.call = OPEN, .bytes = bytes, .len = lay_out(bytes, entries, count, box == 0 ? 2 : 0)};
        ask_reader(q);
        for (uint32_t i = 1 + (uint32_t)box; i < count; i++) {
            put(bytes + entries[i].offset, "DXIL", 4);
            ask_reader(q);
            put(bytes + entries[i].offset, entries[i].name, 4);
        }
    }
    static const uint32_t sizes[4] = {3, 4, 0, 5};
    static const size_t lengths[3] = {16, 12, 16};
    static const char *const names[] = {"PRIVDXILPRIVPRIV", "PRIVPRIVDXILDXIL", "DXILPRIVDXILPRIV", "PRIVPRIVPRIVPRIV"};
    for (int k = 0; k < 4; k++) {
        size_t n = put(bytes, names[k], 16);
        n += put(bytes + n, "abccodefghij0123456789abcdef", 28);
        around(ask_writer, (struct question){.call = ASSEMBLE, .len = n, .pieces = lengths, .sizes = sizes, .room = 93}, bytes);
    }
}

/* Settings files of up to 16 bytes and rows of such, with every byte changed in turn. */
static void ask_all_settings(void) {
    static const struct { const char *bytes; size_t len; } files[] = {
        {BYTES("\x03\x05\x01\x02\x85\x01\x03\x01\x85\x01\x02\xff\xff\xff\xff\x0f")},
        {BYTES("\x03\x05\x01\x03\x05\x02\x80\x01\x85\x01\x03\x00")},
        {BYTES("\x02\xff\xff\xff\xff\x0f\x01\x03\xff\xff\xff\xff\x0f\x03\x01")},
        {BYTES("\x01\x00\x02\x80\x80\x01")},
        {BYTES("\x00")},
    };
    uint8_t bytes[64];
    for (size_t k = 0; k < sizeof files / sizeof *files; k++) {
        around(ask_settings, (struct question){.call = SETTINGS_READ, .len = put(bytes, files[k].bytes, files[k].len)}, bytes);
    }
    static const uint32_t rows[][9] = {{5, 1, 2, 133, 3, 1, 133, 2, UINT32_MAX}, {5, 1, 3, 5, 2, 128, 133, 3, 0}};
    for (size_t k = 0; k < 2; k++) {
        around(ask_rows, (struct question){.call = WRITE_SETTINGS, .len = put(bytes, rows[k], sizeof rows[k])}, bytes);
    }
}

/* Figures at every edition: started, with nothing more, about the most, and joined with others. */
static void ask_all_figures(void) {
    for (size_t e = 0; e < FIGURES_EDITIONS * FIGURES_EDITIONS; e++) {
        size_t edition = figures_editions[e / FIGURES_EDITIONS];
        qollqamir_figures figures[2] = {made_up(edition, 0), made_up(figures_editions[e % FIGURES_EDITIONS], 1)};
        struct question q = {.edition = edition, .figures = figures};
        q.call = FIGURES_START;
        ask(&q);
        for (size_t opened = 65533; opened <= 65535; opened++) {
            figures[0].opened = (uint16_t)opened;
            q.call = FIGURES_ADD;
            ask(&q);
            q.call = FIGURES_JOIN;
            for (figures[1].opened = 0; figures[1].opened < 3; figures[1].opened++) {
                ask(&q);
            }
        }
    }
}

/* Whether a call gave a number, at any place. */
static bool gave(enum call call, size_t number) {
    for (size_t place = 0; place < PLACES; place++) {
        if (refusals[call][number][place].answer_len > 0) {
            return true;
        }
    }
    return false;
}

static void test_every_byte(void) {
    static const char *const names[] = {"DXIL", "VERS", "XXXX", "dxil"};
    for (int i = 0; i < 4; i++) {
        ask(&(struct question){.call = KNOWN, .name = names[i]});
    }
    for (int box = 0; box < 3; box++) {
        uint8_t psv0[512], bytes[512];
        size_t pieces[6];
        qollqamir_places places[4];
        size_t len = box == 0 ? box_m(psv0, 24, 24) : box == 1 ? box_c(psv0, 52, 1) : box_hull(psv0);
        kept = keep(places, psv0, len, true);
        around(ask_reader, (struct question){.call = PSV0_OPEN, .len = len}, psv0);
        size_t n = shader(bytes, psv0, len);
        kept = keep(places, bytes, n, false);
        around(ask_reader, (struct question){.call = OPEN, .len = n}, bytes);
        kept = NULL;
        /* One name twice, which no single changed byte makes. */
        put(bytes + 52, "DXIL", 4);
        ask_reader((struct question){.call = OPEN, .bytes = bytes, .len = n});
        n = sections_of(psv0, len, bytes, pieces);
        around(ask_writer, (struct question){.call = WRITE_PSV0, .len = n, .pieces = pieces, .room = len}, bytes);

        const uint32_t sizes[2] = {4, (uint32_t)len};
        const size_t lengths[3] = {8, 4 + len, 16};
        for (int twice = 0; twice < 2; twice++) {
            n = put(bytes, twice ? "DXILDXILcode" : "DXILPSV0code", 12);
            n += put(bytes + n, psv0, len);
            n += put(bytes + n, "0123456789abcdef", 16);
            struct question q = {.call = ASSEMBLE, .len = n, .pieces = lengths, .sizes = sizes, .room = 60 + len};
            around(ask_writer, q, bytes);
        }
    }
    uint8_t data[128], psv0[128], bytes[512];
    dxil(data, 5, 16, 8);
    size_t n = shader_of(bytes, data, 32, psv0, box_c(psv0, 52, 1));
    around(ask_dxil, (struct question){.call = DXIL_PROGRAM, .len = 32}, data);
    around(ask_reader, (struct question){.call = OPEN, .len = n}, bytes);
    static const uint32_t offsets[3] = {104, 0, 106};
    n = sg1(data, 3, offsets, "A\0BC", 5);
    around(ask_sg1, (struct question){.call = SG1_READ, .len = n}, data);
    n = box_signed(bytes);
    around(ask_reader, (struct question){.call = OPEN, .len = n}, bytes);
    for (uint32_t version = 1; version <= 2; version++) {
        /* In the container with bytes after the sampler: one changed byte takes the size, 240, below 24. */
        uint8_t items[240] = {0};
        rts0(items, version, some_lods);
        around(ask_rts0, (struct question){.call = RTS0_READ, .len = RTS0}, items);
        n = shader_with(bytes, psv0, box_m(psv0, 24, 24), "RTS0", items, sizeof items);
        around(ask_reader, (struct question){.call = OPEN, .len = n}, bytes);
    }
    ask_private();
    ask_all_settings();
    ask_all_figures();
    ask_replacing();
    /* The calls on parts, figures and places gave every number that they can and no other; 2 takes a longer file, which
       test_greatest_length, test_figures_refusals and test_replace_order have. */
    for (size_t number = 1; number < NUMBERS; number++) {
        bool in_table = number <= 9 && number != 2, opening = in_table || (number >= 10 && number <= 25);
        CHECK(gave(TABLE, number) == in_table && gave(TABLE_COUNTED, number) == in_table);
        CHECK(gave(TABLE_PART, number) == (in_table || number == 26) && gave(TABLE_PART_OCCURRENCE, number) == (in_table || number == 26));
        CHECK(gave(PART, number) == (opening || number == 26) && gave(PART_OCCURRENCE, number) == (opening || number == 26));
        CHECK((counted[number] > 0) == opening);
        CHECK(gave(OPEN_PLACES, number) == opening && gave(PSV0_OPEN_PLACES, number) == (number >= 12 && number <= 25));
        CHECK(gave(REPLACE_PSV0, number) == (opening || number == 27 || number == 28));
        CHECK(gave(PLACES_INFO, number) == (number == 29) && !gave(PLACES_LENGTHS, number));
        for (enum call call = PLACES_RESOURCE; call <= PLACES_SECTION; call++) {
            CHECK(call == PLACES_LENGTHS || gave(call, number) == (number == 26 || number == 29));
        }
        /* So did those on settings files; the writer's 56 takes more rows, which test_write_settings has, and its 54 takes 2^32. */
        bool own = number == 53 || number == 54 || number == 55 || number == 57 || number == 58 || number == 59;
        bool whole = own || number == 56 || number == 60;
        CHECK(gave(SETTINGS_READ, number) == whole && gave(SETTINGS_VALUE, number) == whole);
        CHECK(gave(SETTINGS_ROW, number) == (whole || number == 26) && gave(SETTINGS_ROW_ALONE, number) == own);
        CHECK(gave(WRITE_SETTINGS, number) == (number == 27 || number == 28 || (number >= 57 && number <= 59)));
    }
    for (int call = 0; call < CALLS; call++) {
        CHECK(accepted[call] > 0 && (refused[call] > 0 || call == PLACES_LENGTHS));
        bool signature = (call >= SIGNATURE && call <= SIGNATURE_DIFFERENCE) || (call >= SG1_READ && call <= SG1_NAME);
        bool root = (call >= ROOT && call <= ROOT_RANGE) || (call >= RTS0_READ && call <= RTS0_RANGE_ALONE);
        for (int number = signature ? 43 : root ? 46 : NUMBERS; number <= (signature ? 45 : 51); number++) {
            CHECK(refusals[call][number][0].answer_len > 0);
        }
        CHECK(!signature || refusals[call][52][0].answer_len > 0);
    }
    CHECK(triples >= 1384);
    printf("c answers: %zu calls made twice; %zu refused answers equal to that of another file, of %zu calls, numbers and places\n", asked,
           paired, triples);
}

/* ---- queries by places, and replacing */

/* The places of every shape, alone and in containers, at every edition; zeros beside a refusal. */
static void test_places(void) {
    static const uint32_t parts[WAYS] = {2, 3, 4, 4};
    uint8_t psv0[1000], bytes[1000];
    for (size_t k = 0; k < SHAPES; k++) {
        for (size_t way = 0; way <= WAYS; way++) {
            bool alone = way == WAYS;
            qollqamir_places places;
            size_t len = box_shape(psv0, k, 0, &places);
            CHECK(len == shape_lengths[k]);
            SAME(qollqamir_places, places, shape_places[k]);
            CHECK(is_plain(psv0, len) == plain_shape(k));
            if (alone) {
                /* Bytes after the last section change nothing. */
                put(bytes, psv0, len);
                put(bytes + len, "...", 3);
                len += 3;
            } else {
                len = box_placed(bytes, way, psv0, len);
                box_shape(psv0, k, data_at[way], &places);
                CHECK(memcmp(bytes + data_at[way], psv0, shape_lengths[k]) == 0);
            }
            for (size_t edition = 0; edition <= 4; edition++) {
                struct question q = {.call = alone ? PSV0_OPEN_PLACES : OPEN_PLACES, .bytes = bytes, .len = len, .edition = edition};
                qollqamir_verdict verdict = ask(&q);
                qollqamir_opened expected = {.verdict = {25, 0}};
                if (edition <= 3) {
                    expected = (qollqamir_opened){.parts = alone ? 0 : parts[way], .file_edition = places.edition};
                    expected.places = read_at(places, edition);
                    expected.edition_read = expected.places.edition;
                    ask_places(bytes, len, expected.places);
                    same_as_fresh(bytes, len, edition, alone, expected.places);
                }
                CHECK(verdict.number == expected.verdict.number);
                SAME(qollqamir_opened, (alone ? qollqamir_psv0_open_places : qollqamir_open_places)(bytes, len, edition), expected);
                if (!alone) {
                    SAME(qollqamir_opened, qollqamir_open_places(bytes, len - 1, edition),
                         ((qollqamir_opened){.verdict = {edition == 4 ? 25 : 5, 0}}));
                } else {
                    SAME(qollqamir_opened, qollqamir_psv0_open_places(bytes, 3, edition),
                         ((qollqamir_opened){.verdict = {edition == 4 ? 25 : 12, 0}}));
                }
            }
        }
    }
    /* A refusal with a place: the second element's name, in shape 7. */
    qollqamir_places places;
    size_t len = box_shape(psv0, 7, 0, &places);
    put32(psv0 + 192, 12);
    SAME(qollqamir_opened, qollqamir_psv0_open_places(psv0, len, 1), ((qollqamir_opened){.verdict = {22, 1}}));
    len = box_placed(bytes, 2, psv0, len);
    SAME(qollqamir_opened, qollqamir_open_places(bytes, len, 3), ((qollqamir_opened){.verdict = {22, 1}}));
}

/* A query by places gives 29 on fewer than "end" bytes, and is accepted from there on. */
static void ends_at(const uint8_t *bytes, qollqamir_places p, struct question q, size_t end) {
    q.bytes = bytes;
    q.places = p;
    for (q.len = 0; q.len < end + 4; q.len += q.len + 2 < end ? (end - 1) / 2 : 1) {
        qollqamir_verdict verdict = ask(&q);
        CHECK(verdict.number == (q.len < end ? 29 : 0) && verdict.place == 0);
    }
}

#define INFO_ENDS(p, end) ends_at(b, p, (struct question){.call = PLACES_INFO}, end)
#define RESOURCE_ENDS(p, i, end) ends_at(b, p, (struct question){.call = PLACES_RESOURCE, .number = i}, end)
#define ELEMENT_ENDS(p, i, end) ends_at(b, p, (struct question){.call = PLACES_ELEMENT, .number = i}, end)
#define VIEW_ENDS(p, k, i, end) ends_at(b, p, (struct question){.call = PLACES_VIEW, .kind = k, .number = i}, end)
#define SECTION_ENDS(p, k, end) ends_at(b, p, (struct question){.call = PLACES_SECTION, .kind = k}, end)

/* What each query needs, in plain numbers, of shape 7; then every shape cut at every byte. */
static void test_places_ends(void) {
    uint8_t b[1000], again[1000];
    qollqamir_places p, q;
    CHECK(box_shape(b, 7, 0, &p) == 500);
    INFO_ENDS(p, 56);
    RESOURCE_ENDS(p, 0, 96);
    RESOURCE_ENDS(p, 1, 124);
    ELEMENT_ENDS(p, 0, 184);
    ELEMENT_ENDS(p, 2, 232);
    VIEW_ENDS(p, QOLLQAMIR_STAGE_UNION, 0, 56);
    VIEW_ENDS(p, QOLLQAMIR_ELEMENT_STRING, 0, 184);
    VIEW_ENDS(p, QOLLQAMIR_ELEMENT_STRING, 2, 232);
    VIEW_ENDS(p, QOLLQAMIR_ELEMENT_ARRAY, 1, 208);
    VIEW_ENDS(p, QOLLQAMIR_ENTRY_NAME, 0, 144);
    VIEW_ENDS(p, QOLLQAMIR_MASK, 0, 252);
    VIEW_ENDS(p, QOLLQAMIR_MASK, 1, 252);
    VIEW_ENDS(p, QOLLQAMIR_MASK, 4, 260);
    VIEW_ENDS(p, QOLLQAMIR_MASK, 5, 404);
    VIEW_ENDS(p, QOLLQAMIR_MASK, 9, 500);
    VIEW_ENDS(p, QOLLQAMIR_MASK, 10, 500);
    SECTION_ENDS(p, QOLLQAMIR_RUNTIME_RECORD, 56);
    SECTION_ENDS(p, QOLLQAMIR_RESOURCE_RECORDS, 128);
    SECTION_ENDS(p, QOLLQAMIR_STRING_TABLE, 144);
    SECTION_ENDS(p, QOLLQAMIR_INDEX_TABLE, 164);
    SECTION_ENDS(p, QOLLQAMIR_ELEMENT_RECORDS, 240);
    SECTION_ENDS(p, QOLLQAMIR_MASKS, 500);

    /* The runtime record and the stage union by the recorded edition; one above 3 counts as 3. */
    static const uint32_t editions[] = {0, 1, 2, 3, 4, 5, 256, UINT32_MAX};
    static const size_t info_ends[] = {28, 40, 52, 56, 56, 56, 56, 56};
    for (size_t k = 0; k < 8; k++) {
        q = p;
        q.edition = editions[k];
        INFO_ENDS(q, info_ends[k]);
        VIEW_ENDS(q, QOLLQAMIR_STAGE_UNION, 0, info_ends[k]);
        SECTION_ENDS(q, QOLLQAMIR_RUNTIME_RECORD, info_ends[k]);
        /* 24 bytes of a resource from edition 2 on, where records have as many. */
        RESOURCE_ENDS(q, 1, k < 2 ? 116 : 124);
        for (q.resource_size = 0; q.resource_size <= 24; q.resource_size++) {
            RESOURCE_ENDS(q, 0, k < 2 || q.resource_size < 24 ? 88 : 96);
            RESOURCE_ENDS(q, 1, (k < 2 || q.resource_size < 24 ? 88 : 96) + q.resource_size);
        }
        if (k >= 3) {
            VIEW_ENDS(q, QOLLQAMIR_ENTRY_NAME, 0, 144);
        }
        if (k >= 1) {
            ELEMENT_ENDS(q, 1, 208);
            VIEW_ENDS(q, QOLLQAMIR_ELEMENT_STRING, 1, 208);
        } else {
            /* At edition 0 sections 3 to 6 are empty, whatever the places say. */
            for (uint32_t section = 2; section < 6; section++) {
                SECTION_ENDS(q, section, 0);
            }
        }
    }
    /* Records of no size all stand at one place. */
    q = p;
    q.element_size = 0;
    ELEMENT_ENDS(q, 2, 184);

    /* The tables and the runtime record at the end: the whole table is needed, though the string or the array stands at its front. */
    put(again, b, 500);
    put(b + 488, b + 132, 12);
    q = p;
    q.strings = 488;
    VIEW_ENDS(q, QOLLQAMIR_ELEMENT_STRING, 0, 500);
    VIEW_ENDS(q, QOLLQAMIR_ENTRY_NAME, 0, 500);
    q = p;
    q.indices = 484;
    VIEW_ENDS(q, QOLLQAMIR_ELEMENT_ARRAY, 0, 500);
    VIEW_ENDS(q, QOLLQAMIR_ELEMENT_ARRAY, 2, 500);
    put32(b + 172, 0);
    b[176] = 1;
    VIEW_ENDS(q, QOLLQAMIR_ELEMENT_ARRAY, 0, 500);
    put(b, again, 500);
    put(b + 448, b + 4, 52);
    q = p;
    q.runtime = 448;
    VIEW_ENDS(q, QOLLQAMIR_ENTRY_NAME, 0, 500);
    INFO_ENDS(q, 500);
    /* Tables that are empty but for their place. */
    q = p;
    q.string_bytes = q.index_count = q.resource_count = q.element_count = 0;
    q.strings = q.indices = q.resources = q.elements = 300;
    for (uint32_t section = QOLLQAMIR_RESOURCE_RECORDS; section <= QOLLQAMIR_ELEMENT_RECORDS; section++) {
        SECTION_ENDS(q, section, 300);
    }

    for (size_t k = 0; k < SHAPES; k++) {
        size_t len = box_shape(b, k, 0, &p);
        for (size_t n = 0; n <= len; n++) {
            ask_places(b, n, p);
        }
    }
}

#undef INFO_ENDS
#undef RESOURCE_ENDS
#undef ELEMENT_ENDS
#undef VIEW_ENDS
#undef SECTION_ENDS

/* The answer of one query by places, its number checked. */
static qollqamir_span viewed(const uint8_t *b, size_t len, qollqamir_places p, uint32_t kind, size_t number, size_t expected) {
    struct question q = {.call = PLACES_VIEW, .bytes = b, .len = len, .places = p, .kind = kind, .number = number};
    CHECK(ask(&q).number == expected);
    return qollqamir_places_view(b, len, p, kind, number);
}

static uint32_t next_number(uint32_t *state) {
    *state = *state * 1664525 + 1013904223;
    return *state >> 8;
}

/* Other bytes and made-up places. */
static void test_places_made_up(void) {
    uint8_t b[1000];
    qollqamir_places p, q;
    size_t len = box_shape(b, 7, 0, &p);

    /* 26 by the places alone, before 29, with bytes and without; kinds and sections that there are not. */
    for (size_t n = 0; n <= len; n += len) {
        const uint8_t *bytes = n == 0 ? NULL : b;
        for (uint32_t edition = 0; edition <= 5; edition++) {
            q = p;
            q.edition = edition;
            static const size_t numbers[] = {3, 4, 9, UINT32_MAX, (size_t)1 << 32, ((size_t)1 << 32) + 1, SIZE_MAX};
            for (size_t k = 0; k < 7; k++) {
                REFUSED(qollqamir_places_resource(bytes, n, q, numbers[k]), 26, 0);
                REFUSED(qollqamir_places_element(bytes, n, q, numbers[k]), 26, 0);
                viewed(bytes, n, q, QOLLQAMIR_ELEMENT_STRING, numbers[k], 26);
                viewed(bytes, n, q, QOLLQAMIR_ELEMENT_ARRAY, numbers[k], 26);
                viewed(bytes, n, q, QOLLQAMIR_MASK, numbers[k] < 11 ? 11 : numbers[k], 26);
                viewed(bytes, n, q, 5 + (uint32_t)k, 0, 26);
                REFUSED(qollqamir_places_section(bytes, n, q, 6 + (uint32_t)k), 26, 0);
            }
            viewed(bytes, n, q, UINT32_MAX, 0, 26);
            REFUSED(qollqamir_places_section(bytes, n, q, UINT32_MAX), 26, 0);
            REFUSED(qollqamir_places_resource(bytes, n, q, 2), 26, 0);
            size_t there = n == 0 ? 29 : 0;
            REFUSED(qollqamir_places_resource(bytes, n, q, 1), there, 0);
            REFUSED(qollqamir_places_element(bytes, n, q, 2), edition == 0 ? 26 : there, 0);
            viewed(bytes, n, q, QOLLQAMIR_ELEMENT_STRING, 2, edition == 0 ? 26 : there);
            viewed(bytes, n, q, QOLLQAMIR_ELEMENT_ARRAY, 2, edition == 0 ? 26 : there);
            viewed(bytes, n, q, QOLLQAMIR_MASK, 10, edition == 0 ? 26 : there);
            viewed(bytes, n, q, QOLLQAMIR_ENTRY_NAME, 0, edition < 3 ? 26 : there);
            ask_places(bytes, n, q);
            /* Lengths are those of the places. */
            q.resource_count = 11;
            q.string_bytes = 12;
            q.index_count = 13;
            q.element_count = UINT32_MAX;
            qollqamir_list_lengths lengths = qollqamir_places_lengths(bytes, n, q);
            ACCEPTED(lengths);
            SET(lengths.resources, 11);
            if (edition == 0) {
                UNSET(lengths.strings);
                UNSET(lengths.indices);
                UNSET(lengths.elements);
            } else {
                SET(lengths.strings, 12);
                SET(lengths.indices, 13);
                SET(lengths.elements, UINT32_MAX);
            }
        }
    }

    /* The recorded stage decides what is set; the stage that is shown is that of the byte. */
    static const uint32_t stages[] = {0, 1, 2, 3, 4, 5, 6, 12, 13, 14, 15, 16, 258, 269, UINT32_MAX};
    for (size_t k = 0; k < sizeof stages / sizeof *stages; k++) {
        for (uint32_t edition = 0; edition <= 5; edition++) {
            for (int byte = 0; byte < 256; byte += 3) {
                q = p;
                q.stage = stages[k];
                q.edition = edition;
                b[4 + 24] = (uint8_t)byte;
                struct question question = {.call = PLACES_INFO, .bytes = b, .len = len, .places = q};
                ask(&question);
            }
        }
    }
    b[4 + 24] = 5;
    p.stage = 13;
    qollqamir_info info = qollqamir_places_runtime_info(b, len, p);
    ACCEPTED(info);
    SET(info.stage, 5);
    SET(info.patch_vectors, 9);
    SET(info.mesh_topology, 0);
    UNSET(info.max_vertex_count);
    SET(info.threads_z, get32(b + 4 + 44));
    p.stage = 2;
    info = qollqamir_places_runtime_info(b, len, p);
    SET(info.stage, 5);
    SET(info.max_vertex_count, 9);
    UNSET(info.patch_vectors);
    UNSET(info.threads_x);

    /* References: the string's table is bytes 132 to 143, ABC0EFG0IJK0; the element's record at 168. */
    CHECK(says(b, viewed(b, len, p, QOLLQAMIR_ELEMENT_STRING, 0, 0), "ABC", 3));
    static const struct { uint32_t o; const char *says; } names[] = {
        {2, "C"}, {3, ""}, {5, "FG"}, {10, "K"}, {11, ""}, {12, NULL}, {13, NULL}, {144, NULL}, {UINT32_MAX, NULL},
    };
    for (int entry = 0; entry < 2; entry++) {
        uint32_t kind = entry ? QOLLQAMIR_ENTRY_NAME : QOLLQAMIR_ELEMENT_STRING;
        uint8_t *reference = b + (entry ? 4 + 48 : 168);
        for (size_t k = 0; k < sizeof names / sizeof *names; k++) {
            put32(reference, names[k].o);
            qollqamir_span span = viewed(b, len, p, kind, 0, names[k].says == NULL ? 29 : 0);
            CHECK(names[k].says == NULL || says(b, span, names[k].says, strlen(names[k].says)));
            CHECK(names[k].says == NULL || span.start == 132 + names[k].o);
        }
        put32(reference, 8);
        b[143] = 'L'; /* No zero inside the table, though one stands after it. */
        b[144] = 0;
        viewed(b, len, p, kind, 0, 29);
        put(b + 140, "\xc3\xa9z", 4);
        CHECK(says(b, viewed(b, len, p, kind, 0, 0), "\xc3\xa9z", 3));
        put(b + 140, "\xe9zz", 4);
        viewed(b, len, p, kind, 0, 29);
        put(b + 140, "IJK", 4);
        put32(b + 144, 4);
    }
    put32(b + 168, 0);
    static const struct { uint32_t i; uint8_t rows; size_t number; } arrays[] = {
        {0, 4, 0}, {0, 5, 29}, {3, 1, 0}, {3, 2, 29}, {4, 0, 0}, {4, 1, 29}, {5, 0, 29}, {1, 3, 0}, {0, 255, 29}, {UINT32_MAX, 0, 29},
        {UINT32_MAX, 1, 29}, {UINT32_MAX - 254, 255, 29}, {0x40000000, 0, 29}, {0x80000000, 4, 29},
    };
    for (size_t k = 0; k < sizeof arrays / sizeof *arrays; k++) {
        put32(b + 172, arrays[k].i);
        b[176] = arrays[k].rows;
        qollqamir_span span = viewed(b, len, p, QOLLQAMIR_ELEMENT_ARRAY, 0, arrays[k].number);
        CHECK(arrays[k].number != 0 || shows(b, span, b + 148 + 4 * arrays[k].i, 4 * (size_t)arrays[k].rows));
        /* The element's other query and its record don't look at it. */
        viewed(b, len, p, QOLLQAMIR_ELEMENT_STRING, 0, 0);
        ACCEPTED(qollqamir_places_element(b, len, p, 0));
    }

    /* Numbers about the bytes' length, of every shape. */
    size_t before[CALLS], refused_before[CALLS];
    memcpy(before, accepted, sizeof before);
    memcpy(refused_before, refused, sizeof refused_before);
    uint32_t state = 11;
    for (size_t k = 0; k < 3000; k++) {
        uint32_t numbers[25];
        len = box_shape(b, k % SHAPES, 0, &p);
        memcpy(numbers, &p, sizeof numbers);
        for (uint32_t changes = 1 + next_number(&state) % 4; changes > 0; changes--) {
            uint32_t *n = &numbers[next_number(&state) % 25], way = next_number(&state) % 4;
            *n = way == 0 ? next_number(&state) % (uint32_t)(len + 4) : way == 1 ? next_number(&state) % 8 :
                 way == 2 ? *n + 1 - next_number(&state) % 3 : (uint32_t)len - next_number(&state) % 64;
        }
        memcpy(&p, numbers, sizeof numbers);
        ask_places(b, len - next_number(&state) % 3, p);
    }
    for (enum call call = PLACES_INFO; call <= PLACES_SECTION; call++) {
        CHECK(accepted[call] - before[call] > 500 && (call == PLACES_LENGTHS || refused[call] - refused_before[call] > 50));
    }
}

/* Numbers as great as 32 bits hold: no sum or product of them wraps. */
static void test_places_great(void) {
    static const uint32_t great[] = {0x10000,    0x3fffffff, 0x40000000, 0x40000001, 0x40000004,
                                     0x7fffffff, 0x80000000, 0xfffffff0, 0xfffffffc, UINT32_MAX};
    uint8_t b[1000];
    qollqamir_places p, q;
    for (size_t k = 1; k < SHAPES; k += 2) {
        size_t len = box_shape(b, k, 0, &p);
        for (size_t g = 0; g < sizeof great / sizeof *great; g++) {
            uint32_t numbers[25];
            for (size_t i = 0; i <= 25; i++) {
                memcpy(numbers, &p, sizeof numbers);
                for (size_t j = 0; j < 25; j++) {
                    numbers[j] = i == j || i == 25 ? great[g] : numbers[j];
                }
                memcpy(&q, numbers, sizeof numbers);
                ask_places(b, len, q);
                ask_places(NULL, 0, q);
            }
        }
    }
    size_t len = box_shape(b, 7, 0, &p);
#define ASK(expected, ...) CHECK(ask(&(struct question){.bytes = b, .len = len, .places = q, __VA_ARGS__}).number == (expected))
    /* Places just below 2^32, whose records would end at the front. */
    q = p;
    q.runtime = q.resources = q.strings = q.indices = q.elements = q.masks = (uint32_t)-8;
    ASK(29, .call = PLACES_INFO);
    ASK(29, .call = PLACES_VIEW, .kind = QOLLQAMIR_STAGE_UNION);
    ASK(29, .call = PLACES_RESOURCE, .number = 1);
    ASK(29, .call = PLACES_ELEMENT, .number = 1);
    ask_places(b, len, q);
    /* Record i at 2^32 and a little: at the front if it wrapped. */
    q = p;
    q.resource_count = q.element_count = UINT32_MAX;
    q.resource_size = q.element_size = 0x10000;
    ASK(29, .call = PLACES_RESOURCE, .number = 0x10000);
    ASK(29, .call = PLACES_ELEMENT, .number = 0x10000);
    ASK(29, .call = PLACES_VIEW, .kind = QOLLQAMIR_ELEMENT_STRING, .number = 0x10000);
    ASK(29, .call = PLACES_VIEW, .kind = QOLLQAMIR_ELEMENT_ARRAY, .number = 0x10000);
    ASK(29, .call = PLACES_RESOURCE, .number = UINT32_MAX - 1);
    ASK(29, .call = PLACES_ELEMENT, .number = UINT32_MAX - 1);
    ASK(26, .call = PLACES_RESOURCE, .number = UINT32_MAX);
    ASK(26, .call = PLACES_ELEMENT, .number = (size_t)1 << 32);
    ASK(0, .call = PLACES_RESOURCE, .number = 0);
    /* Sections of 2^32 bytes, none if they wrapped. */
    q.resource_count = q.element_count = 0x10000;
    ASK(29, .call = PLACES_SECTION, .kind = QOLLQAMIR_RESOURCE_RECORDS);
    ASK(29, .call = PLACES_SECTION, .kind = QOLLQAMIR_ELEMENT_RECORDS);
    q.index_count = 0x40000000;
    ASK(29, .call = PLACES_SECTION, .kind = QOLLQAMIR_INDEX_TABLE);
    ASK(29, .call = PLACES_VIEW, .kind = QOLLQAMIR_ELEMENT_ARRAY, .number = 0);
    /* The same and the four numbers that there are. */
    q.index_count = 0x40000004;
    ASK(29, .call = PLACES_SECTION, .kind = QOLLQAMIR_INDEX_TABLE);
    ASK(29, .call = PLACES_VIEW, .kind = QOLLQAMIR_ELEMENT_ARRAY, .number = 0);
    /* Masks of 2^32 bytes: the next at the front if it wrapped, and all of them empty. */
    q = p;
    memset(q.mask_words, 0, sizeof q.mask_words);
    q.mask_words[0] = 0x40000000;
    ASK(29, .call = PLACES_VIEW, .kind = QOLLQAMIR_MASK, .number = 0);
    ASK(29, .call = PLACES_VIEW, .kind = QOLLQAMIR_MASK, .number = 1);
    ASK(29, .call = PLACES_SECTION, .kind = QOLLQAMIR_MASKS);
    q.mask_words[0] = q.mask_words[1] = 0x20000000;
    ASK(29, .call = PLACES_VIEW, .kind = QOLLQAMIR_MASK, .number = 2);
    ASK(29, .call = PLACES_SECTION, .kind = QOLLQAMIR_MASKS);
    memset(q.mask_words, 0xff, sizeof q.mask_words);
    for (size_t mask = 0; mask <= 10; mask++) {
        ASK(29, .call = PLACES_VIEW, .kind = QOLLQAMIR_MASK, .number = mask);
    }
    ASK(29, .call = PLACES_SECTION, .kind = QOLLQAMIR_MASKS);
    /* The words of every mask count, by themselves and before the next. */
    memset(q.mask_words, 0, sizeof q.mask_words);
    for (size_t mask = 0; mask <= 10; mask++) {
        q.mask_words[mask] = (uint32_t)mask + 1;
    }
    q.masks = 100;
    for (size_t mask = 0; mask <= 10; mask++) {
        CHECK(shows(b, viewed(b, len, q, QOLLQAMIR_MASK, mask, 0), b + 100 + 2 * mask * (mask + 1), 4 * (mask + 1)));
    }
    CHECK(shows(b, qollqamir_places_section(b, len, q, QOLLQAMIR_MASKS), b + 100, 264));
#undef ASK
}

/* PSV0 data of every shape replaced by those of every other and of the same, first, in the middle and last: the container that is laid out
   with the new data from the start, its places, and what stood past it. */
static void test_replace(void) {
    uint8_t old[1000], new[1000], bytes[1000], stood[1000], expected[1000], out[1000];
    size_t equal = 0, longer = 0, shorter = 0;
    for (size_t k = 0; k < SHAPES * SHAPES * WAYS * 5; k++) {
        size_t from = k / 5 / WAYS / SHAPES, to = k / 5 / WAYS % SHAPES, way = k / 5 % WAYS, edition = k % 5;
        qollqamir_places places;
        size_t old_len = box_shape(old, from, 0, &places), new_len = box_shape(new, to, data_at[way], &places);
        size_t len = box_placed(bytes, way, old, old_len), result = box_placed(expected, way, new, new_len);
        memcpy(stood, bytes, sizeof stood);
        size_t number = edition == 4 ? 25 : plain_shape(to) ? 0 : 27;
        const size_t rooms[] = {sizeof out, result, result - 1, 0};
        for (size_t r = 0; r < 4; r++) {
            memset(out, 0xee - (int)r, sizeof out);
            uint8_t kept_byte = out[0];
            qollqamir_replaced answered = {.verdict = {number == 0 && r >= 2 ? 28 : number, 0}};
            if (answered.verdict.number == 0) {
                answered.len = (uint32_t)result;
                answered.places = read_at(places, edition);
            }
            qollqamir_replaced replaced = qollqamir_replace_psv0(bytes, len, edition, new, new_len, out, rooms[r]);
            SAME(qollqamir_replaced, replaced, answered);
            CHECK(memcmp(out, expected, replaced.len) == 0);
            for (size_t i = replaced.len; i < sizeof out; i++) {
                CHECK(out[i] == kept_byte);
            }
            CHECK(memcmp(bytes, stood, sizeof bytes) == 0);
            if (replaced.verdict.number != 0) {
                continue;
            }
            SAME(qollqamir_places, qollqamir_open_places(out, result, edition).places, replaced.places);
            if (r == 1) {
                same_as_fresh(out, result, edition, false, replaced.places);
                /* Replaced back: the bytes from the start. */
                if (plain_shape(from)) {
                    uint8_t back[1000];
                    CHECK(qollqamir_replace_psv0(out, result, edition, old, old_len, back, len).len == len);
                    CHECK(memcmp(back, bytes, len) == 0);
                }
                equal += from == to;
                longer += new_len > old_len;
                shorter += new_len < old_len;
            }
        }
    }
    CHECK(equal == 6 * WAYS * 4 && longer == 20 * WAYS * 4 && shorter == 34 * WAYS * 4);

    /* Other data of the same length; the places of the bytes as they were stay good for those, and here for the result too. */
    qollqamir_places places;
    size_t old_len = box_shape(old, 3, 0, &places), len = box_placed(bytes, 2, old, old_len);
    memcpy(new, old, old_len);
    put32(new + 4 + 16, 77);
    qollqamir_opened opened = qollqamir_open_places(bytes, len, 3);
    qollqamir_replaced replaced = qollqamir_replace_psv0(bytes, len, 3, new, old_len, out, sizeof out);
    ACCEPTED(replaced);
    CHECK(replaced.len == len && get32(out + 82 + 20) == 77);
    SAME(qollqamir_places, replaced.places, opened.places);
    SET(qollqamir_places_runtime_info(out, len, replaced.places).minimum_wave_lanes, 77);
    SET(qollqamir_places_runtime_info(bytes, len, opened.places).minimum_wave_lanes, get32(old + 20));

    /* What makes data that reader 3 accepts other than plain, one at a time: a longer runtime record, resource record or element record,
       resource records of another edition's size, bytes after the last section. */
    static const struct { size_t shape, field; uint32_t number; } others[] = {
        {0, offsetof(struct shape, s), 28}, {0, offsetof(struct shape, s), 32},
        {1, offsetof(struct shape, s), 40}, {1, offsetof(struct shape, s), 44},
        {3, offsetof(struct shape, s), 56}, {9, offsetof(struct shape, s), 60},
        {1, offsetof(struct shape, resource_size), 20}, {1, offsetof(struct shape, resource_size), 24},
        {2, offsetof(struct shape, resource_size), 16}, {2, offsetof(struct shape, resource_size), 28},
        {3, offsetof(struct shape, resource_size), 20}, {8, offsetof(struct shape, resource_size), 28},
        {1, offsetof(struct shape, element_size), 20}, {3, offsetof(struct shape, element_size), 24},
    };
    for (size_t k = 0; k < sizeof others / sizeof *others; k++) {
        struct shape other = shapes[others[k].shape];
        memcpy((uint8_t *)&other + others[k].field, &others[k].number, sizeof(uint32_t));
        size_t new_len = box_of(new, &other, 0, &places);
        ACCEPTED(qollqamir_psv0_open(new, new_len, 3));
        for (size_t edition = 0; edition <= 3; edition++) {
            REFUSED(qollqamir_replace_psv0(bytes, len, edition, new, new_len, out, sizeof out), 27, 0);
        }
    }
    for (uint32_t size = 16; size <= 24; size += 4) {
        size_t new_len = box_of(new, &(struct shape){.s = 24, .resources = 2, .resource_size = size}, 0, &places);
        REFUSED(qollqamir_replace_psv0(bytes, len, 3, new, new_len, out, sizeof out), size == 16 ? 0 : 27, 0);
    }
    for (size_t k = 0; k < SHAPES; k++) {
        size_t new_len = box_shape(new, k, 0, &places);
        for (size_t more = 0; more <= 4; more++) {
            for (size_t edition = 0; edition <= 3; edition++) {
                memset(out, 0xee, sizeof out);
                replaced = qollqamir_replace_psv0(bytes, len, edition, new, new_len + more, out, sizeof out);
                REFUSED(replaced, more == 0 && plain_shape(k) ? 0 : 27, 0);
                CHECK(replaced.verdict.number == 0 || (replaced.len == 0 && out[0] == 0xee && out[999] == 0xee));
            }
        }
    }
}

/* As many parts as there may be, with the PSV0 data first, last and between: every offset after them moves, and none before. */
static void test_replace_many(void) {
    static const size_t numbers[] = {0, 1, 47, 94, 95}, pairs[][2] = {{0, 3}, {3, 0}, {7, 1}};
    static uint8_t bytes[4096], expected[4096], out[4096];
    for (size_t k = 0; k < 15; k++) {
        size_t number = numbers[k / 3], from = pairs[k % 3][0], to = pairs[k % 3][1];
        uint8_t old[1000], new[1000];
        qollqamir_places places;
        size_t old_len = box_shape(old, from, 0, &places), new_len = box_shape(new, to, 0, &places);
        struct entry entries[96];
        for (uint32_t i = 0; i < 96; i++) {
            entries[i] = (struct entry){"PRIV", i % 3, 0, i % 4, 0, "abc"};
        }
        entries[number == 0 ? 1 : 0] = (struct entry){"DXIL", 0, 0, 4, 0, "code"};
        entries[number] = (struct entry){"PSV0", 1, 0, (uint32_t)old_len, 0, old};
        size_t len = lay_out(bytes, entries, 96, 2);
        entries[number] = (struct entry){"PSV0", 1, 0, (uint32_t)new_len, 0, new};
        size_t result = lay_out(expected, entries, 96, 2), at = get32(expected + 32 + 4 * number) + (size_t)8;
        box_shape(new, to, at, &places);
        for (size_t edition = 0; edition <= 3; edition++) {
            memset(out, 0xee, sizeof out);
            qollqamir_replaced replaced = qollqamir_replace_psv0(bytes, len, edition, new, new_len, out, sizeof out);
            SAME(qollqamir_replaced, replaced, ((qollqamir_replaced){{0, 0}, (uint32_t)result, read_at(places, edition)}));
            CHECK(memcmp(out, expected, result) == 0);
            CHECK(out[result] == 0xee && memcmp(out + result, out + result + 1, sizeof out - result - 1) == 0);
            same_as_fresh(out, result, edition, false, replaced.places);
            ACCEPTED(read_table(out, result));
        }
    }
}

/* The refusals in order: every set of faults gives the first of them, and nothing is written. */
static void test_replace_order(void) {
    static const struct entry m[2] = {{"DXIL", 0, 40, 4, 0, "code"}, {"PSV0", 0, 52, 32, 0, plain}};
    static const size_t numbers[] = {25, 3, 12, 27, 2, 28, 0};
    static uint8_t far[GREATEST + 1];
    uint8_t new[1000], head[1000], expected[1000];
    qollqamir_places places;
    /* In box M the PSV0 data start at byte 60. */
    size_t new_len = box_shape(new, 9, 60, &places);
    CHECK(new_len == 72);
    memset(far, 0xee, sizeof far);
    for (unsigned set = 0; set < 64; set++) {
        size_t first = 0;
        while (first < 6 && (set >> first & 1) == 0) {
            first++;
        }
        /* The result has 40 bytes more than the container. */
        size_t len = lay_out(greatest, m, 2, GREATEST - 40 - 92 + (set & 16 ? 1 : 0)), result = len + 40;
        greatest[0] = set & 2 ? 'X' : 'D';
        put32(new, set & 4 ? 26 : 52);
        qollqamir_replaced replaced = qollqamir_replace_psv0(greatest, len, set & 1 ? 4 : 3, new, new_len + (set & 8 ? 1 : 0), far,
                                                             set & 32 ? result - 1 : result);
        REFUSED(replaced, numbers[first], 0);
        if (set != 0) {
            SAME(qollqamir_replaced, replaced, ((qollqamir_replaced){.verdict = {numbers[first], 0}}));
            CHECK(far[0] == 0xee && far[24] == 0xee && far[132] == 0xee && far[GREATEST - 1] == 0xee);
            continue;
        }
        /* The greatest length that a result may have. */
        CHECK(replaced.len == GREATEST);
        SAME(qollqamir_places, replaced.places, places);
        put(head, greatest, 92);
        put32(head + 24, 92);
        put_replaced(expected, head, 92, new, new_len);
        put32(expected + 24, GREATEST);
        CHECK(memcmp(far, expected, 132) == 0 && memcmp(far + 132, greatest + 92, GREATEST - 132) == 0 && far[GREATEST] == 0xee);
        ACCEPTED(qollqamir_open(far, GREATEST, 3));
        memset(far, 0xee, sizeof far);
    }
    CHECK(far[0] == 0xee && memcmp(far, far + 1, GREATEST) == 0);

    /* A plain part that is itself nearly as long as may be: 2 before 28. One word more after it: 27 before 2. One too long for reader 3:
       2. */
    uint8_t bytes[128], out[128];
    size_t len = shader(bytes, plain, 32);
    uint32_t records = (GREATEST - 36) / 16;
    memset(out, 0xee, sizeof out);
    memset(greatest, 0, sizeof greatest);
    put32(greatest, 24);
    put32(greatest + 28, records);
    put32(greatest + 32, 16);
    REFUSED(qollqamir_replace_psv0(bytes, len, 3, greatest, 36 + 16 * (size_t)records, out, sizeof out), 2, 0);
    REFUSED(qollqamir_replace_psv0(bytes, len, 3, greatest, 36 + 16 * (size_t)records + 4, out, sizeof out), 27, 0);
    REFUSED(qollqamir_replace_psv0(bytes, len, 3, greatest, GREATEST, out, sizeof out), 27, 0);
    REFUSED(qollqamir_replace_psv0(bytes, len, 3, greatest, GREATEST + 1, out, sizeof out), 2, 0);
    /* A container too long, before a part that has a fault. */
    box_longest();
    REFUSED(qollqamir_replace_psv0(greatest, GREATEST + 1, 3, plain, 3, out, sizeof out), 2, 0);
    REFUSED(qollqamir_replace_psv0(greatest, GREATEST, 3, plain, 3, out, sizeof out), 12, 0);
    for (size_t i = 0; i < sizeof out; i++) {
        CHECK(out[i] == 0xee);
    }

    /* Every fault of reader 3 in box S, in the part and in the container, at every edition: the part is judged at edition 3 whatever is
       asked. */
    uint8_t psv0[256], good[256], bad[512];
    size_t psv0_len = box_s(psv0);
    memcpy(good, psv0, psv0_len);
    for (size_t k = 0; k < FAULTS_IN_S; k++) {
        size_t number = faults_in_s[k].number, place = faults_in_s[k].place;
        size_t bad_len = changed(bad, shader(bad, good, psv0_len), faults_in_s[k].at, faults_in_s[k].put);
        memset(expected, 0xee, sizeof expected);
        for (size_t edition = 0; edition <= 3; edition++) {
            /* Opening judges 15 to 23 from edition 1 on, 24 at 3. */
            bool judged = number < 15 || (edition >= 1 && number < 24) || edition == 3;
            size_t room = judged ? sizeof expected : 0;
            qollqamir_replaced replaced = qollqamir_replace_psv0(bad, bad_len, edition, good, psv0_len, expected, room);
            SAME(qollqamir_replaced, replaced, ((qollqamir_replaced){.verdict = {judged ? number : 28, judged ? place : 0}}));
            if (number >= 12) {
                replaced = qollqamir_replace_psv0(bytes, len, edition, bad + 60, psv0_len, expected, sizeof expected);
                SAME(qollqamir_replaced, replaced, ((qollqamir_replaced){.verdict = {number, place}}));
            }
        }
        CHECK(expected[0] == 0xee && expected[999] == 0xee);
    }
}

/* ---- null pointers */

/* Every pointer that comes with a length is null where that is 0. */
static void test_null(void) {
    for (size_t edition = 0; edition <= 4; edition++) {
        for (size_t i = 0; i < QUERIES; i++) {
            struct question q = queries[i];
            q.edition = edition;
            qollqamir_verdict verdict = ask(&q);
            CHECK(verdict.number == (edition == 4 && q.call > OPEN_DEFAULT ? 25 : 1) && verdict.place == 0);
            if (q.call >= OPEN) {
                q.call += PSV0_OPEN - OPEN;
                verdict = ask(&q);
                CHECK(verdict.number == (edition == 4 ? 25 : 12) && verdict.place == 0);
            }
        }
    }

    /* Places of an edition and no records: without bytes 26 comes before 29, and lengths have no need of any. */
    for (uint32_t edition = 0; edition <= 4; edition++) {
        ask_places(NULL, 0, (qollqamir_places){.edition = edition});
        ask_places(NULL, 0, (qollqamir_places){.edition = edition, .resource_count = 2, .element_count = 2});
    }
    static const size_t no_pieces[2];
    for (size_t edition = 0; edition <= 4; edition++) {
        qollqamir_verdict none = ask(&(struct question){.call = REPLACE_PSV0, .edition = edition, .pieces = no_pieces});
        CHECK(none.number == (edition == 4 ? 25 : 1) && none.place == 0);
    }
    uint8_t box[128];
    size_t box_len = shader(box, plain, 32);
    REFUSED(qollqamir_replace_psv0(box, box_len, 3, NULL, 0, NULL, 0), 12, 0);
    REFUSED(qollqamir_replace_psv0(box, box_len, 3, plain, 32, NULL, 0), 28, 0);

    qollqamir_verdict verdict = ask(&(struct question){.call = DXIL_PROGRAM});
    CHECK(verdict.number == 40 && verdict.place == 0);
    for (enum call call = SG1_READ; call <= SG1_NAME; call++) {
        verdict = ask(&(struct question){.call = call});
        CHECK(verdict.number == 43 && verdict.place == 0);
    }
    for (enum call call = RTS0_READ; call <= RTS0_RANGE_ALONE; call++) {
        verdict = ask(&(struct question){.call = call});
        CHECK(verdict.number == 46 && verdict.place == 0);
    }
    for (size_t i = 0; i < SETTINGS_QUERIES; i++) {
        verdict = ask(&settings_queries[i]);
        CHECK(verdict.number == 55 && verdict.place == (settings_queries[i].call == SETTINGS_ROW_ALONE ? settings_queries[i].number : 0));
    }
    ask_rows((struct question){.call = WRITE_SETTINGS});

    uint8_t runtime[52] = {0}, out[64];
    const uint8_t *digest = name("0123456789abcdef");
#define WRITE(edition, runtime, runtime_len, out, out_len) \
    qollqamir_write_psv0(edition, runtime, runtime_len, NULL, 0, NULL, 0, NULL, 0, NULL, 0, NULL, 0, out, out_len)
    static const size_t lengths[4] = {24, 36, 48, 52};
    for (size_t edition = 0; edition <= 3; edition++) {
        REFUSED(WRITE(edition, NULL, 0, NULL, 0), 27, 0);
        /* At edition 3 the entry name needs a string. */
        REFUSED(WRITE(edition, runtime, lengths[edition], NULL, 0), edition == 3 ? 24 : 28, 0);
    }
    REFUSED(WRITE(4, NULL, 0, NULL, 0), 25, 0);
    for (size_t edition = 0; edition <= 2; edition++) {
        qollqamir_written written = WRITE(edition, runtime, lengths[edition], out, sizeof out);
        ACCEPTED(written);
        CHECK(written.len == lengths[edition] + (edition == 0 ? 8 : 16));
        CHECK(qollqamir_psv0_open(out, written.len, 3).edition_read == edition);
    }
#undef WRITE
    REFUSED(qollqamir_assemble(NULL, 0, NULL, 0, NULL, 0, NULL, 0, NULL, 0), 27, 0);
    REFUSED(qollqamir_assemble(NULL, 0, NULL, 0, NULL, 0, digest, 16, NULL, 0), 28, 0);
    qollqamir_written written = qollqamir_assemble(NULL, 0, NULL, 0, NULL, 0, digest, 16, out, sizeof out);
    ACCEPTED(written);
    CHECK(written.len == 32 && read_table(out, 32).verdict.number == 0);
    const uint32_t size = 0;
    REFUSED(qollqamir_assemble(NULL, 0, &size, 1, NULL, 0, digest, 16, out, sizeof out), 27, 0);
    written = qollqamir_assemble(name("DXIL"), 4, &size, 1, NULL, 0, digest, 16, out, sizeof out);
    ACCEPTED(written);
    CHECK(written.len == 44 && qollqamir_table_part(out, 44, name("DXIL")).size == 0);

    REFUSED(qollqamir_write_settings(NULL, 0, NULL, 0), 28, 0);
    written = qollqamir_write_settings(NULL, 0, out, 1);
    ACCEPTED(written);
    CHECK(written.len == 1 && out[0] == 0);
    static const uint32_t row[3] = {1, 1, 1};
    REFUSED(qollqamir_write_settings(row, 3, NULL, 0), 28, 0);
    REFUSED(qollqamir_write_settings(row, 2, NULL, 0), 27, 0);
}

int main(void) {
    test_box_m();
    test_box_c();
    test_last_entries();
    test_writers();
    test_private();
    test_repeated();
    test_many_private();
    test_assembled_private();
    test_greatest_length();
    test_pairs();
    test_pairs_one_match();
    test_pairs_one_bit();
    test_pairs_refused();
    test_strings();
    test_program();
    test_signature();
    test_difference();
    test_root();
    test_settings_numbers();
    test_settings_count();
    test_settings_ranges();
    test_settings_faults();
    test_settings_values();
    test_settings_row_alone();
    test_write_settings();
    test_figures();
    test_figures_stages();
    test_figures_refusals();
    test_figures_most();
    test_figures_full();
    test_figures_join();
    test_figures_join_stays();
    test_places();
    test_places_ends();
    test_places_made_up();
    test_places_great();
    test_replace();
    test_replace_many();
    test_replace_order();
    test_every_byte();
    test_null();
    printf("c boundary: %d checks passed\n", checks);
    return 0;
}
