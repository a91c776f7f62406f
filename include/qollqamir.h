/* Qollqamir: a reader and writer of DirectX shader containers, and of the settings files that say what is taken in; and figures over a list of
   containers.

   Every call takes any bytes and answers. But for figures, its answer begins with a verdict: number 0 where the call accepts, else a refusal
   number of documents 01 and 02 with its place. Beside a refusal every number is 0, no field is set, and a span has start and length 0.
   Every string that is shown is well-formed UTF-8 (table 3-7 of the Unicode Standard); its length doesn't count the zero after it.
   A pointer is followed by its length and may be null where that is 0, "sizes", "rows" and "out" too; a name has no length and points to four
   bytes. Only "out" is written; it must not overlap the others, and nothing else may change the bytes or "out" during a call.
   Calls share nothing and may run on any number of threads at once, on the same bytes too.
   An edition is 0 to 3; an opening at any other gives refusal 25. */
#ifndef QOLLQAMIR_H
#define QOLLQAMIR_H

#include <stdbool.h>
#include <stddef.h>
#include <stdint.h>

#ifdef __cplusplus
extern "C" {
#endif

/* A verdict: the refusal's number, 0 where the call accepts, and its place. */
typedef struct {
    size_t number;
    size_t place;
} qollqamir_verdict;

/* A value: 1 where it is set, 0 where it is not, and its number, 0 where it is not. */
typedef struct {
    uint32_t set;
    uint32_t value;
} qollqamir_field;

/* A part table. Entries from count on are 0. A name is its four bytes as one little-endian number; an offset is that of the part's
   header, whose data start 8 bytes later. PRIV alone may stand more than once: an occurrence is how many earlier parts bear the part's name,
   so 0 for every other name. A gap is how many bytes lie before the part's header, after the part before it or, for the first, after the
   offset table. 32, 4 x count, every gap, every part's 8 + size and the bytes after the last part (with no part, after the offset table)
   sum to the length. pairs is set by qollqamir_table_counted alone, beside a refusal too. */
typedef struct {
    qollqamir_verdict verdict;
    size_t count;
    qollqamir_field pairs;
    uint32_t names[96];
    uint32_t offsets[96];
    uint32_t sizes[96];
    uint32_t occurrences[96];
    uint32_t gaps[96];
} qollqamir_parts;

/* A part: its number, the offset of its header (its data start 8 bytes later) and its data size. */
typedef struct {
    qollqamir_verdict verdict;
    size_t number;
    size_t offset;
    size_t size;
} qollqamir_found;

/* An opening: the number of parts (0 for PSV0 data alone), the file's edition and the edition read. */
typedef struct {
    qollqamir_verdict verdict;
    size_t parts;
    size_t file_edition;
    size_t edition_read;
} qollqamir_opening;

/* What an opening keeps of PSV0, for queries by places: the edition read; of each section the place of its first byte after its counts and sizes, its
   count and its record size; of the masks the place of the first and the 4-byte words of each; and the stage. Places count from the first
   byte that was opened, the container's or the PSV0 data's. The runtime record has the size of its edition, 24, 36, 48 or 52 bytes. A list without
   records has record size 0; at edition read 0 the stage and sections 3 to 6 (strings to masks) have zeros. Plain data that a caller may keep, copy
   and compare. */
typedef struct {
    uint32_t edition;
    uint32_t runtime;
    uint32_t resources;
    uint32_t resource_count;
    uint32_t resource_size;
    uint32_t strings;
    uint32_t string_bytes;
    uint32_t indices;
    uint32_t index_count;
    uint32_t elements;
    uint32_t element_count;
    uint32_t element_size;
    uint32_t masks;
    uint32_t mask_words[11];
    uint32_t stage;
} qollqamir_places;

/* An opening with its places: the number of parts (0 for PSV0 data alone), the file's edition and the edition read. */
typedef struct {
    qollqamir_verdict verdict;
    uint32_t parts;
    uint32_t file_edition;
    uint32_t edition_read;
    qollqamir_places places;
} qollqamir_opened;

/* The fields of the runtime record; the stage union is view 0. */
typedef struct {
    qollqamir_verdict verdict;
    qollqamir_field minimum_wave_lanes;
    qollqamir_field maximum_wave_lanes;
    qollqamir_field stage;
    qollqamir_field uses_view_id;
    qollqamir_field max_vertex_count;
    qollqamir_field patch_vectors;
    qollqamir_field mesh_topology;
    qollqamir_field input_elements;
    qollqamir_field output_elements;
    qollqamir_field patch_elements;
    qollqamir_field input_vectors;
    qollqamir_field output_vectors_0;
    qollqamir_field output_vectors_1;
    qollqamir_field output_vectors_2;
    qollqamir_field output_vectors_3;
    qollqamir_field threads_x;
    qollqamir_field threads_y;
    qollqamir_field threads_z;
    qollqamir_field entry_name_offset;
} qollqamir_info;

/* A resource binding's record. */
typedef struct {
    qollqamir_verdict verdict;
    qollqamir_field binding_type;
    qollqamir_field space;
    qollqamir_field lower_bound;
    qollqamir_field upper_bound;
    qollqamir_field kind;
    qollqamir_field flags;
} qollqamir_resource_record;

/* The record of a signature element in PSV0. */
typedef struct {
    qollqamir_verdict verdict;
    qollqamir_field name_offset;
    qollqamir_field index_reference;
    qollqamir_field rows;
    qollqamir_field start_row;
    qollqamir_field columns;
    qollqamir_field start_column;
    qollqamir_field allocated;
    qollqamir_field semantic_kind;
    qollqamir_field component_type;
    qollqamir_field interpolation;
    qollqamir_field dynamic_mask;
    qollqamir_field stream;
    qollqamir_field reserved;
} qollqamir_element_record;

/* The lists' lengths: R, T in bytes, N and E. */
typedef struct {
    qollqamir_verdict verdict;
    qollqamir_field resources;
    qollqamir_field strings;
    qollqamir_field indices;
    qollqamir_field elements;
} qollqamir_list_lengths;

/* A stretch of the bytes that were handed in. Where it is empty and accepted, its start is left open. is_string is 1 where it is a string (an
   element's, the entry name, a signature name), which is well-formed UTF-8 of so many code points, its zero not counted; else both are 0. */
typedef struct {
    qollqamir_verdict verdict;
    size_t start;
    size_t len;
    size_t is_string;
    size_t points;
} qollqamir_span;

/* What a writer did: the length of its result, 0 beside a refusal. */
typedef struct {
    qollqamir_verdict verdict;
    size_t len;
} qollqamir_written;

/* A container with other PSV0 data: its length, 0 beside a refusal, and the places of its PSV0 sections. */
typedef struct {
    qollqamir_verdict verdict;
    uint32_t len;
    qollqamir_places places;
} qollqamir_replaced;

/* The fields of the program header of a DXIL part and of the bitcode header in it. words is the size in 4-byte units; the bitcode's offset
   counts from the bitcode header's start, byte 8 of the data. Both are shown as they stand. */
typedef struct {
    uint32_t version_major;
    uint32_t version_minor;
    uint32_t stage;
    uint32_t words;
    uint32_t bitcode_major;
    uint32_t bitcode_minor;
    uint32_t bitcode_offset;
    uint32_t bitcode_size;
} qollqamir_program_header;

/* The data of a DXIL part: the header's fields, and the bitcode as a stretch of the data. */
typedef struct {
    qollqamir_verdict verdict;
    qollqamir_program_header header;
    size_t start;
    size_t len;
} qollqamir_program_data;

/* The report on a container's DXIL part: the header's fields, the bitcode as a stretch of the container, the stage that PSV0 shows, and
   how the header's stage compares with it (a number of the enum below). */
typedef struct {
    qollqamir_verdict verdict;
    qollqamir_program_header header;
    size_t start;
    size_t len;
    qollqamir_field psv0_stage;
    size_t stages;
} qollqamir_program_report;

/* The data of a part ISG1, OSG1 or PSG1: the number of elements. */
typedef struct {
    qollqamir_verdict verdict;
    size_t count;
} qollqamir_signature_data;

/* The report on a container's signature part: the number of elements, and the part's data as a stretch of the container. */
typedef struct {
    qollqamir_verdict verdict;
    size_t count;
    size_t start;
    size_t len;
} qollqamir_signature_report;

/* An element of a signature part, as it stands; a name offset counts from the start of the part's data. named is 1 where the element has a
   name, 0 where it has none (name offset 0); the name is a stretch of the bytes that were handed in, well-formed UTF-8 of name_points
   code points. A name may be empty: 1, with length 0. */
typedef struct {
    qollqamir_verdict verdict;
    uint32_t stream;
    uint32_t name_offset;
    uint32_t index;
    uint32_t system_value;
    uint32_t component_type;
    uint32_t register_number;
    uint32_t mask;
    uint32_t exclusive_mask;
    uint32_t precision;
    uint32_t named;
    size_t name_start;
    size_t name_len;
    size_t name_points;
} qollqamir_signature_record;

/* The first element that differs: 1 and its number, 0 and 0 where there is none. */
typedef struct {
    qollqamir_verdict verdict;
    size_t found;
    size_t number;
} qollqamir_difference;

/* The header of a root signature (part RTS0): the version, 1 for 1.0 or 2 for 1.1, the numbers of parameters and of static samplers, and the
   flags. Its items are the parameters and then the samplers, in one numbering. */
typedef struct {
    qollqamir_verdict verdict;
    uint32_t version;
    uint32_t parameters;
    uint32_t samplers;
    uint32_t flags;
} qollqamir_root_data;

/* The report on a container's root signature: the same, and the part's data as a stretch of the container. */
typedef struct {
    qollqamir_verdict verdict;
    uint32_t version;
    uint32_t parameters;
    uint32_t samplers;
    uint32_t flags;
    size_t start;
    size_t len;
} qollqamir_root_report;

/* A float of the file, whatever its bits: both members have the file's four bytes. (C++ leaves reading the other member of a union open: there,
   copy the bits with memcpy.) */
typedef union {
    uint32_t bits;
    float value;
} qollqamir_single;

/* An item of a root signature. parameter_type tells which: 0 a table (QOLLQAMIR_TABLE), 1 constants, 2 to 4 a descriptor; it is unset for a
   static sampler. What the item's kind lacks is 0 and unset.
   all:          visibility
   table:        ranges, ranges_offset (from the start of the part's data)
   constants:    register_number, space, count
   descriptor:   register_number, space, flags (unset in 1.0)
   sampler:      register_number, space, and all from filter on */
typedef struct {
    qollqamir_verdict verdict;
    qollqamir_field parameter_type;
    uint32_t visibility;
    uint32_t register_number;
    uint32_t space;
    uint32_t count;
    uint32_t ranges;
    uint32_t ranges_offset;
    qollqamir_field flags;
    uint32_t filter;
    uint32_t address_u;
    uint32_t address_v;
    uint32_t address_w;
    qollqamir_single lod_bias;
    uint32_t anisotropy;
    uint32_t comparison;
    uint32_t border;
    qollqamir_single least_lod;
    qollqamir_single greatest_lod;
} qollqamir_root_record;

/* A range of a table. The flags are unset in 1.0; the offset counts descriptors from the table's start, 4294967295 where the range follows the
   one before it. */
typedef struct {
    qollqamir_verdict verdict;
    uint32_t range_type;
    uint32_t descriptors;
    uint32_t base_register;
    uint32_t space;
    qollqamir_field flags;
    size_t offset;
} qollqamir_range_record;

/* A settings file: its number of rows, and the byte where the first begins. */
typedef struct {
    qollqamir_verdict verdict;
    size_t rows;
    size_t first;
} qollqamir_settings;

/* A row of a settings file. Its value, as every number of a settings file, is below 4294967296. */
typedef struct {
    qollqamir_verdict verdict;
    uint32_t version;
    uint32_t key;
    size_t value;
} qollqamir_setting_row;

/* A row by itself, and the byte where it ends, at which the next begins. */
typedef struct {
    qollqamir_verdict verdict;
    uint32_t version;
    uint32_t key;
    size_t value;
    size_t end;
} qollqamir_setting_row_alone;

/* The value of a key at a version. */
typedef struct {
    qollqamir_verdict verdict;
    qollqamir_field setting;
} qollqamir_setting;

/* Figures over a list of containers: the edition that they were started at, the sum of the accepted lengths, how many were opened, accepted
   and refused, and the counts by refusal number, by the file's edition and by stage; unset counts the accepted ones of which the reading at
   the figures' edition shows no stage. An opening gives 1 to 25, so the refusals 0, 26 and 27 stay 0: they are there for the struct to have no
   padding. Plain data that a caller may keep, copy and compare. */
typedef struct {
    size_t edition;
    uint64_t bytes;
    uint16_t opened;
    uint16_t accepted;
    uint16_t refused;
    uint16_t refusals[28];
    uint16_t editions[4];
    uint16_t stages[16];
    uint16_t unset;
} qollqamir_figures;

/* Figures with one container more. The answer is QOLLQAMIR_COUNTED, with the verdict of its opening, or QOLLQAMIR_FULL, with the figures as
   they were and a verdict of zeros, which then says nothing: look at the answer first. */
typedef struct {
    size_t answer;
    qollqamir_verdict verdict;
    qollqamir_figures figures;
} qollqamir_figures_added;

/* Two figures in one. The answer is QOLLQAMIR_JOINED; or, with the first figures as they were, QOLLQAMIR_FULL or QOLLQAMIR_OTHER_EDITION. */
typedef struct {
    size_t answer;
    qollqamir_figures figures;
} qollqamir_figures_joined;

/* Every byte of an answer is a byte of a field, so an answer can be written out, compared or hashed as it stands. A struct that is added
   gets its line here too. */
#ifdef __cplusplus
#define QOLLQAMIR_NO_PADDING(type, members) static_assert(sizeof(type) == (members), #type " has padding")
#else
#define QOLLQAMIR_NO_PADDING(type, members) _Static_assert(sizeof(type) == (members), #type " has padding")
#endif
#define QOLLQAMIR_SIZE(type, member) sizeof(((type *)0)->member)
QOLLQAMIR_NO_PADDING(qollqamir_verdict, QOLLQAMIR_SIZE(qollqamir_verdict, number) + QOLLQAMIR_SIZE(qollqamir_verdict, place));
QOLLQAMIR_NO_PADDING(qollqamir_field, QOLLQAMIR_SIZE(qollqamir_field, set) + QOLLQAMIR_SIZE(qollqamir_field, value));
QOLLQAMIR_NO_PADDING(qollqamir_parts,
                     QOLLQAMIR_SIZE(qollqamir_parts, verdict) + QOLLQAMIR_SIZE(qollqamir_parts, count) +
                     QOLLQAMIR_SIZE(qollqamir_parts, pairs) + QOLLQAMIR_SIZE(qollqamir_parts, names) + QOLLQAMIR_SIZE(qollqamir_parts, offsets) +
                     QOLLQAMIR_SIZE(qollqamir_parts, sizes) + QOLLQAMIR_SIZE(qollqamir_parts, occurrences) +
                     QOLLQAMIR_SIZE(qollqamir_parts, gaps));
QOLLQAMIR_NO_PADDING(qollqamir_found,
                     QOLLQAMIR_SIZE(qollqamir_found, verdict) + QOLLQAMIR_SIZE(qollqamir_found, number) +
                     QOLLQAMIR_SIZE(qollqamir_found, offset) + QOLLQAMIR_SIZE(qollqamir_found, size));
QOLLQAMIR_NO_PADDING(qollqamir_opening,
                     QOLLQAMIR_SIZE(qollqamir_opening, verdict) + QOLLQAMIR_SIZE(qollqamir_opening, parts) +
                     QOLLQAMIR_SIZE(qollqamir_opening, file_edition) + QOLLQAMIR_SIZE(qollqamir_opening, edition_read));
QOLLQAMIR_NO_PADDING(qollqamir_places,
                     QOLLQAMIR_SIZE(qollqamir_places, edition) + QOLLQAMIR_SIZE(qollqamir_places, runtime) +
                     QOLLQAMIR_SIZE(qollqamir_places, stage) + QOLLQAMIR_SIZE(qollqamir_places, resources) +
                     QOLLQAMIR_SIZE(qollqamir_places, resource_count) + QOLLQAMIR_SIZE(qollqamir_places, resource_size) +
                     QOLLQAMIR_SIZE(qollqamir_places, strings) + QOLLQAMIR_SIZE(qollqamir_places, string_bytes) +
                     QOLLQAMIR_SIZE(qollqamir_places, indices) + QOLLQAMIR_SIZE(qollqamir_places, index_count) +
                     QOLLQAMIR_SIZE(qollqamir_places, elements) + QOLLQAMIR_SIZE(qollqamir_places, element_count) +
                     QOLLQAMIR_SIZE(qollqamir_places, element_size) + QOLLQAMIR_SIZE(qollqamir_places, masks) +
                     QOLLQAMIR_SIZE(qollqamir_places, mask_words));
QOLLQAMIR_NO_PADDING(qollqamir_opened,
                     QOLLQAMIR_SIZE(qollqamir_opened, verdict) + QOLLQAMIR_SIZE(qollqamir_opened, parts) +
                     QOLLQAMIR_SIZE(qollqamir_opened, file_edition) + QOLLQAMIR_SIZE(qollqamir_opened, edition_read) +
                     QOLLQAMIR_SIZE(qollqamir_opened, places));
QOLLQAMIR_NO_PADDING(qollqamir_replaced,
                     QOLLQAMIR_SIZE(qollqamir_replaced, verdict) + QOLLQAMIR_SIZE(qollqamir_replaced, len) +
                     QOLLQAMIR_SIZE(qollqamir_replaced, places));
QOLLQAMIR_NO_PADDING(qollqamir_info,
                     QOLLQAMIR_SIZE(qollqamir_info, verdict) + QOLLQAMIR_SIZE(qollqamir_info, minimum_wave_lanes) +
                     QOLLQAMIR_SIZE(qollqamir_info, maximum_wave_lanes) + QOLLQAMIR_SIZE(qollqamir_info, stage) +
                     QOLLQAMIR_SIZE(qollqamir_info, uses_view_id) + QOLLQAMIR_SIZE(qollqamir_info, max_vertex_count) +
                     QOLLQAMIR_SIZE(qollqamir_info, patch_vectors) + QOLLQAMIR_SIZE(qollqamir_info, mesh_topology) +
                     QOLLQAMIR_SIZE(qollqamir_info, input_elements) + QOLLQAMIR_SIZE(qollqamir_info, output_elements) +
                     QOLLQAMIR_SIZE(qollqamir_info, patch_elements) + QOLLQAMIR_SIZE(qollqamir_info, input_vectors) +
                     QOLLQAMIR_SIZE(qollqamir_info, output_vectors_0) + QOLLQAMIR_SIZE(qollqamir_info, output_vectors_1) +
                     QOLLQAMIR_SIZE(qollqamir_info, output_vectors_2) + QOLLQAMIR_SIZE(qollqamir_info, output_vectors_3) +
                     QOLLQAMIR_SIZE(qollqamir_info, threads_x) + QOLLQAMIR_SIZE(qollqamir_info, threads_y) +
                     QOLLQAMIR_SIZE(qollqamir_info, threads_z) + QOLLQAMIR_SIZE(qollqamir_info, entry_name_offset));
QOLLQAMIR_NO_PADDING(qollqamir_resource_record,
                     QOLLQAMIR_SIZE(qollqamir_resource_record, verdict) + QOLLQAMIR_SIZE(qollqamir_resource_record, binding_type) +
                     QOLLQAMIR_SIZE(qollqamir_resource_record, space) + QOLLQAMIR_SIZE(qollqamir_resource_record, lower_bound) +
                     QOLLQAMIR_SIZE(qollqamir_resource_record, upper_bound) + QOLLQAMIR_SIZE(qollqamir_resource_record, kind) +
                     QOLLQAMIR_SIZE(qollqamir_resource_record, flags));
QOLLQAMIR_NO_PADDING(qollqamir_element_record,
                     QOLLQAMIR_SIZE(qollqamir_element_record, verdict) + QOLLQAMIR_SIZE(qollqamir_element_record, name_offset) +
                     QOLLQAMIR_SIZE(qollqamir_element_record, index_reference) + QOLLQAMIR_SIZE(qollqamir_element_record, rows) +
                     QOLLQAMIR_SIZE(qollqamir_element_record, start_row) + QOLLQAMIR_SIZE(qollqamir_element_record, columns) +
                     QOLLQAMIR_SIZE(qollqamir_element_record, start_column) + QOLLQAMIR_SIZE(qollqamir_element_record, allocated) +
                     QOLLQAMIR_SIZE(qollqamir_element_record, semantic_kind) + QOLLQAMIR_SIZE(qollqamir_element_record, component_type) +
                     QOLLQAMIR_SIZE(qollqamir_element_record, interpolation) + QOLLQAMIR_SIZE(qollqamir_element_record, dynamic_mask) +
                     QOLLQAMIR_SIZE(qollqamir_element_record, stream) + QOLLQAMIR_SIZE(qollqamir_element_record, reserved));
QOLLQAMIR_NO_PADDING(qollqamir_list_lengths,
                     QOLLQAMIR_SIZE(qollqamir_list_lengths, verdict) + QOLLQAMIR_SIZE(qollqamir_list_lengths, resources) +
                     QOLLQAMIR_SIZE(qollqamir_list_lengths, strings) + QOLLQAMIR_SIZE(qollqamir_list_lengths, indices) +
                     QOLLQAMIR_SIZE(qollqamir_list_lengths, elements));
QOLLQAMIR_NO_PADDING(qollqamir_span,
                     QOLLQAMIR_SIZE(qollqamir_span, verdict) + QOLLQAMIR_SIZE(qollqamir_span, start) + QOLLQAMIR_SIZE(qollqamir_span, len) +
                     QOLLQAMIR_SIZE(qollqamir_span, is_string) + QOLLQAMIR_SIZE(qollqamir_span, points));
QOLLQAMIR_NO_PADDING(qollqamir_written, QOLLQAMIR_SIZE(qollqamir_written, verdict) + QOLLQAMIR_SIZE(qollqamir_written, len));
QOLLQAMIR_NO_PADDING(qollqamir_settings,
                     QOLLQAMIR_SIZE(qollqamir_settings, verdict) + QOLLQAMIR_SIZE(qollqamir_settings, rows) +
                     QOLLQAMIR_SIZE(qollqamir_settings, first));
QOLLQAMIR_NO_PADDING(qollqamir_setting_row,
                     QOLLQAMIR_SIZE(qollqamir_setting_row, verdict) + QOLLQAMIR_SIZE(qollqamir_setting_row, version) +
                     QOLLQAMIR_SIZE(qollqamir_setting_row, key) + QOLLQAMIR_SIZE(qollqamir_setting_row, value));
QOLLQAMIR_NO_PADDING(qollqamir_setting_row_alone,
                     QOLLQAMIR_SIZE(qollqamir_setting_row_alone, verdict) + QOLLQAMIR_SIZE(qollqamir_setting_row_alone, version) +
                     QOLLQAMIR_SIZE(qollqamir_setting_row_alone, key) + QOLLQAMIR_SIZE(qollqamir_setting_row_alone, value) +
                     QOLLQAMIR_SIZE(qollqamir_setting_row_alone, end));
QOLLQAMIR_NO_PADDING(qollqamir_setting, QOLLQAMIR_SIZE(qollqamir_setting, verdict) + QOLLQAMIR_SIZE(qollqamir_setting, setting));
QOLLQAMIR_NO_PADDING(qollqamir_figures,
                     QOLLQAMIR_SIZE(qollqamir_figures, edition) + QOLLQAMIR_SIZE(qollqamir_figures, bytes) +
                     QOLLQAMIR_SIZE(qollqamir_figures, opened) + QOLLQAMIR_SIZE(qollqamir_figures, accepted) +
                     QOLLQAMIR_SIZE(qollqamir_figures, refused) + QOLLQAMIR_SIZE(qollqamir_figures, refusals) +
                     QOLLQAMIR_SIZE(qollqamir_figures, editions) + QOLLQAMIR_SIZE(qollqamir_figures, stages) +
                     QOLLQAMIR_SIZE(qollqamir_figures, unset));
QOLLQAMIR_NO_PADDING(qollqamir_figures_added,
                     QOLLQAMIR_SIZE(qollqamir_figures_added, answer) + QOLLQAMIR_SIZE(qollqamir_figures_added, verdict) +
                     QOLLQAMIR_SIZE(qollqamir_figures_added, figures));
QOLLQAMIR_NO_PADDING(qollqamir_figures_joined,
                     QOLLQAMIR_SIZE(qollqamir_figures_joined, answer) + QOLLQAMIR_SIZE(qollqamir_figures_joined, figures));
QOLLQAMIR_NO_PADDING(qollqamir_program_header,
                     QOLLQAMIR_SIZE(qollqamir_program_header, version_major) + QOLLQAMIR_SIZE(qollqamir_program_header, version_minor) +
                     QOLLQAMIR_SIZE(qollqamir_program_header, stage) + QOLLQAMIR_SIZE(qollqamir_program_header, words) +
                     QOLLQAMIR_SIZE(qollqamir_program_header, bitcode_major) + QOLLQAMIR_SIZE(qollqamir_program_header, bitcode_minor) +
                     QOLLQAMIR_SIZE(qollqamir_program_header, bitcode_offset) + QOLLQAMIR_SIZE(qollqamir_program_header, bitcode_size));
QOLLQAMIR_NO_PADDING(qollqamir_program_data,
                     QOLLQAMIR_SIZE(qollqamir_program_data, verdict) + QOLLQAMIR_SIZE(qollqamir_program_data, header) +
                     QOLLQAMIR_SIZE(qollqamir_program_data, start) + QOLLQAMIR_SIZE(qollqamir_program_data, len));
QOLLQAMIR_NO_PADDING(qollqamir_program_report,
                     QOLLQAMIR_SIZE(qollqamir_program_report, verdict) + QOLLQAMIR_SIZE(qollqamir_program_report, header) +
                     QOLLQAMIR_SIZE(qollqamir_program_report, start) + QOLLQAMIR_SIZE(qollqamir_program_report, len) +
                     QOLLQAMIR_SIZE(qollqamir_program_report, psv0_stage) + QOLLQAMIR_SIZE(qollqamir_program_report, stages));
QOLLQAMIR_NO_PADDING(qollqamir_signature_data,
                     QOLLQAMIR_SIZE(qollqamir_signature_data, verdict) + QOLLQAMIR_SIZE(qollqamir_signature_data, count));
QOLLQAMIR_NO_PADDING(qollqamir_signature_report,
                     QOLLQAMIR_SIZE(qollqamir_signature_report, verdict) + QOLLQAMIR_SIZE(qollqamir_signature_report, count) +
                     QOLLQAMIR_SIZE(qollqamir_signature_report, start) + QOLLQAMIR_SIZE(qollqamir_signature_report, len));
QOLLQAMIR_NO_PADDING(qollqamir_signature_record,
                     QOLLQAMIR_SIZE(qollqamir_signature_record, verdict) + QOLLQAMIR_SIZE(qollqamir_signature_record, stream) +
                     QOLLQAMIR_SIZE(qollqamir_signature_record, name_offset) + QOLLQAMIR_SIZE(qollqamir_signature_record, index) +
                     QOLLQAMIR_SIZE(qollqamir_signature_record, system_value) + QOLLQAMIR_SIZE(qollqamir_signature_record, component_type) +
                     QOLLQAMIR_SIZE(qollqamir_signature_record, register_number) + QOLLQAMIR_SIZE(qollqamir_signature_record, mask) +
                     QOLLQAMIR_SIZE(qollqamir_signature_record, exclusive_mask) + QOLLQAMIR_SIZE(qollqamir_signature_record, precision) +
                     QOLLQAMIR_SIZE(qollqamir_signature_record, named) + QOLLQAMIR_SIZE(qollqamir_signature_record, name_start) +
                     QOLLQAMIR_SIZE(qollqamir_signature_record, name_len) + QOLLQAMIR_SIZE(qollqamir_signature_record, name_points));
QOLLQAMIR_NO_PADDING(qollqamir_difference,
                     QOLLQAMIR_SIZE(qollqamir_difference, verdict) + QOLLQAMIR_SIZE(qollqamir_difference, found) +
                     QOLLQAMIR_SIZE(qollqamir_difference, number));
QOLLQAMIR_NO_PADDING(qollqamir_root_data,
                     QOLLQAMIR_SIZE(qollqamir_root_data, verdict) + QOLLQAMIR_SIZE(qollqamir_root_data, version) +
                     QOLLQAMIR_SIZE(qollqamir_root_data, parameters) + QOLLQAMIR_SIZE(qollqamir_root_data, samplers) +
                     QOLLQAMIR_SIZE(qollqamir_root_data, flags));
QOLLQAMIR_NO_PADDING(qollqamir_root_report,
                     QOLLQAMIR_SIZE(qollqamir_root_report, verdict) + QOLLQAMIR_SIZE(qollqamir_root_report, version) +
                     QOLLQAMIR_SIZE(qollqamir_root_report, parameters) + QOLLQAMIR_SIZE(qollqamir_root_report, samplers) +
                     QOLLQAMIR_SIZE(qollqamir_root_report, flags) + QOLLQAMIR_SIZE(qollqamir_root_report, start) +
                     QOLLQAMIR_SIZE(qollqamir_root_report, len));
QOLLQAMIR_NO_PADDING(qollqamir_root_record,
                     QOLLQAMIR_SIZE(qollqamir_root_record, verdict) + QOLLQAMIR_SIZE(qollqamir_root_record, parameter_type) +
                     QOLLQAMIR_SIZE(qollqamir_root_record, visibility) + QOLLQAMIR_SIZE(qollqamir_root_record, register_number) +
                     QOLLQAMIR_SIZE(qollqamir_root_record, space) + QOLLQAMIR_SIZE(qollqamir_root_record, count) +
                     QOLLQAMIR_SIZE(qollqamir_root_record, ranges) + QOLLQAMIR_SIZE(qollqamir_root_record, ranges_offset) +
                     QOLLQAMIR_SIZE(qollqamir_root_record, flags) + QOLLQAMIR_SIZE(qollqamir_root_record, filter) +
                     QOLLQAMIR_SIZE(qollqamir_root_record, address_u) + QOLLQAMIR_SIZE(qollqamir_root_record, address_v) +
                     QOLLQAMIR_SIZE(qollqamir_root_record, address_w) + QOLLQAMIR_SIZE(qollqamir_root_record, lod_bias) +
                     QOLLQAMIR_SIZE(qollqamir_root_record, anisotropy) + QOLLQAMIR_SIZE(qollqamir_root_record, comparison) +
                     QOLLQAMIR_SIZE(qollqamir_root_record, border) + QOLLQAMIR_SIZE(qollqamir_root_record, least_lod) +
                     QOLLQAMIR_SIZE(qollqamir_root_record, greatest_lod));
QOLLQAMIR_NO_PADDING(qollqamir_range_record,
                     QOLLQAMIR_SIZE(qollqamir_range_record, verdict) + QOLLQAMIR_SIZE(qollqamir_range_record, range_type) +
                     QOLLQAMIR_SIZE(qollqamir_range_record, descriptors) + QOLLQAMIR_SIZE(qollqamir_range_record, base_register) +
                     QOLLQAMIR_SIZE(qollqamir_range_record, space) + QOLLQAMIR_SIZE(qollqamir_range_record, flags) +
                     QOLLQAMIR_SIZE(qollqamir_range_record, offset));
#undef QOLLQAMIR_SIZE
#undef QOLLQAMIR_NO_PADDING

/* Kinds of view; number is the element's or the mask's (0 to 10) and is not looked at for the others. Any other kind gives 26.
   An element's array has as many numbers, 4 bytes each, as the element has rows. */
enum {
    QOLLQAMIR_STAGE_UNION = 0,
    QOLLQAMIR_ELEMENT_STRING = 1,
    QOLLQAMIR_ELEMENT_ARRAY = 2,
    QOLLQAMIR_ENTRY_NAME = 3,
    QOLLQAMIR_MASK = 4
};

/* Sections whose bytes are handed out for writing again. Any other number gives 26. */
enum {
    QOLLQAMIR_RUNTIME_RECORD = 0,
    QOLLQAMIR_RESOURCE_RECORDS = 1,
    QOLLQAMIR_STRING_TABLE = 2,
    QOLLQAMIR_INDEX_TABLE = 3,
    QOLLQAMIR_ELEMENT_RECORDS = 4,
    QOLLQAMIR_MASKS = 5
};

/* How the program header's stage compares with PSV0's: unset exactly where PSV0's is, and beside a refusal. */
enum {
    QOLLQAMIR_STAGES_UNSET = 0,
    QOLLQAMIR_STAGES_EQUAL = 1,
    QOLLQAMIR_STAGES_DIFFERENT = 2
};

/* Signature parts, and the lists of PSV0 that they are held against: input, output, patch constant or primitive. Any other number gives
   26. */
enum {
    QOLLQAMIR_ISG1 = 0,
    QOLLQAMIR_OSG1 = 1,
    QOLLQAMIR_PSG1 = 2
};

/* Parameter types of a root signature; 2, 3 and 4 are descriptors of a constant buffer, a resource to read and one to write. */
enum {
    QOLLQAMIR_TABLE = 0,
    QOLLQAMIR_CONSTANTS = 1,
    QOLLQAMIR_CBV = 2,
    QOLLQAMIR_SRV = 3,
    QOLLQAMIR_UAV = 4
};

/* What adding to figures and joining them answer. */
enum {
    QOLLQAMIR_COUNTED = 0,
    QOLLQAMIR_JOINED = 0,
    QOLLQAMIR_FULL = 1,
    QOLLQAMIR_OTHER_EDITION = 2
};

/* The most containers that figures count. */
enum { QOLLQAMIR_MOST_OPENED = 65535 };

/* The part table alone: 1 to 9. */
qollqamir_parts qollqamir_table(const uint8_t *bytes, size_t len);

/* The same, and how many pairs of names it compared for 9: for each part in turn, the earlier ones in order, up to and with the first match; a PRIV
   compared with a PRIV counts and isn't a match. No pair is compared that isn't counted. 0 beside 1 to 8; at most n(n - 1)/2 for n parts, so
   4560 at most, and exactly that where the table is accepted; beside 9 at part k, k(k - 1)/2 + j + 1, with j the first earlier part of its name.
   The other calls that judge 9 report no pairs. qollqamir_table, the lookups from the table, qollqamir_open and all that opens compare each
   part's name with all earlier ones, several at once, and end with the first part that has a match: beside 9 at part k, k(k + 1)/2 pairs. With
   many parts that is faster. qollqamir_assemble compares each name with the earlier ones up to its first match, PRIV or not. */
qollqamir_parts qollqamir_table_counted(const uint8_t *bytes, size_t len);

/* The first part with a name, from the part table alone: 1 to 9, then 26. name points to four bytes. */
qollqamir_found qollqamir_table_part(const uint8_t *bytes, size_t len, const uint8_t *name);

/* The part with a name and an occurrence: of several PRIV parts the first has 0, the next 1, and so on. A number that is too great gives 26,
   any but 0 for every other name. */
qollqamir_found qollqamir_table_part_occurrence(const uint8_t *bytes, size_t len, const uint8_t *name, size_t occurrence);

/* Whether a name, four bytes, is one of the 24 that are known. */
bool qollqamir_known(const uint8_t *name);

/* Opens a container at an edition: 25, 1 to 9, 10, 11, 12 to 24. */
qollqamir_opening qollqamir_open(const uint8_t *bytes, size_t len, size_t edition);

/* The edition that is read where none is named: the newest. */
enum { QOLLQAMIR_DEFAULT_EDITION = 3 };

/* Opens a container where no edition is named: as qollqamir_open at QOLLQAMIR_DEFAULT_EDITION, which the queries on its bytes then take.
   Edition 3 alone gives 24: the file is of edition 3 and the reference of its entry name isn't good. To read such a file without its entry
   name, name an older edition, qollqamir_open(bytes, len, 2), in the queries too; every older one accepts it. */
qollqamir_opening qollqamir_open_default(const uint8_t *bytes, size_t len);

/* Queries on a container's bytes at an edition. Each gives what qollqamir_open gives, then 26 where what is asked for isn't there or is
   unset. Spans are stretches of the container. qollqamir_part gives the first part with the name; an occurrence is as in
   qollqamir_table_part_occurrence. */
qollqamir_found qollqamir_part(const uint8_t *bytes, size_t len, size_t edition, const uint8_t *name);
qollqamir_found qollqamir_part_occurrence(const uint8_t *bytes, size_t len, size_t edition, const uint8_t *name, size_t occurrence);
qollqamir_info qollqamir_runtime_info(const uint8_t *bytes, size_t len, size_t edition);
qollqamir_resource_record qollqamir_resource(const uint8_t *bytes, size_t len, size_t edition, size_t i);
qollqamir_element_record qollqamir_element(const uint8_t *bytes, size_t len, size_t edition, size_t i);
qollqamir_list_lengths qollqamir_lengths(const uint8_t *bytes, size_t len, size_t edition);
qollqamir_span qollqamir_view(const uint8_t *bytes, size_t len, size_t edition, uint32_t kind, size_t number);

/* The bytes of a section for writing again; empty, and accepted, for a section that is unset. */
qollqamir_span qollqamir_section(const uint8_t *bytes, size_t len, size_t edition, uint32_t section);

/* The same on PSV0 data alone: 25, 2, 12 to 24, then 26. Spans are stretches of the PSV0 data. */
qollqamir_opening qollqamir_psv0_open(const uint8_t *data, size_t len, size_t edition);
qollqamir_info qollqamir_psv0_runtime_info(const uint8_t *data, size_t len, size_t edition);
qollqamir_resource_record qollqamir_psv0_resource(const uint8_t *data, size_t len, size_t edition, size_t i);
qollqamir_element_record qollqamir_psv0_element(const uint8_t *data, size_t len, size_t edition, size_t i);
qollqamir_list_lengths qollqamir_psv0_lengths(const uint8_t *data, size_t len, size_t edition);
qollqamir_span qollqamir_psv0_view(const uint8_t *data, size_t len, size_t edition, uint32_t kind, size_t number);
qollqamir_span qollqamir_psv0_section(const uint8_t *data, size_t len, size_t edition, uint32_t section);

/* The same openings, with the places of the PSV0 sections. Many queries then cost one opening: each of the calls below takes the bytes and the
   places, and opens nothing. For the bytes that the places were made from it gives what the query on the bytes gives.
   Any other bytes and made-up places get an answer too, and no number of them wraps: 26 and lengths go by the places alone (an edition above 3 counts
   as 3, and the recorded stage decides which fields of the runtime record are set); then 29 where what the query needs doesn't lie inside the
   bytes or a reference on its way isn't good. It needs: the runtime info and the stage union, the runtime record of the recorded edition; a resource,
   its 24 bytes where edition and record size are at least 2 and 24, else 16; an element, its 16; a string, its element's 16 and the whole
   recorded string table; an index array, its element's 16 and the whole recorded index table; the entry name, the runtime record and the whole string
   table; a mask, its own words; a section, its bytes; the lengths nothing: their bytes aren't looked at. What is empty must not start past the end
   either. */
qollqamir_opened qollqamir_open_places(const uint8_t *bytes, size_t len, size_t edition);
qollqamir_opened qollqamir_psv0_open_places(const uint8_t *data, size_t len, size_t edition);
qollqamir_info qollqamir_places_runtime_info(const uint8_t *bytes, size_t len, qollqamir_places places);
qollqamir_resource_record qollqamir_places_resource(const uint8_t *bytes, size_t len, qollqamir_places places, size_t i);
qollqamir_element_record qollqamir_places_element(const uint8_t *bytes, size_t len, qollqamir_places places, size_t i);
qollqamir_list_lengths qollqamir_places_lengths(const uint8_t *bytes, size_t len, qollqamir_places places);
qollqamir_span qollqamir_places_view(const uint8_t *bytes, size_t len, qollqamir_places places, uint32_t kind, size_t number);
qollqamir_span qollqamir_places_section(const uint8_t *bytes, size_t len, qollqamir_places places, uint32_t section);

/* The program header and the bitcode, of the data of a DXIL part alone: 40 (under 24 bytes), 41 (wrong mark), 42 (the bitcode ends past the
   data). */
qollqamir_program_data qollqamir_dxil_program(const uint8_t *data, size_t len);

/* The report on a container's DXIL part at an edition: what qollqamir_open gives, then 40 to 42. */
qollqamir_program_report qollqamir_program(const uint8_t *bytes, size_t len, size_t edition);

/* The data of a part ISG1, OSG1 or PSG1 alone: 43 (under 8 bytes), 44 (offset + 32 x count is above their length), then element
   by element, its number as place, 45 (its name has no zero byte at its end inside them) and 52 (the bytes before that zero aren't well-formed
   UTF-8). Names are stretches of the data. */
qollqamir_signature_data qollqamir_sg1_read(const uint8_t *data, size_t len);

/* Element i of such data: 43 to 45 and 52, then 26. */
qollqamir_signature_record qollqamir_sg1_element(const uint8_t *data, size_t len, size_t i);

/* Element i by itself, whatever the others are: 43, 26, 44 of its own 32 bytes, 45 and 52 of its own name. Where the data are accepted it
   is what qollqamir_sg1_element gives, so data that were judged once can be listed without judging them anew for each element. A call reads the
   name to its zero; names may share bytes, so to list hostile data can take as long as count times their length. */
qollqamir_signature_record qollqamir_sg1_element_alone(const uint8_t *data, size_t len, size_t i);

/* The name of element i: 43 to 45 and 52, then 26 where there is no such element or it has no name. */
qollqamir_span qollqamir_sg1_name(const uint8_t *data, size_t len, size_t i);

/* The report on a container's signature part at an edition: what qollqamir_open gives, 26 where the part is absent, then 43 to 45 and 52.
   Its elements can be listed by qollqamir_sg1_element_alone on the stretch that it gives. */
qollqamir_signature_report qollqamir_signature(const uint8_t *bytes, size_t len, size_t edition, uint32_t part);

/* Element i of the part, and its name alone; names are stretches of the container: those of qollqamir_signature, then 26 as above. */
qollqamir_signature_record qollqamir_signature_element(const uint8_t *bytes, size_t len, size_t edition, uint32_t part, size_t i);
qollqamir_span qollqamir_signature_name(const uint8_t *bytes, size_t len, size_t edition, uint32_t part, size_t i);

/* The first named element of the part whose name is not that of the PSV0 element of the same list and number, or that has no element beside
   it (the list is shorter, or the edition read is 0): those of qollqamir_signature. Compilers leave the PSV0 name of a system value empty,
   so most real shaders report element 0. */
qollqamir_difference qollqamir_signature_difference(const uint8_t *bytes, size_t len, size_t edition, uint32_t part);

/* The data of a part RTS0 alone: 46 (under 24 bytes), 47 (a version other than 1 and 2), then the first bad item, its number as place: 48 (its
   own bytes, 12 of a parameter and 52 of a sampler, are not inside the data), 49 (a type above 4), 50 (the parameter's data are not inside),
   51 (a table's ranges end past the data's end). Takes time in proportion to the data at most, whatever the counts. */
qollqamir_root_data qollqamir_rts0_read(const uint8_t *data, size_t len);

/* Item i of such data, parameters before samplers, and range j of it: 46 to 51, then 26 where there is no such item, the item is no table or has
   no such range. */
qollqamir_root_record qollqamir_rts0_item(const uint8_t *data, size_t len, size_t i);
qollqamir_range_record qollqamir_rts0_range(const uint8_t *data, size_t len, size_t i, size_t j);

/* The same of item i by itself, whatever the others are: 46, 47, 26, then 48 to 51 of its own; of a range then 26 as above. Where the data are
   accepted it is what the calls above give, so data that were judged once can be listed without judging them anew: each call takes the same
   short time. (Tables may share ranges, so hostile data can have as many ranges to list as their tables times their length.) */
qollqamir_root_record qollqamir_rts0_item_alone(const uint8_t *data, size_t len, size_t i);
qollqamir_range_record qollqamir_rts0_range_alone(const uint8_t *data, size_t len, size_t i, size_t j);

/* The report on a container's root signature at an edition: what qollqamir_open gives, 26 where there is no part RTS0, then 46 to 51. So a
   container with that part alone gives 10; its data can be read by qollqamir_table_part and qollqamir_rts0_read. Items can be listed by
   qollqamir_rts0_item_alone on the stretch that the report gives. */
qollqamir_root_report qollqamir_root_signature(const uint8_t *bytes, size_t len, size_t edition);

/* Item i of it, and range j of that: those of qollqamir_root_signature, then 26 as above. */
qollqamir_root_record qollqamir_root_item(const uint8_t *bytes, size_t len, size_t edition, size_t i);
qollqamir_range_record qollqamir_root_range(const uint8_t *bytes, size_t len, size_t edition, size_t i, size_t j);

/* A settings file, of any length: a row count of at most 512, then rows of version, key and value. A number is in groups of seven bits, least
   first, the high bit set on all but the last, in its shortest form. Versions never fall. Keys: 1 least edition for release (0 to 3), 2 greatest
   container length (any), 3 PRIV allowed (0 or 1). The earliest byte decides, which is the place; of one byte, the first of these that applies:
   53 (a long form), 54 (4294967296 or more, or a fifth group with its high bit set), 55 (the file ends before the number does), each where
   the number begins; 56 (more than 512 rows, place 0); 59 (a version below the one before), 57 (an unknown key), 58 (a value out of its key's
   range), each where that number begins; 60 (bytes after the last row, the first of them). */
qollqamir_settings qollqamir_settings_read(const uint8_t *bytes, size_t len);

/* Row i of it: 53 to 60, then 26. */
qollqamir_setting_row qollqamir_settings_row(const uint8_t *bytes, size_t len, size_t i);

/* The value of a key at a version, that of the last row with the key and a version of at most this one: 53 to 60. It is unset where there is no
   such row, so for a key other than 1 to 3. Found in one walk over the file. */
qollqamir_setting qollqamir_settings_value(const uint8_t *bytes, size_t len, uint32_t key, uint32_t version);

/* The row that begins at a byte, by itself, whatever stands before and after it: 53 to 55 and 57 to 59 of its own, with their places in the
   file; last is the version of the row before, 0 for the first. Of a file that qollqamir_settings_read accepts, the row at "first" after
   version 0 is row 0, and the row at the end of row i after its version is row i + 1: so it is listed by as many calls as it has rows, each of
   which takes the same short time. */
qollqamir_setting_row_alone qollqamir_settings_row_alone(const uint8_t *bytes, size_t len, size_t at, uint32_t last);

/* Figures of no container, at an edition, at which every container that is added is opened. At an edition above 3 each counts as refused
   with 25. */
qollqamir_figures qollqamir_figures_start(size_t edition);

/* One container more: it costs one opening, and is counted by what that gives. With QOLLQAMIR_MOST_OPENED opened, nothing changes and the
   answer is QOLLQAMIR_FULL. Of figures that were started and added to, accepted and refused sum to opened, the counts by refusal number to
   refused, those by edition to accepted, and so do those by stage with unset; the order of the containers doesn't matter. Figures that someone
   made up get an answer too: a count stays at 65535, and the sum of the lengths at 18446744073709551615. */
qollqamir_figures_added qollqamir_figures_add(qollqamir_figures figures, const uint8_t *bytes, size_t len);

/* Two figures of the same edition joined: those of the one list of containers after the other, so that a list can be split over machines.
   Nothing changes where their editions differ (QOLLQAMIR_OTHER_EDITION, looked at first) and where the two have more than
   QOLLQAMIR_MOST_OPENED opened (QOLLQAMIR_FULL). Made-up figures as above. */
qollqamir_figures_joined qollqamir_figures_join(qollqamir_figures figures, qollqamir_figures more);

/* Writes PSV0 data in plain form: 25; 27; 2; 15 to 24 as reader 3 would answer; 28. On a refusal out keeps every byte; bytes past the
   result keep their contents. */
qollqamir_written qollqamir_write_psv0(size_t edition, const uint8_t *runtime, size_t runtime_len, const uint8_t *resources,
                                       size_t resources_len, const uint8_t *strings, size_t strings_len, const uint8_t *indices,
                                       size_t indices_len, const uint8_t *elements, size_t elements_len, const uint8_t *masks,
                                       size_t masks_len, uint8_t *out, size_t out_len);

/* Assembles a container: 27, 6, 9, 2, 28. names has four bytes a part, sizes one number a part, data the parts' data end to end, digest
   16 bytes. PRIV may stand more than once. On a refusal out keeps every byte; bytes past the result keep their contents. */
qollqamir_written qollqamir_assemble(const uint8_t *names, size_t names_len, const uint32_t *sizes, size_t sizes_len,
                                     const uint8_t *data, size_t data_len, const uint8_t *digest, size_t digest_len, uint8_t *out,
                                     size_t out_len);

/* A container with other PSV0 data, in plain form, in the place of its own: every byte outside them is kept, the digest, gaps and trailing bytes
   too, but the file size, the part's size and the offsets of the parts after it; what follows moves, and nothing is aligned anew. What
   qollqamir_open gives for the bytes at the edition; what qollqamir_psv0_open gives for the part at edition 3; 27 where it isn't in plain form;
   2 for a result that is too long; 28. The places are those of qollqamir_open_places on the result at the edition. On a refusal out keeps every
   byte, and the places are zeros: those that a caller keeps for the bytes stay good for them. Bytes past the result keep their contents. */
qollqamir_replaced qollqamir_replace_psv0(const uint8_t *bytes, size_t len, size_t edition, const uint8_t *part, size_t part_len,
                                          uint8_t *out, size_t out_len);

/* Writes a settings file from rows as numbers, version, key and value of each in turn: 27 where they aren't whole rows, what
   qollqamir_settings_read would give for the result, with that place (56, from 4294967296 rows on 54; 57, 58, 59), 28. On a refusal out keeps
   every byte; bytes past the result keep their contents. 512 rows take 5634 bytes at most. */
qollqamir_written qollqamir_write_settings(const uint32_t *rows, size_t rows_len, uint8_t *out, size_t out_len);

#ifdef __cplusplus
}
#endif

#endif
