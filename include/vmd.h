/*
 * VMD takes (MikuMikuDance motion files): read, saved, joined, tidied, cut to excerpts, built from parts and split into them;
 * figures over many takes.
 *
 * Files of both editions are read by every call that takes a file. The newer begin with "Vocaloid Motion Data 0002" and have
 * a model name of 20 bytes, the older with "Vocaloid Motion Data file" and one of 10; after the name all is the same. Places
 * are positions in the file as it is. What is written is of the newer edition, but for vmd_export_older_animation.
 *
 * Manners of reading. Every call that reads a whole take, but for vmd_season_add, is strict: it turns down a file with bytes
 * after its last property frame, or after a property count of 0 (16), and one with a camera, light or self-shadow count whose
 * records exceed the bytes left (17), both as met in the file. Beside each stands a call whose name ends in _lenient, with the
 * same parameters: it ignores such bytes, and takes such a section and all after it for empty; what it saves has lost them. In
 * all else the two give the same. vmd_season_add is lenient and has no strict twin. Calls for records, names and interpolation
 * bytes, vmd_model_name and vmd_joined_model read no whole take and have no manner.
 *
 * The functions are those of the proved library, built by 'rt lib' in crates/vmd_c. They allocate nothing, keep no state, and
 * can be called from any thread.
 *
 * Answers. A function that returns uint32_t returns 0, or the number of a refusal (vmd_refusal below). After a refusal every
 * buffer and slot that was lent is as it was (of vmd_light_frame's six floats this is proved up to a NaN's bits).
 *
 * Slices are a pointer and a number of elements. Each pointer must be aligned for its type and good for that many elements;
 * where the number is 0 the pointer is not used and may be null. Slots (counts, places, record, part, ..) are arrays of the
 * length written here, or single numbers, and never null.
 *
 * What a function writes must not overlap anything else that is lent to the same call; what it only reads may. A slice takes
 * fewer than 2^63 bytes, as every object does.
 *
 * Floats are handed out as their 32 bits, so that every NaN keeps its payload; only vmd_light_frame and the builder's
 * columns have float values.
 */
#ifndef VMD_H
#define VMD_H

#include <stddef.h>
#include <stdint.h>

#ifdef __cplusplus
extern "C" {
#endif

enum vmd_refusal {
    VMD_OK = 0,
    VMD_ENDS_EARLY = 1,           /* the file ends early */
    VMD_MAGIC_DIFFERS = 2,        /* not a VMD file */
    VMD_SCRATCH_TOO_SHORT = 3,    /* opening: fewer scratch places than a sixteenth of the property frames, rounded up;
                                     tidying: fewer than the largest section has records */
    VMD_OUTSIDE = 4,              /* record or IK number at or above the count, or its place outside the file */
    VMD_PARTS_NOT_WHOLE = 5,      /* name table ends wrong, records not whole, properties cut or with bytes over */
    VMD_NAME_UNFIT = 6,           /* model name over 20 bytes, table name over 15, or a zero byte in one */
    VMD_NAME_NOT_GOOD = 7,        /* name bytes not good Shift_JIS: one that starts nothing, or a pair without a character */
    VMD_NOT_FINITE = 8,           /* camera, light, bone or morph float not finite */
    VMD_SELF_SHADOW_UNFIT = 9,    /* self-shadow distance not finite, or mode above 2 */
    VMD_COLUMNS_DISAGREE = 10,    /* bone or morph column lengths disagree */
    VMD_COUNT_TOO_LARGE = 11,     /* a section count above 4,294,967,295 */
    VMD_NAME_INDEX = 12,          /* name index at or above the table's length */
    VMD_OUTPUT_TOO_SHORT = 13,    /* output shorter than the file to be written */
    VMD_PARTS_DO_NOT_FIT = 14,    /* a buffer for parts is too short, or a name table passes 4,294,967,295 bytes */
    VMD_MODEL_NAME_TOO_LONG = 15, /* the model name is over 10 bytes, which the older edition cannot hold */
    VMD_BYTES_OVER = 16,          /* strict: bytes after the last property frame, or after a property count of 0 */
    VMD_COUNT_OVERSIZED = 17,     /* strict: a camera, light or self-shadow count whose records exceed the bytes left */
    VMD_FIRST_ABOVE_LAST = 18     /* the first frame of an excerpt is above the last */
};

/* Bytes of each record in a file. */
enum {
    VMD_BONE_SIZE = 111,
    VMD_MORPH_SIZE = 23,
    VMD_CAMERA_SIZE = 61,
    VMD_LIGHT_SIZE = 28,
    VMD_SELF_SHADOW_SIZE = 9,
    VMD_PROPERTY_SIZE = 9, /* without its IK states */
    VMD_IK_STATE_SIZE = 21
};

/* Property frames to a place of the scratch, which is that of the first of them. */
enum {
    VMD_FRAMES_PER_PLACE = 16
};

/*
 * Indices. They are one enum, since a section's index is added to some of those of a season, and C++ warns of sums of two.
 */
enum {
    /* the sections' in counts and places */
    VMD_BONES = 0,
    VMD_MORPHS = 1,
    VMD_CAMERAS = 2,
    VMD_LIGHTS = 3,
    VMD_SELF_SHADOWS = 4,
    VMD_PROPERTIES = 5,

    /* in an opening's totals */
    VMD_TOTAL_IK_STATES = 0,      /* the IK states of all property frames */
    VMD_TOTAL_SMALLEST_FRAME = 1, /* over all six sections, 0 with no records */
    VMD_TOTAL_LARGEST_FRAME = 2,  /* likewise */

    /* in a season's counts; to each the section's index is added */
    VMD_SEASON_SMALLEST = 0,
    VMD_SEASON_LARGEST = 6,

    /* in a season's figures */
    VMD_SEASON_TOTAL = 0,       /* to it the section's index is added: the section's records over all takes */
    VMD_SEASON_RECORDS = 6,     /* the records of all six sections over all takes: the mean's total */
    VMD_SEASON_BONE_NAMES = 7,  /* each take's distinct bone names, up to the first line feed in each, added up */
    VMD_SEASON_MORPH_NAMES = 8, /* each take's distinct morph names, likewise */
    VMD_SEASON_ACCEPTED = 9,    /* takes accepted */
    VMD_SEASON_REFUSED = 10     /* takes refused */
};

/* ---- opening */

/*
 * Checks a whole file. counts receives the number of records of each section, places where each section's records begin (the
 * file's length where its count is missing or, in the lenient manner, it was emptied), totals the number of IK states, the
 * smallest frame and the largest (VMD_TOTAL_.. above; both frames 0 with no records). Place j of scratch receives the byte
 * position of property frame 16j: with n property frames the first (n + 15) / 16 places are written, and further places keep
 * their contents. A scratch of (file_len / 9 + 15) / 16 places is enough for any file. Refusals: 1, 2, 16 and 17 as met, then
 * 3; of the lenient call 1 and 2 as met, then 3.
 *
 * Every call without a manner in its name was lenient before it was strict. A program that has to read such files as it did
 * calls the lenient one.
 *
 * scratch had a place for each property frame before. A program that only lends it to the calls below works as it did; one
 * that looks up positions in it, or writes them, has to be changed.
 *
 * totals had two numbers before it had the smallest frame, and the largest was the second of them: a program that was
 * compiled with such a header lends too short a slot and looks for the largest in another place, and has to be changed and
 * compiled again.
 */
uint32_t vmd_parse_animation(const uint8_t *file, size_t file_len, uint64_t *scratch, size_t scratch_len,
                             uint32_t counts[6], uint64_t places[6], uint64_t totals[3]);
uint32_t vmd_parse_animation_lenient(const uint8_t *file, size_t file_len, uint64_t *scratch, size_t scratch_len,
                                     uint32_t counts[6], uint64_t places[6], uint64_t totals[3]);

/*
 * ---- records by number
 *
 * counts, places and scratch are an opening's. With those of another file a call gives the record that the layout reads at
 * the place they name, or 4. The only refusal is 4.
 *
 * Property frame i is found from place i / 16 of scratch by a walk over i % 16 frames, at most 15. It is 4 where scratch has
 * no such place, and where the walk leaves the file: each frame walked over has to have its nine bytes and its IK states in
 * it, the frame asked for its nine bytes, and an IK state asked for its own 21.
 */

/* frame, translation x y z, rotation x y z w */
uint32_t vmd_bone_frame(const uint8_t *file, size_t file_len, const uint32_t counts[6], const uint64_t places[6], size_t i,
                        uint32_t record[8]);
/* frame, weight */
uint32_t vmd_morph_frame(const uint8_t *file, size_t file_len, const uint32_t counts[6], const uint64_t places[6], size_t i,
                         uint32_t record[2]);
/* frame, distance, position x y z, rotation x y z, field of view, perspective (1 where it is on: the file's byte is 0) */
uint32_t vmd_camera_frame(const uint8_t *file, size_t file_len, const uint32_t counts[6], const uint64_t places[6], size_t i,
                          uint32_t record[10]);
/* color r g b, direction x y z; a NaN is some NaN */
uint32_t vmd_light_frame(const uint8_t *file, size_t file_len, const uint32_t counts[6], const uint64_t places[6], size_t i,
                         uint32_t *frame, float values[6]);
/* frame, color r g b, direction x y z */
uint32_t vmd_light_frame_bits(const uint8_t *file, size_t file_len, const uint32_t counts[6], const uint64_t places[6],
                              size_t i, uint32_t record[7]);
/* frame, mode, distance */
uint32_t vmd_self_shadow_frame(const uint8_t *file, size_t file_len, const uint32_t counts[6], const uint64_t places[6],
                               size_t i, uint32_t record[3]);
/* frame, visible (0 or 1), number of IK states */
uint32_t vmd_property_frame(const uint8_t *file, size_t file_len, const uint32_t counts[6], const uint64_t places[6],
                            const uint64_t *scratch, size_t scratch_len, size_t i, uint32_t record[3]);
/*
 * The property frame at a place of the file, as vmd_property_frame gives it, and the place of the next one: from
 * places[VMD_PROPERTIES] on this reads the counts[VMD_PROPERTIES] frames of a file one after another, without scratch and
 * without walks. Any nine bytes read as a frame, whatever they were meant for. 4 where they, or the IK states that they
 * count, are not in the file.
 *
 * The frame's IK states: vmd_ik_state and vmd_ik_name with i = 0, one property frame in counts, and a scratch of one place,
 * the frame's. The argument places is not looked at for property frames.
 */
uint32_t vmd_property_frame_at(const uint8_t *file, size_t file_len, uint64_t place, uint32_t record[3], uint64_t *next);
/* IK state j of property frame i: enabled (0 or 1) */
uint32_t vmd_ik_state(const uint8_t *file, size_t file_len, const uint32_t counts[6], const uint64_t places[6],
                      const uint64_t *scratch, size_t scratch_len, size_t i, size_t j, uint32_t *enabled);

/*
 * ---- names and interpolation bytes
 *
 * part receives where the bytes begin in the file, and how many there are; 0, 0 where there are none, also of an empty name.
 * A name ends before its first zero byte. Where there is no such record, or for vmd_model_name the header of the file is
 * refused, there are none; the other calls look at no header. The part always lies in the file, whatever counts, places and
 * scratch hold. These calls do not refuse.
 */

void vmd_bone_name(const uint8_t *file, size_t file_len, const uint32_t counts[6], const uint64_t places[6], size_t i,
                   uint64_t part[2]);
void vmd_morph_name(const uint8_t *file, size_t file_len, const uint32_t counts[6], const uint64_t places[6], size_t i,
                    uint64_t part[2]);
void vmd_ik_name(const uint8_t *file, size_t file_len, const uint32_t counts[6], const uint64_t places[6],
                 const uint64_t *scratch, size_t scratch_len, size_t i, size_t j, uint64_t part[2]);
void vmd_model_name(const uint8_t *file, size_t file_len, uint64_t part[2]);
/* 64 bytes */
void vmd_bone_interpolation(const uint8_t *file, size_t file_len, const uint32_t counts[6], const uint64_t places[6],
                            size_t i, uint64_t part[2]);
/* 24 bytes */
void vmd_camera_interpolation(const uint8_t *file, size_t file_len, const uint32_t counts[6], const uint64_t places[6],
                              size_t i, uint64_t part[2]);

/*
 * ---- saving and joining
 *
 * The file is written at the front of out, and written receives its length; the rest of out keeps its contents. The size
 * calls give the length alone, so that out can be made long enough; what they give is exact.
 *
 * "Reading" in a list of refusals is 1, 2, 16 and 17 as met, and of a lenient call 1 and 2 as met.
 */

/* Refusals: reading; 13 where no 64-bit length could hold the file. */
uint32_t vmd_export_size(const uint8_t *file, size_t file_len, uint64_t *size);
uint32_t vmd_export_size_lenient(const uint8_t *file, size_t file_len, uint64_t *size);
/* Refusals: reading, 13. */
uint32_t vmd_export_animation(const uint8_t *file, size_t file_len, uint8_t *out, size_t out_len, uint64_t *written);
uint32_t vmd_export_animation_lenient(const uint8_t *file, size_t file_len, uint8_t *out, size_t out_len, uint64_t *written);
/*
 * The same in the older edition: 10 bytes fewer, from the bone count on those of the export. A file of the older edition is
 * never refused with 15. Refusals: reading, 15; 13 where no 64-bit length could hold the file.
 */
uint32_t vmd_export_older_size(const uint8_t *file, size_t file_len, uint64_t *size);
uint32_t vmd_export_older_size_lenient(const uint8_t *file, size_t file_len, uint64_t *size);
/* Refusals: reading, 15, 13. */
uint32_t vmd_export_older_animation(const uint8_t *file, size_t file_len, uint8_t *out, size_t out_len, uint64_t *written);
uint32_t vmd_export_older_animation_lenient(const uint8_t *file, size_t file_len, uint8_t *out, size_t out_len,
                                            uint64_t *written);
/* Refusals: reading of the first file, of the second, 11; 13 where no 64-bit length could hold the file. */
uint32_t vmd_join_size(const uint8_t *first, size_t first_len, const uint8_t *second, size_t second_len, uint64_t *size);
uint32_t vmd_join_size_lenient(const uint8_t *first, size_t first_len, const uint8_t *second, size_t second_len,
                               uint64_t *size);
/* Every section is the first file's records, then the second's. Refusals: reading of the first file, of the second, 11, 13. */
uint32_t vmd_join_animations(const uint8_t *first, size_t first_len, const uint8_t *second, size_t second_len, uint8_t *out,
                             size_t out_len, uint64_t *written);
uint32_t vmd_join_animations_lenient(const uint8_t *first, size_t first_len, const uint8_t *second, size_t second_len,
                                     uint8_t *out, size_t out_len, uint64_t *written);
/*
 * The model name of the join: the first file's where that is not empty, else the second's. part receives which file it is in
 * (0 the first, 1 the second), where it begins there, and its length; 0, 0, 0 where both are empty. A file whose header is
 * refused counts as one without a model name.
 */
void vmd_joined_model(const uint8_t *first, size_t first_len, const uint8_t *second, size_t second_len, uint64_t part[3]);

/*
 * ---- tidying
 *
 * The canonical file in which each track is sorted by frame and holds only the last record in file order for each frame. Bone
 * and morph tracks are the records of one name, one track after another in order of first appearance; each other section is
 * one track. The model name is kept. A record is dropped just where a later one of its track has its frame. kept and dropped
 * receive both numbers for each section, which add up to the records read.
 *
 * Names are told apart up to their first line feed (byte 0x0A): two that differ only after it are one name here, and one that
 * begins with it is the empty name. A record that is kept is written with its full name.
 *
 * scratch is work space: one place for each record of the largest section, whatever stands there. After success these places
 * hold 0, and further ones keep their contents. A scratch of file_len / 9 places is enough for any file.
 *
 * A tidied file is never longer than the export: an out of the export's length is never refused with 13. With a shorter out
 * the kept records are first counted without scratch, which can take seconds: the size call, which is lent the scratch, does
 * not. Both calls take up to 512 KiB of stack.
 */

/*
 * How long the tidied file is, and both numbers, with names told apart as above. Refusals: reading, 3; 13 where no 64-bit
 * length could hold the file.
 */
uint32_t vmd_tidy_size(const uint8_t *file, size_t file_len, uint64_t *scratch, size_t scratch_len, uint64_t *size,
                       uint32_t kept[6], uint32_t dropped[6]);
uint32_t vmd_tidy_size_lenient(const uint8_t *file, size_t file_len, uint64_t *scratch, size_t scratch_len, uint64_t *size,
                               uint32_t kept[6], uint32_t dropped[6]);
/* Refusals: reading, 3, 13. */
uint32_t vmd_tidy_animation(const uint8_t *file, size_t file_len, uint64_t *scratch, size_t scratch_len, uint8_t *out,
                            size_t out_len, uint64_t *written, uint32_t kept[6], uint32_t dropped[6]);
uint32_t vmd_tidy_animation_lenient(const uint8_t *file, size_t file_len, uint64_t *scratch, size_t scratch_len, uint8_t *out,
                                    size_t out_len, uint64_t *written, uint32_t kept[6], uint32_t dropped[6]);

/*
 * ---- excerpts
 *
 * The canonical file of the records whose frame lies between a first and a last frame, both included, with the first
 * subtracted from each frame. Order and model name are kept; where no record stays, the file has 74 bytes. From 0 to
 * 4,294,967,295 it is the export.
 *
 * An excerpt is never longer than the export: an out of the export's length is never refused with 13. With a shorter out the
 * records that stay are counted first, as the size call does: one more pass over the file's frames.
 */

/* Refusals: 18, before the file is read; reading; 13 where no 64-bit length could hold the file. */
uint32_t vmd_excerpt_size(const uint8_t *file, size_t file_len, uint32_t first_frame, uint32_t last_frame, uint64_t *size);
uint32_t vmd_excerpt_size_lenient(const uint8_t *file, size_t file_len, uint32_t first_frame, uint32_t last_frame,
                                  uint64_t *size);
/* Refusals: 18, before the file is read; reading; 13. */
uint32_t vmd_excerpt_animation(const uint8_t *file, size_t file_len, uint32_t first_frame, uint32_t last_frame, uint8_t *out,
                               size_t out_len, uint64_t *written);
uint32_t vmd_excerpt_animation_lenient(const uint8_t *file, size_t file_len, uint32_t first_frame, uint32_t last_frame,
                                       uint8_t *out, size_t out_len, uint64_t *written);

/*
 * ---- is it canonical?
 *
 * Whether saving would leave a file as it is. A file is canonical where it is accepted and equals its export. So it is of the
 * newer edition, its bytes 26 to 29 are zero, all six counts are there and none is oversized, every name has nothing but zeros
 * after it in its field, the model's and those of IK states too, every flag is 0 or 1, and there are no bytes over; and every
 * accepted file of which this is true is canonical. There is one such file for each model name and records. What the calls
 * here write is canonical, but for vmd_export_older_animation.
 *
 * The whole file is read before it is compared: a refusal comes before any other answer. A canonical file is canonical in both
 * manners; of the lenient call a file with bytes over, or with an oversized count, is not.
 */

/* canonical receives 1 or 0. Refusals: reading. */
uint32_t vmd_is_canonical(const uint8_t *file, size_t file_len, uint32_t *canonical);
uint32_t vmd_is_canonical_lenient(const uint8_t *file, size_t file_len, uint32_t *canonical);
/*
 * What saving would touch first: change receives 1 and the first place at which the file and its export differ or just one of
 * them has ended; 0, 0 for a canonical file. For every file of the older edition the place is 21. Refusals: reading.
 */
uint32_t vmd_first_change(const uint8_t *file, size_t file_len, uint64_t change[2]);
uint32_t vmd_first_change_lenient(const uint8_t *file, size_t file_len, uint64_t change[2]);

/*
 * ---- building
 *
 * A name table is bytes, and the end of each name in them: never falling, the last equal to the number of bytes; with no
 * names the bytes are empty. Cameras, lights, self-shadows and properties are back-to-back records as a file has them. Bones
 * and morphs are columns: a name's index in its table, a frame, and for a bone three, four and 64 values, for a morph one.
 *
 * What is turned down, in this order: 5; the model name, each name of the bones' table and of the morphs' (each 6, then 7);
 * camera floats, light floats (8), self-shadows (9), IK names (7); 10; 11; each bone (12, then 8), each morph likewise; 13.
 */

/*
 * The place of a name's first byte, read left to right, that starts neither a good single byte nor a good pair; the length
 * where all is good. Of a pair that is not good it is the first byte's place. The builder answers 7 for a name whose place is
 * below its length, where nothing that it tests before is turned down.
 *
 * Good single bytes are 0x00 to 0x80 and 0xA1 to 0xDF. A pair is a lead, 0x81 to 0x9F or 0xE0 to 0xFC, and a trail, 0x40 to
 * 0x7E or 0x80 to 0xFC. It is good where WHATWG's Shift_JIS decoder finds a character: its pointer is in the jis0208 index or
 * lies in 8836 to 10715; 0x85 0x40 is not. A byte order mark in front of a name is judged as any other bytes.
 */
size_t vmd_first_fault(const uint8_t *name, size_t name_len);

/* Refusals: 5 to 12; 13 where no 64-bit length could hold the file. */
uint32_t vmd_build_size(const uint8_t *model_name, size_t model_name_len,
                        const uint8_t *bone_name_bytes, size_t bone_name_bytes_len,
                        const uint32_t *bone_name_ends, size_t bone_name_ends_len,
                        const uint8_t *morph_name_bytes, size_t morph_name_bytes_len,
                        const uint32_t *morph_name_ends, size_t morph_name_ends_len,
                        const uint8_t *camera_frames, size_t camera_frames_len,
                        const uint8_t *light_frames, size_t light_frames_len,
                        const uint8_t *self_shadow_frames, size_t self_shadow_frames_len,
                        const uint8_t *property_frames, size_t property_frames_len,
                        const uint32_t *bone_name_indices, size_t bone_name_indices_len,
                        const uint32_t *bone_frames, size_t bone_frames_len,
                        const float *bone_translations_xyz, size_t bone_translations_xyz_len,
                        const float *bone_rotations_xyzw, size_t bone_rotations_xyzw_len,
                        const uint8_t *bone_interpolations, size_t bone_interpolations_len,
                        const uint32_t *morph_name_indices, size_t morph_name_indices_len,
                        const uint32_t *morph_frames, size_t morph_frames_len,
                        const float *morph_weights, size_t morph_weights_len, uint64_t *size);
/* Refusals: 5 to 13. */
uint32_t vmd_build_animation_from_parts(const uint8_t *model_name, size_t model_name_len,
                                        const uint8_t *bone_name_bytes, size_t bone_name_bytes_len,
                                        const uint32_t *bone_name_ends, size_t bone_name_ends_len,
                                        const uint8_t *morph_name_bytes, size_t morph_name_bytes_len,
                                        const uint32_t *morph_name_ends, size_t morph_name_ends_len,
                                        const uint8_t *camera_frames, size_t camera_frames_len,
                                        const uint8_t *light_frames, size_t light_frames_len,
                                        const uint8_t *self_shadow_frames, size_t self_shadow_frames_len,
                                        const uint8_t *property_frames, size_t property_frames_len,
                                        const uint32_t *bone_name_indices, size_t bone_name_indices_len,
                                        const uint32_t *bone_frames, size_t bone_frames_len,
                                        const float *bone_translations_xyz, size_t bone_translations_xyz_len,
                                        const float *bone_rotations_xyzw, size_t bone_rotations_xyzw_len,
                                        const uint8_t *bone_interpolations, size_t bone_interpolations_len,
                                        const uint32_t *morph_name_indices, size_t morph_name_indices_len,
                                        const uint32_t *morph_frames, size_t morph_frames_len,
                                        const float *morph_weights, size_t morph_weights_len,
                                        uint8_t *out, size_t out_len, uint64_t *written);

/*
 * ---- parts out of a take
 *
 * What the builder takes, out of an accepted file: each part is written at the front of its buffer, and further elements keep
 * their contents. A name table holds the distinct names of the records, in order of first appearance; each record has its
 * name's index. Names are told apart as raw bytes: here a line feed is a byte like any other. Cameras, lights, self-shadows
 * and properties, with their IK states, are records in canonical form. sizes receives the number of bone names and of their
 * bytes, and of morph names and of theirs; how long every other part is follows from the opening's counts and number of IK
 * states. The model name has a call of its own, vmd_model_name.
 *
 * Floats are written as their 32 bits. To build from them, declare the three columns as float and lend them here as
 * uint32_t *: the two have the same size and alignment, and the builder reads the same memory as floats. Where the builder
 * takes the parts, its file is the file's export.
 *
 * Refusals: reading; then 14 where a buffer is too short or a name table passes 4,294,967,295 bytes. Needed are, with b bones,
 * m morphs, c cameras, l lights, s self-shadows, p properties and k IK states: 61c, 28l, 9s and 9p + 21k bytes of records; b,
 * b, 3b, 4b and 64b; m, m and m elements; and the tables, as vmd_split_sizes gives them. Tables of 15 bytes and one end for
 * each record are long enough for any names where 15 bytes for each record are at most 4,294,967,295 (286,331,153 records).
 *
 * With such tables no names are counted first. With a shorter one a split counts the section's names, as vmd_split_sizes
 * does: both go over the records once for every 16,384 to 32,767 different names. So names whose tables are as long as
 * vmd_split_sizes says are counted twice. Both calls take up to 256 KiB of stack; they take longest where nearly all names
 * differ.
 */

/* The four numbers alone. Refusals: reading; 14 where a name table would pass 4,294,967,295 bytes. */
uint32_t vmd_split_sizes(const uint8_t *file, size_t file_len, uint64_t sizes[4]);
uint32_t vmd_split_sizes_lenient(const uint8_t *file, size_t file_len, uint64_t sizes[4]);
uint32_t vmd_split_animation_into_parts(const uint8_t *file, size_t file_len,
                                        uint8_t *bone_name_bytes, size_t bone_name_bytes_len,
                                        uint32_t *bone_name_ends, size_t bone_name_ends_len,
                                        uint8_t *morph_name_bytes, size_t morph_name_bytes_len,
                                        uint32_t *morph_name_ends, size_t morph_name_ends_len,
                                        uint8_t *camera_frames, size_t camera_frames_len,
                                        uint8_t *light_frames, size_t light_frames_len,
                                        uint8_t *self_shadow_frames, size_t self_shadow_frames_len,
                                        uint8_t *property_frames, size_t property_frames_len,
                                        uint32_t *bone_name_indices, size_t bone_name_indices_len,
                                        uint32_t *bone_frames, size_t bone_frames_len,
                                        uint32_t *bone_translations_xyz, size_t bone_translations_xyz_len,
                                        uint32_t *bone_rotations_xyzw, size_t bone_rotations_xyzw_len,
                                        uint8_t *bone_interpolations, size_t bone_interpolations_len,
                                        uint32_t *morph_name_indices, size_t morph_name_indices_len,
                                        uint32_t *morph_frames, size_t morph_frames_len,
                                        uint32_t *morph_weights, size_t morph_weights_len,
                                        uint64_t sizes[4]);
uint32_t vmd_split_animation_into_parts_lenient(const uint8_t *file, size_t file_len,
                                                uint8_t *bone_name_bytes, size_t bone_name_bytes_len,
                                                uint32_t *bone_name_ends, size_t bone_name_ends_len,
                                                uint8_t *morph_name_bytes, size_t morph_name_bytes_len,
                                                uint32_t *morph_name_ends, size_t morph_name_ends_len,
                                                uint8_t *camera_frames, size_t camera_frames_len,
                                                uint8_t *light_frames, size_t light_frames_len,
                                                uint8_t *self_shadow_frames, size_t self_shadow_frames_len,
                                                uint8_t *property_frames, size_t property_frames_len,
                                                uint32_t *bone_name_indices, size_t bone_name_indices_len,
                                                uint32_t *bone_frames, size_t bone_frames_len,
                                                uint32_t *bone_translations_xyz, size_t bone_translations_xyz_len,
                                                uint32_t *bone_rotations_xyzw, size_t bone_rotations_xyzw_len,
                                                uint8_t *bone_interpolations, size_t bone_interpolations_len,
                                                uint32_t *morph_name_indices, size_t morph_name_indices_len,
                                                uint32_t *morph_frames, size_t morph_frames_len,
                                                uint32_t *morph_weights, size_t morph_weights_len,
                                                uint64_t sizes[4]);

/*
 * ---- season figures
 *
 * Figures over takes that are lent one after another. They are held in two arrays: counts has the smallest and the largest
 * count of each section, figures has 64-bit numbers, at the indices VMD_SEASON_.. above. vmd_season_none sets both to 0,
 * which are the figures of no takes; vmd_season_add adds a take; vmd_season_mean gives the mean of all six sections' records
 * per accepted take.
 *
 * Takes are read in the lenient manner. One that is refused (1, 2) adds one to figures[VMD_SEASON_REFUSED] and nothing else.
 * So does one with which any other of the 64-bit figures would pass 18,446,744,073,709,551,615. The number of refused takes
 * stops at that value. The number of accepted takes goes up by one just where a take was counted. While it is 0 the first take
 * that is accepted sets smallest and largest, whatever stood there. Any numbers may stand in the arrays.
 *
 * Names are told apart up to their first line feed, as in tidying: there may be fewer than vmd_split_sizes_lenient gives.
 * vmd_season_add counts them in passes as that call does: it takes up to 256 KiB of stack, and takes longest where nearly all
 * names differ. These calls do not refuse.
 */

void vmd_season_none(uint32_t counts[12], uint64_t figures[11]);
void vmd_season_add(const uint8_t *file, size_t file_len, uint32_t counts[12], uint64_t figures[11]);
/* mean receives the quotient and the remainder of the records divided by the accepted takes; 0, 0 with none accepted. */
void vmd_season_mean(const uint64_t figures[11], uint64_t mean[2]);

#ifdef __cplusplus
}
#endif

#endif
