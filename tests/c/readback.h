/* A file read back through the C interface, in either manner: every field of every record is the take's. */
#ifndef READBACK_H
#define READBACK_H

#include "check.h"
#include "open.h"
#include "take.h"
#include "vmd.h"

static inline void expect_name(const char *what, const uint8_t *file, const uint64_t part[2], const struct name *name)
{
    expect_number(what, part[1], name->len);
    if (part[1] == name->len)
        expect_bytes(what, file + part[0], name->at, name->len);
}

static inline void expect_words(const char *what, const uint32_t *got, const uint32_t *expected, size_t n)
{
    size_t k;
    for (k = 0; k < n; k++)
        expect_number(what, got[k], expected[k]);
}

/* The counts, the number of IK states, the model name, and each record, name and interpolation. */
static inline void field_by_field(const struct take *t, const uint8_t *file, size_t len)
{
    uint32_t counts[6], record[10], enabled;
    uint64_t places[6], totals[3], scratch[(MOST_PROPERTIES + 15) / 16], part[2];
    size_t scratch_len = (t->counts[5] + 15) / 16, i, j, s;
    expect_opens_alike(file, len);
    expect_number("parse_animation", vmd_parse_animation(file, len, scratch, scratch_len, counts, places, totals), VMD_OK);
    for (s = 0; s < SECTIONS; s++)
        expect_number("count", counts[s], t->counts[s]);
    expect_number("IK states", totals[VMD_TOTAL_IK_STATES], states_of(t));
    vmd_model_name(file, len, part);
    expect_name("model name", file, part, &t->model);
    for (i = 0; i < t->counts[0]; i++) {
        const struct bone *r = &t->bones[i];
        expect_number("bone", vmd_bone_frame(file, len, counts, places, i, record), VMD_OK);
        expect_number("bone's frame", record[0], r->frame);
        expect_words("bone's float", record + 1, r->floats, 7);
        vmd_bone_name(file, len, counts, places, i, part);
        expect_name("bone's name", file, part, &r->name);
        vmd_bone_interpolation(file, len, counts, places, i, part);
        expect_number("bone's interpolation", part[1], 64);
        expect_bytes("bone's interpolation", file + part[0], r->interpolation, 64);
    }
    for (i = 0; i < t->counts[1]; i++) {
        const struct morph *r = &t->morphs[i];
        expect_number("morph", vmd_morph_frame(file, len, counts, places, i, record), VMD_OK);
        expect_number("morph's frame", record[0], r->frame);
        expect_number("morph's weight", record[1], r->weight);
        vmd_morph_name(file, len, counts, places, i, part);
        expect_name("morph's name", file, part, &r->name);
    }
    for (i = 0; i < t->counts[2]; i++) {
        const struct camera *r = &t->cameras[i];
        expect_number("camera", vmd_camera_frame(file, len, counts, places, i, record), VMD_OK);
        expect_number("camera's frame", record[0], r->frame);
        expect_words("camera's float", record + 1, r->floats, 7);
        expect_number("camera's field of view", record[8], r->field_of_view);
        expect_number("camera's perspective", record[9], r->perspective == 0);
        vmd_camera_interpolation(file, len, counts, places, i, part);
        expect_number("camera's interpolation", part[1], 24);
        expect_bytes("camera's interpolation", file + part[0], r->interpolation, 24);
    }
    for (i = 0; i < t->counts[3]; i++) {
        const struct light *r = &t->lights[i];
        expect_number("light", vmd_light_frame_bits(file, len, counts, places, i, record), VMD_OK);
        expect_number("light's frame", record[0], r->frame);
        expect_words("light's float", record + 1, r->floats, 6);
    }
    for (i = 0; i < t->counts[4]; i++) {
        const struct self_shadow *r = &t->self_shadows[i];
        expect_number("self-shadow", vmd_self_shadow_frame(file, len, counts, places, i, record), VMD_OK);
        expect_number("self-shadow's frame", record[0], r->frame);
        expect_number("self-shadow's mode", record[1], r->mode);
        expect_number("self-shadow's distance", record[2], r->distance);
    }
    for (i = 0; i < t->counts[5]; i++) {
        const struct property *r = &t->properties[i];
        expect_number("property", vmd_property_frame(file, len, counts, places, scratch, scratch_len, i, record), VMD_OK);
        expect_number("property's frame", record[0], r->frame);
        expect_number("property's visible", record[1], r->visible != 0);
        expect_number("property's IK count", record[2], r->n_states);
        for (j = 0; j < r->n_states; j++) {
            expect_number("IK state", vmd_ik_state(file, len, counts, places, scratch, scratch_len, i, j, &enabled),
                          VMD_OK);
            expect_number("IK enabled", enabled, r->states[j].enabled != 0);
            vmd_ik_name(file, len, counts, places, scratch, scratch_len, i, j, part);
            expect_name("IK name", file, part, &r->states[j].name);
        }
    }
}

#endif
