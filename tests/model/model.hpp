// A model of the file library, written from document 01 (the base) and requests a) to k) of document 02. Quoted sentences are
// theirs; "header:" marks those of the C interface. It works on lists, copies everything, and is made to be compared with the
// papers, not to be fast. A function named as a call of the C interface takes the contents of every buffer lent and changes
// them into the contents after the call; where it returns a refusal it has changed nothing. One of a call that reads a whole
// take is lent the manner too, and so is the model of both twins.
#ifndef MODEL_HPP
#define MODEL_HPP

#include <algorithm>
#include <array>
#include <cstdint>
#include <map>
#include <optional>
#include <string>
#include <tuple>
#include <unordered_map>
#include <unordered_set>
#include <utility>
#include <vector>

#include "alterations.hpp"
#include "characters.hpp"

namespace model {

using u8 = std::uint8_t;
using u32 = std::uint32_t;
using u64 = std::uint64_t;
__extension__ typedef unsigned __int128 wide; // sums that cannot wrap
using Bytes = std::vector<u8>;
using Words = std::vector<u32>;
using Longs = std::vector<u64>;
using Name = std::string; // raw bytes

// ---- layouts

enum Section { bones, morphs, cameras, lights, shadows, properties };

// "Each record kind carries its own byte size" (a property's without its IK states)
constexpr u64 record_size[6] = {111, 23, 61, 28, 9, 9};
constexpr u64 ik_size = 21;
constexpr u64 bone_name_width = 15, ik_name_width = 20;

// "All integers and floats in a file are little-endian."
inline u32 number(const Bytes &f, u64 at) {
    return u32{f[at]} | u32{f[at + 1]} << 8 | u32{f[at + 2]} << 16 | u32{f[at + 3]} << 24;
}

template <std::size_t N> std::array<u32, N> numbers(const Bytes &f, u64 at) {
    std::array<u32, N> all;
    for (std::size_t i = 0; i < N; i++) all[i] = number(f, at + 4 * i);
    return all;
}

template <std::size_t N> std::array<u8, N> bytes(const Bytes &f, u64 at) {
    std::array<u8, N> all;
    std::copy_n(f.begin() + static_cast<std::ptrdiff_t>(at), N, all.begin());
    return all;
}

// "A name ends before its first zero byte, or fills its field"
inline u64 name_length(const Bytes &f, u64 at, u64 width) {
    if (altered(NameWholeField)) return width;
    u64 n = 0;
    while (n < width && f[at + n] != 0) n++;
    return n;
}

inline Name name(const Bytes &f, u64 at, u64 width) {
    const char *from = reinterpret_cast<const char *>(f.data()) + at;
    return Name(from, name_length(f, at, width));
}

// ---- records; "A float is known by its 32 bits, NaN included."

struct Bone {
    Name name;
    u32 frame;
    std::array<u32, 7> floats; // translation 3 floats, rotation 4 floats
    std::array<u8, 64> interpolation;
};
struct Morph {
    Name name;
    u32 frame, weight;
};
struct Camera {
    u32 frame;
    std::array<u32, 7> floats; // distance, position 3, rotation 3
    std::array<u8, 24> interpolation;
    u32 view;
    bool perspective;
};
struct Light {
    u32 frame;
    std::array<u32, 6> floats; // color 3 floats, direction 3 floats
};
struct Shadow {
    u32 frame;
    u8 mode;
    u32 distance;
};
struct Ik {
    Name name;
    bool enabled;
};
struct Property {
    u32 frame;
    bool visible;
    std::vector<Ik> iks;
};
struct Take {
    Name model;
    std::vector<Bone> bones;
    std::vector<Morph> morphs;
    std::vector<Camera> cameras;
    std::vector<Light> lights;
    std::vector<Shadow> shadows;
    std::vector<Property> properties;
};

// "those of the same number agree in every field: names as the bytes before the first zero, floats by their 32 bits, flags as
// true or false, IK states in number, order and each field, all else byte for byte"
inline bool operator==(const Bone &a, const Bone &b) {
    return std::tie(a.name, a.frame, a.floats, a.interpolation) == std::tie(b.name, b.frame, b.floats, b.interpolation);
}
inline bool operator==(const Morph &a, const Morph &b) {
    return std::tie(a.name, a.frame, a.weight) == std::tie(b.name, b.frame, b.weight);
}
inline bool operator==(const Camera &a, const Camera &b) {
    return std::tie(a.frame, a.floats, a.interpolation, a.view, a.perspective) ==
           std::tie(b.frame, b.floats, b.interpolation, b.view, b.perspective);
}
inline bool operator==(const Light &a, const Light &b) { return a.frame == b.frame && a.floats == b.floats; }
inline bool operator==(const Shadow &a, const Shadow &b) {
    return std::tie(a.frame, a.mode, a.distance) == std::tie(b.frame, b.mode, b.distance);
}
inline bool operator==(const Ik &a, const Ik &b) { return a.name == b.name && a.enabled == b.enabled; }
inline bool operator==(const Property &a, const Property &b) {
    return std::tie(a.frame, a.visible, a.iks) == std::tie(b.frame, b.visible, b.iks);
}
inline bool operator==(const Take &a, const Take &b) {
    return std::tie(a.model, a.bones, a.morphs, a.cameras, a.lights, a.shadows, a.properties) ==
           std::tie(b.model, b.bones, b.morphs, b.cameras, b.lights, b.shadows, b.properties);
}

// "name 15, frame u32, translation 3 floats, rotation 4 floats, interpolation 64 bytes"
inline Bone bone_at(const Bytes &f, u64 at) {
    return {name(f, at, bone_name_width), number(f, at + 15), numbers<7>(f, at + 19), bytes<64>(f, at + 47)};
}
// "name 15, frame u32, weight float"
inline Morph morph_at(const Bytes &f, u64 at) {
    return {name(f, at, bone_name_width), number(f, at + 15), number(f, at + 19)};
}
// "frame u32, distance float, position 3, rotation 3, interpolation 24 bytes, field of view u32, perspective byte";
// "Camera perspective is true when its byte is 0, false otherwise."
inline Camera camera_at(const Bytes &f, u64 at) {
    const u8 flag = f[at + 60];
    const bool perspective = altered(PerspectiveOne) ? flag == 1 : flag == 0;
    return {number(f, at), numbers<7>(f, at + 4), bytes<24>(f, at + 32), number(f, at + 56), perspective};
}
// "frame u32, color 3 floats, direction 3 floats"
inline Light light_at(const Bytes &f, u64 at) { return {number(f, at), numbers<6>(f, at + 4)}; }
// "frame u32, mode byte, distance float"; "Self-shadow mode is any byte in the reader."
inline Shadow shadow_at(const Bytes &f, u64 at) {
    const u8 mode = altered(ModeFlag) ? std::min<u8>(f[at + 4], 2) : f[at + 4];
    return {number(f, at), mode, number(f, at + 5)};
}
// "name 20, enabled byte"; "visible and IK enabled are true when their byte is not 0"
inline Ik ik_at(const Bytes &f, u64 at) {
    const u8 flag = f[at + 20];
    return {name(f, at, ik_name_width), altered(EnabledOnlyOne) ? flag == 1 : flag != 0};
}
// "frame u32, visible byte, IK count u32, then its IK states"
inline bool visible_at(const Bytes &f, u64 at) { return altered(VisibleOnlyOne) ? f[at + 4] == 1 : f[at + 4] != 0; }
inline u32 ik_count_at(const Bytes &f, u64 at) { return number(f, at + 5); }
inline Property property_at(const Bytes &f, u64 at) {
    Property p{number(f, at), visible_at(f, at), {}};
    for (u64 j = 0; j < ik_count_at(f, at); j++) p.iks.push_back(ik_at(f, at + 9 + ik_size * j));
    return p;
}

// ---- header, both editions

struct Header {
    int refusal;
    u64 width; // of the model name, which begins at 30; the sections follow it
};

inline const Name newer_magic = Name("Vocaloid Motion Data 0002") + Name(5, '\0');
inline const Name older_magic = Name("Vocaloid Motion Data file") + Name(5, '\0');
constexpr u64 model_place = 30;

// "The file is VMD when its first 26 bytes equal the magic .. and a zero byte; bytes 26 to 29 may be anything."
inline bool starts_with(const Bytes &f, const Name &magic, u64 asked) {
    return std::equal(magic.begin(), magic.begin() + static_cast<std::ptrdiff_t>(asked), f.begin(),
                      [](char a, u8 b) { return static_cast<u8>(a) == b; });
}

inline Header read_header(const Bytes &f) {
    // "fewer than 30 bytes is refusal 1"
    if (f.size() < 30) return {1, 0};
    // "Then 20 bytes of model name; too few is 1."
    if (starts_with(f, newer_magic, altered(MagicWhole) ? 30 : 26)) {
        if (f.size() < 50) return {altered(ShortHeaderIs2) ? 2 : 1, 0};
        return {0, 20};
    }
    // e) "start with `Vocaloid Motion Data file` and a zero byte, in a 30-byte field, then a model name of 10 bytes .. now
    // read, with 1 where fewer than 40 bytes are there"
    if (starts_with(f, older_magic, altered(OlderMagicNoZero) ? 25 : 26) && !altered(OlderStillRefused)) {
        if (f.size() < 40) return {altered(OlderShortIs2) ? 2 : 1, 0};
        if (altered(OlderNameOf20)) return f.size() < 50 ? Header{1, 0} : Header{0, 20};
        return {0, 10};
    }
    // "Else refusal 2, also when fewer than 50 bytes are there."
    return {2, 0};
}

// ---- reading a whole file

// i) "Strict opening by default."; "accepted in the lenient manner and is 17 in the strict one". header: a call without a
// manner in its name is strict, and one whose name ends in _lenient stands beside it.
enum class Manner { strict, lenient };
constexpr Manner manners[] = {Manner::strict, Manner::lenient};

// Where reading came to its end, and with which number. The rest is for counting what a run met, and for the laws of files
// that are turned down.
struct Stop {
    int refusal = 0;    // 0, 1, 2, 16 or 17
    int section = 0;    // at which it came to its end
    bool there = false; // whether the section's count is, whole
    u32 count = 0;
    u64 left = 0;      // bytes after an oversized count, or after the last property frame
    bool walk = false; // the file ended in the property frames, for which it had nine bytes each
};

struct Opening {
    Stop stop;
    std::array<u32, 6> counts{};
    std::array<u64, 6> places{};
    u64 iks = 0;
    u32 smallest = 0, largest = 0;
    Longs property_places; // of every property frame
    Take take;
};

// "The largest frame is over all six sections, 0 with no records."
// c) "the smallest frame over all six sections, 0 with no records"
inline std::vector<Words> frames(const Take &t) {
    std::vector<Words> all(6);
    for (const Bone &r : t.bones) all[bones].push_back(r.frame);
    for (const Morph &r : t.morphs) all[morphs].push_back(r.frame);
    for (const Camera &r : t.cameras) all[cameras].push_back(r.frame);
    for (const Light &r : t.lights) all[lights].push_back(r.frame);
    for (const Shadow &r : t.shadows) all[shadows].push_back(r.frame);
    for (const Property &r : t.properties) all[properties].push_back(r.frame);
    return all;
}

inline u32 largest_frame(const std::vector<Words> &all) {
    u32 largest = 0;
    for (const Words &section : all)
        for (u32 frame : section) largest = std::max(largest, frame);
    return largest;
}

inline u32 smallest_frame(const std::vector<Words> &all) {
    std::optional<u32> smallest;
    const auto count = [&](u32 frame) { smallest = smallest ? std::min(*smallest, frame) : frame; };
    for (int s = 0; s < 6; s++) {
        if (altered(SmallestTwoSections) && s > morphs) continue;
        if (altered(SmallestNoProperties) && s == properties) continue;
        if (altered(SmallestEmptySections) && all[s].empty()) count(0);
        for (u32 frame : all[s]) {
            if (altered(SmallestNotZero) && frame == 0) continue;
            count(frame);
            if (altered(SmallestFirstRecords)) break;
        }
    }
    return smallest.value_or(altered(SmallestNoneLargest) ? 0xFFFFFFFF : 0);
}

inline void read_records(const Bytes &f, int section, u64 at, u32 count, Take &t) {
    for (u64 i = 0; i < count; i++, at += record_size[section]) {
        if (section == bones) t.bones.push_back(bone_at(f, at));
        if (section == morphs) t.morphs.push_back(morph_at(f, at));
        if (section == cameras) t.cameras.push_back(camera_at(f, at));
        if (section == lights) t.lights.push_back(light_at(f, at));
        if (section == shadows) t.shadows.push_back(shadow_at(f, at));
    }
}

// "Property counts are tested at 9 bytes each first; a later frame can still find the file ended, also 1." The first test is
// the caller's. Gives where the frames end, or nothing where the file ends early.
inline std::optional<u64> read_properties(const Bytes &f, u64 at, u32 count, Opening &o) {
    for (u64 i = 0; i < count; i++) {
        if (f.size() - at < 9) return {};
        const u64 states = ik_size * ik_count_at(f, at);
        if (f.size() - at - 9 < states) return {};
        o.property_places.push_back(at);
        o.take.properties.push_back(property_at(f, at));
        at += 9 + states;
    }
    return at;
}

// "A bone, morph, property or IK count whose records exceed the bytes left is refusal 1."; "A camera, light or self-shadow
// count that exceeds the bytes left is accepted: that section is empty, the reader goes to the end, so later sections are empty
// too."; i) "17 an oversized camera, light or self-shadow count". "The Rust's reading is what the lenient manner gives".
inline int oversized(int s, u32 count, u64 left, Manner manner) {
    const bool strict = manner == Manner::strict;
    if (strict && altered(StrictBonesAre17) && s == bones) return 17;
    if (strict && altered(StrictMorphsAre17) && s == morphs) return 17;
    if (strict && altered(StrictPropertiesAre17) && s == properties) return 17;
    if (s < cameras || s == properties) return 1;
    if (altered(OversizedCameraRefused) && s == cameras) return 1;
    if (altered(OversizedShadowRefused) && s == shadows) return 1;
    if (altered(LenientLights17) && s == lights) return 17;
    if (!strict) return 0;
    if (altered(StrictCamerasEmptied) && s == cameras) return 0;
    if (altered(StrictLightsEmptied) && s == lights) return 0;
    if (altered(StrictShadowsEmptied) && s == shadows) return 0;
    if (altered(StrictLargestEmptied) && count == 0xFFFFFFFF) return 0;
    if (altered(StrictOneRecordMore) && count == left / record_size[s] + 1) return 0;
    if (altered(StrictOneByteShort) && count * record_size[s] == left + 1) return 0;
    if (altered(StrictNothingBehind) && left == 0) return 0;
    if (altered(StrictOversizedIs1)) return 1;
    return altered(StrictNumbersSwapped) ? 16 : 17;
}

// "Bytes after the last property frame are ignored."; i) "16 bytes after the last property frame, or after its count of 0"
inline int bytes_over(const Bytes &f, u64 end, u32 count, Manner manner) {
    const u64 over = f.size() - end;
    if (over == 0) return 0;
    if (altered(BytesOverRefused)) return 1;
    if (altered(LenientOver16)) return 16;
    if (manner == Manner::lenient) return 0;
    if (altered(StrictOverAfterFrames) && count == 0) return 0;
    if (altered(StrictOverAfterNone) && count > 0) return 0;
    if (altered(StrictOneByteOver) && over == 1) return 0;
    if (altered(StrictThreeBytesOver) && over <= 3) return 0;
    if (altered(StrictZeroByteOver) && over == 1 && f.back() == 0) return 0;
    const auto zero = [](u8 b) { return b == 0; };
    if (altered(StrictZerosOver) && std::all_of(f.begin() + static_cast<std::ptrdiff_t>(end), f.end(), zero)) return 0;
    if (altered(StrictOverIs1)) return 1;
    return altered(StrictNumbersSwapped) ? 17 : 16;
}

// "The bone count is required"; "At any later count, no bytes left means that this section and all after it are empty. One to
// three bytes left is refusal 1." i) has nothing of missing counts: they are accepted in both manners.
inline int cut_count(int s, u64 left, Manner manner) {
    const bool strict = manner == Manner::strict, whole = s > bones || altered(BoneCountOptional);
    if (left == 0 && whole) return altered(StrictMissingRefused) && strict ? 1 : 0;
    if (altered(ThreeBytesAreNone) && s > bones) return 0;
    return altered(StrictCutCountIs17) && strict && s >= cameras && s <= shadows ? 17 : 1;
}

// "each a u32 count, then records"; i) "both as met in the file": a number is given where its cause is met, and nothing after
// it is looked at.
inline Stop read_sections(const Bytes &f, u64 at, Manner manner, Opening &o) {
    const bool strict = manner == Manner::strict;
    for (int s = bones; s <= properties; s++) {
        u64 left = f.size() - at;
        if (left < 4) return {cut_count(s, left, manner), s, false, 0, left, false};
        const u32 count = number(f, at);
        at += 4, left -= 4;
        if (u64{count} * record_size[s] > left) {
            if (altered(EmptiedPlaceKept)) o.places[s] = at;
            if (altered(LightsAfterOversized) && s == cameras && !strict) continue;
            return {oversized(s, count, left, manner), s, true, count, left, false};
        }
        o.counts[s] = count;
        // "A section's place is just after its count"
        o.places[s] = altered(PlaceBeforeCount) ? at - 4 : at;
        if (s == properties) {
            const auto end = read_properties(f, at, count, o);
            if (end) return {bytes_over(f, *end, count, manner), s, true, count, f.size() - *end, false};
            const bool early = altered(StrictOverBefore1) && strict && left > 9 * u64{count};
            return {early ? 16 : altered(StrictIksAre17) && strict ? 17 : 1, s, true, count, 0, true};
        }
        read_records(f, s, at, count, o.take);
        at += u64{count} * record_size[s];
    }
    return {};
}

// Of a refused file nothing is read: "the number only".
inline Opening refused(const Stop &stop) {
    Opening o;
    o.stop = stop;
    return o;
}

// Errors of the order, for altered models alone: whether 16 or 17 is given in place of a 2, or of a 1 that is met first.
inline int strict_too_early(const Bytes &f, u64 at, const Stop &stop) {
    const bool two = altered(StrictBefore2) && stop.refusal == 2 && f.size() >= 50;
    const bool one = altered(StrictOversizedBefore1) && stop.refusal == 1 && stop.section < cameras && stop.there;
    if (!two && !one) return 0;
    Bytes other = f;
    if (one) std::fill_n(other.end() - static_cast<std::ptrdiff_t>(stop.left) - 4, 4, u8{0}); // the count, as if it were 0
    if (two) at = 50;
    Opening ignored;
    const int refusal = read_sections(other, at, Manner::strict, ignored).refusal;
    return refusal >= 16 ? refusal : 0;
}

// "Opening checks a whole file and gives six counts, the number of IK states, largest frame and section places."
inline Opening open(const Bytes &f, Manner manner) {
    const Header header = read_header(f);
    if (altered(OlderFilesStrict) && header.width == 10) manner = Manner::strict;
    if (altered(OlderFilesLenient) && header.width == 10) manner = Manner::lenient;
    Opening o;
    o.stop.refusal = header.refusal;
    if (!header.refusal) {
        o.take.model = name(f, model_place, header.width);
        // "or the file's length where the count is missing or the section was emptied"
        o.places.fill(altered(MissingPlaceZero) ? 0 : f.size());
        o.stop = read_sections(f, model_place + header.width, manner, o);
    }
    if (manner == Manner::strict)
        if (const int early = strict_too_early(f, model_place + header.width, o.stop)) o.stop.refusal = early;
    if (o.stop.refusal) return refused(o.stop);
    for (const Property &p : o.take.properties) o.iks = p.iks.size() + (altered(IkOfLastFrame) ? 0 : o.iks);
    const std::vector<Words> all = frames(o.take);
    o.smallest = smallest_frame(all);
    o.largest = largest_frame(all);
    if (altered(OlderPlacesWidened) && header.width == 10)
        for (u64 &place : o.places) place += 10;
    return o;
}

// What the builder takes, and what a take yields.
struct Parts {
    Bytes model; // the builder's alone; of a take it has a call of its own
    Bytes bone_bytes;
    Words bone_ends;
    Bytes morph_bytes;
    Words morph_ends;
    Bytes cameras, lights, shadows, properties; // back-to-back records
    Words bone_indices, bone_frames, translations, rotations;
    Bytes interpolations;
    Words morph_indices, morph_frames, weights;
};

// j) "Given a first and a last frame"
struct Span {
    u32 first, last;
};
inline bool operator==(const Span &a, const Span &b) { return a.first == b.first && a.last == b.last; }

// The excerpt that was asked for last.
struct Excerpt {
    Span span;
    Take take;
    Bytes whole;
};

// What opening a file in one manner reads.
struct Reading {
    Opening opening;
    // worked out once, where they are asked for: see exported, tidied, parts and excerpted
    mutable std::optional<Bytes> its_export;
    mutable std::optional<Take> its_tidied, its_raw_tidied; // the latter by raw names, for altered models alone
    mutable std::optional<Parts> its_parts;
    mutable std::optional<Excerpt> its_excerpt;
    const Take &take() const { return opening.take; }
    int refusal() const { return opening.stop.refusal; }
};

// A file; a call takes it as the bytes that are lent, and reads it in a manner.
struct File {
    Bytes bytes;
    u64 serial;
    mutable std::array<std::optional<Reading>, 2> readings;
    explicit File(Bytes contents) : bytes(std::move(contents)) {
        static u64 last = 0;
        serial = ++last;
    }
    const Reading &in(Manner manner) const {
        auto &reading = readings[manner == Manner::strict ? 0 : 1];
        if (!reading) reading = Reading{open(bytes, manner), {}, {}, {}, {}, {}};
        return *reading;
    }
};

// The calls that read a whole take in either manner (header: those that have a twin). Altered models alone ask which it is.
enum class Call {
    parse,
    export_size,
    exporting,
    older_size,
    older,
    join_size,
    join,
    tidy_size,
    tidy,
    split_sizes,
    split,
    excerpt_size,
    excerpt
};
static_assert(StrictExcerptLenient - StrictParseLenient == static_cast<int>(Call::excerpt), "an alteration for each call");
static_assert(LenientExcerptStrict - LenientParseStrict == static_cast<int>(Call::excerpt), "and one for each twin");

// i) "Every call that reads a whole take without a named manner, those of earlier requests included, now turns such files
// down."
inline const Reading &read(const File &f, Call call, Manner manner) {
    if (alteration == StrictParseLenient + static_cast<int>(call)) return f.in(Manner::lenient);
    if (alteration == LenientParseStrict + static_cast<int>(call)) return f.in(Manner::strict);
    return f.in(manner);
}

// A 16 or 17 that an altered model tests later: the reading by which it goes on until then, else nothing.
inline const Reading *late(Alteration which, const File &f, Manner manner) {
    return altered(which) && f.in(manner).refusal() >= 16 ? &f.in(Manner::lenient) : nullptr;
}

// f) "Place j now holds the position of property frame 16j only"; "fewer than a sixteenth of the frames, rounded up"
inline u64 frames_per_place() { return altered(ScratchEachEighth) ? 8 : 16; }
inline u64 places_needed(u64 property_frames) {
    if (altered(ScratchRoundedDown)) return property_frames / 16;
    if (altered(ScratchEachFrame)) return property_frames;
    return (property_frames + frames_per_place() - 1) / frames_per_place();
}

// "Opening: 1 and 2 as met, then 3."; i) 16 and 17 "both as met in the file", so they stand where 1 and 2 do
inline int parse_animation(const File &f, Manner manner, Longs &scratch, Words &counts, Longs &places, Longs &totals) {
    const Opening &o = read(f, Call::parse, manner).opening;
    if (const Reading *on = late(StrictParseAfter3, f, manner))
        if (scratch.size() < places_needed(on->opening.property_places.size())) return 3;
    if (const Reading *on = late(StrictScratchWritten, f, manner))
        for (u64 j = 0; j < scratch.size() && 16 * j < on->opening.property_places.size(); j++)
            scratch[j] = on->opening.property_places[16 * j];
    if (o.stop.refusal) return o.stop.refusal;
    if (scratch.size() < places_needed(o.property_places.size())) return 3;
    // "receives the byte position .. first places first; further places keep their contents"
    for (u64 i = 0; i < o.property_places.size(); i += frames_per_place())
        if (i / frames_per_place() < scratch.size()) scratch[i / frames_per_place()] = o.property_places[i];
    if (altered(ScratchRestCleared))
        for (u64 j = places_needed(o.property_places.size()); j < scratch.size(); j++) scratch[j] = 0;
    counts.assign(o.counts.begin(), o.counts.end());
    places.assign(o.places.begin(), o.places.end());
    // header: "the number of IK states, the smallest frame and the largest"
    totals = {o.iks, o.smallest, o.largest};
    if (altered(SmallestAfterLargest)) std::swap(totals[1], totals[2]);
    return 0;
}

// ---- records by number

// Whether n bytes at a place are in the file; "a place whose sum would wrap, counts as outside the file".
inline bool inside(const Bytes &f, wide at, u64 n) { return at + n + (altered(FetchOneShort) ? 1 : 0) <= f.size(); }

// "gives the record that the layout reads at the place these name, or refusal 4"; "record or IK number at or above the count,
// or its place outside the file" is 4: nothing.
inline std::optional<u64> record_place(const Bytes &f, const Words &counts, const Longs &places, int section, u64 i) {
    const u64 limit = altered(CountsNotAsked) ? 0xFFFFFFFF : u64{counts[section]} + (altered(FetchAtCount) ? 1 : 0);
    if (i >= limit) return {};
    wide at = wide{places[section]} + wide{i} * record_size[section];
    if (altered(FetchWraps)) at = static_cast<u64>(at);
    if (!inside(f, at, record_size[section])) return {};
    return static_cast<u64>(at);
}

// The place after a whole property frame, or nothing where it is not in the file.
inline std::optional<u64> after_property(const Bytes &f, wide at) {
    if (!inside(f, at, 9)) return {};
    const wide end = at + 9 + ik_size * ik_count_at(f, static_cast<u64>(at));
    // header: "each frame walked over has to have its nine bytes and its IK states in it"
    if (end > f.size() && !altered(WalkUnchecked)) return {};
    return static_cast<u64>(end);
}

// f) "a fetch walks on from there over at most 15 frames"; "a walk that leaves the file is 4"; "a scratch too short for the
// number .. counts as outside the file"; header: "the frame asked for its nine bytes".
inline std::optional<u64> property_place(const Bytes &f, const Words &counts, const Longs &scratch, u64 i) {
    if (i >= u64{counts[properties]} + (altered(FetchAtCount) ? 1 : 0)) return {};
    u64 j = i / frames_per_place(), walk = i % frames_per_place();
    if (altered(WalkSixteen) && walk == 0 && j > 0) j--, walk = 16;
    if (altered(WalkFromLast) && j >= scratch.size() && !scratch.empty()) j = scratch.size() - 1;
    if (j >= scratch.size()) return {};
    std::optional<u64> at = scratch[j];
    for (u64 n = 0; n < walk && at; n++) at = after_property(f, *at);
    if (!at || !inside(f, *at, 9)) return {};
    if (altered(WalkAskedWhole) && !after_property(f, *at)) return {};
    return at;
}

// header: "and an IK state asked for its own 21"
inline std::optional<u64> ik_place(const Bytes &f, const Words &counts, const Longs &scratch, u64 i, u64 j) {
    const auto frame = property_place(f, counts, scratch, i);
    if (!frame || j >= u64{ik_count_at(f, *frame)} + (altered(IkAtCount) ? 1 : 0)) return {};
    const wide at = wide{*frame} + 9 + wide{ik_size} * j;
    if (!inside(f, at, ik_size)) return {};
    return static_cast<u64>(at);
}

template <std::size_t N> void append(Words &record, const std::array<u32, N> &floats) {
    record.insert(record.end(), floats.begin(), floats.end());
}

// header: "frame, translation x y z, rotation x y z w"
inline Words fields(const Bone &b) {
    Words record{b.frame};
    append(record, b.floats);
    return record;
}
// header: "frame, weight"
inline Words fields(const Morph &m) { return {m.frame, m.weight}; }
// header: "frame, distance, position x y z, rotation x y z, field of view, perspective (1 where it is on ..)"
inline Words fields(const Camera &c) {
    Words record{c.frame};
    append(record, c.floats);
    record.push_back(c.view);
    record.push_back(c.perspective ? 1 : 0);
    return record;
}
// header: "frame, color r g b, direction x y z"
inline Words fields(const Light &l) {
    Words record{l.frame};
    append(record, l.floats);
    return record;
}
// header: "frame, mode, distance"
inline Words fields(const Shadow &s) { return {s.frame, s.mode, s.distance}; }

inline int bone_frame(const Bytes &f, const Words &counts, const Longs &places, u64 i, Words &record) {
    const auto at = record_place(f, counts, places, bones, i);
    if (!at) return 4;
    record = fields(bone_at(f, *at));
    return 0;
}
inline int morph_frame(const Bytes &f, const Words &counts, const Longs &places, u64 i, Words &record) {
    const auto at = record_place(f, counts, places, morphs, i);
    if (!at) return 4;
    record = fields(morph_at(f, *at));
    return 0;
}
inline int camera_frame(const Bytes &f, const Words &counts, const Longs &places, u64 i, Words &record) {
    const auto at = record_place(f, counts, places, cameras, i);
    if (!at) return 4;
    record = fields(camera_at(f, *at));
    return 0;
}
inline int light_frame_bits(const Bytes &f, const Words &counts, const Longs &places, u64 i, Words &record) {
    const auto at = record_place(f, counts, places, lights, i);
    if (!at) return 4;
    record = fields(light_at(f, *at));
    return 0;
}
// header: "color r g b, direction x y z"; the frame has a slot of its own
inline int light_frame(const Bytes &f, const Words &counts, const Longs &places, u64 i, Words &frame, Words &values) {
    Words record;
    if (light_frame_bits(f, counts, places, i, record)) return 4;
    frame = {record[0]};
    values.assign(record.begin() + 1, record.end());
    return 0;
}
inline int self_shadow_frame(const Bytes &f, const Words &counts, const Longs &places, u64 i, Words &record) {
    const auto at = record_place(f, counts, places, shadows, i);
    if (!at) return 4;
    record = fields(shadow_at(f, *at));
    return 0;
}
// header: "frame, visible (0 or 1), number of IK states"
inline Words property_fields(const Bytes &f, u64 at) {
    return {number(f, at), visible_at(f, at) ? u32{1} : u32{0}, ik_count_at(f, at)};
}
inline int property_frame(const Bytes &f, const Words &counts, const Longs &scratch, u64 i, Words &record) {
    const auto at = property_place(f, counts, scratch, i);
    if (!at) return 4;
    record = property_fields(f, *at);
    return 0;
}
// header: "The property frame at a place of the file .. and the place of the next one"; "4 where they, or the IK states that
// they count, are not in the file"
inline int property_frame_at(const Bytes &f, u64 place, Words &record, Longs &next) {
    const auto end = after_property(f, place);
    if (!end || (altered(WalkAtOneShort) && *end == f.size())) return 4;
    record = property_fields(f, place);
    next = {*end};
    return 0;
}
// header: "IK state j of property frame i: enabled (0 or 1)"
inline int ik_state(const Bytes &f, const Words &counts, const Longs &scratch, u64 i, u64 j, Words &enabled) {
    const auto at = ik_place(f, counts, scratch, i, j);
    if (!at) return 4;
    enabled = {ik_at(f, *at).enabled ? u32{1} : u32{0}};
    return 0;
}

// ---- names and interpolation bytes

// header: "part receives where the bytes begin in the file, and how many there are; 0, 0 where there are none."
inline Longs part(u64 at, u64 n) { return n == 0 ? Longs{0, 0} : Longs{at, n}; }

// "in place of refusal 4 .. that part is empty"
inline Longs name_part(const Bytes &f, std::optional<u64> at, u64 width) {
    return at ? part(*at, name_length(f, *at, width)) : part(0, 0);
}
inline Longs bone_name(const Bytes &f, const Words &counts, const Longs &places, u64 i) {
    return name_part(f, record_place(f, counts, places, bones, i), bone_name_width);
}
inline Longs morph_name(const Bytes &f, const Words &counts, const Longs &places, u64 i) {
    return name_part(f, record_place(f, counts, places, morphs, i), bone_name_width);
}
inline Longs ik_name(const Bytes &f, const Words &counts, const Longs &scratch, u64 i, u64 j) {
    return name_part(f, ik_place(f, counts, scratch, i, j), ik_name_width);
}
// "or for a model name whose header is refused, that part is empty"
// header: "vmd_model_name and vmd_joined_model read no whole take and have no manner"
inline Longs model_name(const Bytes &f) {
    const Header header = read_header(f);
    if (altered(ModelNameUntested) && header.refusal && f.size() >= 50) return name_part(f, model_place, 20);
    if (altered(ModelNameOfAccepted) && open(f, Manner::lenient).stop.refusal) return part(0, 0);
    if (altered(ModelNameStrict) && open(f, Manner::strict).stop.refusal >= 16) return part(0, 0);
    return header.refusal ? part(0, 0) : name_part(f, model_place, header.width);
}
inline Longs bone_interpolation(const Bytes &f, const Words &counts, const Longs &places, u64 i) {
    const auto at = record_place(f, counts, places, bones, i);
    return at ? part(*at + 47, 64) : part(0, 0);
}
inline Longs camera_interpolation(const Bytes &f, const Words &counts, const Longs &places, u64 i) {
    const auto at = record_place(f, counts, places, cameras, i);
    return at ? part(*at + 32, 24) : part(0, 0);
}

// ---- the canonical file

inline bool is_nan(u32 bits) { return (bits & 0x7FFFFFFF) > 0x7F800000; }

inline void put(Bytes &out, u32 value) {
    const u8 little_endian[4] = {static_cast<u8>(value), static_cast<u8>(value >> 8), static_cast<u8>(value >> 16),
                                 static_cast<u8>(value >> 24)};
    out.insert(out.end(), little_endian, little_endian + 4);
}
inline void put_float(Bytes &out, u32 bits) {
    if (altered(ZeroesMerged) && bits == 0x80000000) bits = 0;
    if (altered(NanMerged) && is_nan(bits)) bits = 0x7FC00000;
    put(out, bits);
}
template <std::size_t N> void put_floats(Bytes &out, const std::array<u32, N> &floats) {
    for (u32 bits : floats) put_float(out, bits);
}
// "names padded with zeros"
inline void put_name(Bytes &out, const Name &n, u64 width) {
    const u64 length = std::min<u64>(n.size(), width); // longer names are met by altered models alone
    out.insert(out.end(), n.begin(), n.begin() + static_cast<std::ptrdiff_t>(length));
    out.insert(out.end(), width - length, u8{0});
}
// "flags as 0 or 1 (perspective true is 0)"
inline void put_flag(Bytes &out, bool flag) { out.push_back(flag ? 1 : 0); }

inline void put_record(Bytes &out, const Bone &b) {
    put_name(out, b.name, bone_name_width);
    put(out, b.frame);
    put_floats(out, b.floats);
    out.insert(out.end(), b.interpolation.begin(), b.interpolation.end());
}
inline void put_record(Bytes &out, const Morph &m) {
    put_name(out, m.name, bone_name_width);
    put(out, m.frame);
    put_float(out, m.weight);
}
inline void put_record(Bytes &out, const Camera &c) {
    put(out, c.frame);
    put_floats(out, c.floats);
    out.insert(out.end(), c.interpolation.begin(), c.interpolation.end());
    put(out, c.view);
    put_flag(out, !c.perspective);
}
inline void put_record(Bytes &out, const Light &l) {
    put(out, l.frame);
    put_floats(out, l.floats);
}
inline void put_record(Bytes &out, const Shadow &s) {
    put(out, s.frame);
    out.push_back(s.mode);
    put_float(out, s.distance);
}
inline void put_record(Bytes &out, const Property &p) {
    put(out, p.frame);
    put_flag(out, p.visible);
    put(out, static_cast<u32>(p.iks.size()));
    for (const Ik &ik : p.iks) {
        put_name(out, ik.name, ik_name_width);
        put_flag(out, ik.enabled);
    }
}
template <class Record> void put_records(Bytes &out, const std::vector<Record> &records) {
    for (const Record &r : records) put_record(out, r);
}
template <class Record> void put_section(Bytes &out, const std::vector<Record> &records) {
    put(out, static_cast<u32>(records.size()));
    put_records(out, records);
}

// "74 + 111b + 23m + 61c + 28l + 9s + 9p + 21k bytes"
inline u64 canonical_size(const Take &t) {
    u64 k = 0;
    for (const Property &p : t.properties) k += p.iks.size();
    return 74 + 111 * t.bones.size() + 23 * t.morphs.size() + 61 * t.cameras.size() + 28 * t.lights.size() +
           9 * t.shadows.size() + 9 * t.properties.size() + 21 * k;
}

// "It writes the 30-byte magic with its five zero bytes, names padded with zeros, all six counts"
inline Bytes canonical(const Take &t) {
    Bytes out;
    out.reserve(canonical_size(t));
    put_name(out, newer_magic, 30);
    put_name(out, t.model, 20);
    put_section(out, t.bones);
    put_section(out, t.morphs);
    put_section(out, t.cameras);
    put_section(out, t.lights);
    put_section(out, t.shadows);
    put_section(out, t.properties);
    return out;
}

// e) "writes the older edition, 10 bytes shorter than the export, with zeros after the magic and the name, then the export's
// bytes from its bone count on"
inline Bytes canonical_older(const Take &t) {
    Bytes out;
    put_name(out, altered(OlderMagicLeft) ? newer_magic : older_magic, 30);
    put_name(out, t.model, 10);
    const Bytes whole = canonical(t);
    out.insert(out.end(), whole.begin() + 50, whole.end());
    return out;
}

inline const Bytes &exported(const Reading &f) {
    if (!f.its_export) f.its_export = canonical(f.take());
    return *f.its_export;
}

// ---- saving and joining

// "writes .. at the front of the output; the rest of the output keeps its contents"; "output shorter than the export" is 13
inline int save(const Bytes &whole, Bytes &out, Longs &written) {
    if (altered(RefusedWritesSize)) written = {whole.size()};
    if (out.size() < whole.size() + (altered(ExactIs13) ? 1 : 0)) return 13;
    std::copy(whole.begin(), whole.end(), out.begin());
    if (altered(OutputCleared)) std::fill(out.begin() + static_cast<std::ptrdiff_t>(whole.size()), out.end(), u8{0});
    written = {whole.size()};
    return 0;
}

// "Export: 1, 2, 13."; i) as met
inline int export_size(const File &file, Manner manner, Longs &size) {
    const Reading &f = read(file, Call::export_size, manner);
    if (const Reading *on = late(StrictSizeWritten, file, manner)) size = {canonical_size(on->take())};
    if (f.refusal()) return f.refusal();
    size = {canonical_size(f.take())};
    return 0;
}
inline int export_animation(const File &file, Manner manner, Bytes &out, Longs &written) {
    const Reading &f = read(file, Call::exporting, manner);
    if (const Reading *on = late(StrictExportAfter13, file, manner))
        if (out.size() < canonical_size(on->take())) return 13;
    if (f.refusal()) return f.refusal();
    if (altered(OlderExported) && read_header(file.bytes).width == 10) return save(canonical_older(f.take()), out, written);
    return save(exported(f), out, written);
}

// e) "15 the model name is over 10 bytes, converter only, tested just before 13"
inline u64 older_limit() { return altered(OlderLimit9) ? 9 : altered(OlderLimit11) ? 11 : 10; }
inline int export_older_size(const File &file, Manner manner, Longs &size) {
    const Reading &f = read(file, Call::older_size, manner);
    if (const Reading *on = late(StrictOlderAfter15, file, manner))
        if (on->take().model.size() > older_limit()) return 15;
    if (f.refusal()) return f.refusal();
    if (f.take().model.size() > older_limit()) return 15;
    size = {canonical_size(f.take()) - 10};
    return 0;
}
inline int export_older_animation(const File &file, Manner manner, Bytes &out, Longs &written) {
    const Reading &f = read(file, Call::older, manner);
    if (const Reading *on = late(StrictOlderAfter15, file, manner))
        if (on->take().model.size() > older_limit()) return 15;
    if (const Reading *on = late(StrictOlderAfter13, file, manner))
        if (on->take().model.size() <= older_limit() && out.size() < canonical_size(on->take()) - 10) return 13;
    if (f.refusal()) return f.refusal();
    Bytes whole = canonical_older(f.take());
    if (altered(OlderAfter13) && out.size() < whole.size()) return 13;
    if (f.take().model.size() > older_limit()) return 15;
    if (altered(OlderFieldKept)) std::copy(file.bytes.begin() + 26, file.bytes.begin() + 30, whole.begin() + 26);
    return save(whole, out, written);
}

template <class Record> void extend(std::vector<Record> &first, const std::vector<Record> &second) {
    first.insert(first.end(), second.begin(), second.end());
}

// "the take whose every section is the first file's records, then the second's. The joined model name is the first file's
// where that is not empty, else the second's."
inline Take join(const Take &first, const Take &second) {
    const Take &front = altered(JoinSwapped) ? second : first, &back = altered(JoinSwapped) ? first : second;
    Take joined = front;
    joined.model = first.model.empty() ? second.model : first.model;
    if (altered(JoinModelSecond) && !second.model.empty()) joined.model = second.model;
    extend(joined.bones, back.bones);
    extend(joined.morphs, back.morphs);
    if (altered(JoinMorphsSwapped)) joined.morphs = second.morphs, extend(joined.morphs, first.morphs);
    extend(joined.cameras, back.cameras);
    extend(joined.lights, back.lights);
    extend(joined.shadows, back.shadows);
    extend(joined.properties, back.properties);
    return joined;
}

// "Joining: first file, second file, 11, 13."; 11 is "a section count above 4,294,967,295". i) 16 and 17 are met in a file: all
// of the first file's numbers stand before any of the second's.
inline int join_refusal(const Reading &first, const Reading &second) {
    const int of_first = first.refusal(), of_second = second.refusal();
    if (altered(JoinSecondRefusedFirst) && of_second) return of_second;
    if (altered(JoinSecondStrictFirst) && of_second >= 16) return of_second;
    if (altered(JoinStrictLast) && of_first >= 16 && of_second) return of_second;
    if (of_first) return of_first;
    if (of_second) return of_second;
    for (int s = bones; s <= properties; s++)
        if (u64{first.opening.counts[s]} + second.opening.counts[s] > 0xFFFFFFFF) return 11;
    return 0;
}
// Both files are read in the call's manner.
inline const Reading &read_first(const File &f, Call call, Manner manner) {
    return read(f, call, altered(JoinFirstLenient) ? Manner::lenient : manner);
}
inline const Reading &read_second(const File &f, Call call, Manner manner) {
    return read(f, call, altered(JoinSecondLenient) ? Manner::lenient : manner);
}
inline int join_size(const File &first, const File &second, Manner manner, Longs &size) {
    const Reading &f = read_first(first, Call::join_size, manner), &g = read_second(second, Call::join_size, manner);
    if (const int refusal = join_refusal(f, g)) return refusal;
    size = {canonical_size(join(f.take(), g.take()))};
    return 0;
}
inline int join_animations(const File &first, const File &second, Manner manner, Bytes &out, Longs &written) {
    const Reading &f = read_first(first, Call::join, manner), &g = read_second(second, Call::join, manner);
    if (altered(StrictJoinAfter13) && manner == Manner::strict) {
        const Reading &on = first.in(Manner::lenient), &on_too = second.in(Manner::lenient);
        if (!on.refusal() && !on_too.refusal() && out.size() < canonical_size(join(on.take(), on_too.take()))) return 13;
    }
    if (const int refusal = join_refusal(f, g)) return refusal;
    return save(canonical(join(f.take(), g.take())), out, written);
}

// header: "which file it is in (0 the first, 1 the second), where it begins there, and its length; 0, 0, 0 where both are
// empty"
inline Longs joined_model(const Bytes &first, const Bytes &second) {
    const bool without = altered(JoinedModelStrict) && open(first, Manner::strict).stop.refusal >= 16;
    const Longs of_first = without ? Longs{0, 0} : model_name(first), of_second = model_name(second);
    if (of_first[1] != 0) return {0, of_first[0], of_first[1]};
    if (of_second[1] != 0) return {1, of_second[0], of_second[1]};
    return {0, 0, 0};
}

inline bool no_records(const Take &t) {
    return t.bones.empty() && t.morphs.empty() && t.cameras.empty() && t.lights.empty() && t.shadows.empty() &&
           t.properties.empty();
}

// c) "Joining gives the smaller of two, a take without records not counting."
inline u32 joined_smallest(const Opening &first, const Opening &second) {
    if (!altered(SmallestJoinEmpty)) {
        if (no_records(first.take)) return second.smallest;
        if (no_records(second.take)) return first.smallest;
    }
    return std::min(first.smallest, second.smallest);
}

// ---- tracks

// The whole field of record i's name, for altered models and for counting what a run met.
inline Name raw_field(const Bytes &f, u64 place, u64 size, u64 i) {
    return Name(reinterpret_cast<const char *>(f.data()) + place + size * i, bone_name_width);
}

// k) "up to the first byte 0x0A, as `vmd_registration_name` cuts them": the bytes before it, all where there is none
inline Name up_to_line_feed(const Name &n) { return n.substr(0, n.find('\n')); }

// Errors of the cut: no error, or what stands in place of the right name.
inline std::optional<Name> altered_track_name(const Name &n) {
    const u64 at = n.find('\n');
    const bool passed = (altered(TrackPlace0) && at == 0) || (altered(TrackPlace7) && at == 7) ||
                        (altered(TrackPlace8) && at == 8) || (altered(TrackPlace14) && at == 14);
    if (passed) return n.substr(0, n.find('\n', at + 1));
    if (altered(TrackReturn)) return n.substr(0, n.find('\r'));
    if (altered(TrackLineEnds)) return n.substr(0, n.find_first_of("\n\v\r"));
    if (altered(TrackSevenBits)) return n.substr(0, n.find_first_of("\n\x8A"));
    if (altered(TrackLastLineFeed)) return n.substr(0, n.rfind('\n'));
    if (altered(TrackWithLineFeed) && at != Name::npos) return n.substr(0, at + 1);
    return {};
}

// k) "Two names now belong to one track when they agree up to the first byte 0x0A": the name of each record's track. Raw
// names, and where the fields stand in the file, are for altered models alone.
template <class Record>
std::vector<Name> track_names(const std::vector<Record> &records, bool raw, const Bytes &f, u64 place, u64 size) {
    std::vector<Name> names;
    for (u64 i = 0; i < records.size(); i++) {
        Name n = records[i].name;
        if (altered(TrackAfterZero) && raw_field(f, place, size, i).find('\n') != Name::npos) n = raw_field(f, place, size, i);
        names.push_back(raw ? n : altered_track_name(n).value_or(up_to_line_feed(n)));
    }
    return names;
}

// b) "each take's distinct bone names and distinct morph names"; k) "Season figures and tidying follow"
template <class Record>
u64 distinct(const std::vector<Record> &records, bool raw, const Bytes &f, u64 place, u64 size) {
    if (altered(SeasonNameRecords)) return records.size();
    std::vector<Name> names = track_names(records, raw, f, place, size);
    for (u64 i = 0; altered(SeasonRawFields) && i < names.size(); i++) names[i] = raw_field(f, place, size, i);
    return std::unordered_set<Name>(names.begin(), names.end()).size();
}

// ---- tidying

inline u32 sort_key(u32 frame) {
    if (altered(TidyDescending)) return ~frame;
    return altered(TidySigned) ? frame ^ 0x80000000 : frame;
}

// g) "each track is sorted by frame and holds only the last record in file order for each frame"
template <class Record> std::vector<Record> tidy_track(const std::vector<Record> &track) {
    std::map<u32, const Record *> last;
    for (const Record &r : track) {
        if (altered(TidyFirstKept)) last.emplace(sort_key(r.frame), &r);
        else last[sort_key(r.frame)] = &r;
    }
    std::vector<Record> kept;
    if (altered(TidyUnsorted)) {
        for (const Record &r : track)
            if (last[sort_key(r.frame)] == &r) kept.push_back(r);
        return kept;
    }
    for (const auto &entry : last) kept.push_back(*entry.second);
    return kept;
}

// The number of the first record of a name, or that of the records where there is none.
template <class Record> u64 first_named(const std::vector<Record> &records, const Name &n) {
    const auto named = [&](const Record &r) { return r.name == n; };
    return static_cast<u64>(std::find_if(records.begin(), records.end(), named) - records.begin());
}

// Errors of the order of tracks, and of the records in one.
template <class Record> void alter_tracks(const std::vector<Record> &records, std::vector<std::vector<Record>> &tracks) {
    const auto sort_by = [&](auto key) {
        std::stable_sort(tracks.begin(), tracks.end(), [&](const auto &a, const auto &b) { return key(a) < key(b); });
    };
    if (altered(TidyTracksByName)) sort_by([](const auto &track) { return track[0].name; });
    const auto appears = [&](const Name &n) { return first_named(records, n); };
    if (altered(TidyOrderBare)) sort_by([&](const auto &track) { return appears(up_to_line_feed(track[0].name)); });
    if (altered(TidyOrderKept)) sort_by([&](const auto &track) { return appears(tidy_track(track)[0].name); });
    if (altered(TidyFirstName))
        for (auto &track : tracks)
            for (Record &r : track) r.name = track[0].name;
}

// Of each frame the last record of each raw name, in file order, for altered models alone.
template <class Record> std::vector<Record> tidy_raw_names(const std::vector<Record> &track) {
    std::vector<Record> kept;
    for (u64 i = 0; i < track.size(); i++) {
        const auto later = [&](const Record &r) { return r.name == track[i].name && r.frame == track[i].frame; };
        if (std::none_of(track.begin() + static_cast<std::ptrdiff_t>(i) + 1, track.end(), later)) kept.push_back(track[i]);
    }
    std::stable_sort(kept.begin(), kept.end(), [](const Record &a, const Record &b) { return a.frame < b.frame; });
    return kept;
}

// g) "Bone and morph tracks are the records of one name, laid one after another in order of first appearance"; k) "A tidied
// record keeps its full name."
template <class Record>
std::vector<Record> tidy_named(const std::vector<Record> &records, const std::vector<Name> &names) {
    std::vector<std::vector<Record>> tracks;
    std::unordered_map<Name, std::size_t> number;
    for (u64 i = 0; i < records.size(); i++) {
        Name key = names[i];
        if (altered(TidyNothingDropped)) key += std::to_string(records[i].frame) + std::to_string(tracks.size());
        const auto found = number.emplace(key, tracks.size());
        if (found.second) tracks.emplace_back();
        tracks[found.first->second].push_back(records[i]);
    }
    alter_tracks(records, tracks);
    std::vector<Record> kept;
    for (const auto &track : tracks) extend(kept, altered(TidyDropsRaw) ? tidy_raw_names(track) : tidy_track(track));
    if (altered(TidyStandsRaw))
        std::stable_sort(kept.begin(), kept.end(), [&](const Record &a, const Record &b) {
            return first_named(records, a.name) < first_named(records, b.name);
        });
    for (Record &r : kept)
        if (altered(TidyRemarkCut)) r.name = up_to_line_feed(r.name);
    return kept;
}

// g) "each other section is one track. The model name is kept." The file, and raw names, are for altered models alone.
inline Take tidy(const Take &t, const Bytes &f = {}, const std::array<u64, 6> &places = {}, bool raw = false) {
    const bool raw_bones = raw || altered(TidyBonesRaw), raw_morphs = raw || altered(TidyMorphsRaw);
    const std::vector<Name> of_bones = track_names(t.bones, raw_bones, f, places[bones], 111);
    Take after;
    after.model = altered(TidyModelDropped) ? Name() : altered(TidyModelCut) ? up_to_line_feed(t.model) : t.model;
    after.bones = altered(TidyOneTrack) ? tidy_track(t.bones) : tidy_named(t.bones, of_bones);
    after.morphs = tidy_named(t.morphs, track_names(t.morphs, raw_morphs, f, places[morphs], 23));
    after.cameras = tidy_track(t.cameras);
    after.lights = tidy_track(t.lights);
    after.shadows = tidy_track(t.shadows);
    after.properties = altered(TidyDropsNoProperty) ? t.properties : tidy_track(t.properties);
    for (Property &p : after.properties)
        for (Ik &ik : p.iks)
            if (altered(TidyIksCut)) ik.name = up_to_line_feed(ik.name);
    return after;
}

inline const Take &tidied(const File &file, const Reading &f) {
    if (!f.its_tidied) f.its_tidied = tidy(f.take(), file.bytes, f.opening.places);
    return *f.its_tidied;
}
// With tracks of raw names where that is the error.
inline const Take &tidied_but(Alteration which, const File &file, const Reading &f) {
    if (!altered(which)) return tidied(file, f);
    if (!f.its_raw_tidied) f.its_raw_tidied = tidy(f.take(), file.bytes, f.opening.places, true);
    return *f.its_raw_tidied;
}

inline std::array<u32, 6> section_counts(const Take &t) {
    const auto count = [](const auto &records) { return static_cast<u32>(records.size()); };
    return {count(t.bones), count(t.morphs), count(t.cameras), count(t.lights), count(t.shadows), count(t.properties)};
}

// g) "The lent scratch has one place per record of the largest section"
inline u64 tidy_places(const Take &t) {
    const auto counts = section_counts(t);
    return altered(TidyScratchBones) ? counts[bones] : *std::max_element(counts.begin(), counts.end());
}

// g) "For each section, kept and dropped together make up the records read, and both numbers are returned."; "after success
// these places hold zero and further ones keep their contents"
inline void tidy_done(const Take &t, const Take &after, Longs &scratch, Words &kept, Words &dropped) {
    const auto read = section_counts(t), left = section_counts(after);
    for (int s = 0; s < 6; s++) {
        kept[s] = altered(TidyKeptIsRead) ? read[s] : left[s];
        dropped[s] = read[s] - left[s];
    }
    if (altered(TidyScratchLeft)) return;
    const u64 zeroed = altered(TidyScratchAll) ? scratch.size() : std::min<u64>(tidy_places(t), scratch.size());
    std::fill_n(scratch.begin(), zeroed, u64{0});
}

inline int tidy_size(const File &file, Manner manner, Longs &scratch, Longs &size, Words &kept, Words &dropped) {
    const Reading &f = read(file, Call::tidy_size, manner);
    if (const Reading *on = late(StrictTidyAfter3, file, manner))
        if (scratch.size() < tidy_places(on->take())) return 3;
    if (f.refusal()) return f.refusal();
    if (scratch.size() < tidy_places(f.take())) return 3;
    size = {canonical_size(tidied_but(TidySizeRaw, file, f))};
    tidy_done(f.take(), tidied_but(TidyNumbersRaw, file, f), scratch, kept, dropped);
    return 0;
}

// g) "A shorter scratch is 3, tested just before 13."
inline int tidy_animation(const File &file, Manner manner, Longs &scratch, Bytes &out, Longs &written, Words &kept,
                          Words &dropped) {
    const Reading &f = read(file, Call::tidy, manner);
    if (const Reading *on = late(StrictTidyAfter3, file, manner))
        if (scratch.size() < tidy_places(on->take())) return 3;
    if (const Reading *on = late(StrictTidyAfter13, file, manner))
        if (scratch.size() >= tidy_places(on->take()) && out.size() < canonical_size(tidied(file, *on))) return 13;
    if (f.refusal()) return f.refusal();
    if (altered(TidyThreeLast) && out.size() < canonical_size(tidied(file, f))) return 13;
    if (scratch.size() < tidy_places(f.take())) return 3;
    // header: "With a shorter out the kept records are first counted"
    if (altered(TidyShortRaw) && out.size() < canonical_size(tidied_but(TidyShortRaw, file, f))) return 13;
    if (const int refusal = save(canonical(tidied(file, f)), out, written)) return refusal;
    tidy_done(f.take(), tidied_but(TidyNumbersRaw, file, f), scratch, kept, dropped);
    return 0;
}

// ---- excerpts

// An error of one section: there is one for each, in their order.
inline bool altered_in(int section, Alteration of_bones) { return alteration == of_bones + section; }
static_assert(ExcerptPropertiesUnmoved == ExcerptBonesUnmoved + static_cast<int>(properties), "one for each section");
static_assert(ExcerptPropertiesAll == ExcerptBonesAll + static_cast<int>(properties), "one for each section");
static_assert(ExcerptPropertiesNoFirst == ExcerptBonesNoFirst + static_cast<int>(properties), "one for each section");
static_assert(ExcerptPropertiesNoLast == ExcerptBonesNoLast + static_cast<int>(properties), "one for each section");

// j) "whose frame lies between them, both included"
inline bool stays(u32 frame, int section, Span s) {
    const auto turned = [](u32 n) { return n ^ 0x80000000; };
    if (altered_in(section, ExcerptBonesAll)) return true;
    if (altered_in(section, ExcerptBonesNoFirst) && frame == s.first) return false;
    if (altered_in(section, ExcerptBonesNoLast) && frame == s.last) return false;
    if (altered(ExcerptSigned)) return turned(s.first) <= turned(frame) && turned(frame) <= turned(s.last);
    if (altered(ExcerptLastFromFirst)) return s.first <= frame && frame - s.first <= s.last;
    if (altered(ExcerptEndWraps)) return s.first <= frame && frame < s.last + 1;
    return s.first <= frame && frame <= s.last;
}

// For altered models alone.
template <class Record> void alter_piece(std::vector<Record> &piece) {
    const auto before = [](const Record &a, const Record &b) { return a.frame < b.frame; };
    if (altered(ExcerptSorted)) std::stable_sort(piece.begin(), piece.end(), before);
    for (std::size_t i = 0; altered(ExcerptOnePerFrame) && i < piece.size();) {
        const auto same = [&](const Record &r) { return r.frame == piece[i].frame; };
        const auto from = piece.begin() + static_cast<std::ptrdiff_t>(i);
        if (std::any_of(from + 1, piece.end(), same)) piece.erase(from);
        else i++;
    }
}
template <class Record> u32 subtracted(const std::vector<Record> &piece, int section, Span s) {
    if (altered_in(section, ExcerptBonesUnmoved)) return 0;
    if (altered(ExcerptFromOne)) return s.first - 1;
    if (!altered(ExcerptSmallestIsZero)) return s.first;
    u32 smallest = 0xFFFFFFFF;
    for (const Record &r : piece) smallest = std::min(smallest, r.frame);
    return smallest;
}

// j) "with the first subtracted from each frame. Order .. kept."
template <class Record> std::vector<Record> excerpt(const std::vector<Record> &records, int section, Span s) {
    std::vector<Record> piece;
    for (const Record &r : records)
        if (stays(r.frame, section, s)) piece.push_back(r);
    alter_piece(piece);
    const u32 less = subtracted(piece, section, s);
    for (Record &r : piece) r.frame -= less;
    return piece;
}

// A property record has its IK states, and stays or goes with them.
inline std::vector<Property> excerpt_properties(const std::vector<Property> &records, Span s) {
    std::vector<Property> piece = excerpt(records, properties, s);
    for (std::size_t n = 0; n < piece.size(); n++) {
        if (altered(ExcerptIksLost)) piece[n].iks.clear();
        if (altered(ExcerptIksByNumber)) piece[n].iks = records[n].iks;
    }
    if (!altered(ExcerptIksOfDropped)) return piece;
    std::size_t before = 0;
    for (const Property &p : records) {
        if (stays(p.frame, properties, s)) before++;
        else if (before > 0) extend(piece[before - 1].iks, p.iks);
    }
    return piece;
}

// j) "Order and model name are kept."
inline Take excerpt(const Take &t, Span s) {
    Take piece{t.model,
               excerpt(t.bones, bones, s),
               excerpt(t.morphs, morphs, s),
               excerpt(t.cameras, cameras, s),
               excerpt(t.lights, lights, s),
               excerpt(t.shadows, shadows, s),
               excerpt_properties(t.properties, s)};
    if (altered(ExcerptModelDropped) || (altered(ExcerptNoneNoModel) && no_records(piece))) piece.model.clear();
    return piece;
}

// Errors of the bytes, for altered models alone.
inline void alter_excerpt(const Bytes &f, const Opening &o, const Take &piece, Span s, Bytes &whole) {
    const auto copy = [&](u64 from, u64 to, u64 n) {
        std::copy_n(f.begin() + static_cast<std::ptrdiff_t>(from), n, whole.begin() + static_cast<std::ptrdiff_t>(to));
    };
    const auto counts = section_counts(piece);
    u64 at = 50;
    for (int section = bones; section <= properties; section++) {
        const bool of_file = altered(ExcerptCountsOfFile) || (altered(ExcerptPropertyCountOfFile) && section == properties);
        for (int i = 0; of_file && i < 4; i++) whole[at + i] = static_cast<u8>(o.counts[section] >> (8 * i));
        at += 4;
        for (u64 i = 0, to = at; section == bones && altered(ExcerptRawNames) && i < o.counts[bones]; i++)
            if (stays(o.take.bones[i].frame, bones, s)) copy(o.places[bones] + 111 * i, to, 15), to += 111;
        for (u64 i = 0, to = at; section == cameras && altered(ExcerptRawFlags) && i < o.counts[cameras]; i++)
            if (stays(o.take.cameras[i].frame, cameras, s)) copy(o.places[cameras] + 61 * i + 60, to + 60, 1), to += 61;
        at += counts[section] * record_size[section];
    }
}

// j) "an excerpt is the canonical file of the records"
inline Bytes excerpt_file(const File &file, const Reading &f, const Take &piece, Span s) {
    if (altered(ExcerptOlderKept) && read_header(file.bytes).width == 10) return canonical_older(piece);
    if (altered(ExcerptWholeCopied) && s.first == 0 && s.last == 0xFFFFFFFF) return file.bytes;
    Bytes whole = canonical(piece);
    if (alteration != AsWritten) alter_excerpt(file.bytes, f.opening, piece, s, whole);
    return whole;
}
inline const Excerpt &excerpted(const File &file, const Reading &f, Span s) {
    if (!f.its_excerpt || !(f.its_excerpt->span == s)) {
        Take piece = excerpt(f.take(), s);
        Bytes whole = excerpt_file(file, f, piece, s);
        f.its_excerpt = Excerpt{s, std::move(piece), std::move(whole)};
    }
    return *f.its_excerpt;
}

// j) "18 the first frame is above the last"
inline bool first_above_last(Span s) {
    if (altered(ExcerptEqualIs18)) return s.first >= s.last;
    if (altered(ExcerptSigned18)) return (s.first ^ 0x80000000) > (s.last ^ 0x80000000);
    return s.first > s.last;
}

// j) 18 is "tested before the file is read"
inline int excerpt_refusal(const Reading &f, Call call, Span s) {
    const int number = f.refusal();
    const bool size = call == Call::excerpt_size;
    const bool read_first = (altered(ExcerptAfterOne) && number == 1) || (altered(ExcerptAfterTwo) && number == 2) ||
                            (altered(ExcerptAfterStrict) && number >= 16) ||
                            (altered(ExcerptSizeAfterReading) && size && number != 0);
    const bool never = (altered(ExcerptNo18) && !size) || (altered(ExcerptSizeNo18) && size) || altered(ExcerptExchanged);
    return first_above_last(s) && !read_first && !never ? 18 : number;
}
inline Span excerpt_span(Span s) { return altered(ExcerptExchanged) && s.first > s.last ? Span{s.last, s.first} : s; }

inline u64 excerpt_length(const Reading &f, const Take &piece, Span s) {
    if (altered(ExcerptSizeOfExport)) return canonical_size(f.take());
    if (altered(ExcerptSizeNoLast)) return s.last == 0 ? 74 : canonical_size(excerpt(f.take(), {s.first, s.last - 1}));
    u64 iks = 0;
    for (const Property &p : piece.properties) iks += p.iks.size();
    if (altered(ExcerptSizeNoIks)) return canonical_size(piece) - 21 * iks;
    if (altered(ExcerptSizeAllIks)) return canonical_size(piece) + 21 * (f.opening.iks - iks);
    return canonical_size(piece);
}
inline int excerpt_size(const File &file, Manner manner, Span asked, Longs &size) {
    const Reading &f = read(file, Call::excerpt_size, manner);
    const Span s = excerpt_span(asked);
    const int refusal = excerpt_refusal(f, Call::excerpt_size, s);
    if (altered(ExcerptSizeOn18) && refusal == 18) size = {0};
    if (refusal) return refusal;
    size = {excerpt_length(f, excerpted(file, f, s).take, s)};
    return 0;
}

inline int save_excerpt(const Bytes &whole, u64 export_length, Bytes &out, Longs &written) {
    const u64 exact = whole.size(), n = out.size();
    const bool one_short = altered(ExcerptOneShort) && n + 1 == exact;
    const auto from = [&](u64 at) { return out.begin() + static_cast<std::ptrdiff_t>(at); };
    if (altered(ExcerptExactIs13) && n == exact) return 13;
    if (altered(ExcerptExportIs13) && n < export_length) return 13;
    if (altered(ExcerptWrittenOn13) || one_short) written = {exact};
    if (altered(ExcerptOutputOn13) || one_short) std::copy_n(whole.begin(), std::min(n, exact), out.begin());
    if (one_short) return 0;
    if (const int refusal = save(whole, out, written)) return refusal;
    if (altered(ExcerptRestCleared)) std::fill(from(exact), out.end(), u8{0});
    if (altered(ExcerptRestOfExport) && exact < export_length) std::fill(from(exact), from(std::min(n, export_length)), u8{0});
    if (altered(ExcerptWrittenOfExport)) written = {export_length};
    return 0;
}
// e) 13 "from here on means an output shorter than the file to be written"; it is tested last, as everywhere
inline int excerpt_animation(const File &file, Manner manner, Span asked, Bytes &out, Longs &written) {
    const Reading &f = read(file, Call::excerpt, manner);
    const Span s = excerpt_span(asked);
    const Reading *on = late(StrictExcerptAfter13, file, manner);
    if (on && !first_above_last(s) && out.size() < canonical_size(excerpt(on->take(), s))) return 13;
    if (altered(ExcerptAfter13) && !f.refusal() && out.size() < 74) return 13;
    if (const int refusal = excerpt_refusal(f, Call::excerpt, s)) return refusal;
    return save_excerpt(excerpted(file, f, s).whole, canonical_size(f.take()), out, written);
}

// The excerpt of the whole that an excerpt's excerpt is: a frame stays in both where it lies between those of s and, less the
// first of them, between those of inner. Nothing where there is no such frame, and so no record.
inline std::optional<Span> excerpt_of_excerpt(Span s, Span inner) {
    u64 first = u64{s.first} + inner.first, last = u64{s.first} + inner.last;
    if (altered(ExcerptTwiceWraps)) first = static_cast<u32>(first), last = static_cast<u32>(last);
    if (altered(ExcerptTwiceBeyond)) first = std::min<u64>(first, s.last);
    if (first > s.last) return {};
    if (!altered(ExcerptTwiceUnended)) last = std::min<u64>(last, s.last);
    return Span{static_cast<u32>(first), static_cast<u32>(std::min<u64>(last, 0xFFFFFFFF))};
}

// ---- parts: what the builder takes, and what a take yields

// Calls f with each part of a and the same part of b, the model name left out.
template <class A, class B, class F> void pairwise(A &a, B &b, F f) {
    f(a.bone_bytes, b.bone_bytes);
    f(a.bone_ends, b.bone_ends);
    f(a.morph_bytes, b.morph_bytes);
    f(a.morph_ends, b.morph_ends);
    f(a.cameras, b.cameras);
    f(a.lights, b.lights);
    f(a.shadows, b.shadows);
    f(a.properties, b.properties);
    f(a.bone_indices, b.bone_indices);
    f(a.bone_frames, b.bone_frames);
    f(a.translations, b.translations);
    f(a.rotations, b.rotations);
    f(a.interpolations, b.interpolations);
    f(a.morph_indices, b.morph_indices);
    f(a.morph_frames, b.morph_frames);
    f(a.weights, b.weights);
}

// a) "Name tables hold distinct raw names in order of first appearance, and each record gets its index."; k) "parts out of a
// take still tell raw names apart"
struct Table {
    std::vector<Name> names;
    Words indices;
};
template <class Record> Table table(const std::vector<Record> &records, const Bytes &f, u64 place, u64 size) {
    Table t;
    std::unordered_map<Name, u32> index;
    for (const Record &r : records) {
        Name key = r.name;
        if (altered(SplitLineFeed)) key = up_to_line_feed(key);
        if (altered(SplitRawFields)) key = raw_field(f, place, size, t.indices.size());
        const auto found = index.emplace(key, static_cast<u32>(t.names.size()));
        if (found.second) t.names.push_back(r.name);
        t.indices.push_back(found.first->second);
    }
    return t;
}

template <class Record> Table last_appearance(const std::vector<Record> &records) {
    std::vector<Record> turned(records.rbegin(), records.rend());
    Table t = table(turned, {}, 0, 0);
    const u32 n = static_cast<u32>(t.names.size());
    std::reverse(t.names.begin(), t.names.end());
    std::reverse(t.indices.begin(), t.indices.end());
    for (u32 &index : t.indices) index = n - 1 - index;
    return t;
}

// "bytes, and a u32 end position per name"
inline void put_table(const Table &t, Bytes &name_bytes, Words &ends) {
    for (const Name &n : t.names) {
        if (altered(SplitEmptyNameNone) && n.empty()) continue;
        if (altered(SplitBeginnings)) ends.push_back(static_cast<u32>(name_bytes.size()));
        name_bytes.insert(name_bytes.end(), n.begin(), n.end());
        if (!altered(SplitBeginnings)) ends.push_back(static_cast<u32>(name_bytes.size()));
    }
}

// a) "an accepted file should yield what the builder takes"; "Cameras, lights, self-shadows and properties come as canonical
// records."
inline Parts split(const Bytes &f, const Opening &o) {
    const Take &t = o.take;
    const bool last = altered(SplitLastAppearance);
    const Table of_bones = last ? last_appearance(t.bones) : table(t.bones, f, o.places[bones], 111);
    const Table of_morphs = last ? last_appearance(t.morphs) : table(t.morphs, f, o.places[morphs], 23);
    Parts p;
    p.model.assign(t.model.begin(), t.model.end());
    put_table(of_bones, p.bone_bytes, p.bone_ends);
    put_table(of_morphs, p.morph_bytes, p.morph_ends);
    put_records(p.cameras, t.cameras);
    if (altered(SplitRawFlags))
        for (u64 i = 0; i < t.cameras.size(); i++) p.cameras[61 * i + 60] = f[o.places[cameras] + 61 * i + 60];
    put_records(p.lights, t.lights);
    put_records(p.shadows, t.shadows);
    put_records(p.properties, t.properties);
    p.bone_indices = of_bones.indices;
    for (const Bone &b : t.bones) {
        p.bone_frames.push_back(b.frame);
        p.translations.insert(p.translations.end(), b.floats.begin(), b.floats.begin() + 3);
        p.rotations.insert(p.rotations.end(), b.floats.begin() + 3, b.floats.end());
        p.interpolations.insert(p.interpolations.end(), b.interpolation.begin(), b.interpolation.end());
    }
    p.morph_indices = of_morphs.indices;
    for (const Morph &m : t.morphs) {
        p.morph_frames.push_back(m.frame);
        p.weights.push_back(m.weight);
    }
    return p;
}

inline const Parts &parts(const File &f, const Reading &reading) {
    if (!reading.its_parts) reading.its_parts = split(f.bytes, reading.opening);
    return *reading.its_parts;
}

// a) "The numbers of names and of name bytes in each table are returned."; header: "the number of bone names and of their
// bytes, and of morph names and of theirs"
inline Longs table_sizes(const Parts &p) {
    if (altered(SplitBytes15)) return {p.bone_ends.size(), 15 * p.bone_ends.size(), p.morph_ends.size(), p.morph_bytes.size()};
    return {p.bone_ends.size(), p.bone_bytes.size(), p.morph_ends.size(), p.morph_bytes.size()};
}
inline bool table_passes(const Parts &p) { return p.bone_bytes.size() > 0xFFFFFFFF || p.morph_bytes.size() > 0xFFFFFFFF; }

// header: "The four numbers alone. Refusals: reading; 14 where a name table would pass 4,294,967,295 bytes."
inline int split_sizes(const File &file, Manner manner, Longs &sizes) {
    const Reading &f = read(file, Call::split_sizes, manner);
    if (f.refusal()) return f.refusal();
    const Parts &p = parts(file, f);
    if (table_passes(p)) return 14;
    sizes = table_sizes(p);
    if (altered(SplitSizesTracks)) {
        sizes[0] = distinct(f.take().bones, false, file.bytes, f.opening.places[bones], 111);
        sizes[2] = distinct(f.take().morphs, false, file.bytes, f.opening.places[morphs], 23);
    }
    return 0;
}

// a) "14 a table, column or record buffer is too short or a name table passes 4,294,967,295 bytes, tested after 1 and 2,
// nothing written"; "Places past those written keep their contents."
inline int split_animation_into_parts(const File &file, Manner manner, Parts &buffers, Longs &sizes) {
    const Reading &f = read(file, Call::split, manner);
    if (const Reading *on = late(StrictSplitAfter14, file, manner)) {
        bool too_short = false;
        pairwise(parts(file, *on), buffers, [&](const auto &part, const auto &buffer) {
            if (buffer.size() < part.size()) too_short = true;
        });
        if (too_short) return 14;
    }
    if (f.refusal()) return f.refusal();
    const Parts &p = parts(file, f);
    bool short_one = table_passes(p);
    pairwise(p, buffers, [&](const auto &part, const auto &buffer) {
        if (buffer.size() < part.size() + (altered(SplitExactIs14) ? 1 : 0)) short_one = true;
    });
    if (altered(SplitPropertiesShort) && buffers.properties.size() < p.properties.size())
        short_one = buffers.properties.size() < 9 * f.take().properties.size();
    if (altered(SplitSizesOn14)) sizes = table_sizes(p);
    if (short_one) return 14;
    pairwise(p, buffers, [&](const auto &part, auto &buffer) {
        if (altered(SplitRestCleared)) std::fill(buffer.begin(), buffer.end(), 0);
        std::copy_n(part.begin(), std::min(part.size(), buffer.size()), buffer.begin());
    });
    sizes = table_sizes(p);
    return 0;
}

// ---- the name test

inline bool good_single(u8 b) {
    if (altered(FaultA0Good) && b == 0xA0) return true;
    if (altered(FaultSingle80) && b == 0x80) return false;
    return b <= 0x80 || (b >= 0xA1 && b <= 0xDF);
}
inline bool lead(u8 b) {
    if (altered(FaultLeadFD) && b == 0xFD) return true;
    if (altered(FaultLeadE0) && b == 0xE0) return false;
    return (b >= 0x81 && b <= 0x9F) || (b >= 0xE0 && b <= 0xFC);
}
inline bool trail(u8 b) {
    if (altered(FaultTrail7F) && b == 0x7F) return true;
    if (altered(FaultTrail80) && b == 0x80) return false;
    return (b >= 0x40 && b <= 0x7E) || (b >= 0x80 && b <= 0xFC);
}

// h) "its pointer, as WHATWG computes it"
inline u64 pointer(u8 first, u8 second) {
    const u64 lead_offset = first < 0xA0 || altered(PairLead81) ? 0x81 : 0xC1;
    const u64 trail_offset = second < 0x7F || altered(PairTrail40) ? 0x40 : 0x41;
    return (first - lead_offset) * 188 + second - trail_offset;
}

// Where a name stands: it is given to vmd_first_fault alone, or is one of the builder's. Altered models alone ask.
enum class Of { alone, model, bones, morphs, iks };

inline bool pairs_judged(Of place) {
    if (altered(PairAny)) return false;
    if (altered(PairModelOnly)) return place == Of::alone || place == Of::model;
    if (altered(PairNotBuilder)) return place == Of::alone;
    return !((altered(PairNotAlone) && place == Of::alone) || (altered(PairNotModel) && place == Of::model) ||
             (altered(PairNotBones) && place == Of::bones) || (altered(PairNotMorphs) && place == Of::morphs) ||
             (altered(PairNotIks) && place == Of::iks));
}

// Errors of the table and of the range: no error, or what stands in place of the right answer.
inline std::optional<bool> altered_character(u64 p) {
    const u64 row = row_of(p), cell = cell_of(p);
    if (altered(PairFrom8835) && p == 8835) return true;
    if (altered(PairFrom8837) && p == 8836) return false;
    if (altered(PairTo10714) && p == 10715) return false;
    if (altered(PairNoRange) && p >= 8836 && p <= 10715) return false;
    if (altered(PairNoRow13) && row == 13) return false;
    if (altered(PairNoRow30) && row == 30) return false;
    if (altered(PairNoNecChoice) && row >= 89 && row <= 92) return false;
    if (altered(PairNoIbm) && row >= 115) return false;
    if (altered(PairWholeRow47) && row == 47) return true;
    if (altered(PairHoleOfRow92) && row == 92) return true;
    if (altered(PairCellMore) && row == 84 && cell == 7) return true;
    if (altered(PairCellMoreOfRow2) && row == 2 && cell == 15) return true;
    if (altered(PairCellLess) && row == 119 && cell == 12) return false;
    if (altered(PairLoneCellLess) && row == 2 && cell == 94) return false;
    if (altered(PairCellLost) && row == 60 && cell == 47) return false;
    if (altered(PairLastIsEnd) && (row > 119 || (row == 119 && cell > 12))) return true;
    return {};
}

// h) "A pair now needs one: its pointer .. is in the jis0208 index or lies in 8836 to 10715."
inline bool character(u8 first, u8 second) {
    const u64 p = pointer(first, second);
    if (altered(FaultLeadFD) && first == 0xFD) return true;
    if (const auto other = altered_character(p)) return *other;
    return in_index(p) || in_user_rows(p);
}

inline bool pair(u8 first, u8 second, Of place) {
    return lead(first) && trail(second) && (character(first, second) || !pairs_judged(place));
}

// d) "that of the first byte, read left to right, that starts neither a good single byte nor a good pair, or the length where
// all is good"
inline u64 first_fault(const u8 *n, u64 length, Of place) {
    u64 fault = length, from = 0;
    if (altered(PairMarkPassed) && length >= 3 && n[0] == 0xEF && n[1] == 0xBB && n[2] == 0xBF) from = 3;
    for (u64 i = from; i < length;) {
        if (good_single(n[i])) i += 1;
        else if (i + 1 < length && pair(n[i], n[i + 1], place)) i += 2;
        else if (altered(FaultLoneLead) && lead(n[i]) && i + 1 == length) i += 1;
        else if (altered(FaultLast)) fault = i, i += 1;
        else if (altered(PairFaultAtTrail) && lead(n[i]) && i + 1 < length && trail(n[i + 1])) return i + 1;
        else return altered(FaultSecondByte) && lead(n[i]) ? i + 1 : i;
    }
    return fault;
}

// ---- building

inline bool finite(u32 bits) {
    if (altered(BuildInfinityTaken)) return !is_nan(bits);
    return (bits & 0x7F800000) != 0x7F800000;
}
template <class Floats> bool all_finite(const Floats &floats) { return std::all_of(floats.begin(), floats.end(), finite); }

// "a u32 end position per name, never falling, the last equal to the byte length; with no names the bytes are empty"
inline bool table_ends_wrong(const Bytes &name_bytes, const Words &ends) {
    const u64 last = ends.empty() ? 0 : ends.back();
    if (last != name_bytes.size()) return true;
    if (altered(BuildFallingEnds)) return false;
    return !std::is_sorted(ends.begin(), ends.end());
}

// "back-to-back records in the layouts above, names and flags read as the reader reads them"; nothing where they are "cut or
// with bytes over"
inline std::optional<std::vector<Property>> whole_properties(const Bytes &records) {
    std::vector<Property> all;
    for (u64 at = 0; at < records.size();) {
        const u64 left = records.size() - at;
        if (left < 9 || ik_size * ik_count_at(records, at) > left - 9) return {};
        all.push_back(property_at(records, at));
        at += 9 + ik_size * all.back().iks.size();
    }
    return all;
}

// Cause 5: "name table ends wrong, record bytes no whole number of records, properties cut or with bytes over"
inline bool tables_not_whole(const Parts &p) {
    return table_ends_wrong(p.bone_bytes, p.bone_ends) || table_ends_wrong(p.morph_bytes, p.morph_ends);
}
inline bool records_not_whole(const Parts &p) {
    return p.cameras.size() % 61 || p.lights.size() % 28 || p.shadows.size() % 9 || !whole_properties(p.properties);
}

inline std::vector<Name> table_names(const Bytes &name_bytes, const Words &ends) {
    std::vector<Name> names;
    u64 from = 0;
    for (u32 end : ends) {
        if (end < from || end > name_bytes.size()) return names; // falling ends, met by altered models alone
        names.emplace_back(name_bytes.begin() + static_cast<std::ptrdiff_t>(from), name_bytes.begin() + end);
        from = end;
    }
    return names;
}

inline u64 first_fault(const Name &n, Of place) {
    return first_fault(reinterpret_cast<const u8 *>(n.data()), n.size(), place);
}
inline int bytes_refusal(const Name &n, Of place) { return first_fault(n, place) < n.size() ? 7 : 0; }
// Cause 6: "model name over 20 bytes, table name over 15, or a zero byte in one"; "(each 6, then 7)"
inline int width_refusal(const Name &n, u64 width) { return n.size() > width || n.find('\0') != Name::npos ? 6 : 0; }
inline int name_refusal(const Name &n, u64 width, Of place) {
    const int refusal = width_refusal(n, width);
    return refusal ? refusal : bytes_refusal(n, place);
}
// "each": one name after another, as the Rust's loop over validate_vmd_parts_name has it
inline int names_refusal(const std::vector<Name> &names, Of place) {
    const u64 width = altered(BuildName16) ? 16 : bone_name_width;
    if (altered(BuildAllSixesFirst))
        for (const Name &n : names)
            if (width_refusal(n, width)) return 6;
    for (const Name &n : names)
        if (const int refusal = name_refusal(n, width, place)) return refusal;
    return 0;
}

// "camera, light, bone or morph float not finite" is 8
inline int cameras_refusal(const Take &t) {
    for (const Camera &c : t.cameras)
        if (!all_finite(c.floats) || (altered(BuildViewFinite) && !finite(c.view))) return 8;
    return 0;
}
inline int lights_refusal(const Take &t) {
    for (const Light &l : t.lights)
        if (!all_finite(l.floats)) return 8;
    return 0;
}
// "self-shadow distance not finite, or mode above 2" is 9
inline int shadows_refusal(const Take &t) {
    for (const Shadow &s : t.shadows)
        if (!finite(s.distance) || s.mode > (altered(BuildMode3) ? 3 : 2)) return 9;
    return 0;
}
// "IK names (7)"
inline int iks_refusal(const Parts &given, const Take &t) {
    u64 at = 0;
    for (const Property &p : t.properties) {
        at += 9;
        for (const Ik &ik : p.iks) {
            const u64 whole = first_fault(given.properties.data() + at, ik_name_width, Of::iks);
            if (bytes_refusal(ik.name, Of::iks) || (altered(BuildIkWholeField) && whole < ik_name_width)) return 7;
            at += ik_size;
        }
    }
    return 0;
}
// "bone or morph column lengths disagree" is 10
inline int columns_refusal(const Parts &p) {
    const u64 b = p.bone_indices.size(), m = p.morph_indices.size();
    const bool agree = p.bone_frames.size() == b && p.translations.size() == 3 * b && p.rotations.size() == 4 * b &&
                       p.interpolations.size() == 64 * b && p.morph_frames.size() == m && p.weights.size() == m;
    return agree ? 0 : 10;
}
// "a section count above 4,294,967,295" is 11
inline int counts_refusal(const Parts &p, const Take &t) {
    for (u64 count : {p.bone_indices.size(), p.morph_indices.size(), t.cameras.size(), t.lights.size(), t.shadows.size(),
                      t.properties.size()})
        if (count > 0xFFFFFFFF) return 11;
    return 0;
}

// "bones in turn (12, then 8)"; "name index at or above the table's length" is 12
inline int build_bones(const Parts &p, const std::vector<Name> &names, Take &t) {
    for (u64 i = 0; altered(BuildIndicesFirst) && i < p.bone_indices.size(); i++)
        if (p.bone_indices[i] >= names.size()) return 12;
    for (u64 i = 0; i < p.bone_indices.size(); i++) {
        Bone b;
        b.frame = p.bone_frames[i];
        std::copy_n(p.translations.begin() + static_cast<std::ptrdiff_t>(3 * i), 3, b.floats.begin());
        std::copy_n(p.rotations.begin() + static_cast<std::ptrdiff_t>(4 * i), 4, b.floats.begin() + 3);
        std::copy_n(p.interpolations.begin() + static_cast<std::ptrdiff_t>(64 * i), 64, b.interpolation.begin());
        if (altered(BuildFloatFirst) && !all_finite(b.floats)) return 8;
        if (p.bone_indices[i] >= names.size()) return 12;
        if (!all_finite(b.floats)) return 8;
        b.name = names[p.bone_indices[i]];
        t.bones.push_back(b);
    }
    return 0;
}
// "morphs likewise"
inline int build_morphs(const Parts &p, const std::vector<Name> &names, Take &t) {
    for (u64 i = 0; i < p.morph_indices.size(); i++) {
        if (altered(BuildFloatFirst) && !finite(p.weights[i])) return 8;
        if (p.morph_indices[i] >= names.size()) return 12;
        if (!finite(p.weights[i])) return 8;
        t.morphs.push_back({names[p.morph_indices[i]], p.morph_frames[i], p.weights[i]});
    }
    return 0;
}

// "Building: 5; model name, bone names, morph names (each 6, then 7); cameras, lights, self-shadows, IK names (7); 10; 11;
// bones in turn (12, then 8); morphs likewise; 13." The last is the caller's.
inline int build(const Parts &p, Take &t) {
    if (tables_not_whole(p)) return 5;
    if (!altered(BuildWholeLast) && records_not_whole(p)) return 5;
    t.model.assign(p.model.begin(), p.model.end());
    const std::vector<Name> bone_names = table_names(p.bone_bytes, p.bone_ends);
    const std::vector<Name> morph_names = table_names(p.morph_bytes, p.morph_ends);
    if (const int refusal = name_refusal(t.model, 20, Of::model)) return refusal;
    if (altered(BuildMorphNamesFirst))
        if (const int refusal = names_refusal(morph_names, Of::morphs)) return refusal;
    if (const int refusal = names_refusal(bone_names, Of::bones)) return refusal;
    if (const int refusal = names_refusal(morph_names, Of::morphs)) return refusal;
    if (records_not_whole(p)) return 5;
    read_records(p.cameras, cameras, 0, static_cast<u32>(p.cameras.size() / 61), t);
    read_records(p.lights, lights, 0, static_cast<u32>(p.lights.size() / 28), t);
    read_records(p.shadows, shadows, 0, static_cast<u32>(p.shadows.size() / 9), t);
    t.properties = *whole_properties(p.properties);
    if (altered(BuildColumnsFirst) && columns_refusal(p)) return 10;
    if (const int refusal = cameras_refusal(t)) return refusal;
    if (const int refusal = lights_refusal(t)) return refusal;
    if (altered(BuildIkBeforeShadows) && iks_refusal(p, t)) return 7;
    if (const int refusal = shadows_refusal(t)) return refusal;
    if (const int refusal = iks_refusal(p, t)) return refusal;
    if (const int refusal = columns_refusal(p)) return refusal;
    if (const int refusal = counts_refusal(p, t)) return refusal;
    if (const int refusal = build_bones(p, bone_names, t)) return refusal;
    return build_morphs(p, morph_names, t);
}

inline int build_size(const Parts &p, Longs &size) {
    Take t;
    if (const int refusal = build(p, t)) return refusal;
    size = {canonical_size(t)};
    return 0;
}
// "It writes the canonical file."
inline int build_animation_from_parts(const Parts &p, Bytes &out, Longs &written) {
    Take t;
    if (const int refusal = build(p, t)) return refusal;
    return save(canonical(t), out, written);
}

// ---- season figures

// header: places in the two arrays
enum SeasonPlace {
    season_smallest = 0,
    season_largest = 6,
    season_total = 0,
    season_records = 6,
    season_bone_names = 7,
    season_morph_names = 8,
    season_accepted = 9,
    season_refused = 10
};

// b) "No takes gives zeros throughout."
inline void season_none(Words &counts, Longs &figures) {
    counts.assign(12, 0);
    figures.assign(11, 0);
}

// What one accepted take adds to the 64-bit figures, refused left out.
inline Longs season_share(const Bytes &f, const Opening &o) {
    Longs share(11, 0);
    const auto counts = section_counts(o.take);
    for (int s = 0; s < 6; s++) {
        share[season_total + s] = counts[s];
        if (s < 5 || !altered(SeasonFirstFive)) share[season_records] += counts[s];
    }
    share[season_bone_names] = distinct(o.take.bones, altered(SeasonBonesRaw), f, o.places[bones], 111);
    share[season_morph_names] = distinct(o.take.morphs, altered(SeasonMorphsRaw), f, o.places[morphs], 23);
    share[season_accepted] = 1;
    return share;
}

// b) "Totals, the mean's over all six sections, the two sums and the numbers of accepted and refused takes are 64-bit; a take
// that would pass that adds only to refused"
inline bool season_passes(const Longs &figures, const Longs &share) {
    for (int i = 0; i < season_refused; i++) {
        const u64 room = 0xFFFFFFFFFFFFFFFF - figures[i];
        if (share[i] > room || (altered(SeasonExactRefused) && share[i] == room && room < 100)) return true;
    }
    return false;
}

// b) "A take that is refused is counted as refused and adds nothing else."; "the refused number stops at its largest value"
inline void season_refuse(Longs &figures) {
    u64 &refused = figures[season_refused];
    if (refused != 0xFFFFFFFFFFFFFFFF || altered(SeasonRefusedWraps)) refused++;
    else if (altered(SeasonRefusedStops)) figures[season_accepted]++;
}

// b) "per section the total, the smallest and the largest count"; "Smallest and largest are over accepted takes"; header:
// "While it is 0 the first take that is accepted sets smallest and largest, whatever stood there."
inline void season_extremes(const Take &t, bool first, Words &counts) {
    const auto of_take = section_counts(t);
    for (int s = 0; s < 6; s++) {
        u32 &smallest = counts[season_smallest + s], &largest = counts[season_largest + s];
        if (altered(SeasonEmptyNotSmallest) && of_take[s] == 0 && !first) continue;
        const bool set = first && !altered(SeasonSmallestStays);
        smallest = set ? of_take[s] : std::min(smallest, of_take[s]);
        largest = first || altered(SeasonLargestLast) ? of_take[s] : std::max(largest, of_take[s]);
    }
}

// i) "`vmd-list` and the season figures relied on the lenient manner and name it from here on."; header: "vmd_season_add has
// the lenient manner alone"
inline void season_add(const File &file, Words &counts, Longs &figures) {
    const Reading &f = file.in(altered(SeasonStrict) ? Manner::strict : Manner::lenient);
    if (f.refusal()) return season_refuse(figures);
    const Longs share = season_share(file.bytes, f.opening);
    if (season_passes(figures, share)) {
        if (altered(SeasonRefusedAdds)) season_extremes(f.take(), false, counts);
        return season_refuse(figures);
    }
    season_extremes(f.take(), figures[season_accepted] == 0, counts);
    for (int i = 0; i < season_refused; i++) figures[i] += share[i];
}

// b) "the mean records per accepted take as quotient and remainder"; "with none accepted .. the mean's two numbers are 0"
inline Longs season_mean(const Longs &figures) {
    const u64 records = figures[season_records], accepted = figures[season_accepted];
    if (accepted == 0) return altered(SeasonMeanNone) ? Longs{records, 0} : Longs{0, 0};
    if (altered(SeasonMeanRounded)) return {records / accepted + (records % accepted != 0), records % accepted};
    return {records / accepted, records % accepted};
}

} // namespace model

#endif
