// Answers that stand in the papers themselves, without the model: the takes of document 01, the manners of request i), excerpts
// and tracks of files written by hand, every short name, and sections too long to be made otherwise.
#ifndef FIXED_HPP
#define FIXED_HPP

#include <string_view>

#include "calls.hpp"

namespace fixed {

[[noreturn]] inline void differs(const char *what, u64 wanted, u64 got) {
    throw Disagreement(std::string(what) + ": expected " + std::to_string(wanted) + ", got " + std::to_string(got));
}
inline void equal(const char *what, u64 wanted, u64 got) {
    if (wanted != got) differs(what, wanted, got);
}

// "Start" is the magic and a zero model name, 50 bytes; 0 and 1 are u32 counts.
inline Bytes start(std::initializer_list<u32> counts) {
    Bytes f(newer_magic.begin(), newer_magic.end());
    f.resize(50, 0);
    for (u32 count : counts) model::put(f, count);
    return f;
}

inline u32 opened(const Bytes &f, Manner m, Words &counts) {
    Longs places(6), totals(3), scratch(4);
    counts.assign(6, 0);
    const auto call = m == Manner::strict ? vmd_parse_animation : vmd_parse_animation_lenient;
    return call(f.data(), f.size(), scratch.data(), scratch.size(), counts.data(), places.data(), totals.data());
}
inline u32 opened(const Bytes &f, Manner m) {
    Words counts;
    return opened(f, m, counts);
}
inline Bytes exported(const Bytes &f) {
    Bytes out(4096);
    u64 written = 0;
    equal("export", 0, vmd_export_animation(f.data(), f.size(), out.data(), out.size(), &written));
    out.resize(written);
    return out;
}

// "P 29 bytes: 1. P 30 bytes of 0x41: 2. P start: 1. P start,0: accepted, export 74 bytes. P start,0 and one byte: 1."
// "P start,0,1: 1. P start,0,0,1: accepted, no cameras. P start,0,0,0,0,0,1: 1."
inline void openings() {
    Words counts;
    Bytes one_more = start({0});
    one_more.push_back(0);
    for (Manner m : manners) {
        equal("29 bytes", 1, opened(Bytes(29, 0x41), m));
        equal("30 bytes of 0x41", 2, opened(Bytes(30, 0x41), m));
        equal("start", 1, opened(start({}), m));
        equal("start,0", 0, opened(start({0}), m));
        equal("start,0 and one byte", 1, opened(one_more, m));
        equal("start,0,1", 1, opened(start({0, 1}), m));
        equal("start,0,0,0,0,0,1", 1, opened(start({0, 0, 0, 0, 0, 1}), m));
    }
    equal("start,0 exported", 74, exported(start({0})).size());
    equal("start,0,0,1", 0, opened(start({0, 0, 1}), Manner::lenient, counts));
    equal("start,0,0,1 has no cameras", 0, counts[VMD_CAMERAS]);
}

// Every call that reads a whole take, of a file that has no records in the lenient manner; all have to answer the same.
inline void every_call(const char *what, u64 wanted, const Bytes &f, Manner m) {
    const bool strict = m == Manner::strict;
    const u8 *file = f.data();
    const std::size_t n = f.size();
    const Bytes whole = start({0, 0, 0, 0, 0, 0});
    Words counts(6), kept(6), dropped(6);
    Longs places(6), totals(3), sizes(4);
    Bytes out(100);
    u64 size = 0;
    const auto same = [&](u64 got) { equal(what, wanted, got); };
    same(opened(f, m, counts));
    same((strict ? vmd_export_size : vmd_export_size_lenient)(file, n, &size));
    same((strict ? vmd_export_animation : vmd_export_animation_lenient)(file, n, out.data(), 100, &size));
    same((strict ? vmd_export_older_size : vmd_export_older_size_lenient)(file, n, &size));
    same((strict ? vmd_export_older_animation : vmd_export_older_animation_lenient)(file, n, out.data(), 100, &size));
    const auto join_size = strict ? vmd_join_size : vmd_join_size_lenient;
    const auto join = strict ? vmd_join_animations : vmd_join_animations_lenient;
    same(join_size(file, n, whole.data(), whole.size(), &size));
    same(join_size(whole.data(), whole.size(), file, n, &size));
    same(join(file, n, whole.data(), whole.size(), out.data(), 100, &size));
    same(join(whole.data(), whole.size(), file, n, out.data(), 100, &size));
    const auto tidy_size = strict ? vmd_tidy_size : vmd_tidy_size_lenient;
    const auto tidy = strict ? vmd_tidy_animation : vmd_tidy_animation_lenient;
    same(tidy_size(file, n, nullptr, 0, &size, kept.data(), dropped.data()));
    same(tidy(file, n, nullptr, 0, out.data(), 100, &size, kept.data(), dropped.data()));
    same((strict ? vmd_excerpt_size : vmd_excerpt_size_lenient)(file, n, 0, 0xFFFFFFFF, &size));
    same((strict ? vmd_excerpt_animation : vmd_excerpt_animation_lenient)(file, n, 1, 1, out.data(), 100, &size));
    same((strict ? vmd_split_sizes : vmd_split_sizes_lenient)(file, n, sizes.data()));
    const auto split = strict ? vmd_split_animation_into_parts : vmd_split_animation_into_parts_lenient;
    same(split(file, n, nullptr, 0, nullptr, 0, nullptr, 0, nullptr, 0, nullptr, 0, nullptr, 0, nullptr, 0, nullptr, 0,
               nullptr, 0, nullptr, 0, nullptr, 0, nullptr, 0, nullptr, 0, nullptr, 0, nullptr, 0, nullptr, 0, sizes.data()));
}

// i) "The case start,0,0,1 of document 01 is accepted in the lenient manner and is 17 in the strict one."; "16 bytes after the
// last property frame, or after its count of 0"; "the season figures relied on the lenient manner"
inline void manners_of_calls() {
    Bytes over = start({0, 0, 0, 0, 0, 0}), after_frame = start({0, 0, 0, 0, 0, 1});
    over.push_back(0);
    after_frame.resize(after_frame.size() + 9 + 1, 0);
    equal("a byte after a frame", 16, opened(after_frame, Manner::strict));
    equal("a byte after a frame, lenient", 0, opened(after_frame, Manner::lenient));
    for (const Bytes &f : {start({0, 0, 1}), start({0, 0, 0, 1}), start({0, 0, 0, 0, 1}), over}) {
        every_call("an oversized count, or a byte over", f == over ? 16 : 17, f, Manner::strict);
        every_call("an oversized count, or a byte over, lenient", 0, f, Manner::lenient);
        Words counts(12);
        Longs figures(11);
        vmd_season_add(f.data(), f.size(), counts.data(), figures.data());
        equal("in a season", 1, figures[VMD_SEASON_ACCEPTED]);
    }
    for (Manner m : manners) every_call("missing counts", 0, start({0, 0}), m);
}

// "P perspective bytes 0, 1, 2 are written 0, 1, 1. P name 0x41 0x00 0x42 is written 0x41 and zeros."
inline void exports() {
    for (u8 flag : {u8{0}, u8{1}, u8{2}}) {
        Bytes f = start({0, 0, 1});
        f.resize(f.size() + 61, 0);
        f.back() = flag;
        equal("perspective", flag == 0 ? 0 : 1, exported(f)[62 + 60]);
    }
    Bytes f = start({1});
    const u8 name[3] = {0x41, 0x00, 0x42};
    f.insert(f.end(), name, name + 3);
    f.resize(54 + 111, 0);
    const Bytes whole = exported(f);
    equal("name", 0x41, whole[54]);
    for (std::size_t i = 55; i < 69; i++) equal("name's zeros", 0, whole[i]);
    // "Two one-bone takes (185 bytes each) join to 296."
    Bytes out(400);
    u64 written = 0;
    equal("one bone", 185, whole.size());
    equal("join", 0, vmd_join_animations(whole.data(), 185, whole.data(), 185, out.data(), out.size(), &written));
    equal("joined", 296, written);
}

// "P name bytes 0x83 0x41 are good; 0x83 alone, 0x83 0x7F and 0xA0 are not."
inline void names() {
    const u8 good[2] = {0x83, 0x41}, bad[2] = {0x83, 0x7F}, single = 0xA0;
    equal("0x83 0x41", 2, vmd_first_fault(good, 2));
    equal("0x83", 0, vmd_first_fault(good, 1));
    equal("0x83 0x7F", 0, vmd_first_fault(bad, 2));
    equal("0xA0", 0, vmd_first_fault(&single, 1));
}

// A build of nothing but one bone name.
inline u32 one_name_built(const Bytes &n) {
    const u32 end = static_cast<u32>(n.size());
    u64 size = 0;
    return vmd_build_size(nullptr, 0, n.data(), n.size(), &end, 1, nullptr, 0, nullptr, 0, nullptr, 0, nullptr, 0, nullptr, 0,
                          nullptr, 0, nullptr, 0, nullptr, 0, nullptr, 0, nullptr, 0, nullptr, 0, nullptr, 0, nullptr, 0,
                          nullptr, 0, &size);
}

// h) "A supplier's table with the pair 0x85 0x40 was built .. finds no character there"; "or lies in 8836 to 10715. Refusal 7
// covers the rest."
inline void pairs() {
    const Bytes none = {0x85, 0x40}, first = {0xF0, 0x40}, last = {0xF9, 0xFC};
    equal("0x85 0x40", 0, vmd_first_fault(none.data(), 2));
    equal("0x85 0x40 in a table", 7, one_name_built(none));
    equal("pointer 8836", 2, vmd_first_fault(first.data(), 2));
    equal("pointer 8836 in a table", 0, one_name_built(first));
    equal("pointer 10715", 2, vmd_first_fault(last.data(), 2));
    equal("pointer 10715 in a table", 0, one_name_built(last));
}

// ---- j) excerpts, in bytes

inline void add(Bytes &f, std::initializer_list<u8> more) { f.insert(f.end(), more); }

// Both calls of both manners write or measure just the wanted bytes, also where there is no room for more.
inline void cut(const char *what, const Bytes &wanted, const Bytes &f, u32 first, u32 last) {
    for (Manner m : manners) {
        const bool strict = m == Manner::strict;
        const auto size_call = strict ? vmd_excerpt_size : vmd_excerpt_size_lenient;
        const auto call = strict ? vmd_excerpt_animation : vmd_excerpt_animation_lenient;
        u64 size = 0;
        equal(what, 0, size_call(f.data(), f.size(), first, last, &size));
        equal(what, wanted.size(), size);
        for (std::size_t room : {wanted.size(), wanted.size() + 1, f.size() + 100, wanted.size() - 1, std::size_t{0}}) {
            const bool enough = room >= wanted.size();
            Bytes out(room, 0xEE), after = enough ? wanted : Bytes();
            after.resize(room, 0xEE);
            u64 written = 7;
            equal(what, enough ? 0 : 13, call(f.data(), f.size(), first, last, out.data(), room, &written));
            equal(what, enough ? wanted.size() : 7, written);
            for (std::size_t i = 0; i < room; i++) equal(what, after[i], out[i]);
        }
    }
}

// One record of each kind, zero but for its frame.
inline Bytes one_of_each(u8 frame) {
    Bytes f = start({});
    f.resize(315, 0);
    for (std::size_t count : {50, 165, 192, 257, 289, 302}) f[count] = 1;
    for (std::size_t place : {69, 184, 196, 261, 293, 306}) f[place] = frame;
    return f;
}

// "between them, both included, with the first subtracted"; header: "where no record stays, the file has 74 bytes"
inline void excerpts_of_each() {
    const Bytes f = one_of_each(10), none = start({0, 0, 0, 0, 0, 0});
    cut("frame 10 of 10 to 10", one_of_each(0), f, 10, 10);
    cut("frame 10 of 9 to 10", one_of_each(1), f, 9, 10);
    cut("frame 10 of 10 to 11", one_of_each(0), f, 10, 11);
    cut("frame 10 of 3 to 4,294,967,295", one_of_each(7), f, 3, 0xFFFFFFFF);
    cut("frame 10 of 0 to 4,294,967,295", f, f, 0, 0xFFFFFFFF);
    cut("frame 10 of 0 to 9", none, f, 0, 9);
    cut("frame 10 of 11 to 4,294,967,295", none, f, 11, 0xFFFFFFFF);
    cut("no records", none, start({0}), 5, 5);
    // "the canonical file": bytes 26 to 29, a bone's name 0x41 0x00 0x42 and a perspective byte 2
    Bytes loose = f, saved = f, moved = one_of_each(0);
    loose[27] = 1, loose[54] = saved[54] = moved[54] = 0x41, loose[56] = 0x42, loose[256] = 2, saved[256] = moved[256] = 1;
    cut("the export", saved, loose, 0, 0xFFFFFFFF);
    cut("canonical", moved, loose, 10, 10);
}

// "Order and model name are kept.": self-shadows of frames 7, 5, 8, 6
inline void excerpts_in_order() {
    Bytes f = start({0, 0, 0, 0, 4}), piece = start({0, 0, 0, 0, 2}), last = start({0, 0, 0, 0, 1});
    f[30] = piece[30] = last[30] = 'm';
    add(f, {7, 0, 0, 0, 1, 0, 0, 0x80, 0x3F, 5, 0, 0, 0, 2, 0, 0, 0, 0x40});
    add(f, {8, 0, 0, 0, 0, 0, 0, 0, 0x80, 6, 0, 0, 0, 9, 0xFF, 0xFE, 0xFD, 0xFC, 0, 0, 0, 0});
    add(piece, {1, 0, 0, 0, 1, 0, 0, 0x80, 0x3F, 0, 0, 0, 0, 9, 0xFF, 0xFE, 0xFD, 0xFC, 0, 0, 0, 0});
    add(last, {0, 0, 0, 0, 0, 0, 0, 0, 0x80, 0, 0, 0, 0});
    cut("frames 7, 5, 8, 6 of 6 to 7", piece, f, 6, 7);
    cut("frames 7, 5, 8, 6 of 8 to 8", last, f, 8, 8);
}

// An older file, with a model name that fills its field, and property frames 2, 4,294,967,295 and 2 with one, no and two IK
// states; what is written is canonical.
inline void excerpts_of_properties() {
    static const char older_start[] = "Vocaloid Motion Data file\0wxyzabcdefghij", newer_start[] = "Vocaloid Motion Data 0002";
    Bytes f(older_start, older_start + 40), twos(newer_start, newer_start + 25);
    f.resize(60, 0), twos.resize(70, 0);
    std::copy(f.begin() + 30, f.begin() + 40, twos.begin() + 30);
    Bytes ends = twos, none = twos;
    add(f, {3, 0, 0, 0});
    add(f, {2, 0, 0, 0, 8, 1, 0, 0, 0, 'k', 0, 'k', 0, 0, 0, 0, 0, 0, 0, 0, 0, 0, 0, 0, 0, 0, 0, 0, 'k', 7});
    add(f, {0xFF, 0xFF, 0xFF, 0xFF, 1, 0, 0, 0, 0});
    add(f, {2, 0, 0, 0, 0, 2, 0, 0, 0, 'l', 0, 0, 0, 0, 0, 0, 0, 0, 0, 0, 0, 0, 0, 0, 0, 0, 0, 0, 0, 0});
    add(f, {'m', 'n', 0, 0, 0, 0, 0, 0, 0, 0, 0, 0, 0, 0, 0, 0, 0, 0, 0, 0, 1});
    add(twos, {2, 0, 0, 0});
    add(twos, {0, 0, 0, 0, 1, 1, 0, 0, 0, 'k', 0, 0, 0, 0, 0, 0, 0, 0, 0, 0, 0, 0, 0, 0, 0, 0, 0, 0, 0, 1});
    add(twos, {0, 0, 0, 0, 0, 2, 0, 0, 0, 'l', 0, 0, 0, 0, 0, 0, 0, 0, 0, 0, 0, 0, 0, 0, 0, 0, 0, 0, 0, 0});
    add(twos, {'m', 'n', 0, 0, 0, 0, 0, 0, 0, 0, 0, 0, 0, 0, 0, 0, 0, 0, 0, 0, 1});
    add(ends, {1, 0, 0, 0, 0, 0, 0, 0, 1, 0, 0, 0, 0});
    add(none, {0, 0, 0, 0});
    cut("property frames 2", twos, f, 2, 2);
    cut("property frame 4,294,967,295", ends, f, 0xFFFFFFFF, 0xFFFFFFFF);
    cut("no property frame", none, f, 3, 0xFFFFFFFE);
}

// "18 the first frame is above the last, tested before the file is read"; e) "leaves all that was lent unchanged"
inline void excerpts_turned_down() {
    Bytes over = start({0, 0, 0, 0, 0, 0});
    over.push_back(0);
    const std::vector<std::tuple<Bytes, u64, u64>> files = {{Bytes(), 1, 1},           {Bytes(29, 0x41), 1, 1},
                                                            {Bytes(30, 0x41), 2, 2},   {start({}), 1, 1},
                                                            {start({0, 0, 1}), 17, 0}, {over, 16, 0},
                                                            {start({0}), 0, 0},        {one_of_each(3), 0, 0}};
    const std::vector<Span> spans = {{1, 0}, {4, 3}, {0xFFFFFFFF, 0}, {0xFFFFFFFF, 0xFFFFFFFE}, {3, 3}};
    for (const auto &[f, strict, lenient] : files) {
        for (const auto &[first, last] : spans) {
            const u8 *file = f.data();
            const std::size_t n = f.size();
            const bool above = first > last;
            Bytes out(400, 0xEE);
            u64 size = 7, written = 7;
            equal("size", above ? 18 : strict, vmd_excerpt_size(file, n, first, last, &size));
            equal("18", above ? 18 : strict, vmd_excerpt_animation(file, n, first, last, out.data(), 400, &written));
            if (above || strict) equal("as it was", 7 + 7 + 0xEE, size + written + out[0]);
            size = written = 7, out[0] = 0xEE;
            equal("size, lenient", above ? 18 : lenient, vmd_excerpt_size_lenient(file, n, first, last, &size));
            equal("18, lenient", above ? 18 : lenient,
                  vmd_excerpt_animation_lenient(file, n, first, last, out.data(), 400, &written));
            if (above || lenient) equal("as it was", 7 + 7 + 0xEE, size + written + out[0]);
            const u64 before_13 = above ? 18 : strict ? strict : 13;
            equal("before 13", before_13, vmd_excerpt_animation(file, n, first, last, nullptr, 0, &written));
        }
    }
}

inline void excerpts() {
    excerpts_of_each();
    excerpts_in_order();
    excerpts_of_properties();
    excerpts_turned_down();
}

// ---- k) names up to the line feed, in bytes

// A bone or morph, zero but for its name, its frame and its last byte.
struct Key {
    std::string_view name;
    u8 frame, last;
};
using Keys = std::vector<Key>;

// The canonical file of these, with a remark in its model name, which is no track.
inline Bytes keys_file(Section section, const Keys &keys) {
    const u32 n = static_cast<u32>(keys.size());
    Bytes f = section == bones ? start({n}) : start({0, n});
    f[30] = 'm', f[31] = '\n', f[32] = 'x';
    for (const Key &key : keys) {
        Bytes record(record_size[section], 0);
        std::copy(key.name.begin(), key.name.end(), record.begin());
        record[15] = key.frame, record.back() = key.last;
        extend(f, record);
    }
    f.resize(f.size() + (section == bones ? 20 : 16), 0); // the other counts
    return f;
}

// Both calls of both manners, with just enough room and with more; tidied once more it stays as it is.
inline void tidies(const char *what, const Bytes &wanted, const Bytes &f, Section section, u64 records, u64 stay) {
    for (Manner m : manners) {
        const bool strict = m == Manner::strict;
        const auto size_call = strict ? vmd_tidy_size : vmd_tidy_size_lenient;
        const auto call = strict ? vmd_tidy_animation : vmd_tidy_animation_lenient;
        for (std::size_t room : {wanted.size(), f.size(), f.size() + 1}) {
            Words kept(6), dropped(6);
            Longs scratch(records);
            Bytes out(room);
            u64 size = 0, written = 0;
            equal(what, 0, size_call(f.data(), f.size(), scratch.data(), records, &size, kept.data(), dropped.data()));
            equal(what, 0, call(f.data(), f.size(), scratch.data(), records, out.data(), room, &written, kept.data(),
                                dropped.data()));
            equal(what, wanted.size(), size);
            equal(what, wanted.size(), written);
            equal(what, stay, kept[section]);
            equal(what, records - stay, dropped[section]);
            for (std::size_t i = 0; i < wanted.size(); i++) equal(what, wanted[i], out[i]);
        }
    }
    if (f != wanted) tidies(what, wanted, wanted, section, stay, stay);
}

// The keys as bones and as morphs: what stays of them, how many tracks the season counts, and raw names the parts.
inline void tracks(const char *what, const Keys &keys, const Keys &stay, u64 tracks_, u64 raw_names) {
    for (Section section : {bones, morphs}) {
        const Bytes f = keys_file(section, keys);
        tidies(what, keys_file(section, stay), f, section, keys.size(), stay.size());
        Words counts(12);
        Longs figures(11), sizes(4);
        vmd_season_add(f.data(), f.size(), counts.data(), figures.data());
        equal(what, tracks_, figures[section == bones ? VMD_SEASON_BONE_NAMES : VMD_SEASON_MORPH_NAMES]);
        equal(what, 0, vmd_split_sizes(f.data(), f.size(), sizes.data()));
        equal(what, raw_names, sizes[section == bones ? 0 : 2]);
    }
}

// "Two names now belong to one track when they agree up to the first byte 0x0A"; "A tidied record keeps its full name."
inline void tracks_of_names() {
    const Name feeds(15, '\n'), full(15, 'A');
    tracks("`A`, `A\\nx` and `A\\ny`", {{"A", 3, 1}, {"A\nx", 1, 2}, {"B", 0, 3}, {"A\ny", 3, 4}, {"A", 2, 5}},
           {{"A\nx", 1, 2}, {"A", 2, 5}, {"A\ny", 3, 4}, {"B", 0, 3}}, 2, 4);
    tracks("the first name goes", {{"A\nx", 1, 1}, {"B\n", 1, 2}, {"A", 1, 3}, {"B", 1, 4}}, {{"A", 1, 3}, {"B", 1, 4}}, 2, 4);
    tracks("the empty name", {{"\n", 1, 1}, {"", 2, 2}, {"\nx", 1, 3}}, {{"\nx", 1, 3}, {"", 2, 2}}, 1, 3);
    tracks("nothing but line feeds", {{"\n\n", 1, 1}, {"\n", 1, 2}, {feeds, 1, 3}}, {{feeds, 1, 3}}, 1, 3);
    tracks("two line feeds", {{"A\nx\nz", 1, 1}, {"A\ny\nz", 1, 2}, {"A\n\n", 1, 3}}, {{"A\n\n", 1, 3}}, 1, 3);
    const Keys apart = {{"A", 1, 1},         {"A\r", 1, 2},  {"A\v", 1, 3}, {"A\t", 1, 4}, {"A\x8A", 1, 5},
                        {"A\x83\x8A", 1, 6}, {"A\\n", 1, 7}, {"", 1, 8},    {full, 1, 9}};
    tracks("no line feed", apart, apart, 9, 9);
    for (u64 place = 0; place < 15; place++) {
        const Name bare(place, 'A'), fed = bare + "\n", longer = bare + "B", returned = bare + "\r";
        const Key before = {fed, 1, 1}, other = {longer, 1, 2}, like = {returned, 1, 3}, after = {bare, 1, 4};
        tracks("a line feed at every place", {before, other, like, after}, {after, other, like}, 3, 4);
    }
    const Keys after_zero = {{{"A\0\nx", 4}, 1, 1}, {{"A\0\n\n", 4}, 1, 2}, {{"\0\n", 2}, 1, 3}};
    tracks("a line feed after the zero", after_zero, {{"A", 1, 2}, {"", 1, 3}}, 2, 2);
}

// "The tidying laws hold for the wider tracks.": the halves of a join spell the remark otherwise
inline void tracks_of_joins() {
    const Keys first = {{"A\nx", 1, 1}, {"A\nx", 2, 2}, {"B", 5, 3}}, second = {{"B\n", 5, 4}, {"A\ny", 2, 5}, {"A", 0, 6}};
    const Keys stay = {second[2], first[0], second[1], second[0]}, tidy_second = {second[0], second[2], second[1]};
    for (Section section : {bones, morphs}) {
        const Bytes f = keys_file(section, first), wanted = keys_file(section, stay);
        for (const Keys &half : {second, tidy_second}) {
            const Bytes g = keys_file(section, half);
            Bytes out(f.size() + g.size());
            u64 written = 0;
            equal("join", 0, vmd_join_animations(f.data(), f.size(), g.data(), g.size(), out.data(), out.size(), &written));
            out.resize(written);
            tidies("a join of two spellings", wanted, out, section, 6, 4);
        }
        tidies("its second half", keys_file(section, tidy_second), keys_file(section, second), section, 3, 3);
    }
}

inline void takes_to_try() {
    now.call = "takes to try";
    openings();
    manners_of_calls();
    exports();
    names();
    pairs();
    excerpts();
    tracks_of_names();
    tracks_of_joins();
}

// ---- every name of up to three bytes: every pair alone, behind any byte and before any

inline u64 every_short_name() {
    u64 tried = 0;
    for (std::size_t n = 0; n <= 3; n++) {
        for (u64 value = 0; value < u64{1} << (8 * n); value++, tried++) {
            const u8 name[3] = {static_cast<u8>(value), static_cast<u8>(value >> 8), static_cast<u8>(value >> 16)};
            equal("every short name", model::first_fault(name, n, Of::alone), vmd_first_fault(name, n));
        }
    }
    return tried;
}

// As the library has them; how many there are, characters.hpp has from elsewhere.
inline u64 pairs_with_a_character() {
    u64 with = 0;
    for (int first = 0x81; first <= 0xFC; first++)
        for (int second = 0x40; second <= 0xFC; second++) {
            const u8 name[2] = {static_cast<u8>(first), static_cast<u8>(second)};
            if (model::lead(name[0]) && model::trail(name[1]) && vmd_first_fault(name, 2) == 2) with++;
        }
    equal("pairs with a character", 9604, with);
    return with;
}

// ---- sections of more than 2^31 records, all zero; the pages that are only read take no memory

class Zeros {
  public:
    explicit Zeros(u64 n) : length(n) {
        void *map = mmap(nullptr, n + page, PROT_READ | PROT_WRITE, MAP_PRIVATE | MAP_ANONYMOUS | MAP_NORESERVE, -1, 0);
        if (map == MAP_FAILED) throw std::runtime_error("no room for a long section");
        bytes = static_cast<u8 *>(map);
    }
    ~Zeros() { munmap(bytes, length + page); }
    Zeros(const Zeros &) = delete;
    Zeros &operator=(const Zeros &) = delete;
    u8 *bytes;
    u64 length;
};

// A file of that many self-shadows and nothing else, with more zero bytes after them.
struct LongFile : Zeros {
    explicit LongFile(u32 shadows_, u64 more = 0) : Zeros(70 + 9 * u64{shadows_} + more) {
        const Bytes header = start({0, 0, 0, 0, shadows_});
        std::copy(header.begin(), header.end(), bytes);
    }
};

constexpr u32 half = 0x80000000;

// "Joining: first file, second file, 11, 13."; "74 + .. 9s"
inline void huge_join() {
    const LongFile f(half), g(half - 1);
    u64 size = 7, written = 7;
    u8 out[100] = {};
    equal("join size of 2^32", 11, vmd_join_size(f.bytes, f.length, f.bytes, f.length, &size));
    equal("join of 2^32", 11, vmd_join_animations(f.bytes, f.length, f.bytes, f.length, out, 100, &written));
    equal("size as it was", 7, size);
    equal("join size of 2^32 - 1", 0, vmd_join_size(f.bytes, f.length, g.bytes, g.length, &size));
    equal("its size", 74 + 9 * u64{0xFFFFFFFF}, size);
    equal("join of 2^32 - 1", 13, vmd_join_animations(f.bytes, f.length, g.bytes, g.length, out, 100, &written));
    equal("written as it was", 7, written);
    // i) 16 and 17 are met in the second file, and so before 11
    const LongFile over(half, 5);
    size = 7;
    equal("join size of 2^32, lenient", 11, vmd_join_size_lenient(f.bytes, f.length, over.bytes, over.length, &size));
    equal("a byte over before 11", 16, vmd_join_size(f.bytes, f.length, over.bytes, over.length, &size));
    equal("join, a byte over before 11", 16,
          vmd_join_animations(f.bytes, f.length, over.bytes, over.length, out, 100, &written));
    equal("join of 2^32, lenient", 11,
          vmd_join_animations_lenient(f.bytes, f.length, over.bytes, over.length, out, 100, &written));
    equal("size as it was", 7, size);
    equal("written as it was", 7, written);
}

// i) The self-shadows of a file whose count is one too high.
inline void huge_oversized() {
    const LongFile f(half);
    Words counts(6);
    Longs places(6), totals(3);
    const u64 length = f.length - 1;
    equal("one byte short", 17,
          vmd_parse_animation(f.bytes, length, nullptr, 0, counts.data(), places.data(), totals.data()));
    equal("one byte short, lenient", 0,
          vmd_parse_animation_lenient(f.bytes, length, nullptr, 0, counts.data(), places.data(), totals.data()));
    equal("no self-shadows", 0, counts[VMD_SELF_SHADOWS]);
    equal("emptied place", length, places[VMD_SELF_SHADOWS]);
}

// Opening, fetches at the end, season, tidying and parts of a long file.
inline void huge_file() {
    const LongFile f(half);
    Words counts(6), record(3), season_counts(12), kept(6), dropped(6);
    Longs places(6), totals(3), figures(11);
    u64 size = 7;
    equal("opening", 0,
          vmd_parse_animation(f.bytes, f.length, nullptr, 0, counts.data(), places.data(), totals.data()));
    equal("count", half, counts[VMD_SELF_SHADOWS]);
    equal("place", 70, places[VMD_SELF_SHADOWS]);
    equal("missing place", f.length, places[VMD_PROPERTIES]);
    equal("last record", 0,
          vmd_self_shadow_frame(f.bytes, f.length, counts.data(), places.data(), half - u64{1}, record.data()));
    equal("after it", 4, vmd_self_shadow_frame(f.bytes, f.length, counts.data(), places.data(), half, record.data()));
    equal("export size", 0, vmd_export_size(f.bytes, f.length, &size));
    equal("its size", 74 + 9 * u64{half}, size);
    vmd_season_none(season_counts.data(), figures.data());
    vmd_season_add(f.bytes, f.length, season_counts.data(), figures.data());
    vmd_season_add(f.bytes, f.length, season_counts.data(), figures.data());
    equal("season total", 2 * u64{half}, figures[VMD_SEASON_TOTAL + VMD_SELF_SHADOWS]);
    equal("season largest", half, season_counts[VMD_SEASON_LARGEST + VMD_SELF_SHADOWS]);
    u64 scratch[4] = {1, 2, 3, 4};
    equal("tidy", 3, vmd_tidy_size(f.bytes, f.length, scratch, 4, &size, kept.data(), dropped.data()));
}

// j) All frames are 0, but for the last record's, which is 9.
inline void huge_excerpt() {
    const LongFile f(half);
    f.bytes[f.length - 9] = 9;
    u64 size = 7, written = 7;
    u8 out[100] = {};
    equal("excerpt size", 0, vmd_excerpt_size(f.bytes, f.length, 0, 8, &size));
    equal("its size", 74 + 9 * (u64{half} - 1), size);
    equal("excerpt", 13, vmd_excerpt_animation(f.bytes, f.length, 0, 8, out, 100, &written));
    equal("written as it was", 7, written);
    equal("excerpt of the last", 0, vmd_excerpt_animation(f.bytes, f.length, 8, 9, out, 100, &written));
    equal("its size", 83, written);
    equal("its count", 1, out[66]);
    equal("its frame", 1, out[70]);
    equal("18 of a long file", 18, vmd_excerpt_size(f.bytes, f.length, 1, 0, &size));
}

// "10; 11; .. 13" of building, with self-shadows or properties of which one more would pass 32 bits
inline u32 build_long(const Zeros &shadows_, u64 s, const Zeros &properties_, u64 p, u64 columns, u64 *size) {
    const u32 none[4] = {};
    return vmd_build_size(nullptr, 0, nullptr, 0, nullptr, 0, nullptr, 0, nullptr, 0, nullptr, 0, nullptr, 0, shadows_.bytes,
                          9 * s, properties_.bytes, 9 * p, none, columns, nullptr, 0, nullptr, 0, nullptr, 0, nullptr, 0,
                          nullptr, 0, nullptr, 0, nullptr, 0, size);
}
inline void huge_build() {
    const u64 most = 0xFFFFFFFF;
    const Zeros records(9 * (most + 1));
    u64 size = 7;
    equal("2^32 self-shadows", 11, build_long(records, most + 1, records, 0, 0, &size));
    equal("2^32 properties", 11, build_long(records, 0, records, most + 1, 0, &size));
    equal("2^32 and columns", 10, build_long(records, most + 1, records, 0, 1, &size));
    equal("size as it was", 7, size);
    equal("2^32 - 1 self-shadows", 0, build_long(records, most, records, 1, 0, &size));
    equal("its size", 74 + 9 * (most + 1), size);
}

} // namespace fixed

#endif
