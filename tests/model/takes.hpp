// Takes and parts to try, made from a seed: well-formed, dressed in bytes that do not count, harmed, and derived from others.
#ifndef TAKES_HPP
#define TAKES_HPP

#include "model.hpp"

namespace takes {

using namespace model;

// splitmix64
class Rng {
  public:
    explicit Rng(u64 seed) : state(seed) {}
    u64 next() {
        u64 z = state += 0x9E3779B97F4A7C15;
        z = (z ^ (z >> 30)) * 0xBF58476D1CE4E5B9;
        z = (z ^ (z >> 27)) * 0x94D049BB133111EB;
        return z ^ (z >> 31);
    }
    u64 below(u64 n) { return next() % n; }
    bool one_in(u64 n) { return below(n) == 0; }
    u8 byte() { return static_cast<u8>(next()); }
    u32 word() { return static_cast<u32>(next()); }
    template <class T> const T &pick(const std::vector<T> &from) { return from[below(from.size())]; }

  private:
    u64 state;
};

// Case number n of a seed has draws of its own, so that it can be made again without those before it.
inline Rng case_rng(u64 seed, u64 n, u64 use) { return Rng(Rng(Rng(seed).next() ^ (n * 3 + use)).next()); }

// ---- pairs of a lead and a trail

struct Pairs {
    std::vector<Name> with, without;             // a character
    std::vector<Name> edges_with, edges_without; // of these, where one kind meets the other, or the index the range
};

inline Pairs make_pairs() {
    const auto has = [](u64 p) { return in_index(p) || in_user_rows(p); };
    Pairs all;
    u64 p = 0; // the pointer: they follow each other
    for (int first = 0x81; first <= 0xFC; first++) {
        if (first > 0x9F && first < 0xE0) continue;
        for (int second = 0x40; second <= 0xFC; second++) {
            if (second == 0x7F) continue;
            const Name two = {static_cast<char>(first), static_cast<char>(second)};
            (has(p) ? all.with : all.without).push_back(two);
            const bool edge = has(p) != has(p + 1) || (p > 0 && has(p) != has(p - 1)) || p == 10715 || p == 10716;
            if (edge) (has(p) ? all.edges_with : all.edges_without).push_back(two);
            p++;
        }
    }
    return all;
}
inline const Pairs all_pairs = make_pairs();

inline const Name &good_pair(Rng &r) { return r.pick(r.one_in(3) ? all_pairs.edges_with : all_pairs.with); }
inline const Name &bare_pair(Rng &r) { return r.pick(r.one_in(3) ? all_pairs.edges_without : all_pairs.without); }

// ---- names, floats and frames

inline void add_good(Rng &r, Name &n) {
    const u8 kind = r.byte() % 4;
    const auto between = [&](int a, int b) { return static_cast<char>(a + static_cast<int>(r.below(b - a + 1))); };
    if (kind == 0) n += between(0x41, 0x44);
    if (kind == 1) n += between(0xA1, 0xDF);
    if (kind == 2) n += r.one_in(2) ? between(0x01, 0x80) : '\n';
    if (kind == 3) n += good_pair(r);
}

inline Name good_name(Rng &r, u64 width) {
    Name n;
    const u64 length = r.one_in(4) ? width : r.below(width + 1);
    while (n.size() < length) add_good(r, n);
    if (n.size() > width) n = n.substr(0, n.size() - 2) + "A"; // the last was a pair
    return n;
}

// h) A pair without a character, alone or among what is good.
inline Name bare_name(Rng &r, u64 width) {
    Name n = bare_pair(r);
    if (r.one_in(2)) n.insert(0, good_name(r, width - n.size()));
    if (r.one_in(2)) n += good_name(r, width - n.size());
    return n;
}

// A few names that are prefixes of each other, differ after a line feed, fill the field or are empty.
inline Name some_name(Rng &r, u64 width, bool clean) {
    static const std::vector<Name> common = {"",   "A",   "AB",       "A\n",          "A\n1",  "A\n2",
                                             "\n", "\n1", "\x83\x41", "\x83\x41\x42", "center"};
    if (r.one_in(2)) return r.pick(common);
    if (r.one_in(6)) return Name(width, 'x');
    if (clean || r.one_in(2)) return good_name(r, width);
    Name n;
    for (u64 length = r.below(width + 1); n.size() < length;) n += static_cast<char>(1 + r.below(255));
    return n;
}

// k) "Some editors add a line feed and a remark to a name.": names of one track, cut at any place, most often where words of
// eight bytes meet and at both ends, and some that have another byte in place of the line feed.
inline Name some_track(Rng &r) {
    static const std::vector<u64> places = {0, 7, 8, 9, 14};
    const u64 length = r.one_in(4) ? r.pick(places) : r.below(15);
    Name n = r.one_in(3) ? Name() : good_name(r, length);
    std::replace(n.begin(), n.end(), '\n', 'n');
    n.resize(length, 'x');
    return n;
}
inline Name with_remark(Rng &r, const Name &track) {
    static const std::vector<Name> like = {"\r", "\v", "\x83\x8A", "\x8A\x41"};
    const Name mark = r.one_in(3) ? r.pick(like) : r.one_in(8) ? Name("\n\n") : Name("\n");
    const u64 length = track.size() + mark.size();
    if (r.one_in(4) || length > 15) return track;
    return track + mark + (r.one_in(3) ? Name(r.below(16 - length), r.one_in(2) ? 'x' : 'y') : good_name(r, 15 - length));
}
inline std::vector<Name> names_with_remarks(Rng &r) {
    std::vector<Name> names;
    for (u64 tracks = r.one_in(3) ? 2 : 1; tracks > 0; tracks--) {
        const Name track = some_track(r);
        for (u64 n = 2 + r.below(3); n > 0; n--) names.push_back(with_remark(r, track));
    }
    return names;
}

inline u32 some_float(Rng &r, bool clean) {
    static const std::vector<u32> odd = {0x7FC00000, 0xFFC00001, 0x7F800001, 0xFFFFFFFF, 0x7F800000, 0xFF800000, 0x7FABCDEF};
    static const std::vector<u32> even = {0, 0x80000000, 0x3F800000, 0xBF800000, 1, 0x7F7FFFFF, 0xFF7FFFFF, 0x00800000};
    if (!clean && r.one_in(8)) return r.pick(odd);
    if (r.one_in(2)) return r.pick(even);
    const u32 bits = r.word();
    return clean && !((~bits) & 0x7F800000) ? bits & 0x807FFFFF : bits;
}

// What the records of one take are drawn from: few names and few frames, so that tracks collide, and frames side by side or at
// the ends, so that an excerpt can begin and end at, beside and between them.
struct Pool {
    bool clean; // all of it passes the builder, but for one name now and then
    std::vector<Name> names, ik_names;
    Words frames;
};

inline Pool some_pool(Rng &r) {
    static const Words ends = {0, 0, 1, 0xFFFFFFFF, 0xFFFFFFFF, 0xFFFFFFFE, 0x7FFFFFFF, 0x80000000};
    Pool p;
    p.clean = r.one_in(2);
    if (r.one_in(2)) p.names = names_with_remarks(r);
    for (u64 n = 1 + r.below(5); p.names.size() < n;) p.names.push_back(some_name(r, 15, p.clean));
    for (u64 n = 1 + r.below(3); p.ik_names.size() < n;) p.ik_names.push_back(some_name(r, 20, p.clean));
    const u32 low = r.one_in(3) ? 0 : r.word() % 100;
    for (u64 n = 1 + r.below(6); p.frames.size() < n;) p.frames.push_back(r.one_in(5) ? r.pick(ends) : low + r.word() % 8);
    return p;
}

// ---- records

template <std::size_t N> std::array<u32, N> some_floats(Rng &r, bool clean) {
    std::array<u32, N> all;
    for (u32 &bits : all) bits = some_float(r, clean);
    return all;
}
template <std::size_t N> std::array<u8, N> some_bytes(Rng &r) {
    std::array<u8, N> all;
    for (u8 &b : all) b = r.byte();
    return all;
}
inline Bone some_bone(Rng &r, const Pool &p) {
    return {r.pick(p.names), r.pick(p.frames), some_floats<7>(r, p.clean), some_bytes<64>(r)};
}
inline Morph some_morph(Rng &r, const Pool &p) { return {r.pick(p.names), r.pick(p.frames), some_float(r, p.clean)}; }
inline Camera some_camera(Rng &r, const Pool &p) {
    const u32 view = r.one_in(4) ? 0x7FC00000 : r.word();
    return {r.pick(p.frames), some_floats<7>(r, p.clean), some_bytes<24>(r), view, r.one_in(2)};
}
inline Light some_light(Rng &r, const Pool &p) { return {r.pick(p.frames), some_floats<6>(r, p.clean)}; }
inline Shadow some_shadow(Rng &r, const Pool &p) {
    const u8 mode = static_cast<u8>(p.clean || r.one_in(2) ? r.below(3) : r.below(256));
    return {r.pick(p.frames), mode, some_float(r, p.clean)};
}
inline Property some_property(Rng &r, const Pool &p) {
    Property property{r.pick(p.frames), r.one_in(2), {}};
    if (r.one_in(2)) return property;
    for (u64 k = r.below(4); property.iks.size() < k;) property.iks.push_back({r.pick(p.ik_names), r.one_in(2)});
    return property;
}

// How many records a section has: none, a few, or now and then more.
inline u64 some_count(Rng &r) {
    if (r.one_in(3)) return 0;
    return r.one_in(12) ? r.below(24) : 1 + r.below(4);
}
inline u64 some_property_count(Rng &r) {
    if (r.one_in(3)) return 0;
    static const std::vector<u64> edges = {15, 16, 17, 31, 32, 33, 48, 49, 70};
    if (r.one_in(10)) return r.pick(edges);
    return r.one_in(6) ? r.below(40) : 1 + r.below(5);
}

// h) One name that has a pair without a character; the builder would take the rest.
inline void spoil_name(Rng &r, Take &t) {
    const u64 place = r.below(4);
    if (place == 0) t.model = bare_name(r, r.one_in(2) ? 10 : 20);
    if (place == 1 && !t.bones.empty()) t.bones[r.below(t.bones.size())].name = bare_name(r, 15);
    if (place == 2 && !t.morphs.empty()) t.morphs[r.below(t.morphs.size())].name = bare_name(r, 15);
    if (place < 3 || t.properties.empty()) return;
    std::vector<Ik> &iks = t.properties[r.below(t.properties.size())].iks;
    if (iks.empty()) iks.push_back({Name(), true});
    iks[r.below(iks.size())].name = bare_name(r, 20);
}

// k) The same take in tracks, with other remarks: names that come again come with several.
inline Take respelled(Rng &r, Take t) {
    const auto other = [&r](const Name &n) {
        const Name track = up_to_line_feed(n);
        const bool bare = r.one_in(3) || track.size() == 15;
        return bare ? track : track + "\n" + good_name(r, 14 - track.size());
    };
    for (Bone &b : t.bones) b.name = other(b.name);
    for (Morph &m : t.morphs) m.name = other(m.name);
    return t;
}

inline Take some_take(Rng &r, const Pool &p) {
    Take t;
    if (!r.one_in(4)) t.model = some_name(r, r.one_in(2) ? 11 : 20, p.clean);
    if (r.one_in(12)) return t;
    for (u64 n = some_count(r); t.bones.size() < n;) t.bones.push_back(some_bone(r, p));
    for (u64 n = some_count(r); t.morphs.size() < n;) t.morphs.push_back(some_morph(r, p));
    for (u64 n = some_count(r); t.cameras.size() < n;) t.cameras.push_back(some_camera(r, p));
    for (u64 n = some_count(r); t.lights.size() < n;) t.lights.push_back(some_light(r, p));
    for (u64 n = some_count(r); t.shadows.size() < n;) t.shadows.push_back(some_shadow(r, p));
    for (u64 n = some_property_count(r); t.properties.size() < n;) t.properties.push_back(some_property(r, p));
    if (p.clean && r.one_in(4)) spoil_name(r, t);
    return r.one_in(6) ? respelled(r, t) : t;
}
inline Take some_take(Rng &r) { return some_take(r, some_pool(r)); }

template <class List> void shuffle(Rng &r, List &list) {
    for (u64 i = list.size(); i > 1; i--) std::swap(list[i - 1], list[r.below(i)]);
}

// Different names that agree in their first bytes, in their last, up to a line feed, or in nothing.
inline std::vector<Name> different_names(Rng &r, u64 n) {
    const u64 shape = r.below(6), tracks = 1 + r.below(n);
    std::vector<Name> names;
    for (u64 i = 0; i < n; i++) {
        const Name digits = std::to_string(1000000 + i);
        if (shape == 0) names.push_back("n" + std::to_string(i) + (r.one_in(4) ? "\nx" : ""));
        if (shape == 1) names.push_back("eight by" + digits);
        if (shape == 2) names.push_back(digits + "\n eight.");
        if (shape == 3) names.push_back({char(1 + i % 255), char(1 + i / 255 % 255), char(1 + i / 65025 % 255)});
        if (shape == 4) names.push_back("n" + std::to_string(i % tracks) + "\n" + std::to_string(i));
        if (shape == 5) names.push_back(std::to_string(1000000 + i % tracks) + (i < tracks ? "" : "\n" + std::to_string(i)));
    }
    return names;
}

// Frames that are spread out, with some that come again.
inline Words spread_frames(Rng &r, u64 n) {
    Words frames;
    const u32 span = r.one_in(2) ? 0xFFFFFFFF : static_cast<u32>(1 + r.below(2 * n + 1));
    for (u64 i = 0; i < n; i++) frames.push_back(r.word() % span);
    return frames;
}

// Some dozens to hundreds of records in a section, so that sorting has something to do.
inline Take middle_take(Rng &r) {
    Pool p = some_pool(r);
    p.names = different_names(r, 1 + r.below(r.one_in(2) ? 4 : 120));
    p.frames = spread_frames(r, 1 + r.below(300));
    const auto count = [&] { return r.one_in(3) ? 20 + r.below(300) : r.below(4); };
    Take t;
    t.model = some_name(r, 20, p.clean);
    for (u64 n = count() / 2; t.bones.size() < n;) t.bones.push_back(some_bone(r, p));
    for (u64 n = count(); t.morphs.size() < n;) t.morphs.push_back(some_morph(r, p));
    for (u64 n = count() / 2; t.cameras.size() < n;) t.cameras.push_back(some_camera(r, p));
    for (u64 n = count(); t.lights.size() < n;) t.lights.push_back(some_light(r, p));
    for (u64 n = count(); t.shadows.size() < n;) t.shadows.push_back(some_shadow(r, p));
    for (u64 n = count(); t.properties.size() < n;) t.properties.push_back(some_property(r, p));
    return t;
}

// A few hundred kilobytes: about as many different names as header says are counted at once (16,384 to 32,768) or more, or
// long sections.
inline u64 many_names(Rng &r) {
    if (r.one_in(4)) return 16382 + r.below(6);
    if (r.one_in(4)) return 32766 + r.below(6);
    return 16000 + r.below(24000);
}
inline Take big_take(Rng &r) {
    Pool p = some_pool(r);
    const bool many = r.one_in(2);
    const u64 names = many ? many_names(r) : 1 + r.below(2000);
    p.names = different_names(r, names);
    p.frames = spread_frames(r, 4000);
    Take t;
    t.model = some_name(r, 20, true);
    const bool in_bones = many && r.one_in(3), in_morphs = many && !in_bones;
    for (u64 i = 0; in_bones && i < names; i++) t.bones.push_back({p.names[i], r.pick(p.frames), {}, {}});
    for (u64 i = 0; in_morphs && i < names; i++) t.morphs.push_back({p.names[i], r.pick(p.frames), some_float(r, p.clean)});
    for (u64 n = t.bones.size() + r.below(2000); t.bones.size() < n;) t.bones.push_back(some_bone(r, p));
    for (u64 n = t.morphs.size() + r.below(6000); t.morphs.size() < n;) t.morphs.push_back(some_morph(r, p));
    if (r.one_in(2)) shuffle(r, t.bones), shuffle(r, t.morphs);
    for (u64 n = r.below(2000); t.shadows.size() < n;) t.shadows.push_back(some_shadow(r, p));
    for (u64 n = r.below(3000); t.properties.size() < n;) t.properties.push_back(some_property(r, p));
    return t;
}

// ---- dressing: other bytes, the same records

// How freely bytes that do not count are chosen.
struct Dress {
    Rng &r;
    bool loose;
    Bytes out;

    u8 rest() { return !loose ? u8{0} : r.one_in(8) ? u8{'\n'} : r.byte(); }
    u8 not_zero() { return loose && r.one_in(2) ? static_cast<u8>(2 + r.below(254)) : u8{1}; }
    void word(u32 value) { model::put(out, value); }
    template <class List> void words(const List &list) {
        for (u32 value : list) word(value);
    }
    template <class List> void all(const List &list) { out.insert(out.end(), list.begin(), list.end()); }
    void name(const Name &n, u64 width) {
        all(n);
        for (u64 i = n.size(); i < width; i++) out.push_back(i == n.size() ? u8{0} : rest());
    }
    void record(const Bone &b) { name(b.name, 15), word(b.frame), words(b.floats), all(b.interpolation); }
    void record(const Morph &m) { name(m.name, 15), word(m.frame), word(m.weight); }
    void record(const Camera &c) {
        word(c.frame), words(c.floats), all(c.interpolation), word(c.view);
        out.push_back(c.perspective ? u8{0} : not_zero());
    }
    void record(const Light &l) { word(l.frame), words(l.floats); }
    void record(const Shadow &s) { word(s.frame), out.push_back(s.mode), word(s.distance); }
    void record(const Property &p) {
        word(p.frame), out.push_back(p.visible ? not_zero() : u8{0}), word(static_cast<u32>(p.iks.size()));
        for (const Ik &ik : p.iks) name(ik.name, 20), out.push_back(ik.enabled ? not_zero() : u8{0});
    }
    template <class Record> void section(const std::vector<Record> &records) {
        word(static_cast<u32>(records.size()));
        for (const Record &r_ : records) record(r_);
    }
};

inline void dress_header(Dress &d, const Name &model, bool older) {
    d.all(Name(older ? "Vocaloid Motion Data file" : "Vocaloid Motion Data 0002"));
    d.out.push_back(0);
    const bool bare = d.r.one_in(2);
    for (int i = 0; i < 4; i++) d.out.push_back(bare ? u8{0} : d.rest());
    d.name(model, older ? 10 : 20);
}

// A count of which the records exceed the bytes left, by one record, by some, by many or by as many as there can be.
inline u32 oversized_count(Rng &r, int section, u64 left) {
    const u32 least = static_cast<u32>(left / record_size[section] + 1);
    switch (r.below(6)) {
    case 0:
    case 1: return least;
    case 2: return least + 1 + static_cast<u32>(r.below(40));
    case 3: return std::max(r.word(), least);
    default: return 0xFFFFFFFF;
    }
}

// An oversized count and fewer bytes than its records need, often just one fewer or none.
inline void dress_oversized(Dress &d, int section) {
    const u64 size = record_size[section];
    const u64 left = d.r.one_in(3) ? 0 : d.r.one_in(2) ? size * (1 + d.r.below(2)) - 1 : d.r.below(70);
    d.word(oversized_count(d.r, section, left));
    for (u64 n = left; n > 0; n--) d.out.push_back(d.r.byte());
}

inline void dress_sections(Dress &d, const Take &t, int sections) {
    d.section(t.bones);
    if (sections > morphs) d.section(t.morphs);
    if (sections > cameras) d.section(t.cameras);
    if (sections > lights) d.section(t.lights);
    if (sections > shadows) d.section(t.shadows);
    if (sections > properties) d.section(t.properties);
}

// Bytes over: one, a few, or what could be a frame; zeros, or anything.
inline void add_over(Rng &r, Bytes &f) {
    const bool zeros = r.one_in(2);
    for (u64 n = r.one_in(3) ? 1 : 1 + r.below(20); n > 0; n--) f.push_back(zeros ? u8{0} : r.byte());
}

// A file of the take that the manner accepts. Sections at the end that are empty may be left out; where it is the lenient one
// they may be emptied by an oversized count, and there may be bytes over.
inline Bytes dress(Rng &r, const Take &t, Manner accepts) {
    Dress d{r, !r.one_in(4), {}};
    dress_header(d, t.model, t.model.size() <= 10 && r.one_in(3));
    const auto counts = section_counts(t);
    int sections = 6;
    while (sections > 1 && counts[sections - 1] == 0 && !r.one_in(4)) sections--;
    dress_sections(d, t, sections);
    if (accepts == Manner::strict) return d.out;
    if (sections >= cameras && sections <= shadows && r.one_in(2)) dress_oversized(d, sections);
    if (sections == 6 && r.one_in(4)) add_over(r, d.out);
    return d.out;
}

// ---- harming

inline void set_word(Bytes &f, u64 at, u32 value) {
    for (int i = 0; i < 4; i++) f[at + i] = static_cast<u8>(value >> (8 * i));
}

inline u32 wrong_count(Rng &r, u32 right) {
    static const Words odd = {0xFFFFFFFF, 0x80000000, 0x7FFFFFFF, 0x10000000, 0x1C71C71D, 0x00010000, 0};
    if (r.one_in(3)) return right + 1;
    if (r.one_in(3)) return right - 1;
    return r.one_in(2) ? r.pick(odd) : static_cast<u32>(r.below(80));
}

// Where the counts of a file stand: the sections' and those of IK states.
inline Longs count_places(const Bytes &f) {
    const Opening o = open(f, Manner::lenient);
    Longs all;
    if (o.stop.refusal) return all;
    for (int s = 0; s < 6; s++)
        if (o.places[s] < f.size() || o.counts[s] == 0) all.push_back(o.places[s] - 4);
    for (u64 at : o.property_places) all.push_back(at + 5);
    return all;
}

inline void harm_header(Rng &r, Bytes &f) {
    const u64 at = r.one_in(3) ? 21 + r.below(9) : r.below(30);
    if (at >= f.size()) return;
    f[at] = r.one_in(3) ? u8{0} : r.byte();
    const Name other = r.one_in(2) ? "file" : "0002";
    if (r.one_in(3) && f.size() >= 30) std::copy(other.begin(), other.end(), f.begin() + 21);
}

inline Bytes bare_header(Rng &r) {
    Dress d{r, true, {}};
    dress_header(d, some_name(r, 10, false), r.one_in(2));
    return d.out;
}

inline Bytes header_and_junk(Rng &r) {
    Bytes f = bare_header(r);
    const u64 counts = r.below(6);
    for (u64 i = 0; i < counts; i++) model::put(f, r.one_in(2) ? 0 : static_cast<u32>(r.below(3)));
    const bool zeros = r.one_in(2);
    for (u64 n = r.below(300); n > 0; n--) f.push_back(zeros && !r.one_in(8) ? u8{0} : r.byte());
    return f;
}

inline Bytes junk(Rng &r) {
    Bytes f(r.below(120));
    const u8 same = r.byte();
    const bool filled = r.one_in(2);
    for (u8 &b : f) b = filled ? same : r.byte();
    return f;
}

inline void harm_at_border(Rng &r, Bytes &f, const Longs &borders) {
    if (borders.empty()) return;
    const u64 to = r.pick(borders) + r.below(14);
    if (to < f.size() + 5) f.resize(std::min<u64>(f.size(), to < 5 ? 0 : to - 5));
}

inline Bytes harm(Rng &r, Bytes f) {
    const Longs counts = count_places(f);
    switch (r.below(9)) {
    case 0: f.resize(r.below(f.size() + 1)); break;
    case 1: harm_at_border(r, f, counts); break;
    case 2:
        if (!f.empty()) f[r.below(f.size())] = r.byte();
        break;
    case 3:
    case 4:
        if (!counts.empty()) {
            const u64 at = r.pick(counts);
            if (at + 4 <= f.size()) set_word(f, at, wrong_count(r, number(f, at)));
        }
        break;
    case 5: {
        const u64 at = r.below(f.size() + 1), n = 1 + r.below(12);
        f.insert(f.begin() + static_cast<std::ptrdiff_t>(at), n, r.one_in(2) ? u8{0} : r.byte());
        break;
    }
    case 6: {
        const u64 at = r.below(f.size() + 1), n = std::min<u64>(1 + r.below(12), f.size() - at);
        f.erase(f.begin() + static_cast<std::ptrdiff_t>(at), f.begin() + static_cast<std::ptrdiff_t>(at + n));
        break;
    }
    case 7: harm_header(r, f); break;
    default: f.resize(std::min<u64>(f.size(), 20 + r.below(60))); break;
    }
    return f;
}

// ---- damage that the strict manner turns down, and what is near it

// i) "A damaged camera count silently emptied lights and IK frames on stage." A count is oversized where its section stands,
// mostly with all that was behind it; now and then the file is cut there, ends with the count, or lacks one byte.
inline void damage_count(Rng &r, Bytes &f) {
    const int section = cameras + static_cast<int>(r.below(3));
    const u64 place = open(f, Manner::lenient).places[section], size = record_size[section], left = f.size() - place;
    const u64 nearly = (left + 1) / size; // records, but for the last one's last byte
    if (r.one_in(8) && nearly > 0) {
        f.resize(place + nearly * size - 1);
        return set_word(f, place - 4, static_cast<u32>(nearly));
    }
    if (r.one_in(10)) f.resize(place);
    else if (r.one_in(10)) f.resize(place + std::min<u64>(r.below(80), left));
    set_word(f, place - 4, oversized_count(r, section, f.size() - place));
}

// 16: bytes after the property frames, or frames that are not counted.
inline void damage_end(Rng &r, Bytes &f, u32 frames) {
    const u64 place = open(f, Manner::lenient).places[properties];
    if (frames == 0 || r.one_in(2)) return add_over(r, f);
    set_word(f, place - 4, r.one_in(2) ? 0 : static_cast<u32>(r.below(frames)));
}

// Another count is changed too, mostly to a 1: one before the damage, or one of IK states.
inline void damage_more(Rng &r, Bytes &f, const Opening &whole) {
    const u64 at = r.one_in(2) || whole.property_places.empty() ? whole.places[r.below(2)] - 4
                                                                : r.pick(whole.property_places) + 5;
    if (at + 4 <= f.size()) set_word(f, at, wrong_count(r, number(f, at)));
}

// Fewer than six counts, and now and then a part of the next, or an oversized one.
inline Bytes fewer_counts(Rng &r, const Take &t, bool older) {
    static const std::vector<int> numbers = {1, 2, 2, 3, 3, 4, 5};
    const int sections = r.pick(numbers);
    Dress d{r, !r.one_in(4), {}};
    dress_header(d, t.model, older);
    dress_sections(d, t, sections);
    const bool can_be_oversized = sections >= cameras && sections <= shadows;
    if (r.one_in(5))
        for (u64 n = 1 + r.below(3); n > 0; n--) d.out.push_back(r.one_in(2) ? u8{0} : r.byte());
    else if (can_be_oversized && r.one_in(5)) dress_oversized(d, sections);
    return d.out;
}

// More often of the older edition, of which the other makers have fewer.
inline Bytes damaged(Rng &r) {
    const bool older = r.below(5) < 3;
    Take t = some_take(r);
    if (older) t.model.resize(std::min<std::size_t>(t.model.size(), 10));
    if (r.one_in(3)) return fewer_counts(r, t, older);
    if (r.one_in(6)) t.properties.clear();
    Dress d{r, !r.one_in(4), {}};
    dress_header(d, t.model, older);
    dress_sections(d, t, 6);
    const Opening whole = open(d.out, Manner::lenient);
    const u64 kind = r.below(8);
    if (kind < 2 || kind == 7) damage_end(r, d.out, whole.counts[properties]);
    if (kind > 1) damage_count(r, d.out);
    if (r.one_in(6)) damage_more(r, d.out, whole);
    return d.out;
}

// ---- a take of a seed

constexpr u64 big_every = 32768;

inline bool is_big(u64 n) { return n % big_every == 1000; }

inline Bytes derived(Rng &r) {
    const Pool p = some_pool(r);
    const Take first = some_take(r, p), other = r.one_in(3) ? respelled(r, first) : some_take(r, p);
    const Take second = r.one_in(2) ? some_take(r) : other;
    switch (r.below(5)) {
    case 0: return canonical(first);
    case 1: return canonical(join(first, second));
    case 2: return canonical(tidy(join(first, second)));
    case 3: return canonical(excerpt(join(first, second), {r.word() % 8, r.one_in(2) ? 0xFFFFFFFF : 8 + r.word() % 100}));
    default: return first.model.size() <= 10 ? canonical_older(first) : canonical(tidy(first));
    }
}

inline Bytes some_file(Rng &r) {
    const u64 kind = r.below(100);
    if (r.one_in(64)) return dress(r, middle_take(r), Manner::lenient);
    if (kind < 42) return dress(r, some_take(r), Manner::lenient);
    if (kind < 53) return derived(r);
    if (kind < 72) return damaged(r);
    if (kind < 74) return harm(r, damaged(r));
    if (kind < 87) return harm(r, dress(r, some_take(r), Manner::lenient));
    if (kind < 91) return harm(r, harm(r, derived(r)));
    if (kind < 96) return header_and_junk(r);
    return kind < 97 ? bare_header(r) : junk(r);
}

// The take of a number; the model is as written while it is made.
inline Bytes take_of(u64 seed, u64 n) {
    const int switched_on = alteration;
    alteration = AsWritten;
    Rng r = case_rng(seed, n, 0);
    Bytes made = is_big(n) ? dress(r, big_take(r), Manner::lenient) : some_file(r);
    alteration = switched_on;
    return made;
}

// ---- parts for the builder

inline void add_table_name(Bytes &name_bytes, Words &ends, const Name &n) {
    name_bytes.insert(name_bytes.end(), n.begin(), n.end());
    ends.push_back(static_cast<u32>(name_bytes.size()));
}

// Puts a name in front of a table and moves the indices on, so that faults are met at any number.
inline void add_front_name(Bytes &name_bytes, Words &ends, Words &indices, const Name &n) {
    name_bytes.insert(name_bytes.begin(), n.begin(), n.end());
    for (u32 &end : ends) end += static_cast<u32>(n.size());
    ends.insert(ends.begin(), static_cast<u32>(n.size()));
    for (u32 &index : indices) index++;
}

inline void add_any_name(Rng &r, Parts &p, const Name &n) {
    const bool of_bones = r.one_in(2), front = r.one_in(2);
    Bytes &name_bytes = of_bones ? p.bone_bytes : p.morph_bytes;
    Words &ends = of_bones ? p.bone_ends : p.morph_ends;
    Words &indices = of_bones ? p.bone_indices : p.morph_indices;
    if (front) add_front_name(name_bytes, ends, indices, n);
    else add_table_name(name_bytes, ends, n);
}

inline Name bad_name(Rng &r, u64 width) {
    static const std::vector<Name> bad = {"\x83",     "\x83\x7F", "\xA0",     "A\xFD",    "\x83\x41\x83",
                                          "\xE0\x3F", "\xFF",     "\x81\xFD", "\x85\x40", "\xEF\xBB\xBF"};
    if (r.one_in(2)) return bare_name(r, width);
    Name n = r.pick(bad);
    if (r.one_in(2)) n.insert(0, good_name(r, width - n.size()));
    return n;
}

inline Name unfit_name(Rng &r, u64 width) {
    if (r.one_in(2)) return Name(width + 1 + r.below(3), r.one_in(3) ? '\xA0' : 'w');
    Name n = r.one_in(2) ? bad_name(r, width) : good_name(r, width - 1);
    n.insert(n.begin() + static_cast<std::ptrdiff_t>(r.below(n.size() + 1)), '\0');
    return n.substr(0, width + 1);
}

template <class List> void change_length(Rng &r, List &list) {
    if (r.one_in(2) && !list.empty()) list.pop_back();
    else if (r.one_in(2)) list.push_back(0);
    else list.insert(list.end(), 1 + r.below(12), 1);
}

// Cause 5
inline void fault_tables(Rng &r, Parts &p) {
    Words &ends = r.one_in(2) ? p.bone_ends : p.morph_ends;
    Bytes &name_bytes = &ends == &p.bone_ends ? p.bone_bytes : p.morph_bytes;
    switch (r.below(5)) {
    case 0: name_bytes.push_back('z'); break;
    case 1: ends.clear(); break;
    case 2:
        if (!ends.empty()) ends[r.below(ends.size())] += 1 + static_cast<u32>(r.below(3));
        break;
    case 3:
        if (ends.size() > 1) std::swap(ends[r.below(ends.size())], ends[r.below(ends.size())]);
        break;
    default:
        if (!ends.empty()) ends[r.below(ends.size())] = r.one_in(2) ? 0 : 0xFFFFFFFF;
        break;
    }
}
inline void fault_records(Rng &r, Parts &p) {
    Bytes *of[] = {&p.cameras, &p.lights, &p.shadows, &p.properties};
    change_length(r, *of[r.below(4)]);
    if (r.one_in(3) && p.properties.size() >= 9) set_word(p.properties, 5, wrong_count(r, number(p.properties, 5)));
}
// Causes 6 and 7
inline void fault_name(Rng &r, Parts &p, bool unfit) {
    const bool of_model = r.one_in(3);
    const Name n = unfit ? unfit_name(r, of_model ? 20 : 15) : bad_name(r, of_model ? 20 : 15);
    if (of_model) p.model.assign(n.begin(), n.end());
    else add_any_name(r, p, n);
}
inline void fault_ik_name(Rng &r, Parts &p) {
    if (p.properties.empty() || !whole_properties(p.properties)) return;
    Property property{r.word(), true, {{good_name(r, 20), true}, {bad_name(r, 20), false}}};
    if (r.one_in(3)) property.iks[1].name = Name("A\0\x83", 3); // good before its zero byte
    put_record(p.properties, property);
}
// Causes 8 and 9
inline void fault_float(Rng &r, Parts &p) {
    static const Words odd = {0x7FC00000, 0xFF800001, 0x7F800000, 0xFF800000};
    const u32 bits = r.pick(odd);
    const auto in_records = [&](Bytes &records, u64 size, u64 first, u64 floats) {
        if (records.size() < size) return;
        set_word(records, size * r.below(records.size() / size) + first + 4 * r.below(floats), bits);
    };
    const auto in_column = [&](Words &column) {
        if (!column.empty()) column[r.below(column.size())] = bits;
    };
    switch (r.below(6)) {
    case 0: in_records(p.cameras, 61, 4, 7); break;
    case 1: in_records(p.lights, 28, 4, 6); break;
    case 2: in_records(p.shadows, 9, 5, 1); break;
    case 3: in_column(p.translations); break;
    case 4: in_column(p.rotations); break;
    default: in_column(p.weights); break;
    }
}
inline void fault_mode(Rng &r, Parts &p) {
    if (p.shadows.size() >= 9) p.shadows[9 * r.below(p.shadows.size() / 9) + 4] = static_cast<u8>(r.below(5) + 1);
}
// Cause 10
inline void fault_column(Rng &r, Parts &p) {
    Words *of[] = {&p.bone_indices,  &p.bone_frames,  &p.translations, &p.rotations,
                   &p.morph_indices, &p.morph_frames, &p.weights};
    const u64 which = r.below(8);
    if (which < 7) change_length(r, *of[which]);
    else change_length(r, p.interpolations);
}
// Cause 12
inline void fault_index(Rng &r, Parts &p) {
    const bool of_bones = r.one_in(2);
    Words &indices = of_bones ? p.bone_indices : p.morph_indices;
    const u64 names = of_bones ? p.bone_ends.size() : p.morph_ends.size();
    if (!indices.empty()) indices[r.below(indices.size())] = static_cast<u32>(names + (r.one_in(2) ? 0 : r.word()));
}

// An index of one bone and a float of any: which comes first decides.
inline void fault_bone_pair(Rng &r, Parts &p) {
    if (p.bone_indices.empty() || p.rotations.empty() || p.weights.empty() || p.morph_indices.empty()) return;
    p.bone_indices[r.below(p.bone_indices.size())] = static_cast<u32>(p.bone_ends.size());
    p.rotations[r.below(p.rotations.size())] = 0x7FC00000;
    p.morph_indices[r.below(p.morph_indices.size())] = 0xFFFFFFFF;
    p.weights[r.below(p.weights.size())] = 0x7F800000;
    if (r.one_in(2)) p.bone_indices.assign(p.bone_indices.size(), 0), p.rotations.assign(p.rotations.size(), 0);
}

inline void some_fault(Rng &r, Parts &p) {
    switch (r.below(12)) {
    case 0: return fault_tables(r, p);
    case 1: return fault_records(r, p);
    case 2:
    case 3: return fault_name(r, p, true);
    case 4: return fault_name(r, p, false);
    case 5: return fault_ik_name(r, p);
    case 6:
    case 7: return fault_float(r, p);
    case 8: return fault_mode(r, p);
    case 9: return fault_column(r, p);
    case 10: return fault_bone_pair(r, p);
    default: return fault_index(r, p);
    }
}

// Parts that the builder takes, with flags and names as a file may have them, and up to three faults.
inline Parts some_parts(Rng &r) {
    const int switched_on = alteration;
    alteration = AsWritten;
    const Take t = some_take(r);
    const Bytes whole = canonical(t);
    Parts p = split(whole, open(whole, Manner::strict));
    Dress d{r, true, {}};
    for (const Property &property : t.properties) d.record(property);
    p.properties = d.out;
    for (u64 i = 60; i < p.cameras.size(); i += 61) p.cameras[i] = p.cameras[i] ? d.not_zero() : u8{0};
    while (r.one_in(2)) add_any_name(r, p, good_name(r, 15));
    for (u64 faults = r.below(4); faults > 0; faults--) some_fault(r, p);
    alteration = switched_on;
    return p;
}

} // namespace takes

#endif
