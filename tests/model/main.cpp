// Runs the model against the library, over made-up takes.
//
//   model COUNT SEED [FIRST]   COUNT cases of the seed, from number FIRST on (0 where it is left out)
//   model take SEED NUMBER     the bytes of a case's take, on standard output
//   model self-test            switches on each alteration of the model; all have to be found
//   model altered WHICH COUNT SEED [FIRST]   a run with one of them, to see its reports
//   model names                the name test on every name of up to three bytes
//   model huge                 sections so long that counts added up pass 32 bits, in pages of zeros that take no memory
//
// Case n is made from the seed and n alone: its take is take n, its neighbours are takes n - 1 and n - 2.
#include "fixed.hpp"

// ---- one case

static u64 places_for(const Opening &o) { return (o.property_places.size() + 15) / 16; }

struct Case {
    Calls &c;
    Rng &r;
    const File &a, &b, &d; // take n, n - 1 and n - 2
    bool big;
    Left strict{}; // by the strict twin of the last two: see in_both

    static void law(bool holds, const char *which) {
        if (!holds) disagree(std::string("law: ") + which);
    }

    // Exact, one short, none, or longer.
    std::size_t some_length(std::size_t exact) {
        switch (r.below(6)) {
        case 0: return exact ? exact - 1 : 0;
        case 1: return r.one_in(2) ? 0 : r.below(exact + 1);
        case 2: return exact + 1 + r.below(40);
        default: return exact;
        }
    }

    // Every call is made for every take, in both manners where it has them; what goes beyond one or two of each, and the laws
    // that need many, for some of them. i) "The laws of saving and joining hold in each manner over the files it accepts."
    void run() {
        count_take(a);
        count_remarks(a);
        every_call(a);
        opening();
        fetch_own();
        for (int n = 0; n < 2; n++) fetch_foreign();
        joining();
        tidying();
        excerpting();
        building();
        names();
        season_limits();
        if (sometimes(4)) season_list();
        if (!big && r.one_in(256)) every_cut();
        if (a.in(Manner::strict).refusal() >= 16) turned_down();
        if (read_header(a.bytes).width == 10 && sometimes(2)) widened(some_manner());
        const Manner m = manner_of_a();
        if (a.in(m).refusal()) return;
        saving(m);
        splitting(m);
        if (sometimes(3)) equality(m);
        if (sometimes(4) && !b.in(m).refusal()) unit(m), join_reads_back(m);
        if (sometimes(4) && !b.in(m).refusal() && !d.in(m).refusal()) associativity(m);
        if (sometimes(4)) tidy_twice(m), other_remarks(m);
        if (sometimes(2)) excerpt_laws(m);
    }
    bool sometimes(u64 n) { return big || r.one_in(n); }
    Manner some_manner() { return r.one_in(2) ? Manner::strict : Manner::lenient; }
    // One that accepts the take, where there is one.
    Manner manner_of_a() { return a.in(Manner::strict).refusal() ? Manner::lenient : some_manner(); }

    // ---- the two manners

    // Both twins are lent the same, byte for byte.
    template <class F> void lend_both(F call) {
        const Rng lent = c.r, at = sides;
        call(Manner::strict);
        std::swap(strict, c.left);
        c.r = lent;
        sides = at;
        call(Manner::lenient);
        law(!of_strict(c.left.answer), "the lenient manner has no 16 and 17");
    }
    static bool of_strict(u64 answer) { return answer == VMD_BYTES_OVER || answer == VMD_COUNT_OVERSIZED; }
    // i) "The Rust's reading is what the lenient manner gives; a strict answer that is no refusal equals it.": in the answer
    // and in every byte. So does every refusal but 16 and 17; these are of files that the lenient manner accepts.
    template <class F> void in_both(F call) {
        lend_both(call);
        const bool turned = of_strict(strict.answer);
        if (turned) law(c.left.answer != 1 && c.left.answer != 2, "16 and 17 are of files that the lenient manner accepts");
        else law(strict.answer == c.left.answer && strict.lent == c.left.lent, "a strict answer is the lenient one");
    }

    // Every call that reads one whole take; gives the strict answers.
    Longs every_call(const File &f) {
        const Reading &read = f.in(Manner::lenient);
        const bool none = read.refusal();
        const u64 frames = places_for(read.opening), places = none ? r.below(9) : largest_section(read);
        const u64 exact = none ? r.below(200) : canonical_size(read.take());
        const u64 tidy_exact = none ? r.below(200) : canonical_size(model::tidied(f, read));
        Longs answers;
        const auto both = [&](auto call) {
            in_both(call);
            answers.push_back(strict.answer);
        };
        const std::size_t n[] = {some_length(frames), some_length(exact), some_length(exact - std::min<u64>(exact, 10)),
                                 some_length(places), some_length(places), some_length(tidy_exact)};
        both([&](Manner m) { c.parse(f, m, n[0]); });
        both([&](Manner m) { c.export_size(f, m); });
        both([&](Manner m) { c.export_animation(f, m, n[1]); });
        both([&](Manner m) { c.export_older_size(f, m); });
        both([&](Manner m) { c.export_older_animation(f, m, n[2]); });
        both([&](Manner m) { c.tidy_size(f, m, n[3]); });
        // with a short output the library counts without scratch, which takes seconds where a take is long
        both([&](Manner m) { c.tidy_animation(f, m, n[4], big ? tidy_exact : n[5]); });
        both([&](Manner m) { c.split_sizes(f, m); });
        const Parts lengths = buffer_lengths(none ? Parts() : parts(f, read), read.take(), false);
        both([&](Manner m) { c.split_animation(f, m, lengths); });
        const Span s = some_span(frames_of(read.take()));
        const std::size_t piece = some_length(none ? r.below(200) : excerpted(f, read, s).whole.size());
        both([&](Manner m) { c.excerpt_size(f, m, s); });
        both([&](Manner m) { c.excerpt_animation(f, m, s, piece); });
        return answers;
    }
    void answers_are(u64 number, const File &f, const char *which) {
        const Longs answers = every_call(f);
        law(std::count(answers.begin(), answers.end(), number) == static_cast<std::ptrdiff_t>(answers.size()), which);
    }

    // What was written; it is accepted in the strict manner, and reads the same in both.
    OpenSlots opened(const File &f) {
        OpenSlots slots;
        const u64 places = places_for(f.in(Manner::strict).opening);
        in_both([&](Manner m) { slots = c.parse(f, m, places); });
        law(strict.answer == 0, "what is written is accepted in the strict manner");
        return slots;
    }

    // A file that is 16 or 17.
    void turned_down() {
        if (sometimes(2)) mended();
        if (sometimes(2)) fault_before();
        if (sometimes(2)) change_after();
    }

    // Without the bytes over, or without the oversized count and what is behind it, the strict manner reads what the lenient
    // one reads in the whole: "that section is empty, the reader goes to the end, so later sections are empty too".
    void mended() {
        const Stop stop = a.in(Manner::strict).opening.stop;
        const u64 n = a.bytes.size() - stop.left - (stop.refusal == VMD_COUNT_OVERSIZED ? 4 : 0);
        const File rest(Bytes(a.bytes.begin(), a.bytes.begin() + static_cast<std::ptrdiff_t>(n)));
        const Reading &read = a.in(Manner::lenient);
        const u64 exact = canonical_size(read.take()), places = places_for(read.opening);
        const Bytes whole = c.export_animation(a, Manner::lenient, exact);
        law(c.export_animation(rest, Manner::strict, exact) == whole, "mended, it has the lenient manner's export");
        const Span s = some_span(frames_of(read.take()));
        law(cut_out(rest, Manner::strict, s) == cut_out(a, Manner::lenient, s), "mended, it has the lenient manner's excerpts");
        OpenSlots of_a = c.parse(a, Manner::lenient, places), of_rest = c.parse(rest, Manner::strict, places);
        for (u64 &place : of_a.places) place = std::min(place, n); // of sections that are missing or emptied
        law(of_a.counts == of_rest.counts && of_a.totals == of_rest.totals, "mended, it counts as in the lenient manner");
        law(of_a.places == of_rest.places && of_a.scratch == of_rest.scratch, "mended, it has the same places");
    }

    // "both as met in the file": a 2, or a 1 that is met before, stays what it is.
    void fault_before() {
        const Opening &o = a.in(Manner::lenient).opening;
        const int number_ = a.in(Manner::strict).refusal();
        Bytes f = a.bytes;
        if (r.one_in(4)) {
            f[r.below(25)] ^= 0x80;
            answers_are(VMD_MAGIC_DIFFERS, File(f), "2 before 16 and 17");
            return count_strict("2 before " + std::to_string(number_), a);
        }
        const bool in_frames = number_ == VMD_BYTES_OVER && !o.property_places.empty() && r.one_in(2);
        const u64 count_place = in_frames ? r.pick(o.property_places) + 5 : o.places[r.below(2)] - 4;
        set_word(f, count_place, r.one_in(2) ? 0xFFFFFFFF : static_cast<u32>(f.size())); // more records than there are bytes
        answers_are(VMD_ENDS_EARLY, File(f), "a 1 before 16 and 17");
        count_strict("1 before " + std::to_string(number_), a);
    }

    // What comes after changes nothing: fewer bytes after an oversized count, more after the last property frame.
    void change_after() {
        const Stop stop = a.in(Manner::strict).opening.stop;
        Bytes f = a.bytes;
        if (stop.refusal == VMD_COUNT_OVERSIZED) f.resize(f.size() - r.below(stop.left + 1));
        else add_over(r, f);
        answers_are(static_cast<u64>(stop.refusal), File(f), "16 and 17 whatever comes after");
        count_strict(std::to_string(stop.refusal) + " before a change", a);
    }

    // ---- opening and fetches

    void open_both(u64 places) {
        in_both([&](Manner m) { c.parse(a, m, places); });
    }
    void opening() {
        const Opening &o = a.in(Manner::lenient).opening;
        const u64 needed = places_for(o);
        if (needed > 0 && r.one_in(2)) open_both(needed - 1);
        if (r.one_in(4)) open_both(o.property_places.size());
        // header: "A scratch of (file_len / 9 + 15) / 16 places is enough for any file."
        if (r.one_in(4)) {
            open_both((a.bytes.size() / 9 + 15) / 16);
            law(strict.answer != 3 && c.left.answer != 3, "scratch enough for any file of its length");
        }
    }

    // Numbers to ask for: all, where they are few, and some at or above the count.
    Longs numbers_to_ask(u64 count) {
        static const Longs far = {0xFFFFFFFF, 0x100000000, 0xFFFFFFFFFFFFFFFF, 0x8000000000000000, 0x0249249249249249};
        Longs all;
        if (count <= 4) {
            for (u64 i = 0; i < count; i++) all.push_back(i);
        } else {
            all = {0, count - 1, r.below(count), r.below(count)};
        }
        all.push_back(r.one_in(3) ? r.pick(far) : count + r.below(3));
        return all;
    }

    // "With the file's own opening and scratch, the calls for records, names and interpolation bytes return just these, and the
    // file's model name."
    void fetch_own() {
        c.model_name(a);
        const Name own_model = part_there();
        const Manner m = manner_of_a();
        if (a.in(m).refusal()) return;
        const OpenSlots o = c.parse(a, m, places_for(a.in(m).opening) + r.below(2));
        const Take &t = a.in(m).take();
        law(own_model == t.model, "the file's model name");
        c.lend_opening(a, o);
        for (u64 i : numbers_to_ask(t.bones.size())) own_bone(t, i);
        for (u64 i : numbers_to_ask(t.morphs.size())) own_morph(t, i);
        for (u64 i : numbers_to_ask(t.cameras.size())) own_camera(t, i);
        for (u64 i : numbers_to_ask(t.lights.size())) own_light(t, i);
        for (u64 i : numbers_to_ask(t.shadows.size())) own_shadow(t, i);
        for (u64 i : numbers_to_ask(t.properties.size())) own_property(t, i);
        if (r.one_in(8))
            for (u64 i = 0; i < t.properties.size() && i < 80; i++) own_property(t, i);
        walk_properties(o, a.in(m).opening);
    }
    Name part_of(const Longs &part) const {
        return Name(reinterpret_cast<const char *>(c.first.at()) + part[0], part[1]);
    }
    Name part_there() const { return part_of({c.part.at[0], c.part.at[1]}); }
    template <std::size_t N> static Name as_name(const std::array<u8, N> &list) { return Name(list.begin(), list.end()); }
    Words record_there() const { return c.record.now_there(c.record.n()); }

    void own_bone(const Take &t, u64 i) {
        c.bone_frame(a, i);
        if (i < t.bones.size()) law(record_there() == fields(t.bones[i]), "own bone");
        c.bone_name(a, i);
        if (i < t.bones.size()) law(part_there() == t.bones[i].name, "own bone name");
        c.bone_interpolation(a, i);
        if (i < t.bones.size()) law(part_there() == as_name(t.bones[i].interpolation), "own bone interpolation");
    }
    void own_morph(const Take &t, u64 i) {
        c.morph_frame(a, i);
        if (i < t.morphs.size()) law(record_there() == fields(t.morphs[i]), "own morph");
        c.morph_name(a, i);
        if (i < t.morphs.size()) law(part_there() == t.morphs[i].name, "own morph name");
    }
    void own_camera(const Take &t, u64 i) {
        c.camera_frame(a, i);
        if (i < t.cameras.size()) law(record_there() == fields(t.cameras[i]), "own camera");
        c.camera_interpolation(a, i);
        if (i < t.cameras.size()) law(part_there() == as_name(t.cameras[i].interpolation), "own camera interpolation");
    }
    void own_light(const Take &t, u64 i) {
        c.light_frame(a, i);
        c.light_frame_bits(a, i);
        if (i < t.lights.size()) law(record_there() == fields(t.lights[i]), "own light");
    }
    void own_shadow(const Take &t, u64 i) {
        c.self_shadow_frame(a, i);
        if (i < t.shadows.size()) law(record_there() == fields(t.shadows[i]), "own self-shadow");
    }
    void own_property(const Take &t, u64 i) {
        c.property_frame(a, i);
        if (i >= t.properties.size()) return;
        const Property &p = t.properties[i];
        law(record_there() == Words{p.frame, p.visible, static_cast<u32>(p.iks.size())}, "own property");
        for (u64 j : numbers_to_ask(p.iks.size())) {
            c.ik_state(a, i, j);
            if (j < p.iks.size()) law(c.enabled.at[0] == p.iks[j].enabled, "own IK state");
            c.ik_name(a, i, j);
            if (j < p.iks.size()) law(part_there() == p.iks[j].name, "own IK name");
        }
    }
    // header: "from places[VMD_PROPERTIES] on this reads the counts[VMD_PROPERTIES] frames of a file one after another"
    void walk_properties(const OpenSlots &slots, const Opening &o) {
        u64 at = slots.places[properties];
        for (u64 i = 0; i < o.property_places.size() && i < 80; i++) {
            law(at == o.property_places[i], "property_frame_at walks from frame to frame");
            law(c.property_frame_at(a, at) == 0, "property_frame_at takes every frame of its file");
            const Property &p = o.take.properties[i];
            law(record_there() == Words{p.frame, p.visible, static_cast<u32>(p.iks.size())}, "property_frame_at reads it");
            at = c.next.at[0];
        }
    }

    u64 some_place(u64 i, u64 size) {
        const u64 n = a.bytes.size();
        const Longs &own = a.in(Manner::lenient).opening.property_places;
        switch (r.below(7)) {
        case 0: return r.below(n + 30);
        case 1: return n - std::min(n, i * size + size) + r.below(3) - 1;
        case 2: return n - std::min(n, size) + r.below(3) - 1;
        case 3: return 0 - i * size + r.below(n + 1);      // its sum wraps into the file
        case 4: return r.one_in(2) ? 0 - r.below(130) : r.next();
        case 5: return own.empty() ? 0 : r.pick(own);
        default: return r.below(60);
        }
    }

    // An opening that is made up, or another file's.
    OpenSlots foreign_opening(u64 i) {
        OpenSlots o{Words(6), Longs(6), Longs(3), Longs(r.one_in(3) ? r.below(6) : 1 + i % 200 / 16)};
        const Manner m = some_manner();
        if (r.one_in(3)) o = c.parse(b, m, places_for(b.in(m).opening));
        else if (r.one_in(3) && !a.in(m).refusal()) o = c.parse(a, m, places_for(a.in(m).opening));
        else o.counts.assign(6, r.one_in(2) ? 0xFFFFFFFF : static_cast<u32>(r.below(80)));
        if (r.one_in(3)) return o;
        for (int s = 0; s < 6; s++)
            if (r.one_in(2)) o.places[s] = some_place(i, record_size[s]);
        for (u64 &place : o.scratch)
            if (r.one_in(2)) place = some_place(0, 9);
        if (r.one_in(4)) o.counts[r.below(6)] += static_cast<u32>(r.below(3)) - 1;
        return o;
    }

    // "A fetch with an opening or scratch taken from another file gives the record that the layout reads at the place these
    // name, or refusal 4"
    void fetch_foreign() {
        const u64 i = r.one_in(3) ? 0 : r.one_in(3) ? r.below(70) : r.one_in(3) ? r.next() >> r.below(64) : r.below(20);
        const u64 j = r.one_in(3) ? 0 : r.one_in(4) ? r.next() >> r.below(64) : r.below(6);
        const OpenSlots o = foreign_opening(i);
        c.lend_opening(a, o);
        c.bone_frame(a, i);
        c.bone_name(a, i);
        c.bone_interpolation(a, i);
        c.morph_frame(a, i);
        c.morph_name(a, i);
        c.camera_frame(a, i);
        c.camera_interpolation(a, i);
        c.light_frame(a, i);
        c.light_frame_bits(a, i);
        c.self_shadow_frame(a, i);
        c.property_frame(a, i);
        c.property_frame(a, i % 40);
        c.ik_state(a, i % 40, j);
        c.ik_name(a, i % 40, j);
        c.ik_state(a, i, j);
        c.ik_name(a, i, j);
        c.property_frame_at(a, some_place(i % 70, 9));
    }

    // ---- saving

    Bytes exported(const File &f, Manner m) { return c.export_animation(f, m, canonical_size(f.in(m).take())); }

    void saving(Manner m) {
        const Bytes whole = exported(a, m);
        law(whole.size() == canonical_size(a.in(m).take()), "an output of the export's length is long enough");
        if (sometimes(3)) reads_back(m, whole);
        if (sometimes(3)) older_reads_back(m, whole);
    }

    // "the export of each is accepted and reads back as its records and its model name"
    void reads_back(Manner m, const Bytes &whole) {
        const File again(whole);
        const Opening &o = a.in(m).opening;
        const OpenSlots slots = opened(again);
        law(!again.in(m).refusal() && again.in(m).take() == o.take, "an export reads back");
        law(slots.totals == Longs({o.iks, o.smallest, o.largest}), "its totals");
        law(exported(again, m) == whole, "the export of an export is the export");
    }

    // e) "writes the older edition, 10 bytes shorter than the export .. then the export's bytes from its bone count on"
    void older_reads_back(Manner m, const Bytes &whole) {
        const Bytes older = c.export_older_animation(a, m, whole.size() - 10);
        const Take &t = a.in(m).take();
        if (older.empty()) {
            law(t.model.size() > 10 && read_header(a.bytes).width == 20, "15 is for newer files alone");
            return;
        }
        law(std::equal(older.begin() + 40, older.end(), whole.begin() + 50, whole.end()), "the export's bytes");
        const File again(older);
        opened(again);
        law(!again.in(m).refusal() && again.in(m).take() == t, "the older edition reads back");
        law(c.export_animation(again, m, whole.size()) == whole, "the export of the older edition is the export");
    }

    // e) "What an older file must read as is the Rust's reading after its header is widened to 50 bytes: the newer magic, and
    // the 10 name bytes with 10 zeros after them."
    void widened(Manner m) {
        Bytes wide_header(newer_magic.begin(), newer_magic.end());
        wide_header.insert(wide_header.end(), a.bytes.begin() + 30, a.bytes.begin() + 40);
        wide_header.insert(wide_header.end(), 10, u8{0});
        wide_header.insert(wide_header.end(), a.bytes.begin() + 40, a.bytes.end());
        const File newer(wide_header);
        const Reading &read = a.in(m);
        law(newer.in(m).refusal() == read.refusal(), "an older file is refused as the widened one");
        const u64 needed = places_for(read.opening), exact = read.refusal() ? 0 : canonical_size(read.take());
        OpenSlots of_a = c.parse(a, m, needed), of_newer = c.parse(newer, m, needed);
        law(c.export_animation(a, m, exact) == c.export_animation(newer, m, exact), "an older file reads as the widened one");
        if (read.refusal()) return;
        const Span s = some_span(frames_of(read.take()));
        law(cut_out(a, m, s) == cut_out(newer, m, s), "an older file has the widened one's excerpts");
        for (u64 &place : of_a.places) place += 10;
        for (u64 &place : of_a.scratch) place += 10;
        law(of_a.places == of_newer.places && of_a.scratch == of_newer.scratch, "places are those of the file as it is");
        law(of_a.counts == of_newer.counts && of_a.totals == of_newer.totals, "an older file counts as the widened one");
    }

    // Files of every length: each beginning of the take.
    void every_cut() {
        for (std::size_t n = 0; n < a.bytes.size() && n < 1500; n++) {
            const File cut(Bytes(a.bytes.begin(), a.bytes.begin() + static_cast<std::ptrdiff_t>(n)));
            const Reading &read = cut.in(Manner::lenient);
            const u64 exact = read.refusal() ? 80 : canonical_size(read.take());
            in_both([&](Manner m) { c.parse(cut, m, places_for(read.opening)); });
            in_both([&](Manner m) { c.export_animation(cut, m, exact); });
            const Span s = some_span(frames_of(read.take()));
            in_both([&](Manner m) { c.excerpt_animation(cut, m, s, exact); });
            c.model_name(cut);
        }
    }

    // ---- joining

    // What reading alone answers.
    u64 strict_answer(const File &f) {
        c.export_size(f, Manner::strict);
        return c.left.answer;
    }

    // "Joining: first file, second file, 11, 13.": a file's strict numbers stand where its others do
    template <class F> void join_both(const File &f, const File &g, F call) {
        const u64 of_f = strict_answer(f), of_g = strict_answer(g);
        lend_both(call);
        law(strict.answer == (of_f ? of_f : of_g ? of_g : c.left.answer), "the first file's number, then the second's");
        if (!of_f && !of_g) law(strict.lent == c.left.lent, "a strict join is the lenient one");
        count_join(of_f, of_g);
    }

    void joining() {
        const Reading &x = a.in(Manner::lenient), &y = b.in(Manner::lenient);
        const u64 exact = !x.refusal() && !y.refusal() ? canonical_size(join(x.take(), y.take())) : r.below(200);
        const std::size_t n = some_length(exact), turned = some_length(exact);
        c.joined_model(a, b);
        join_both(a, b, [&](Manner m) { c.join_size(a, b, m); });
        join_both(a, b, [&](Manner m) { c.join_animations(a, b, m, n); });
        if (r.one_in(4)) {
            join_both(b, a, [&](Manner m) { c.join_animations(b, a, m, turned); });
            join_both(b, a, [&](Manner m) { c.join_size(b, a, m); });
            c.joined_model(b, a);
        }
        const u64 twice = x.refusal() ? 0 : canonical_size(join(x.take(), x.take()));
        if (r.one_in(16)) join_both(a, a, [&](Manner m) { c.join_with_itself(a, m, twice); });
    }

    void join_reads_back(Manner m) {
        const Opening &x = a.in(m).opening, &y = b.in(m).opening;
        const File joined(c.join_animations(a, b, m, canonical_size(join(x.take, y.take))));
        const OpenSlots o = opened(joined);
        law(!joined.in(m).refusal() && joined.in(m).take() == join(x.take, y.take), "a join reads back");
        law(o.totals[VMD_TOTAL_SMALLEST_FRAME] == joined_smallest(x, y), "the smallest frame of a join");
        law(o.totals[VMD_TOTAL_LARGEST_FRAME] == std::max(x.largest, y.largest), "the largest of a join");
        tidy_of_join(m, a, b, joined);
        excerpt_of_join(m, joined);
    }

    // "joining any of them, on either side, with an accepted take of no records and no model name gives the other's export"
    void unit(Manner m) {
        const File empty(dress(r, Take(), m));
        c.parse(empty, m, 0);
        law(!empty.in(m).refusal(), "the empty take is accepted");
        const Bytes whole = exported(a, m);
        law(c.join_animations(a, empty, m, whole.size()) == whole, "the empty take on the right");
        law(c.join_animations(empty, a, m, whole.size()) == whole, "the empty take on the left");
    }

    // "joining the first two and then the third gives the same bytes as joining the first with the join of the other two"
    void associativity(Manner m) {
        const auto size = [m](const File &f) { return canonical_size(f.in(m).take()); };
        const u64 exact = size(a) + size(b) + size(d) - 2 * 74;
        const File left(c.join_animations(a, b, m, exact)), right(c.join_animations(b, d, m, exact));
        law(c.join_animations(left, d, m, exact) == c.join_animations(a, right, m, exact), "joining is associative");
    }

    // "two have equal exports exactly when their records and model names are equal"
    void equality(Manner m) {
        const Take &t = a.in(m).take();
        const Bytes whole = exported(a, m);
        const File twin(dress(r, t, m));
        c.parse(twin, m, places_for(a.in(m).opening));
        law(!twin.in(m).refusal(), "a take in other bytes is accepted");
        law(c.export_animation(twin, m, whole.size()) == whole, "equal records have equal exports");
        const Span s = some_span(frames_of(t));
        law(cut_out(twin, m, s) == cut_out(a, m, s), "equal records have equal excerpts");
        same_season(t);
        Bytes other = a.bytes;
        other[r.below(other.size())] ^= static_cast<u8>(1 << r.below(8));
        for (const File &near : {File(other), b}) {
            const Bytes of_near = exported(near, m);
            if (near.in(m).refusal()) continue;
            law((of_near == whole) == (near.in(m).take() == t), "equal exports are of equal records");
        }
    }

    // ---- tidying

    static u64 largest_section(const Reading &read) {
        const auto counts = read.opening.counts;
        return *std::max_element(counts.begin(), counts.end());
    }
    Bytes tidied(const File &f, Manner m) {
        return c.tidy_animation(f, m, largest_section(f.in(m)), canonical_size(f.in(m).take()));
    }

    void tidying() {
        const Reading &read = a.in(Manner::lenient);
        const u64 places = (read.refusal() ? r.below(9) : largest_section(read)) + r.below(2);
        const u64 exact = read.refusal() ? r.below(200) : canonical_size(model::tidied(a, read));
        if (r.one_in(4)) in_both([&](Manner m) { c.tidy_animation(a, m, places, exact); });
        // header: "A scratch of file_len / 9 places is enough for any file."
        if (r.one_in(8)) {
            in_both([&](Manner m) { c.tidy_size(a, m, a.bytes.size() / 9); });
            law(strict.answer != 3 && c.left.answer != 3, "scratch enough for any file of its length");
        }
    }
    void tidy_twice(Manner m) {
        const File once(tidied(a, m));
        const Take &t = a.in(m).take();
        opened(once);
        if (!big) law(once.bytes == canonical(tidy_by_definition(t)), "dropped is what a later record replaces");
        law(tidied(once, m) == once.bytes, "tidying twice is tidying once");
        law(once.bytes.size() <= canonical_size(t), "a tidied file is never longer than the export");
    }

    // g) "Dropped records are those with a later record of the same track and frame.", said of each record, and the order said
    // as one of pairs: the track's first appearance, then the frame.
    template <class Record, class Track> static std::vector<Record> not_dropped(const std::vector<Record> &all, Track track) {
        std::vector<std::tuple<u64, u32, u64>> kept;
        for (u64 i = 0; i < all.size(); i++) {
            bool later = false;
            u64 appears = i;
            for (u64 j = i + 1; j < all.size(); j++) later = later || (track(all[i], all[j]) && all[i].frame == all[j].frame);
            for (u64 j = i; j-- > 0;) appears = track(all[i], all[j]) ? j : appears;
            if (!later) kept.emplace_back(appears, all[i].frame, i);
        }
        std::sort(kept.begin(), kept.end());
        std::vector<Record> records;
        for (const auto &entry : kept) records.push_back(all[std::get<2>(entry)]);
        return records;
    }
    // k) "when they agree up to the first byte 0x0A", said of two names and byte for byte
    static bool one_track(const Name &x, const Name &y) {
        for (u64 i = 0;; i++) {
            const bool x_ends = i == x.size() || x[i] == 0x0A, y_ends = i == y.size() || y[i] == 0x0A;
            if (x_ends || y_ends) return x_ends && y_ends;
            if (x[i] != y[i]) return false;
        }
    }
    static Take tidy_by_definition(const Take &t) {
        const auto named = [](const auto &x, const auto &y) { return one_track(x.name, y.name); };
        const auto always = [](const auto &, const auto &) { return true; };
        return {t.model, not_dropped(t.bones, named), not_dropped(t.morphs, named), not_dropped(t.cameras, always),
                not_dropped(t.lights, always), not_dropped(t.shadows, always), not_dropped(t.properties, always)};
    }

    // k) With other remarks a take has the same tracks: the season's figures are the same, and behind the take it replaces all
    // of it.
    void other_remarks(Manner m) {
        const Take t = respelled(r, a.in(m).take());
        const File other(dress(r, t, m)), joined(c.join_animations(a, other, m, canonical_size(join(a.in(m).take(), t))));
        law(tidied(joined, m) == tidied(other, m), "a take with other remarks replaces it");
        tidy_of_join(m, a, other, joined);
        same_season(t);
    }

    // g) "tidying a join, where its counts fit 32 bits, equals tidying the join of the two tidied takes"
    void tidy_of_join(Manner m, const File &first, const File &second, const File &joined) {
        count_spellings(first.in(m).take(), second.in(m).take());
        const File left(tidied(first, m)), right(tidied(second, m));
        const u64 exact = canonical_size(joined.in(m).take());
        const File of_tidied(c.join_animations(left, right, m, exact));
        law(tidied(joined, m) == tidied(of_tidied, m), "tidying a join");
    }

    // ---- excerpts

    static Words frames_of(const Take &t) {
        Words all;
        for (const Words &section : frames(t)) extend(all, section);
        return all;
    }
    // A frame of the take, the one before or after it, an end of all frames, or any.
    u32 some_frame(const Words &own) {
        static const Words ends = {0, 0xFFFFFFFF, 0, 0xFFFFFFFF, 1, 0xFFFFFFFE}, beside = {0, 0, 1, 0xFFFFFFFF};
        if (own.empty() || r.one_in(5)) return r.one_in(4) ? r.word() >> r.below(32) : r.pick(ends);
        return r.pick(own) + r.pick(beside);
    }
    Span some_span(const Words &own) {
        const u32 one = some_frame(own), other = r.one_in(6) ? one : some_frame(own);
        return {std::min(one, other), std::max(one, other)};
    }
    // The first frame above the last, often by one.
    Span some_turned_span(const Words &own) {
        const Span s = some_span(own);
        if (r.one_in(8)) return {0xFFFFFFFF, 0};
        if (s.first < s.last && !r.one_in(3)) return {s.last, s.first};
        return s.last == 0xFFFFFFFF ? Span{s.last, s.last - 1} : Span{s.last + 1, s.last};
    }

    void excerpt_both(const File &f, Span s, std::size_t out_len) {
        in_both([&](Manner m) { c.excerpt_animation(f, m, s, out_len); });
    }
    void excerpting() {
        const Reading &read = a.in(Manner::lenient);
        const Words own = frames_of(read.take());
        const Span s = some_span(own), turned = some_turned_span(own);
        const u64 whole = read.refusal() ? r.below(200) : canonical_size(read.take());
        const u64 exact = read.refusal() ? r.below(200) : excerpted(a, read, s).whole.size();
        in_both([&](Manner m) { c.excerpt_size(a, m, s); });
        for (u64 n : {exact + 1 + r.below(40), exact, exact - std::min<u64>(exact, 1), u64{0}}) excerpt_both(a, s, n);
        // header: "With a shorter out the records that stay are counted first"
        excerpt_both(a, s, whole - std::min<u64>(whole, r.below(2)));
        count_cut(a, s);
        in_both([&](Manner m) { c.excerpt_size(a, m, turned); });
        excerpt_both(a, turned, some_length(exact));
        law(strict.answer == 18 && c.left.answer == 18, "18 whatever the file is");
        count_cut(a, turned);
        if (r.one_in(64)) of_no_bytes();
    }
    void of_no_bytes() {
        const File nothing((Bytes()));
        const Span s = some_span({}), turned = some_turned_span({});
        for (Span asked : {s, turned}) {
            in_both([&](Manner m) { c.excerpt_size(nothing, m, asked); });
            excerpt_both(nothing, asked, r.below(80));
            count_cut(nothing, asked);
        }
    }

    // header: "an out of the export's length is never refused with 13"
    Bytes cut_out(const File &f, Manner m, Span s) {
        const Reading &read = f.in(m);
        const u64 exact = read.refusal() ? 0 : excerpted(f, read, s).whole.size();
        const Bytes piece = c.excerpt_animation(f, m, s, r.one_in(2) ? exact : canonical_size(read.take()));
        law(c.left.answer != VMD_OUTPUT_TOO_SHORT, "an output of the excerpt's length, or of the export's, is long enough");
        return piece;
    }

    // j) "An excerpt from 0 to 4,294,967,295 is the export."
    void excerpt_laws(Manner m) {
        const Take &t = a.in(m).take();
        law(cut_out(a, m, {0, 0xFFFFFFFF}) == exported(a, m), "from 0 to 4,294,967,295 it is the export");
        const Span s = some_span(frames_of(t));
        const File piece(cut_out(a, m, s));
        const OpenSlots slots = opened(piece);
        law(moved_back(piece.in(m).take(), s) == left_of(t, s), "an excerpt has the records that lie between");
        law(slots.totals[VMD_TOTAL_LARGEST_FRAME] <= s.last - s.first, "its frames");
        law(exported(piece, m) == piece.bytes, "an excerpt is its own export");
        law(piece.bytes.size() <= canonical_size(t), "an excerpt is never longer than the export");
        excerpt_twice(m, s, piece);
    }
    // The definition from the other end: what was written, moved back, is the take without the records outside.
    template <class F> static Take in_each_section(Take t, F change) {
        change(t.bones), change(t.morphs), change(t.cameras), change(t.lights), change(t.shadows), change(t.properties);
        return t;
    }
    static Take moved_back(const Take &piece, Span s) {
        return in_each_section(piece, [s](auto &records) {
            for (auto &record : records) record.frame += s.first;
        });
    }
    static Take left_of(const Take &t, Span s) {
        return in_each_section(t, [s](auto &records) {
            const auto outside = [s](const auto &record) { return record.frame < s.first || record.frame > s.last; };
            records.erase(std::remove_if(records.begin(), records.end(), outside), records.end());
        });
    }
    void excerpt_twice(Manner m, Span s, const File &piece) {
        const Span inner = some_span(frames_of(piece.in(m).take()));
        const Bytes twice = cut_out(piece, m, inner);
        const auto at_once = excerpt_of_excerpt(s, inner);
        if (at_once) law(twice == cut_out(a, m, *at_once), "an excerpt's excerpt is one of the whole");
        else law(twice.size() == 74 && File(twice).in(m).take().model == a.in(m).take().model, "or has no records");
        count_cut(a, s, inner);
    }

    // j) "The excerpt of a join, where its counts fit 32 bits, equals the join of the excerpts."
    void excerpt_of_join(Manner m, const File &joined) {
        const Span s = some_span(frames_of(joined.in(m).take()));
        const File left(cut_out(a, m, s)), right(cut_out(b, m, s));
        const Bytes whole = cut_out(joined, m, s);
        law(c.join_animations(left, right, m, whole.size()) == whole, "the excerpt of a join");
    }

    // ---- parts

    // One or two buffers too short, or all long enough.
    Parts buffer_lengths(const Parts &needed, const Take &t, bool enough) {
        Parts lengths = needed;
        pairwise(lengths, needed, [&](auto &length, const auto &) {
            if (r.one_in(4)) length.resize(length.size() + 1 + r.below(30));
        });
        // header: "With such tables no names are counted first."
        const u64 b_ = t.bones.size(), m_ = t.morphs.size();
        if (r.one_in(2)) lengths.bone_bytes.resize(15 * b_ + r.below(2)), lengths.bone_ends.resize(b_ + r.below(2));
        if (r.one_in(2)) lengths.morph_bytes.resize(15 * m_ + r.below(2)), lengths.morph_ends.resize(m_ + r.below(2));
        if (enough) return lengths;
        const u64 one = r.below(16), other = r.one_in(3) ? r.below(16) : one;
        u64 n = 0;
        pairwise(lengths, needed, [&](auto &length, const auto &) {
            if (n == one || n == other) length.resize(some_length(length.size()));
            n++;
        });
        return lengths;
    }

    void splitting(Manner m) {
        const Take &t = a.in(m).take();
        const Parts needed = parts(a, a.in(m));
        const Parts lengths = buffer_lengths(needed, t, true);
        law(c.split_animation(a, m, lengths) == 0, "buffers long enough");
        Parts got = c.parts_written(needed);
        got.model.assign(t.model.begin(), t.model.end());
        parts_build(m, got);
    }

    // a) "Building from these parts gives the file's export, provided every name, float and self-shadow mode passes the
    // builder."
    void parts_build(Manner m, const Parts &got) {
        Take t;
        const bool passes = build(got, t) == 0;
        const u64 exact = canonical_size(a.in(m).take());
        c.build_size(got);
        const Bytes built = c.build_animation(got, exact);
        if (passes) law(built == c.export_animation(a, m, exact), "the parts build the export");
        else law(built.empty(), "parts that do not pass are turned down");
    }

    void building() {
        const Parts p = some_parts(r);
        Take t;
        const u64 exact = build(p, t) ? 600 : canonical_size(t);
        c.build_size(p);
        const File built(c.build_animation(p, some_length(exact)));
        if (built.bytes.empty() || !sometimes(3)) return;
        opened(built);
        law(c.export_animation(built, Manner::strict, exact) == built.bytes, "what is built is its own strict export");
    }

    void names() {
        for (int n = 0; n < 3; n++) {
            Bytes any(r.below(r.one_in(8) ? 60 : 12));
            static const Bytes edges = {0x00, 0x3F, 0x40, 0x7E, 0x7F, 0x80, 0x81, 0x9F, 0xA0, 0xA1, 0xDF,
                                        0xE0, 0xFC, 0xFD, 0xFE, 0xFF, 0x41, 0x42};
            for (u8 &byte : any) byte = r.one_in(2) ? r.pick(edges) : r.byte();
            c.first_fault(any);
            const Name two = r.one_in(2) ? good_pair(r) : bare_pair(r);
            for (const Name &name : {good_name(r, 15), bad_name(r, 15), two, "A" + two})
                c.first_fault(Bytes(name.begin(), name.end()));
        }
        const Name &own = a.in(Manner::lenient).take().model;
        c.first_fault(Bytes(own.begin(), own.end()));
    }

    // ---- season figures

    void season_list() {
        c.season_none();
        c.season_mean();
        for (const File *f : {&a, &b, &d}) c.season_add(*f);
        c.season_mean();
        season_definition();
        season_limits();
    }

    template <class Record> static u64 tracks(const std::vector<Record> &records) {
        std::set<Name> names;
        for (const Record &record : records) names.insert(up_to_line_feed(record.name));
        return names.size();
    }
    // b) said of the whole list, not of one take after another; i) in the lenient manner
    void season_definition() {
        Longs figures(11, 0);
        Words counts(12, 0);
        const std::vector<const File *> list = {&a, &b, &d};
        const auto read = [](const File *f) -> const Reading & { return f->in(Manner::lenient); };
        for (int s = 0; s < 6; s++) {
            Words of_section;
            for (const File *f : list)
                if (!read(f).refusal()) of_section.push_back(read(f).opening.counts[s]);
            for (u32 count : of_section) figures[VMD_SEASON_TOTAL + s] += count, figures[VMD_SEASON_RECORDS] += count;
            if (of_section.empty()) continue;
            counts[VMD_SEASON_SMALLEST + s] = *std::min_element(of_section.begin(), of_section.end());
            counts[VMD_SEASON_LARGEST + s] = *std::max_element(of_section.begin(), of_section.end());
        }
        for (const File *f : list) {
            figures[read(f).refusal() ? VMD_SEASON_REFUSED : VMD_SEASON_ACCEPTED]++;
            if (read(f).refusal()) continue;
            figures[VMD_SEASON_BONE_NAMES] += tracks(read(f).take().bones);
            figures[VMD_SEASON_MORPH_NAMES] += tracks(read(f).take().morphs);
        }
        law(c.figures.now_there(11) == figures && c.season_counts.now_there(12) == counts, "the season's definition");
        const u64 n = figures[VMD_SEASON_ACCEPTED], total = figures[VMD_SEASON_RECORDS];
        law(c.mean.now_there(2) == (n ? Longs{total / n, total % n} : Longs{0, 0}), "the mean");
    }

    // header: "Any numbers may stand in the arrays."
    void season_limits() {
        Longs figures(11);
        Words counts(12);
        for (u32 &count : counts) count = r.one_in(2) ? r.word() : static_cast<u32>(r.below(4));
        for (u64 &figure : figures) figure = r.one_in(3) ? 0xFFFFFFFFFFFFFFFF - r.below(8) : r.below(1000);
        if (r.one_in(3)) figures[VMD_SEASON_ACCEPTED] = 0;
        if (r.one_in(2)) {
            for (u64 &figure : figures) figure = r.below(10);
            figures[r.below(11)] = 0xFFFFFFFFFFFFFFFF - r.below(12);
        }
        c.season_counts.lend(counts);
        c.figures.lend(figures);
        c.season_mean();
        c.season_add(a);
        c.season_mean();
    }

    // b) "Takes that differ only in interpolation bytes or in bytes after a name's first zero byte give equal figures."
    void same_season(Take t) {
        for (Bone &bone : t.bones) bone.interpolation = some_bytes<64>(r);
        for (Camera &camera : t.cameras) camera.interpolation = some_bytes<24>(r);
        const File other(dress(r, t, Manner::lenient));
        c.season_none();
        c.season_add(a);
        const Longs figures = c.figures.now_there(11);
        const Words counts = c.season_counts.now_there(12);
        c.season_none();
        c.season_add(other);
        law(c.figures.now_there(11) == figures && c.season_counts.now_there(12) == counts, "equal season figures");
    }
};

// ---- runs

struct Neighbours {
    std::vector<File> files; // takes n - 2, n - 1 and n
    void move_to(u64 seed, u64 n) {
        if (files.size() != 3) {
            files.clear();
            for (u64 back = 3; back > 0; back--) files.emplace_back(neighbour(seed, n - back + 1, n));
        } else {
            files.erase(files.begin());
            files.emplace_back(take_of(seed, n));
        }
        // a big take is a case of its own: its neighbours are small ones again
        if (is_big(n - 1) || is_big(n - 2))
            for (u64 back = 2; back > 0; back--)
                if (is_big(n - back)) files[2 - back] = File(neighbour(seed, n - back, n));
    }
    static Bytes neighbour(u64 seed, u64 of, u64 n) {
        return of != n && is_big(of) ? take_of(seed, of + 7) : take_of(seed, of);
    }
};

static std::string hex(const Bytes &f) {
    std::string text;
    char two[4];
    for (u8 b : f) std::snprintf(two, sizeof two, "%02x", b), text += two;
    return text;
}

static unsigned long long wide_number(u64 n) { return n; } // what printf's %llu takes

template <class List> void print_list(const char *label, const List &list) {
    std::printf("  %s (%zu):", label, list.size());
    for (std::size_t i = 0; i < list.size() && i < 400; i++) std::printf(" %llx", wide_number(list[i]));
    std::printf("\n");
}

// What the call was lent besides files, as the model has it after the call, in hexadecimal.
static void report_lent(Calls &c) {
    const std::string call = now.call;
    const bool of_parts = call.find("build") != std::string::npos || call.find("split_animation") != std::string::npos;
    if (of_parts) {
        Parts p;
        print_list("model_name", c.p_model.want);
        c.each_part(p, [](auto &lent, auto &) { print_list(lent.label, lent.want); });
        return;
    }
    if (call.find("season") != std::string::npos) return print_list("figures", c.figures.want);
    print_list("counts", c.counts.want);
    print_list("places", c.places.want);
    print_list("scratch", c.scratch.want);
}

static void report(const Disagreement &d, const Neighbours &files, Calls &calls) {
    std::printf("disagreement: seed %llu, case %llu: %s\n", wide_number(now.seed), wide_number(now.number), d.what());
    std::printf("  asked for number %llu, %llu; out had %zu bytes\n", wide_number(now.i), wide_number(now.j), calls.out.n());
    report_lent(calls);
    for (int i = 2; i >= 0; i--) {
        const Bytes &f = files.files[i].bytes;
        std::printf("  take %d: %zu bytes, strict %d, lenient %d", 2 - i, f.size(), files.files[i].in(Manner::strict).refusal(),
                    files.files[i].in(Manner::lenient).refusal());
        std::printf("%s%s\n", f.size() <= 600 ? ": " : "", f.size() <= 600 ? hex(f).c_str() : "");
    }
    std::fflush(stdout);
}

// Nothing where the case agrees, else what differs; it is reported where that is asked for.
static std::optional<std::string> run_case(Calls &calls, Neighbours &files, u64 seed, u64 n, bool tell) {
    now.seed = seed;
    now.number = n;
    files.move_to(seed, n);
    Rng draws = case_rng(seed, n, 1);
    sides = case_rng(seed, n, 2);
    calls.r = Rng(draws.next());
    calls.first.serial = calls.second.serial = 0; // lent anew, so that a case alone has the same memory
    const File &a = files.files[2];
    now.takes++;
    for (int i = 0; i < 2; i++) now.accepted_in[i] += a.in(manners[i]).refusal() ? 0 : 1;
    try {
        Case{calls, draws, a, files.files[1], files.files[0], is_big(n), {}}.run();
        return {};
    } catch (const Disagreement &d) {
        if (tell) report(d, files, calls);
        return d.what();
    }
}

// How often each call gave each number, so that a run can be seen to reach them all.
static void print_answers() {
    std::map<std::string, std::array<u64, numbers_end>> by_name;
    for (const auto &entry : now.answers)
        for (std::size_t i = 0; i < numbers_end; i++) by_name[entry.first][i] += entry.second[i];
    for (const auto &entry : by_name) {
        std::printf("%s gave", entry.first.c_str());
        for (std::size_t i = 0; i < numbers_end; i++)
            if (entry.second[i]) std::printf(" %zu: %llu,", i, wide_number(entry.second[i]));
        std::printf("\n");
    }
}

// h) How often names with pairs were taken, and turned down for a pair without a character, in each place where names are
// judged; gives the smallest of each. A run that meets too few of them says little about h), and fails.
static PairsMet print_pairs() {
    static const char *const places[] = {"vmd_first_fault", "model name", "bone names", "morph names", "IK names"};
    PairsMet fewest = now.pairs[0];
    for (std::size_t i = 0; i < now.pairs.size(); i++) {
        const PairsMet met = now.pairs[i];
        std::printf("names with pairs, %s: %llu taken, %llu turned down for a pair without a character\n", places[i],
                    wide_number(met.taken), wide_number(met.turned_down));
        fewest = {std::min(fewest.taken, met.taken), std::min(fewest.turned_down, met.turned_down)};
    }
    return fewest;
}

// How often each case was met, i) that the strict manner turns down, or that is near it, and k) of names with remarks; gives
// the smallest number.
static u64 print_cases(const char *of, const std::map<std::string, u64> &cases) {
    u64 fewest = ~u64{0};
    for (const auto &entry : cases) {
        std::printf("%s, %s: %llu\n", of, entry.first.c_str(), wide_number(entry.second));
        fewest = std::min(fewest, entry.second);
    }
    return fewest;
}

// j) How often each case of an excerpt was met; gives the smallest number.
static u64 print_cuts() {
    u64 fewest = ~u64{0};
    for (std::size_t i = 0; i < now.cuts.size(); i++) {
        const auto [newer, older] = now.cuts[i];
        std::printf("excerpts, %s: %llu, older: %llu\n", cut_cases[i].words, wide_number(newer), wide_number(older));
        fewest = std::min({fewest, newer, cut_cases[i].both ? older : newer});
    }
    return fewest;
}

static int run(u64 count, u64 seed, u64 from) {
    Calls calls;
    Neighbours files;
    u64 found = 0;
    begin_strict();
    begin_cuts();
    begin_remarks();
    for (u64 n = from; n < from + count && found < 10; n++) {
        if (n % 256 == 0 || is_big(n) || is_big(n - 1)) alarm(300);
        if (run_case(calls, files, seed, n, true)) found++;
    }
    print_answers();
    const PairsMet fewest = print_pairs();
    const u64 fewest_strict = print_cases("strict", now.strict), fewest_cuts = print_cuts();
    const u64 fewest_remarks = print_cases("names with remarks", now.remarks);
    const bool few_pairs = std::min(fewest.taken, fewest.turned_down) < count / 100;
    const bool few_cases = std::min({fewest_strict, fewest_cuts, fewest_remarks}) < count / 500;
    const bool too_few = !found && ((count >= 1000 && few_pairs) || (count >= 10000 && few_cases));
    std::printf("model: %llu takes (%llu accepted strict, %llu lenient), %llu calls (%llu strict, %llu lenient), %llu "
                "disagreements; names with pairs in each place: at least %llu taken, %llu turned down; cases of the strict "
                "manner: %zu, each at least %llu times; of excerpts: %zu, each at least %llu times; of names with remarks: "
                "%zu, each at least %llu times%s\n",
                wide_number(now.takes), wide_number(now.accepted_in[0]), wide_number(now.accepted_in[1]),
                wide_number(now.calls), wide_number(now.calls_in[0]), wide_number(now.calls_in[1]), wide_number(found),
                wide_number(fewest.taken), wide_number(fewest.turned_down), now.strict.size(), wide_number(fewest_strict),
                now.cuts.size(), wide_number(fewest_cuts), now.remarks.size(), wide_number(fewest_remarks),
                too_few ? ", TOO FEW" : "");
    return found || too_few ? 1 : 0;
}

// ---- self-test

constexpr u64 self_test_takes = 20000, self_test_seed = 1, self_test_first = 2000; // no big take among them

struct Finding {
    u64 takes; // up to the one that finds it
    std::string what;
};

static std::optional<Finding> takes_until_found(Calls &calls, int which) {
    alteration = which;
    Neighbours files;
    std::optional<Finding> found;
    for (u64 n = self_test_first; n < self_test_first + self_test_takes && !found; n++)
        if (const auto what = run_case(calls, files, self_test_seed, n, false)) found = {n - self_test_first + 1, *what};
    alteration = AsWritten;
    return found;
}

// A call that is told one byte more than it was lent has to be caught at the page after it.
static bool page_catches() {
    const pid_t child = fork();
    if (child == 0) {
        close(1);
        Lent<u8> name{"name"};
        do name.lend(Bytes(100, 'A'));
        while ((reinterpret_cast<std::uintptr_t>(name.at) + 100) % page != 0);
        volatile std::size_t fault = vmd_first_fault(name.at, 101);
        _exit(fault == 101 ? 0 : 1);
    }
    int status = 0;
    return child > 0 && waitpid(child, &status, 0) == child && WIFEXITED(status) && WEXITSTATUS(status) == 3;
}

// So have a byte changed beside what was lent, and one changed in it.
static bool check_catches(std::ptrdiff_t at) {
    Lent<u8> name{"name"};
    do name.lend(Bytes(100, 'A'));
    while ((reinterpret_cast<std::uintptr_t>(name.at) + 100) % page != 0);
    name.at[at] = 'B';
    try {
        name.check();
    } catch (const Disagreement &) {
        return true;
    }
    return false;
}

static int self_test() {
    const bool caught = page_catches() && check_catches(-1) && check_catches(0) && check_catches(99);
    std::printf("bytes read past what is lent, written beside it and changed in it: %s\n", caught ? "caught" : "NOT CAUGHT");
    Calls calls;
    int found = 0;
    std::map<char, int> of_letter;
    const auto as_written = takes_until_found(calls, AsWritten);
    std::printf("  0   as written: %s\n", as_written ? "DISAGREES" : "agrees over all takes");
    for (int which = AsWritten + 1; which < AlterationsEnd; which++) {
        alarm(300);
        const auto finding = takes_until_found(calls, which);
        const AlterationNote note = alteration_notes[which];
        const std::string when = finding ? "take " + std::to_string(finding->takes) + ", " + finding->what : "NOT FOUND";
        std::printf("%3d %c %s: %s\n", which, note.letter, note.what, when.c_str());
        if (finding) found++, of_letter[note.letter]++;
    }
    std::printf("found of each letter:");
    for (const auto &entry : of_letter) std::printf(" %c %d", entry.first, entry.second);
    std::printf("\nmodel self-test: %d of %d alterations found\n", found, AlterationsEnd - 1);
    return found == AlterationsEnd - 1 && !as_written && caught ? 0 : 1;
}

static int every_short_name() {
    const u64 tried = fixed::every_short_name();
    std::printf("model: %llu names, %llu of %llu pairs with a character, 0 disagreements\n", wide_number(tried),
                wide_number(fixed::pairs_with_a_character()), wide_number(60 * 188));
    return 0;
}

static int huge() {
    alarm(1800);
    fixed::huge_file();
    fixed::huge_excerpt();
    fixed::huge_join();
    fixed::huge_oversized();
    fixed::huge_build();
    std::printf("model: sections of 2^31 to 2^32 records, 0 disagreements\n");
    return 0;
}

static int usage() {
    std::fprintf(stderr, "usage: model COUNT SEED [FIRST] | take SEED NUMBER | self-test | names | huge |\n"
                         "       altered WHICH COUNT SEED [FIRST]\n");
    return 2;
}

static int chosen(int argc, char **argv) {
    const auto number_of = [&](int i) { return std::strtoull(argv[i], nullptr, 10); };
    const std::string mode = argc > 1 ? argv[1] : "";
    if (argc == 2 && mode == "self-test") return self_test();
    if (argc == 2 && mode == "names") return every_short_name();
    if (argc == 2 && mode == "huge") return huge();
    if (argc == 4 && mode == "take") {
        const Bytes f = take_of(number_of(2), number_of(3));
        return std::fwrite(f.data(), 1, f.size(), stdout) == f.size() ? 0 : 1;
    }
    if ((argc == 5 || argc == 6) && mode == "altered") {
        alteration = static_cast<int>(number_of(2));
        return run(number_of(3), number_of(4), argc == 6 ? number_of(5) : 0);
    }
    if (argc != 3 && argc != 4) return usage();
    return run(number_of(1), number_of(2), argc == 4 ? number_of(3) : 0);
}

int main(int argc, char **argv) {
    catch_signals();
    try {
        fixed::takes_to_try();
        return chosen(argc, argv);
    } catch (const Disagreement &d) {
        std::printf("disagreement: %s\nmodel: 1 disagreement\n", d.what());
        return 1;
    }
}
