// Lent memory between pages that cannot be touched, and every call of the C interface, compared with the model.
#ifndef CALLS_HPP
#define CALLS_HPP

#include <csignal>
#include <cstdio>
#include <cstdlib>
#include <cstring>
#include <set>
#include <stdexcept>

#include <sys/mman.h>
#include <sys/wait.h>
#include <unistd.h>

#include "takes.hpp"
#include "vmd.h"

using namespace takes;

// ---- where the run is, for reports

// How often names with pairs were met in one of the places where names are judged.
struct PairsMet {
    u64 taken = 0;       // all was good
    u64 turned_down = 0; // for a pair without a character
};

constexpr std::size_t numbers_end = 19; // of answers

struct Progress {
    u64 seed = 0, number = 0, calls = 0, takes = 0;
    std::array<u64, 2> calls_in{}, accepted_in{}; // by manner; calls without one are in neither
    const char *call = "none";
    u64 i = 0, j = 0; // the numbers asked for, where the call has any
    std::unordered_map<const char *, std::array<u64, numbers_end>> answers; // of calls that can refuse: how often each
    std::array<PairsMet, 5> pairs{};                                        // by Of
    std::map<std::string, u64> strict;                                      // see count_strict
    std::vector<std::array<u64, 2>> cuts;                                   // of cut_cases, by edition: see count_cut
    std::map<std::string, u64> remarks;                                     // see count_remarks
};
static Progress now;

struct Disagreement : std::runtime_error {
    using std::runtime_error::runtime_error;
};

[[noreturn]] static void disagree(const std::string &what) { throw Disagreement(std::string(now.call) + ": " + what); }

static void begin(const char *call, u64 i = 0, u64 j = 0) {
    now.call = call;
    now.i = i;
    now.j = j;
    now.calls++;
}

// Begins the call of a name, or its twin of the lenient manner, and gives it. header: "Beside each stands a call whose name
// ends in _lenient, with the same parameters": else this does not compile.
#define VMD_TWIN(manner, name)                                                                                               \
    (now.calls_in[(manner) == Manner::strict ? 0 : 1]++, begin((manner) == Manner::strict ? #name : #name "_lenient"),       \
     (manner) == Manner::strict ? name : name##_lenient)

// Nothing here allocates.
static void on_signal(int number) {
    char line[256];
    const int n = std::snprintf(line, sizeof line, "\nmodel: signal %d in %s, seed %llu, case %llu, alteration %d\n", number,
                                now.call, static_cast<unsigned long long>(now.seed),
                                static_cast<unsigned long long>(now.number), alteration);
    if (write(1, line, static_cast<std::size_t>(n)) < 0) _exit(3);
    _exit(3);
}

// SIGALRM stands for a call that does not end.
static void catch_signals() {
    static char stack[65536];
    stack_t other = {};
    other.ss_sp = stack;
    other.ss_size = sizeof stack;
    sigaltstack(&other, nullptr);
    struct sigaction action = {};
    action.sa_handler = on_signal;
    action.sa_flags = SA_ONSTACK;
    for (int number : {SIGSEGV, SIGBUS, SIGILL, SIGFPE, SIGABRT, SIGTRAP, SIGALRM}) sigaction(number, &action, nullptr);
}

// ---- lent memory

static constexpr std::size_t page = 4096;

// Pages between two that cannot be touched. What is lent ends where the second begins, or begins where the first ends; on the
// open side a strip of known bytes is looked at after the call.
class Region {
  public:
    Region() = default;
    Region(const Region &) = delete;
    Region &operator=(const Region &) = delete;

    u8 *lend(const void *contents, std::size_t n, bool at_front) {
        reserve(n + strip);
        begin = at_front ? base + page : base + page + room - n;
        length = n;
        guarded = at_front ? begin + n : begin - strip;
        if (n) std::memcpy(begin, contents, n);
        std::memset(guarded, known, strip);
        return begin;
    }
    bool strip_kept() const {
        return std::all_of(guarded, guarded + strip, [](u8 b) { return b == known; });
    }

  private:
    static constexpr std::size_t strip = 32;
    static constexpr u8 known = 0xA7;

    void reserve(std::size_t n) {
        if (n <= room) return;
        if (base) munmap(base, room + 2 * page);
        room = std::max<std::size_t>((n + page - 1) / page * page, 4 * page);
        void *map = mmap(nullptr, room + 2 * page, PROT_NONE, MAP_PRIVATE | MAP_ANONYMOUS, -1, 0);
        if (map == MAP_FAILED) throw std::runtime_error("no memory");
        base = static_cast<u8 *>(map);
        if (mprotect(base + page, room, PROT_READ | PROT_WRITE)) throw std::runtime_error("no memory");
    }

    u8 *base = nullptr, *begin = nullptr, *guarded = nullptr;
    std::size_t room = 0, length = 0;
};

static Rng sides(0); // which side of a region, and whether nothing is lent as a null pointer

// A buffer or slot: want begins as what is lent, and the model turns it into what has to be there after the call.
template <class T> struct Lent {
    const char *label;
    std::vector<T> want;
    T *at = nullptr;
    Region region;

    explicit Lent(const char *name) : label(name) {}
    void lend(const std::vector<T> &contents) {
        want = contents;
        place();
    }
    void place() {
        const u64 draw = sides.next();
        at = reinterpret_cast<T *>(region.lend(want.data(), want.size() * sizeof(T), draw % 4 == 0));
        if (want.empty() && draw % 8 > 4) at = nullptr;
    }
    // n elements of anything, each eight bytes unlike the next
    void lend_junk(Rng &r, std::size_t n) {
        want.resize(n);
        u8 *to = reinterpret_cast<u8 *>(want.data());
        u64 junk = r.next();
        for (std::size_t left = n * sizeof(T); left > 0;) {
            const std::size_t some = std::min<std::size_t>(left, 8);
            std::memcpy(to, &junk, some);
            to += some, left -= some, junk += 0x9E3779B97F4A7C15;
        }
        place();
    }
    std::size_t n() const { return want.size(); }
    std::vector<T> now_there(std::size_t count) const { return std::vector<T>(at, at + count); }

    void add_to(Bytes &all) const {
        const u8 *from = reinterpret_cast<const u8 *>(at);
        if (n()) all.insert(all.end(), from, from + n() * sizeof(T));
    }

    void check() const {
        if (!region.strip_kept()) disagree(std::string("bytes beside '") + label + "' were written");
        if (n() == 0 || std::memcmp(at, want.data(), n() * sizeof(T)) == 0) return;
        std::size_t i = 0;
        while (at[i] == want[i]) i++;
        char line[200];
        std::snprintf(line, sizeof line, "'%s' (%zu elements) differs at %zu: expected 0x%llx, got 0x%llx", label, n(), i,
                      static_cast<unsigned long long>(want[i]), static_cast<unsigned long long>(at[i]));
        disagree(line);
    }
};

static void answer(u64 got, u64 wanted) {
    if (got != wanted) disagree("expected " + std::to_string(wanted) + ", got " + std::to_string(got));
    if (wanted < numbers_end) now.answers[now.call][wanted]++;
}

template <class... Buffers> void check_all(const Buffers &...buffers) { (buffers.check(), ...); }

// What a call answered, and all that it was lent to write to, as it stands after the call.
struct Left {
    u64 answer = 0;
    Bytes lent;
};

// ---- names with pairs, counted as the model sees them

static PairsMet &pairs_met(Of place) { return now.pairs[static_cast<std::size_t>(place)]; }

// Of a name without a fault.
static bool has_pair(const Name &n) {
    return std::any_of(n.begin(), n.end(), [](char b) { return lead(static_cast<u8>(b)); });
}
// Whether what is at a name's first fault is a pair.
static bool faulty_pair(const Name &n, u64 fault) {
    return fault + 1 < n.size() && lead(static_cast<u8>(n[fault])) && trail(static_cast<u8>(n[fault + 1]));
}

static void count_name(const Name &n) {
    const u64 fault = model::first_fault(n, Of::alone);
    if (fault == n.size() && has_pair(n)) pairs_met(Of::alone).taken++;
    if (faulty_pair(n, fault)) pairs_met(Of::alone).turned_down++;
}

// Of parts that were built (0) or turned down for a name (7), which is the first that has a fault.
static void count_names(const Parts &p, u64 number) {
    std::vector<std::pair<Of, std::vector<Name>>> places = {{Of::model, {Name(p.model.begin(), p.model.end())}},
                                                            {Of::bones, table_names(p.bone_bytes, p.bone_ends)},
                                                            {Of::morphs, table_names(p.morph_bytes, p.morph_ends)},
                                                            {Of::iks, {}}};
    const auto frames = whole_properties(p.properties);
    for (u64 i = 0; frames && i < frames->size(); i++)
        for (const Ik &ik : (*frames)[i].iks) places.back().second.push_back(ik.name);
    for (const auto &[place, names] : places) {
        if (number == 0 && std::any_of(names.begin(), names.end(), has_pair)) pairs_met(place).taken++;
        for (const Name &n : names) {
            const u64 fault = model::first_fault(n, place);
            if (number != 7 || fault == n.size()) continue;
            if (faulty_pair(n, fault)) pairs_met(place).turned_down++;
            return;
        }
    }
}

// ---- what the strict manner turns down, counted as the model sees it

static const char *const section_words[] = {"bones", "morphs", "cameras", "lights", "self-shadows", "properties"};
static const char *const amounts[] = {"one record more than there is room for", "more", "4,294,967,295"};

// Of an oversized count.
static std::size_t amount(const Stop &stop) {
    if (stop.count == 0xFFFFFFFF) return 2;
    return stop.count == stop.left / record_size[stop.section] + 1 ? 0 : 1;
}

// i) "silently emptied lights and IK frames": whether a right count in place of the oversized one would read property frames.
static bool frames_behind(const File &f, const Stop &stop) {
    Bytes other = f.bytes;
    for (u32 count = 0; count <= std::min<u64>(stop.left / record_size[stop.section], 40); count++) {
        set_word(other, other.size() - stop.left - 4, count);
        const Opening o = open(other, Manner::strict);
        if (!o.stop.refusal && o.counts[properties] > 0) return true;
    }
    return false;
}

// What a run has to meet of a file, each in both editions.
static std::vector<std::string> strict_cases(const File &f) {
    const Stop stop = f.in(Manner::strict).opening.stop;
    std::vector<std::string> cases;
    const auto met = [&](bool holds, const std::string &what) {
        if (holds) cases.push_back(what);
    };
    const bool over = stop.refusal == VMD_BYTES_OVER, oversized_ = stop.refusal == VMD_COUNT_OVERSIZED;
    if (oversized_) cases.push_back(std::string("17 of ") + section_words[stop.section] + ", " + amounts[amount(stop)]);
    met(oversized_ && stop.left == 0, "17 at the end of the file");
    met(oversized_ && u64{stop.count} * record_size[stop.section] == stop.left + 1, "17 for one byte");
    if (oversized_) cases.push_back(frames_behind(f, stop) ? "17 before property frames" : "17 before no property frames");
    met(over && stop.count == 0, "16 after a property count of 0");
    met(over && stop.count > 0, "16 after property frames");
    met(over && stop.left == 1, "16 for one byte");
    met(over && stop.left == 1 && f.bytes.back() == 0, "16 for one zero byte");
    met(stop.refusal == 1 && stop.walk, "1 in the property frames");
    const bool cut = stop.refusal == 1 && !stop.there;
    met(cut && stop.section >= cameras && stop.section <= shadows, "1 at a cut camera, light or self-shadow count");
    if (!stop.refusal) cases.push_back("accepted with " + std::to_string(stop.section + (stop.there ? 1 : 0)) + " counts");
    return cases;
}

static void count_strict(const std::string &what, const File &f) {
    if (alteration != AsWritten) return;
    now.strict[what + (read_header(f.bytes).width == 10 ? ", older" : ", newer")]++;
}
static void count_take(const File &f) {
    if (alteration != AsWritten || read_header(f.bytes).refusal) return;
    for (const std::string &what : strict_cases(f)) count_strict(what, f);
}
static std::string join_case(u64 of_first, u64 of_second) {
    return "join of " + std::to_string(of_first) + " and " + std::to_string(of_second);
}
static void count_join(u64 of_first, u64 of_second) {
    if (alteration == AsWritten && std::max(of_first, of_second) >= 16) now.strict[join_case(of_first, of_second)]++;
}

// Every case that is counted, so that one that is never met is seen to be.
static void begin_strict() {
    std::vector<std::string> all = {"17 at the end of the file", "17 for one byte", "17 before property frames",
                                    "17 before no property frames", "16 after a property count of 0",
                                    "16 after property frames", "16 for one byte", "16 for one zero byte",
                                    "1 in the property frames", "1 at a cut camera, light or self-shadow count",
                                    "1 before 16", "1 before 17", "2 before 16", "2 before 17", "16 before a change",
                                    "17 before a change"};
    for (int s = cameras; s <= shadows; s++)
        for (const char *amount_ : amounts) all.push_back(std::string("17 of ") + section_words[s] + ", " + amount_);
    for (int n = 1; n <= 6; n++) all.push_back("accepted with " + std::to_string(n) + " counts");
    for (const std::string &what : all) now.strict[what + ", newer"] = now.strict[what + ", older"] = 0;
    for (u64 first : {0, 1, 2, 16, 17})
        for (u64 second : {0, 1, 2, 16, 17})
            if (std::max(first, second) >= 16) now.strict[join_case(first, second)] = 0;
}

// ---- what excerpts meet, counted as the model sees it

// An excerpt that was asked for, over the records that the lenient manner reads; there are none where the file is refused, or
// the first frame is above the last.
struct Cut {
    Span s;
    std::optional<Span> inner; // where it is cut again
    int number;                // of the file in the strict manner
    bool nothing, above;       // the file has no bytes; the first frame is above the last
    std::array<u64, 6> stay{}, go{};
    u64 records = 0, below = 0, over = 0;                        // all, those before the first frame, those after the last
    bool at_first = false, at_last = false;                      // a record has that frame
    bool before_first = false, after_last = false;               // a record has the frame beside it
    bool zero_goes = false, end_stays = false, end_goes = false; // frames 0 and 4,294,967,295
    bool again = false, falls = false;                           // the frames of two that stay, one after the other
    bool iks_go_before = false;                                  // IK states that go, before some that stay
    bool any() const { return records > 0; }
};

static void count_frames(const Words &frames, std::size_t section, Cut &cut) {
    std::optional<u32> last_to_stay;
    for (u32 frame : frames) {
        const Span s = cut.s;
        const bool stays = s.first <= frame && frame <= s.last;
        (stays ? cut.stay : cut.go)[section]++;
        cut.records++;
        if (frame < s.first) cut.below++;
        if (frame > s.last) cut.over++;
        if (frame == s.first) cut.at_first = true;
        if (frame == s.last) cut.at_last = true;
        if (u64{frame} + 1 == s.first) cut.before_first = true;
        if (frame == u64{s.last} + 1) cut.after_last = true;
        if (frame == 0 && !stays) cut.zero_goes = true;
        if (frame == 0xFFFFFFFF) (stays ? cut.end_stays : cut.end_goes) = true;
        if (!stays) continue;
        if (last_to_stay == frame) cut.again = true;
        if (last_to_stay && *last_to_stay > frame) cut.falls = true;
        last_to_stay = frame;
    }
}

static Cut cut_of(const File &f, Span s, std::optional<Span> inner) {
    Cut cut{s, inner, f.in(Manner::strict).refusal(), f.bytes.empty(), s.first > s.last};
    const Reading &read = f.in(Manner::lenient);
    if (cut.above || read.refusal()) return cut;
    const std::vector<Words> all = frames(read.take());
    for (std::size_t section = 0; section < 6; section++) count_frames(all[section], section, cut);
    bool gone = false;
    for (const Property &p : read.take().properties) {
        const bool stays = s.first <= p.frame && p.frame <= s.last && !p.iks.empty();
        if (stays && gone) cut.iks_go_before = true;
        if (!stays && !p.iks.empty()) gone = true;
    }
    return cut;
}

template <std::size_t section> bool some_stay(const Cut &c) { return c.stay[section] > 0 && c.go[section] > 0; }
static u64 moved(u32 by, const Cut &c) { return u64{c.s.first} + by; }

// What a run has to meet, each in both editions where a file has one.
struct CutCase {
    const char *words;
    bool both;
    bool (*holds)(const Cut &);
};
static const CutCase cut_cases[] = {
    {"18 of a file that is accepted", true, [](const Cut &c) { return c.above && c.number == 0; }},
    {"18 of a file that is 1", true, [](const Cut &c) { return c.above && c.number == 1; }},
    {"18 of a file that is 2", false, [](const Cut &c) { return c.above && c.number == 2; }},
    {"18 of a file that is 16", true, [](const Cut &c) { return c.above && c.number == 16; }},
    {"18 of a file that is 17", true, [](const Cut &c) { return c.above && c.number == 17; }},
    {"18 of no bytes", false, [](const Cut &c) { return c.above && c.nothing; }},
    {"18 by one frame", true, [](const Cut &c) { return c.above && c.s.first == c.s.last + 1; }},
    {"18 of 4,294,967,295 and 0", true, [](const Cut &c) { return c.s == Span{0xFFFFFFFF, 0}; }},
    {"all records stay", true, [](const Cut &c) { return c.any() && c.below + c.over == 0; }},
    {"no record stays", true, [](const Cut &c) { return c.any() && c.below + c.over == c.records; }},
    {"some bones stay", true, some_stay<bones>},
    {"some morphs stay", true, some_stay<morphs>},
    {"some cameras stay", true, some_stay<cameras>},
    {"some lights stay", true, some_stay<lights>},
    {"some self-shadows stay", true, some_stay<shadows>},
    {"some property frames stay", true, some_stay<properties>},
    {"records before it and after it", true, [](const Cut &c) { return c.below > 0 && c.over > 0; }},
    {"before all records", true, [](const Cut &c) { return c.any() && c.over == c.records; }},
    {"after all records", true, [](const Cut &c) { return c.any() && c.below == c.records; }},
    {"between records, of which none stays", true,
     [](const Cut &c) { return c.below > 0 && c.over > 0 && c.below + c.over == c.records; }},
    {"from a record's frame on", true, [](const Cut &c) { return c.at_first && c.below > 0; }},
    {"from the frame after a record's on", true, [](const Cut &c) { return c.before_first && c.below < c.records; }},
    {"from no such frame on", true, [](const Cut &c) { return c.any() && !c.at_first && !c.before_first; }},
    {"to a record's frame", true, [](const Cut &c) { return c.at_last && c.over > 0; }},
    {"to the frame before a record's", true, [](const Cut &c) { return c.after_last && c.over < c.records; }},
    {"to no such frame", true, [](const Cut &c) { return c.any() && !c.at_last && !c.after_last; }},
    {"one frame, a record's", true, [](const Cut &c) { return c.s.first == c.s.last && c.at_first; }},
    {"one frame, of no record", true, [](const Cut &c) { return c.any() && c.s.first == c.s.last && !c.at_first; }},
    {"wider than the take", true,
     [](const Cut &c) { return c.any() && c.below + c.over == 0 && !c.at_first && !c.at_last && c.s.first > 0; }},
    {"from 0 to 4,294,967,295", true, [](const Cut &c) { return c.any() && c.s == Span{0, 0xFFFFFFFF}; }},
    {"frame 4,294,967,295 becomes 0", true, [](const Cut &c) { return c.end_stays && c.s.first == 0xFFFFFFFF; }},
    {"frame 4,294,967,295 stays, others go", true, [](const Cut &c) { return c.end_stays && c.below > 0; }},
    {"frame 4,294,967,295 goes, others stay", true, [](const Cut &c) { return c.end_goes && c.over < c.records; }},
    {"frame 0 goes, others stay", true, [](const Cut &c) { return c.zero_goes && c.below < c.records; }},
    {"a frame that comes again stays", true, [](const Cut &c) { return c.again && c.s.first > 0; }},
    {"frames that fall stay", true, [](const Cut &c) { return c.falls && c.s.first > 0; }},
    {"IK states go before IK states that stay", true, [](const Cut &c) { return c.iks_go_before; }},
    {"cut again, inside it", true,
     [](const Cut &c) { return c.any() && c.inner && c.inner->first > 0 && moved(c.inner->last, c) < c.s.last; }},
    {"cut again, beyond its last frame", true,
     [](const Cut &c) { return c.over > 0 && c.inner && moved(c.inner->last, c) > c.s.last; }},
    {"cut again, after its last frame", true,
     [](const Cut &c) { return c.over > 0 && c.inner && moved(c.inner->first, c) > c.s.last; }},
    {"cut again, beyond 4,294,967,295", true,
     [](const Cut &c) { return c.any() && c.inner && moved(c.inner->last, c) > 0xFFFFFFFF; }},
};

static void count_cut(const File &f, Span s, std::optional<Span> inner = {}) {
    if (alteration != AsWritten || now.cuts.empty()) return;
    const Cut cut = cut_of(f, s, inner);
    const bool older = read_header(f.bytes).width == 10;
    for (std::size_t i = 0; i < now.cuts.size(); i++)
        if (cut_cases[i].holds(cut)) now.cuts[i][older ? 1 : 0]++;
}
static void begin_cuts() { now.cuts.assign(std::size(cut_cases), {}); }

// ---- what names with remarks meet, counted as the model sees it

// Two bones or two morphs, in file order.
struct Two {
    Name x, y;             // their names
    Name x_field, y_field; // and whole fields
    bool one_frame;
    bool one_track() const { return agree('\n'); }
    bool agree(char up_to) const { return x.substr(0, x.find(up_to)) == y.substr(0, y.find(up_to)); }
    bool like(char other) const { return !one_track() && agree(other) && x.find(other) != Name::npos; }
};
static bool remark(const Name &n) { return n.find('\n') != Name::npos; }

// What a run has to meet, each for bones and for morphs.
struct TwoCase {
    const char *words;
    bool (*holds)(const Two &);
};
static const TwoCase two_cases[] = {
    {"two remarks", [](const Two &t) { return t.one_track() && remark(t.x) && remark(t.y) && t.x != t.y; }},
    {"a remark, then none", [](const Two &t) { return t.one_track() && remark(t.x) && !remark(t.y); }},
    {"no remark, then one", [](const Two &t) { return t.one_track() && !remark(t.x) && remark(t.y); }},
    {"two names at one frame", [](const Two &t) { return t.one_track() && t.x != t.y && t.one_frame; }},
    {"no name, and one that begins with a line feed", [](const Two &t) { return t.one_track() && t.x.empty() != t.y.empty(); }},
    {"apart before a second line feed",
     [](const Two &t) { return t.one_track() && t.x.substr(0, t.x.rfind('\n')) != t.y.substr(0, t.y.rfind('\n')); }},
    {"a line feed in one of two names", [](const Two &t) { return !t.one_track() && remark(t.x) != remark(t.y); }},
    {"two tracks, one up to 0x0B", [](const Two &t) { return t.like('\v'); }},
    {"two tracks, one up to 0x0D", [](const Two &t) { return t.like('\r'); }},
    {"two tracks, one up to 0x8A", [](const Two &t) { return t.like('\x8A'); }},
    {"a line feed after the zero",
     [](const Two &t) { return t.x == t.y && !remark(t.x) && remark(t.x_field) && t.x_field != t.y_field; }},
};
constexpr u64 longest_counted = 100; // records of a section: all pairs of them are looked at

static std::string cut_at(u64 place) { return "cut at place " + std::to_string(place); }

// The cases of a take's bones, or of its morphs.
template <class Record>
std::set<std::string> remark_cases(const std::vector<Record> &all, const std::vector<Record> &kept, const Bytes &f, u64 place,
                                   u64 size) {
    std::set<std::string> met;
    for (u64 j = 0; j < all.size(); j++) {
        bool first = true;
        for (u64 i = 0; i < j; i++) {
            const Two two{all[i].name, all[j].name, raw_field(f, place, size, i), raw_field(f, place, size, j),
                          all[i].frame == all[j].frame};
            for (const TwoCase &c : two_cases)
                if (c.holds(two)) met.insert(c.words);
            if (two.one_track() && two.x != two.y) met.insert(cut_at(up_to_line_feed(two.x).size()));
            if (two.one_track()) first = false;
        }
        if (first && first_named(kept, all[j].name) == kept.size()) met.insert("the first name of a track goes");
    }
    return met;
}
static void count_remarks(const std::set<std::string> &met, const char *section) {
    for (const std::string &what : met) now.remarks[what + ", " + section]++;
}
static void count_remarks(const File &f) {
    const Reading &read = f.in(Manner::lenient);
    const Take &t = read.take();
    if (alteration != AsWritten || read.refusal() || std::max(t.bones.size(), t.morphs.size()) > longest_counted) return;
    const Take &after = tidied(f, read);
    const auto &places = read.opening.places;
    count_remarks(remark_cases(t.bones, after.bones, f.bytes, places[bones], 111), section_words[bones]);
    count_remarks(remark_cases(t.morphs, after.morphs, f.bytes, places[morphs], 23), section_words[morphs]);
}

// Of a join whose halves spell a track otherwise.
template <class Record>
void count_spellings(const std::vector<Record> &first, const std::vector<Record> &second, const char *section) {
    std::set<std::string> met;
    for (u64 i = 0; i < std::min<u64>(first.size(), longest_counted); i++)
        for (u64 j = 0; j < std::min<u64>(second.size(), longest_counted); j++) {
            const Record &x = first[i], &y = second[j];
            if (x.name == y.name || up_to_line_feed(x.name) != up_to_line_feed(y.name)) continue;
            met.insert(x.frame == y.frame ? "joined, at one frame" : "joined, at two frames");
        }
    count_remarks(met, section);
}
static void count_spellings(const Take &first, const Take &second) {
    if (alteration != AsWritten) return;
    count_spellings(first.bones, second.bones, section_words[bones]);
    count_spellings(first.morphs, second.morphs, section_words[morphs]);
}

static void begin_remarks() {
    std::set<std::string> all = {"the first name of a track goes", "joined, at one frame", "joined, at two frames"};
    for (const TwoCase &c : two_cases) all.insert(c.words);
    for (u64 place = 0; place < bone_name_width; place++) all.insert(cut_at(place));
    for (int section : {bones, morphs})
        for (const std::string &what : all) now.remarks[what + ", " + section_words[section]] = 0;
}

// A file that is lent; it stays where it is for as long as the same file is lent.
struct LentFile {
    Lent<u8> lent;
    u64 serial = 0;

    explicit LentFile(const char *name) : lent(name) {}
    void lend(const File &f) {
        if (serial == f.serial) return;
        lent.lend(f.bytes);
        serial = f.serial;
    }
    const u8 *at() const { return lent.at; }
    std::size_t n() const { return lent.n(); }
    void check() const { lent.check(); }
};

// ---- the calls, each compared with the model

struct OpenSlots {
    Words counts;
    Longs places, totals, scratch;
};

// Every buffer and slot of the C interface has a region of its own.
struct Calls {
    Rng r{0};
    Left left; // by the last call that has a manner
    LentFile first{"file"}, second{"second file"};
    Lent<u8> out{"out"};
    Lent<u64> written{"written or size"}, scratch{"scratch"}, places{"places"}, totals{"totals"}, next{"next"};
    Lent<u64> part{"part"}, part3{"joined part"}, sizes{"sizes"}, figures{"figures"}, mean{"mean"};
    Lent<u32> counts{"counts"}, record{"record"}, frame{"frame"}, values{"values"}, enabled{"enabled"};
    Lent<u32> kept{"kept"}, dropped{"dropped"}, season_counts{"season counts"};
    Lent<u8> name{"name"};

    // the builder's and the split's
    Lent<u8> p_model{"model_name"}, p_bone_bytes{"bone_name_bytes"}, p_morph_bytes{"morph_name_bytes"};
    Lent<u32> p_bone_ends{"bone_name_ends"}, p_morph_ends{"morph_name_ends"};
    Lent<u8> p_cameras{"camera_frames"}, p_lights{"light_frames"}, p_shadows{"self_shadow_frames"};
    Lent<u8> p_properties{"property_frames"}, p_interpolations{"bone_interpolations"};
    Lent<u32> p_bone_indices{"bone_name_indices"}, p_bone_frames{"bone_frames"}, p_translations{"bone_translations_xyz"};
    Lent<u32> p_rotations{"bone_rotations_xyzw"}, p_morph_indices{"morph_name_indices"}, p_morph_frames{"morph_frames"};
    Lent<u32> p_weights{"morph_weights"};

    template <class... Buffers> void leave(u64 got, const Buffers &...buffers) {
        check_all(first, buffers...);
        left.answer = got;
        left.lent.clear();
        (buffers.add_to(left.lent), ...);
    }

    // ---- opening

    OpenSlots parse(const File &f, Manner m, std::size_t scratch_len) {
        first.lend(f);
        scratch.lend_junk(r, scratch_len);
        counts.lend_junk(r, 6);
        places.lend_junk(r, 6);
        totals.lend_junk(r, 3);
        const auto call = VMD_TWIN(m, vmd_parse_animation);
        const u32 got = call(first.at(), first.n(), scratch.at, scratch.n(), counts.at, places.at, totals.at);
        answer(got, parse_animation(f, m, scratch.want, counts.want, places.want, totals.want));
        leave(got, scratch, counts, places, totals);
        return {counts.want, places.want, totals.want, scratch.want};
    }

    // ---- fetches: counts, places and scratch are lent once for many of them

    void lend_opening(const File &f, const OpenSlots &o) {
        first.lend(f);
        counts.lend(o.counts);
        places.lend(o.places);
        scratch.lend(o.scratch);
    }
    void check_fetch(u32 got, int wanted) {
        answer(got, static_cast<u64>(wanted));
        check_all(first, counts, places, record);
    }
    void bone_frame(const File &f, u64 i) {
        record.lend_junk(r, 8);
        begin("vmd_bone_frame", i);
        const u32 got = vmd_bone_frame(first.at(), first.n(), counts.at, places.at, i, record.at);
        check_fetch(got, model::bone_frame(f.bytes, counts.want, places.want, i, record.want));
    }
    void morph_frame(const File &f, u64 i) {
        record.lend_junk(r, 2);
        begin("vmd_morph_frame", i);
        const u32 got = vmd_morph_frame(first.at(), first.n(), counts.at, places.at, i, record.at);
        check_fetch(got, model::morph_frame(f.bytes, counts.want, places.want, i, record.want));
    }
    void camera_frame(const File &f, u64 i) {
        record.lend_junk(r, 10);
        begin("vmd_camera_frame", i);
        const u32 got = vmd_camera_frame(first.at(), first.n(), counts.at, places.at, i, record.at);
        check_fetch(got, model::camera_frame(f.bytes, counts.want, places.want, i, record.want));
    }
    void light_frame_bits(const File &f, u64 i) {
        record.lend_junk(r, 7);
        begin("vmd_light_frame_bits", i);
        const u32 got = vmd_light_frame_bits(first.at(), first.n(), counts.at, places.at, i, record.at);
        check_fetch(got, model::light_frame_bits(f.bytes, counts.want, places.want, i, record.want));
    }
    // header: "a NaN is some NaN"; after a refusal too the six floats are as they were "up to a NaN's bits"
    void light_frame(const File &f, u64 i) {
        frame.lend_junk(r, 1);
        values.lend_junk(r, 6);
        begin("vmd_light_frame", i);
        const u32 got = vmd_light_frame(first.at(), first.n(), counts.at, places.at, i, frame.at,
                                        reinterpret_cast<float *>(values.at));
        answer(got, model::light_frame(f.bytes, counts.want, places.want, i, frame.want, values.want));
        for (std::size_t k = 0; k < 6; k++)
            if (is_nan(values.want[k]) && is_nan(values.at[k])) values.want[k] = values.at[k];
        check_all(first, counts, places, frame, values);
    }
    void self_shadow_frame(const File &f, u64 i) {
        record.lend_junk(r, 3);
        begin("vmd_self_shadow_frame", i);
        const u32 got = vmd_self_shadow_frame(first.at(), first.n(), counts.at, places.at, i, record.at);
        check_fetch(got, model::self_shadow_frame(f.bytes, counts.want, places.want, i, record.want));
    }
    void property_frame(const File &f, u64 i) {
        record.lend_junk(r, 3);
        begin("vmd_property_frame", i);
        const u32 got = vmd_property_frame(first.at(), first.n(), counts.at, places.at, scratch.at, scratch.n(), i, record.at);
        check_fetch(got, model::property_frame(f.bytes, counts.want, scratch.want, i, record.want));
        scratch.check();
    }
    int property_frame_at(const File &f, u64 place) {
        record.lend_junk(r, 3);
        next.lend_junk(r, 1);
        begin("vmd_property_frame_at", place);
        const u32 got = vmd_property_frame_at(first.at(), first.n(), place, record.at, next.at);
        answer(got, model::property_frame_at(f.bytes, place, record.want, next.want));
        check_all(first, record, next);
        return static_cast<int>(got);
    }
    void ik_state(const File &f, u64 i, u64 j) {
        enabled.lend_junk(r, 1);
        begin("vmd_ik_state", i, j);
        const u32 got = vmd_ik_state(first.at(), first.n(), counts.at, places.at, scratch.at, scratch.n(), i, j, enabled.at);
        answer(got, model::ik_state(f.bytes, counts.want, scratch.want, i, j, enabled.want));
        check_all(first, counts, places, scratch, enabled);
    }

    // ---- parts of the file

    void check_part(const Longs &wanted) {
        part.want = wanted;
        check_all(first, counts, places, part);
    }
    void bone_name(const File &f, u64 i) {
        part.lend_junk(r, 2);
        begin("vmd_bone_name", i);
        vmd_bone_name(first.at(), first.n(), counts.at, places.at, i, part.at);
        check_part(model::bone_name(f.bytes, counts.want, places.want, i));
    }
    void morph_name(const File &f, u64 i) {
        part.lend_junk(r, 2);
        begin("vmd_morph_name", i);
        vmd_morph_name(first.at(), first.n(), counts.at, places.at, i, part.at);
        check_part(model::morph_name(f.bytes, counts.want, places.want, i));
    }
    void ik_name(const File &f, u64 i, u64 j) {
        part.lend_junk(r, 2);
        begin("vmd_ik_name", i, j);
        vmd_ik_name(first.at(), first.n(), counts.at, places.at, scratch.at, scratch.n(), i, j, part.at);
        check_part(model::ik_name(f.bytes, counts.want, scratch.want, i, j));
        scratch.check();
    }
    void model_name(const File &f) {
        first.lend(f);
        part.lend_junk(r, 2);
        begin("vmd_model_name");
        vmd_model_name(first.at(), first.n(), part.at);
        part.want = model::model_name(f.bytes);
        check_all(first, part);
    }
    void bone_interpolation(const File &f, u64 i) {
        part.lend_junk(r, 2);
        begin("vmd_bone_interpolation", i);
        vmd_bone_interpolation(first.at(), first.n(), counts.at, places.at, i, part.at);
        check_part(model::bone_interpolation(f.bytes, counts.want, places.want, i));
    }
    void camera_interpolation(const File &f, u64 i) {
        part.lend_junk(r, 2);
        begin("vmd_camera_interpolation", i);
        vmd_camera_interpolation(first.at(), first.n(), counts.at, places.at, i, part.at);
        check_part(model::camera_interpolation(f.bytes, counts.want, places.want, i));
    }

    // ---- saving and joining; each gives the bytes that the library wrote, none where it refused

    Bytes what_was_written(u32 got) const { return got ? Bytes() : out.now_there(written.at[0]); }

    void export_size(const File &f, Manner m) {
        first.lend(f);
        written.lend_junk(r, 1);
        const u32 got = VMD_TWIN(m, vmd_export_size)(first.at(), first.n(), written.at);
        answer(got, model::export_size(f, m, written.want));
        leave(got, written);
    }
    Bytes export_animation(const File &f, Manner m, std::size_t out_len) {
        first.lend(f);
        out.lend_junk(r, out_len);
        written.lend_junk(r, 1);
        const u32 got = VMD_TWIN(m, vmd_export_animation)(first.at(), first.n(), out.at, out.n(), written.at);
        answer(got, model::export_animation(f, m, out.want, written.want));
        leave(got, out, written);
        return what_was_written(got);
    }
    void export_older_size(const File &f, Manner m) {
        first.lend(f);
        written.lend_junk(r, 1);
        const u32 got = VMD_TWIN(m, vmd_export_older_size)(first.at(), first.n(), written.at);
        answer(got, model::export_older_size(f, m, written.want));
        leave(got, written);
    }
    Bytes export_older_animation(const File &f, Manner m, std::size_t out_len) {
        first.lend(f);
        out.lend_junk(r, out_len);
        written.lend_junk(r, 1);
        const u32 got = VMD_TWIN(m, vmd_export_older_animation)(first.at(), first.n(), out.at, out.n(), written.at);
        answer(got, model::export_older_animation(f, m, out.want, written.want));
        leave(got, out, written);
        return what_was_written(got);
    }
    void join_size(const File &f, const File &g, Manner m) {
        first.lend(f);
        second.lend(g);
        written.lend_junk(r, 1);
        const u32 got = VMD_TWIN(m, vmd_join_size)(first.at(), first.n(), second.at(), second.n(), written.at);
        answer(got, model::join_size(f, g, m, written.want));
        second.check();
        leave(got, written);
    }
    Bytes join_animations(const File &f, const File &g, Manner m, std::size_t out_len) {
        first.lend(f);
        second.lend(g);
        out.lend_junk(r, out_len);
        written.lend_junk(r, 1);
        const auto call = VMD_TWIN(m, vmd_join_animations);
        const u32 got = call(first.at(), first.n(), second.at(), second.n(), out.at, out.n(), written.at);
        answer(got, model::join_animations(f, g, m, out.want, written.want));
        second.check();
        leave(got, out, written);
        return what_was_written(got);
    }
    // header: "what it only reads may" overlap
    void join_with_itself(const File &f, Manner m, std::size_t out_len) {
        first.lend(f);
        out.lend_junk(r, out_len);
        written.lend_junk(r, 1);
        const auto call = VMD_TWIN(m, vmd_join_animations);
        const u32 got = call(first.at(), first.n(), first.at(), first.n(), out.at, out.n(), written.at);
        answer(got, model::join_animations(f, f, m, out.want, written.want));
        leave(got, out, written);
    }
    void joined_model(const File &f, const File &g) {
        first.lend(f);
        second.lend(g);
        part3.lend_junk(r, 3);
        begin("vmd_joined_model");
        vmd_joined_model(first.at(), first.n(), second.at(), second.n(), part3.at);
        part3.want = model::joined_model(f.bytes, g.bytes);
        check_all(first, second, part3);
    }

    // ---- tidying

    void lend_tidy(const File &f, std::size_t scratch_len) {
        first.lend(f);
        scratch.lend_junk(r, scratch_len);
        written.lend_junk(r, 1);
        kept.lend_junk(r, 6);
        dropped.lend_junk(r, 6);
    }
    void tidy_size(const File &f, Manner m, std::size_t scratch_len) {
        lend_tidy(f, scratch_len);
        const auto call = VMD_TWIN(m, vmd_tidy_size);
        const u32 got = call(first.at(), first.n(), scratch.at, scratch.n(), written.at, kept.at, dropped.at);
        answer(got, model::tidy_size(f, m, scratch.want, written.want, kept.want, dropped.want));
        leave(got, scratch, written, kept, dropped);
    }
    Bytes tidy_animation(const File &f, Manner m, std::size_t scratch_len, std::size_t out_len) {
        lend_tidy(f, scratch_len);
        out.lend_junk(r, out_len);
        const auto call = VMD_TWIN(m, vmd_tidy_animation);
        const u32 got = call(first.at(), first.n(), scratch.at, scratch.n(), out.at, out.n(), written.at, kept.at, dropped.at);
        answer(got, model::tidy_animation(f, m, scratch.want, out.want, written.want, kept.want, dropped.want));
        leave(got, scratch, out, written, kept, dropped);
        return what_was_written(got);
    }

    // ---- excerpts

    void excerpt_size(const File &f, Manner m, Span s) {
        first.lend(f);
        written.lend_junk(r, 1);
        const auto call = VMD_TWIN(m, vmd_excerpt_size);
        now.i = s.first, now.j = s.last;
        const u32 got = call(first.at(), first.n(), s.first, s.last, written.at);
        answer(got, model::excerpt_size(f, m, s, written.want));
        leave(got, written);
    }
    Bytes excerpt_animation(const File &f, Manner m, Span s, std::size_t out_len) {
        first.lend(f);
        out.lend_junk(r, out_len);
        written.lend_junk(r, 1);
        const auto call = VMD_TWIN(m, vmd_excerpt_animation);
        now.i = s.first, now.j = s.last;
        const u32 got = call(first.at(), first.n(), s.first, s.last, out.at, out.n(), written.at);
        answer(got, model::excerpt_animation(f, m, s, out.want, written.want));
        leave(got, out, written);
        return what_was_written(got);
    }

    // ---- the name test

    void first_fault(const Bytes &n) {
        name.lend(n);
        begin("vmd_first_fault");
        const u64 got = vmd_first_fault(name.at, name.n()), wanted = model::first_fault(n.data(), n.size(), Of::alone);
        if (got != wanted) disagree("expected " + std::to_string(wanted) + ", got " + std::to_string(got));
        name.check();
        count_name(Name(n.begin(), n.end()));
    }

    // ---- building

    void lend_parts(const Parts &p) {
        p_model.lend(p.model);
        each_part(p, [](auto &lent, const auto &part_) { lent.lend(part_); });
    }
    template <class P, class F> void each_part(P &p, F f) {
        f(p_bone_bytes, p.bone_bytes);
        f(p_bone_ends, p.bone_ends);
        f(p_morph_bytes, p.morph_bytes);
        f(p_morph_ends, p.morph_ends);
        f(p_cameras, p.cameras);
        f(p_lights, p.lights);
        f(p_shadows, p.shadows);
        f(p_properties, p.properties);
        f(p_bone_indices, p.bone_indices);
        f(p_bone_frames, p.bone_frames);
        f(p_translations, p.translations);
        f(p_rotations, p.rotations);
        f(p_interpolations, p.interpolations);
        f(p_morph_indices, p.morph_indices);
        f(p_morph_frames, p.morph_frames);
        f(p_weights, p.weights);
    }
    void check_parts() const {
        check_all(p_model, p_bone_bytes, p_bone_ends, p_morph_bytes, p_morph_ends, p_cameras, p_lights, p_shadows,
                  p_properties, p_bone_indices, p_bone_frames, p_translations, p_rotations, p_interpolations,
                  p_morph_indices, p_morph_frames, p_weights);
    }
    static const float *floats(const Lent<u32> &lent) { return reinterpret_cast<const float *>(lent.at); }

    void build_size(const Parts &p) {
        lend_parts(p);
        written.lend_junk(r, 1);
        begin("vmd_build_size");
        const u32 got = vmd_build_size(
            p_model.at, p_model.n(), p_bone_bytes.at, p_bone_bytes.n(), p_bone_ends.at, p_bone_ends.n(), p_morph_bytes.at,
            p_morph_bytes.n(), p_morph_ends.at, p_morph_ends.n(), p_cameras.at, p_cameras.n(), p_lights.at, p_lights.n(),
            p_shadows.at, p_shadows.n(), p_properties.at, p_properties.n(), p_bone_indices.at, p_bone_indices.n(),
            p_bone_frames.at, p_bone_frames.n(), floats(p_translations), p_translations.n(), floats(p_rotations),
            p_rotations.n(), p_interpolations.at, p_interpolations.n(), p_morph_indices.at, p_morph_indices.n(),
            p_morph_frames.at, p_morph_frames.n(), floats(p_weights), p_weights.n(), written.at);
        answer(got, model::build_size(p, written.want));
        check_parts();
        written.check();
        if (got == 0 || got == 7) count_names(p, got);
    }
    // The parts have just been lent by build_size.
    Bytes build_animation(const Parts &p, std::size_t out_len) {
        out.lend_junk(r, out_len);
        written.lend_junk(r, 1);
        begin("vmd_build_animation_from_parts");
        const u32 got = vmd_build_animation_from_parts(
            p_model.at, p_model.n(), p_bone_bytes.at, p_bone_bytes.n(), p_bone_ends.at, p_bone_ends.n(), p_morph_bytes.at,
            p_morph_bytes.n(), p_morph_ends.at, p_morph_ends.n(), p_cameras.at, p_cameras.n(), p_lights.at, p_lights.n(),
            p_shadows.at, p_shadows.n(), p_properties.at, p_properties.n(), p_bone_indices.at, p_bone_indices.n(),
            p_bone_frames.at, p_bone_frames.n(), floats(p_translations), p_translations.n(), floats(p_rotations),
            p_rotations.n(), p_interpolations.at, p_interpolations.n(), p_morph_indices.at, p_morph_indices.n(),
            p_morph_frames.at, p_morph_frames.n(), floats(p_weights), p_weights.n(), out.at, out.n(), written.at);
        answer(got, model::build_animation_from_parts(p, out.want, written.want));
        check_parts();
        check_all(out, written);
        return what_was_written(got);
    }

    // ---- parts out of a take

    void split_sizes(const File &f, Manner m) {
        first.lend(f);
        sizes.lend_junk(r, 4);
        const u32 got = VMD_TWIN(m, vmd_split_sizes)(first.at(), first.n(), sizes.at);
        answer(got, model::split_sizes(f, m, sizes.want));
        leave(got, sizes);
    }
    // lengths has the wanted length of each buffer; what it holds does not count.
    int split_animation(const File &f, Manner m, const Parts &lengths) {
        first.lend(f);
        each_part(lengths, [this](auto &lent, const auto &part_) { lent.lend_junk(r, part_.size()); });
        sizes.lend_junk(r, 4);
        const u32 got = VMD_TWIN(m, vmd_split_animation_into_parts)(
            first.at(), first.n(), p_bone_bytes.at, p_bone_bytes.n(), p_bone_ends.at, p_bone_ends.n(), p_morph_bytes.at,
            p_morph_bytes.n(), p_morph_ends.at, p_morph_ends.n(), p_cameras.at, p_cameras.n(), p_lights.at, p_lights.n(),
            p_shadows.at, p_shadows.n(), p_properties.at, p_properties.n(), p_bone_indices.at, p_bone_indices.n(),
            p_bone_frames.at, p_bone_frames.n(), p_translations.at, p_translations.n(), p_rotations.at, p_rotations.n(),
            p_interpolations.at, p_interpolations.n(), p_morph_indices.at, p_morph_indices.n(), p_morph_frames.at,
            p_morph_frames.n(), p_weights.at, p_weights.n(), sizes.at);
        Parts buffers;
        each_part(buffers, [](auto &lent, auto &part_) { part_ = lent.want; });
        answer(got, model::split_animation_into_parts(f, m, buffers, sizes.want));
        each_part(buffers, [](auto &lent, auto &part_) { lent.want = part_; });
        each_part(buffers, [](auto &lent, auto &) { lent.check(); });
        leave(got, sizes);
        each_part(buffers, [this](auto &lent, auto &) { lent.add_to(left.lent); });
        return static_cast<int>(got);
    }
    // The parts as they stand in the lent memory, cut to their lengths.
    Parts parts_written(const Parts &lengths) {
        Parts p;
        pairwise(p, lengths, [](auto &part_, const auto &length) { part_.resize(length.size()); });
        each_part(p, [](auto &lent, auto &part_) { part_ = lent.now_there(part_.size()); });
        return p;
    }

    // ---- season figures; the arrays stay lent from one call to the next

    void season_none() {
        season_counts.lend_junk(r, 12);
        figures.lend_junk(r, 11);
        begin("vmd_season_none");
        vmd_season_none(season_counts.at, figures.at);
        model::season_none(season_counts.want, figures.want);
        check_all(season_counts, figures);
    }
    void season_add(const File &f) {
        first.lend(f);
        begin("vmd_season_add");
        vmd_season_add(first.at(), first.n(), season_counts.at, figures.at);
        model::season_add(f, season_counts.want, figures.want);
        check_all(first, season_counts, figures);
    }
    void season_mean() {
        mean.lend_junk(r, 2);
        begin("vmd_season_mean");
        vmd_season_mean(figures.at, mean.at);
        mean.want = model::season_mean(figures.want);
        check_all(figures, mean);
    }
};

#endif
