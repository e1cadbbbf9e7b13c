// The pairs that have a character, by the rows and cells of JIS X 0208 with NEC's and IBM's extensions.
//
// The cells are those of Python 3.11's codec cp932, asked for each of the 11,280 pairs of a lead and a trail. CP932 of glibc
// 2.36's iconv has the same 9,604 pairs, with the same characters, and so has WHATWG's Shift_JIS in encoding_rs 0.8.31.
// Nothing was taken from the library.
#ifndef CHARACTERS_HPP
#define CHARACTERS_HPP

#include <cstdint>
#include <utility>
#include <vector>

namespace model {

struct Rows {
    std::uint64_t first, last;
    std::vector<std::pair<std::uint64_t, std::uint64_t>> cells; // of each of these rows, from .. to
};

inline const std::vector<Rows> index_rows = {
    {1, 1, {{1, 94}}}, // signs
    {2, 2, {{1, 14}, {26, 33}, {42, 48}, {60, 74}, {82, 89}, {94, 94}}},
    {3, 3, {{16, 25}, {33, 58}, {65, 90}}}, // digits and Latin letters
    {4, 4, {{1, 83}}},                      // Hiragana
    {5, 5, {{1, 86}}},                      // Katakana
    {6, 6, {{1, 24}, {33, 56}}},            // Greek
    {7, 7, {{1, 33}, {49, 81}}},            // Cyrillic
    {8, 8, {{1, 32}}},                      // lines
    {13, 13, {{1, 30}, {32, 54}, {63, 92}}}, // NEC's signs
    {16, 46, {{1, 94}}},                     // Kanji, first level
    {47, 47, {{1, 51}}},
    {48, 83, {{1, 94}}}, // Kanji, second level
    {84, 84, {{1, 6}}},
    {89, 91, {{1, 94}}}, // NEC's choice of IBM's characters
    {92, 92, {{1, 78}, {81, 94}}},
    {115, 118, {{1, 94}}}, // IBM's characters
    {119, 119, {{1, 12}}},
};

// Row r, cell c is pointer (r - 1) * 94 + (c - 1).
inline std::uint64_t row_of(std::uint64_t pointer) { return pointer / 94 + 1; }
inline std::uint64_t cell_of(std::uint64_t pointer) { return pointer % 94 + 1; }

// h) "is in the jis0208 index"
inline bool in_index(std::uint64_t pointer) {
    const std::uint64_t row = row_of(pointer), cell = cell_of(pointer);
    for (const Rows &rows : index_rows) {
        if (row < rows.first || row > rows.last) continue;
        for (const auto &cells : rows.cells)
            if (cell >= cells.first && cell <= cells.second) return true;
    }
    return false;
}

// h) "or lies in 8836 to 10715": the rows 95 to 114, which are the user's
inline bool in_user_rows(std::uint64_t pointer) { return row_of(pointer) >= 95 && row_of(pointer) <= 114; }

} // namespace model

#endif
