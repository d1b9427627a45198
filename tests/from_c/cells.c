/* Calls each export on cells and on unions of cells, with its refusals, and says at which lines an answer was wrong. */
#include "checks.h"
#include "s2ix.h"

#include <stdint.h>
#include <string.h>

/* Face 0, its four children, its first leaf and the last leaf of face 5, the other end of the curve, and a number that is no cell's. */
static const uint64_t face = 0x1000000000000000, first_leaf = 1, last_leaf = 0xbfffffffffffffff, curve_end = 0xc000000000000001;
static const uint64_t children[4] = {0x0400000000000000, 0x0c00000000000000, 0x1400000000000000, 0x1c00000000000000};
static const uint64_t no_cell = 6;

static void spelled(void) {
    uint64_t cell = 7;
    uint8_t text[32];
    size_t number = 7;
    EXPECT(s2ix_cell_is_valid(face), true);
    EXPECT(s2ix_cell_is_valid(last_leaf), true);
    EXPECT(s2ix_cell_is_valid(0), false);
    EXPECT(s2ix_cell_is_valid(curve_end), false);
    EXPECT(s2ix_cell_from_token((const uint8_t *)"0C", 2, &cell), S2IX_DONE);
    EXPECT(cell, children[1]);
    EXPECT(s2ix_cell_from_token((const uint8_t *)"bfffffffffffffff", 16, &cell), S2IX_DONE);
    EXPECT(cell, last_leaf);
    EXPECT(s2ix_cell_from_token((const uint8_t *)"bfffffffffffffff0", 17, &cell), S2IX_NO_CELL);
    EXPECT(cell, 0);
    cell = 7;
    EXPECT(s2ix_cell_from_token((const uint8_t *)"", 0, &cell), S2IX_NO_CELL);
    EXPECT(s2ix_cell_from_token((const uint8_t *)"0x", 2, &cell), S2IX_NO_CELL);
    EXPECT(s2ix_cell_from_token((const uint8_t *)"f", 1, &cell), S2IX_NO_CELL);
    EXPECT(cell, 0);
    memset(text, 7, sizeof text);
    EXPECT(s2ix_cell_to_token(no_cell, text, &number), S2IX_NO_CELL);
    EXPECT(number + text[0], 7);
    EXPECT(s2ix_cell_to_token(children[1], text, &number), S2IX_DONE);
    EXPECT(number, 2);
    EXPECT(memcmp(text, "0c\7", 3), 0);
    EXPECT(s2ix_cell_to_token(last_leaf, text, &number), S2IX_DONE);
    EXPECT(number, 16);
    EXPECT(memcmp(text, "bfffffffffffffff\7", 17), 0);
    memset(text, 7, sizeof text);
    EXPECT(s2ix_cell_path(no_cell, text, &number), S2IX_NO_CELL);
    EXPECT(number + text[0], 7);
    EXPECT(s2ix_cell_path(children[3], text, &number), S2IX_DONE);
    EXPECT(number, 3);
    EXPECT(memcmp(text, "0/3\7", 4), 0);
    EXPECT(s2ix_cell_path(last_leaf, text, &number), S2IX_DONE);
    EXPECT(number, 32);
    EXPECT(memcmp(text, "5/333333333333333333333333333333", 32), 0);
}

static void related(void) {
    uint64_t cell = 7;
    uint8_t level = 7;
    EXPECT(s2ix_cell_parent(children[2], 0, &cell), S2IX_DONE);
    EXPECT(cell, face);
    EXPECT(s2ix_cell_parent(children[2], 2, &cell), S2IX_NO_CELL);
    EXPECT(cell, 0);
    EXPECT(s2ix_cell_parent(no_cell, 0, &cell), S2IX_NO_CELL);
    EXPECT(s2ix_cell_child(face, 2, &cell), S2IX_DONE);
    EXPECT(cell, children[2]);
    EXPECT(s2ix_cell_child(face, 4, &cell), S2IX_NO_CELL);
    EXPECT(cell, 0);
    EXPECT(s2ix_cell_child(first_leaf, 0, &cell), S2IX_NO_CELL);
    EXPECT(s2ix_cell_child(no_cell, 0, &cell), S2IX_NO_CELL);
    EXPECT(s2ix_cell_range_min(face, &cell), S2IX_DONE);
    EXPECT(cell, first_leaf);
    EXPECT(s2ix_cell_range_min(no_cell, &cell), S2IX_NO_CELL);
    EXPECT(cell, 0);
    EXPECT(s2ix_cell_range_max(face, &cell), S2IX_DONE);
    EXPECT(cell, 0x1fffffffffffffff);
    EXPECT(s2ix_cell_range_max(no_cell, &cell), S2IX_NO_CELL);
    EXPECT(s2ix_cell_next(children[1], &cell), S2IX_DONE);
    EXPECT(cell, children[2]);
    EXPECT(s2ix_cell_next(last_leaf, &cell), S2IX_DONE);
    EXPECT(cell, first_leaf);
    EXPECT(s2ix_cell_next(no_cell, &cell), S2IX_NO_CELL);
    EXPECT(cell, 0);
    EXPECT(s2ix_cell_level(last_leaf, &level), S2IX_DONE);
    EXPECT(level, 30);
    EXPECT(s2ix_cell_level(no_cell, &level), S2IX_NO_CELL);
    EXPECT(level, 0);
    EXPECT(s2ix_cell_face(last_leaf, &level), S2IX_DONE);
    EXPECT(level, 5);
    EXPECT(s2ix_cell_face(no_cell, &level), S2IX_NO_CELL);
    EXPECT(level, 0);
    EXPECT(s2ix_cell_common_level(0x0500000000000000, 0x0700000000000000, &level), S2IX_DONE);
    EXPECT(level, 1);
    EXPECT(s2ix_cell_common_level(face, last_leaf, &level), S2IX_NO_CELL);
    EXPECT(level, 0);
    EXPECT(s2ix_cell_common_level(face, no_cell, &level), S2IX_NO_CELL);
    EXPECT(s2ix_cell_is_leaf(first_leaf), true);
    EXPECT(s2ix_cell_is_leaf(face), false);
    EXPECT(s2ix_cell_is_leaf(curve_end), false);
    EXPECT(s2ix_cell_contains(face, children[3]), true);
    EXPECT(s2ix_cell_contains(children[3], face), false);
    EXPECT(s2ix_cell_contains(face, no_cell), false);
    EXPECT(s2ix_cell_intersects(children[3], face), true);
    EXPECT(s2ix_cell_intersects(children[3], children[2]), false);
    EXPECT(s2ix_cell_intersects(no_cell, face), false);
}

static void squared(void) {
    uint64_t cells[4] = {7, 7, 7, 7}, border[8], cell = 7;
    size_t number = 7;
    s2ix_square square = {7, 7, 7, 7, 7};
    EXPECT(s2ix_cell_edge_neighbors(no_cell, cells), S2IX_NO_CELL);
    EXPECT(cells[0] + cells[3], 14);
    EXPECT(s2ix_cell_edge_neighbors(face, cells), S2IX_DONE);
    EXPECT(cells[0], 0xb000000000000000);
    EXPECT(cells[1], 0x3000000000000000);
    EXPECT(cells[2], 0x5000000000000000);
    EXPECT(cells[3], 0x9000000000000000);
    memset(border, 0, sizeof border);
    EXPECT(s2ix_cell_border(face, 1, border, 7, &number), S2IX_NO_ROOM);
    EXPECT(number, 8);
    EXPECT(border[0], 0);
    EXPECT(s2ix_cell_border(face, 1, border, 8, &number), S2IX_DONE);
    EXPECT(number, 8);
    EXPECT(border[0] < border[7], true);
    EXPECT(s2ix_cell_border(face, 0, border, 0, &number), S2IX_NO_ROOM);
    EXPECT(number, 4);
    EXPECT(s2ix_cell_border(face, 0, border, 4, &number), S2IX_DONE);
    EXPECT(number, 4);
    EXPECT(border[0], 0x3000000000000000);
    EXPECT(border[3], 0xb000000000000000);
    EXPECT(s2ix_cell_border(face, 9, border, 8, &number), S2IX_TOO_FINE);
    EXPECT(number, 0);
    EXPECT(s2ix_cell_border(first_leaf, 31, border, 8, &number), S2IX_TOO_FINE);
    EXPECT(s2ix_cell_border(first_leaf, 29, border, 8, &number), S2IX_COARSER);
    EXPECT(s2ix_cell_border(no_cell, 0, border, 8, &number), S2IX_NO_CELL);
    EXPECT(s2ix_cell_to_face_ij(no_cell, &square), S2IX_NO_CELL);
    EXPECT(square.i + square.j + square.face + square.level + square.orientation, 35);
    EXPECT(s2ix_cell_to_face_ij(children[2], &square), S2IX_DONE);
    EXPECT(square.i, 1);
    EXPECT(square.j, 1);
    EXPECT(square.face, 0);
    EXPECT(square.level, 1);
    EXPECT(square.orientation, 0);
    EXPECT(s2ix_cell_from_face_ij(0, 1, 1, 1, &cell), S2IX_DONE);
    EXPECT(cell, children[2]);
    EXPECT(s2ix_cell_from_face_ij(6, 0, 0, 0, &cell), S2IX_NO_CELL);
    EXPECT(cell, 0);
    EXPECT(s2ix_cell_from_face_ij(0, 2, 0, 1, &cell), S2IX_NO_CELL);
    EXPECT(s2ix_cell_from_face_ij(0, 0, 2, 1, &cell), S2IX_NO_CELL);
    EXPECT(s2ix_cell_from_face_ij(0, 0, 0, 31, &cell), S2IX_NO_CELL);
}

static void joined(void) {
    const uint64_t shuffled[5] = {children[3], children[0], children[2], children[1], children[0]};
    const uint64_t refused[2] = {face, no_cell};
    uint64_t out[4] = {7, 7, 7, 7};
    size_t number = 7;
    EXPECT(s2ix_union_normalise(shuffled, 5, out, 4, &number), S2IX_DONE);
    EXPECT(number, 1);
    EXPECT(out[0], face);
    EXPECT(out[1], 7);
    EXPECT(s2ix_union_normalise(shuffled, 2, out, 1, &number), S2IX_NO_ROOM);
    EXPECT(number, 2);
    EXPECT(s2ix_union_normalise(shuffled, 2, out, 0, &number), S2IX_NO_ROOM);
    EXPECT(number, 2);
    EXPECT(out[0], face);
    EXPECT(s2ix_union_normalise(refused, 2, out, 4, &number), S2IX_NO_CELL);
    EXPECT(number, 1);
    EXPECT(s2ix_union_normalise(refused, 0, out, 0, &number), S2IX_DONE);
    EXPECT(number, 0);
    EXPECT(s2ix_union_from_leaves(1, 0x2000000000000001, out, 4, &number), S2IX_DONE);
    EXPECT(number, 1);
    EXPECT(out[0], face);
    EXPECT(s2ix_union_from_leaves(1, curve_end, out, 5, &number), S2IX_NO_ROOM);
    EXPECT(number, 6);
    EXPECT(s2ix_union_from_leaves(1, curve_end + 2, out, 4, &number), S2IX_NO_SPAN);
    EXPECT(number, 0);
    EXPECT(s2ix_union_from_leaves(2, 3, out, 4, &number), S2IX_NO_SPAN);
    EXPECT(s2ix_union_from_leaves(2, 2, out, 4, &number), S2IX_NO_SPAN);
    EXPECT(s2ix_union_from_leaves(curve_end, curve_end, out, 0, &number), S2IX_DONE);
    EXPECT(number, 0);
    EXPECT(s2ix_union_from_leaves(3, 1, out, 4, &number), S2IX_NO_SPAN);
    EXPECT(s2ix_union_union(children, 2, children + 2, 2, out, 4, &number), S2IX_DONE);
    EXPECT(number, 1);
    EXPECT(out[0], face);
    EXPECT(s2ix_union_union(children, 1, children + 2, 1, out, 1, &number), S2IX_NO_ROOM);
    EXPECT(number, 2);
    EXPECT(s2ix_union_union(children, 1, children + 2, 1, out, 0, &number), S2IX_NO_ROOM);
    EXPECT(number, 2);
    EXPECT(s2ix_union_union(children, 1, refused, 2, out, 4, &number), S2IX_NO_CELL);
    EXPECT(number, 2);
    EXPECT(s2ix_union_union(children, 0, refused, 0, out, 0, &number), S2IX_DONE);
    EXPECT(number, 0);
    EXPECT(s2ix_union_intersection(&face, 1, children + 1, 2, out, 0, &number), S2IX_NO_ROOM);
    EXPECT(number, 2);
    EXPECT(s2ix_union_intersection(&face, 1, children + 1, 2, out, 4, &number), S2IX_DONE);
    EXPECT(number, 2);
    EXPECT(out[0], children[1]);
    EXPECT(out[1], children[2]);
    EXPECT(s2ix_union_intersection(refused, 2, children, 1, out, 4, &number), S2IX_NO_CELL);
    EXPECT(number, 1);
    EXPECT(s2ix_union_intersection(children, 0, refused, 2, out, 4, &number), S2IX_NO_CELL);
    EXPECT(number, 1);
    EXPECT(s2ix_union_intersection(children, 2, children, 0, out, 4, &number), S2IX_DONE);
    EXPECT(number, 0);
    EXPECT(s2ix_union_difference(&face, 1, children + 1, 2, out, 0, &number), S2IX_NO_ROOM);
    EXPECT(number, 2);
    EXPECT(s2ix_union_difference(&face, 1, children + 1, 2, out, 4, &number), S2IX_DONE);
    EXPECT(number, 2);
    EXPECT(out[0], children[0]);
    EXPECT(out[1], children[3]);
    EXPECT(s2ix_union_difference(refused, 2, children, 1, out, 4, &number), S2IX_NO_CELL);
    EXPECT(number, 1);
    EXPECT(s2ix_union_difference(children, 0, children, 1, out, 0, &number), S2IX_DONE);
    EXPECT(number, 0);
}

static void decided(void) {
    const uint64_t refused[2] = {face, no_cell};
    bool answer = false;
    uint64_t count = 7;
    EXPECT(s2ix_union_contains(children, 4, face, &answer), S2IX_DONE);
    EXPECT(answer, true);
    EXPECT(s2ix_union_contains(children, 3, face, &answer), S2IX_DONE);
    EXPECT(answer, false);
    answer = true;
    EXPECT(s2ix_union_contains(children, 4, no_cell, &answer), S2IX_NO_CELL);
    EXPECT(answer, false);
    EXPECT(s2ix_union_contains(refused, 2, face, &answer), S2IX_NO_CELL);
    EXPECT(s2ix_union_intersects(children, 1, face, &answer), S2IX_DONE);
    EXPECT(answer, true);
    EXPECT(s2ix_union_intersects(children, 1, last_leaf, &answer), S2IX_DONE);
    EXPECT(answer, false);
    EXPECT(s2ix_union_intersects(children, 1, no_cell, &answer), S2IX_NO_CELL);
    EXPECT(s2ix_union_leaf_count(children, 2, &count), S2IX_DONE);
    EXPECT(count, 1ull << 59);
    EXPECT(s2ix_union_leaf_count(refused, 2, &count), S2IX_NO_CELL);
    EXPECT(count, 0);
}

void check_cells(void) {
    spelled();
    related();
    squared();
    joined();
    decided();
}
