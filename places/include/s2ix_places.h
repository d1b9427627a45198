/* Places for the S2 cell index: polygons of degrees as shapes, their cells, and which points lie in them, exactly. The library is built
   over S2, and stands beside s2ix.h: neither needs the other. README.md of the folder places says how to build and try it.

   Degrees are doubles: a latitude is -90 to 90, a longitude -180 to 180. Each array of latitudes goes before that of longitudes, though
   GeoJSON has the longitude first. Cells are S2's 64-bit ids. An edge is the shortest line on the sphere between its two corners, so one
   from longitude 170 to -170 goes over the date line, and a long one from east to west bends towards the pole.

   Each call returns a status of enum s2ix_places_status, but for those that free. A call takes any doubles and any numbers, and says what
   is wrong with them: no exception leaves it, and S2 is never given what would have it end the program.

   A call that gives a list takes a buffer with room for `room` items, and sets *number to how many items the list has. If the buffer has
   room for all, the call puts them at its front; else the status is S2IX_PLACES_NO_ROOM and the buffer stays as it was. A call refused for
   another reason sets *number to 0, with one exception: if a call finds a wrong one among the cells, points or pairs that it is given,
   *number is the place of the first, counted from 0.

   A pointer to no items may be NULL. Any other NULL is refused with S2IX_PLACES_NO_POINTER, which writes nothing, if a call doesn't say
   what it means.

   A shape never changes, so any number of threads may use it at once, until one frees it. A set of shapes has a lock of its own: threads
   ask it side by side, and a change waits for those that ask, and they for it. All calls may be made on any thread at any time, but not in
   a signal handler.

   You must ensure this, since no call can check it:

   - Each pointer is aligned and points to as many initialised items as the call says, or to as much room.
   - What a call writes overlaps nothing else that it is given.
   - A shape is one that s2ix_shape_read gave, and a set one that s2ix_shape_set_new gave, and neither is freed yet. */
#ifndef S2IX_PLACES_H
#define S2IX_PLACES_H

/* The version of this header and of its library. A program that was built with this header runs over each later library whose version
   begins with the same number, which the soname has too. */
#define S2IX_PLACES_VERSION "0.1.0"

#include <stdbool.h>
#include <stddef.h>
#include <stdint.h>

#ifdef __cplusplus
extern "C" {
#endif

/* A polygon on the sphere, or several that don't overlap. */
typedef struct s2ix_shape s2ix_shape;

/* Shapes under numbers of the caller's, ready to tell which of them points lie in. */
typedef struct s2ix_shape_set s2ix_shape_set;

/* Polygons as GeoJSON has them. Corner k is at latitudes[k] and longitudes[k]. Ring k has the corners from ring_ends[k - 1] (from 0 for the
   first) up to ring_ends[k], and its last corner repeats its first. Polygon k has the rings from polygon_ends[k - 1] up to polygon_ends[k]:
   the first is its outer one, and the others are its holes. So the ends never fall, and the last ones are `corners` and `rings`. */
typedef struct s2ix_rings {
    const double *latitudes;
    const double *longitudes;
    size_t corners;
    const size_t *ring_ends;
    size_t rings;
    const size_t *polygon_ends;
    size_t polygons;
} s2ix_rings;

/* Buffers for polygons in the form of s2ix_rings. A call reads how much room there is, and sets how many corners, rings and polygons it
   has. If one of the three has too little room, the status is S2IX_PLACES_NO_ROOM and all buffers stay as they were. */
typedef struct s2ix_rings_room {
    double *latitudes;
    double *longitudes;
    size_t corner_room;
    size_t corners;
    size_t *ring_ends;
    size_t ring_room;
    size_t rings;
    size_t *polygon_ends;
    size_t polygon_room;
    size_t polygons;
} s2ix_rings_room;

/* What is wrong with a ring. `ring` counts over all polygons, `corner` within the ring, both from 0. The last two tell of the second place,
   for the kinds that have two; for the others they repeat the first. An edge is told by the corner that it starts from. */
typedef struct s2ix_fault {
    uint32_t kind;
    size_t ring;
    size_t corner;
    size_t other_ring;
    size_t other_corner;
} s2ix_fault;

enum s2ix_places_status {
    S2IX_PLACES_DONE = 0,
    S2IX_PLACES_OUT_OF_MEMORY = 2, /* memory was refused */
    S2IX_PLACES_NO_CELL = 3,       /* a number is no cell's */
    S2IX_PLACES_NO_LIMITS = 5,     /* a limit is out of its range */
    S2IX_PLACES_NO_ROOM = 8,       /* a buffer is too short */
    S2IX_PLACES_FAULTY = 64,       /* a ring is wrong: the fault says which, and how */
    S2IX_PLACES_NO_RINGS = 65,     /* ends fall, or the last is not the count */
    S2IX_PLACES_NO_POINTER = 66,   /* a pointer is NULL and must not be */
    S2IX_PLACES_TOO_LARGE = 67,    /* more than 5,000,000 corners, or than 4,294,967,295 shapes */
    S2IX_PLACES_NO_POINT = 68,     /* a latitude or longitude of a point is out of its range, or no number */
    S2IX_PLACES_NO_SHAPE = 69,     /* a pair names a point or a shape that isn't there */
    S2IX_PLACES_TOO_FINE = 70,     /* the covering would have more than 1,000,000 cells */
    S2IX_PLACES_WHOLE = 71,        /* the shape or the cells are the whole sphere, so there is no outline */
    S2IX_PLACES_FAILED = 72        /* S2 failed in a way that it never should */
};

enum s2ix_fault_kind {
    S2IX_FAULT_NONE = 0,
    S2IX_FAULT_NOT_FINITE = 1, /* a latitude or longitude is infinite or no number */
    S2IX_FAULT_LATITUDE = 2,   /* a latitude is beyond 90: it may be that latitude and longitude are swapped */
    S2IX_FAULT_LONGITUDE = 3,  /* a longitude is beyond 180 */
    S2IX_FAULT_OPEN = 4,       /* the last corner doesn't repeat the first */
    S2IX_FAULT_TOO_FEW = 5,    /* fewer than three corners */
    S2IX_FAULT_REPEATED = 6,   /* two corners of a ring are at one place */
    S2IX_FAULT_OPPOSITE = 7,   /* an edge's corners are opposite each other on the sphere, so it has no shortest line */
    S2IX_FAULT_CROSSING = 8,   /* two edges, or two rings at a shared corner, cross */
    S2IX_FAULT_SHARED = 9,     /* two edges are the same, in either direction */
    S2IX_FAULT_OUTSIDE = 10,   /* a hole isn't within its polygon's outer ring */
    S2IX_FAULT_WITHIN = 11,    /* an outer ring lies within another polygon, or a hole within another hole */
    S2IX_FAULT_EMPTY = 12,     /* nothing is inside: no polygon, a polygon with no ring, or edges that all cancel */
    S2IX_FAULT_UNSOUND = 13    /* S2 refuses the polygon for another reason */
};

/* What a status or a kind of fault means, in words, as *number bytes with no zero after them; 128 bytes are room enough.
   S2IX_PLACES_NO_ROOM. */
uint32_t s2ix_places_status_text(uint32_t status, uint8_t *text, size_t room, size_t *number);
uint32_t s2ix_fault_text(uint32_t kind, uint8_t *text, size_t room, size_t *number);

/* The version of the library that runs, as S2IX_PLACES_VERSION is the header's: *number bytes with no zero after them; 64 bytes are room
   enough. S2IX_PLACES_NO_ROOM. */
uint32_t s2ix_places_version(uint8_t *text, size_t room, size_t *number);

/* Reads polygons into a new shape. The direction of a ring says nothing, since data keep no rule: the inside of a ring is its smaller
   side, and of two equal ones its left. So no shape reaches around more than half the sphere, unless several polygons do together. Rings
   may go over the date line or around a pole, cut there as RFC 7946 wants it or not: edges along longitude 180 and -180 that meet from
   both sides cancel, and a corner may be there twice, once with each sign, and at a pole with several longitudes. Rings of a shape may
   touch in corners.

   If `mend` is false, the status is S2IX_PLACES_FAULTY for any fault. If it is true, faults are mended where that can be done: a ring is
   closed, repeated corners and rings of fewer than three corners fall away, a longitude is taken around, crossing edges are split, what an
   odd number of times lies in a ring is inside, holes are taken out of their polygon, and polygons that overlap are joined. What has no
   fault stays as it is. A number that is not finite, a latitude beyond 90 and an edge between opposite corners are never mended.

   *fault is the first fault of a ring by itself, rings in their order; else one that rings have together, and S2IX_FAULT_NONE if there is
   none. It is set too if a fault was mended. *shape is the shape, or NULL if the status is not S2IX_PLACES_DONE. Free it with
   s2ix_shape_free. O(n log n) for n corners, but more if many edges cross.

   S2IX_PLACES_FAULTY, S2IX_PLACES_NO_RINGS, S2IX_PLACES_TOO_LARGE, S2IX_PLACES_NO_POINTER, S2IX_PLACES_OUT_OF_MEMORY. */
uint32_t s2ix_shape_read(const s2ix_rings *rings, bool mend, s2ix_shape **shape, s2ix_fault *fault);

/* Frees a shape. NULL is none. */
void s2ix_shape_free(s2ix_shape *shape);

/* All faults of polygons. The list is empty if s2ix_shape_read reads them with `mend` false, and else its first item is the fault that it
   tells. First come the faults of each ring by itself, rings in their order; then, among the rings that have none, the edges that are the
   same, those that cross, and the rings that cross in a corner, each kind by ring and corner. Only if there are none of all these does it
   look for holes that are outside, and for rings within others. It lists 10,000 faults at most, since each two edges of a ring may cross.
   O(n log n) for n corners, and more if edges cross, or if rings lie within others: each two of up to 2,000 rings are compared.

   S2IX_PLACES_NO_RINGS, S2IX_PLACES_TOO_LARGE, S2IX_PLACES_NO_ROOM, S2IX_PLACES_NO_POINTER, S2IX_PLACES_OUT_OF_MEMORY. */
uint32_t s2ix_rings_faults(const s2ix_rings *rings, s2ix_fault *faults, size_t room, size_t *number);

/* The polygons of a shape, as they were read or mended: outer rings turn left around their inside, holes right, and no ring is cut at the
   date line. S2IX_PLACES_WHOLE, S2IX_PLACES_NO_ROOM, S2IX_PLACES_NO_POINTER, S2IX_PLACES_OUT_OF_MEMORY. */
uint32_t s2ix_shape_outline(const s2ix_shape *shape, s2ix_rings_room *outline);

/* The polygons of a shape, cut along longitude 180 as RFC 7946 wants it: no edge goes over the date line, a corner on it has longitude 180
   on the east side of a map and -180 on the west side, and a ring around a pole goes along the map's rim, where the latitude is 90 or -90.
   So s2ix_shape_read reads the same shape again, and a flat map draws it. The same statuses as s2ix_shape_outline. */
uint32_t s2ix_shape_outline_cut(const s2ix_shape *shape, s2ix_rings_room *outline);

/* The outer covering of a shape: rising cells that have each leaf that the shape meets, and others near its rim. There are at most
   max_cells (1 to 1,000,000) of them, unless S2 needs more: for cells of min_level, or up to six if max_cells is small. Their levels are
   min_level to max_level (0 to 30). S2IX_PLACES_NO_LIMITS, S2IX_PLACES_TOO_FINE, S2IX_PLACES_NO_ROOM, S2IX_PLACES_NO_POINTER,
   S2IX_PLACES_OUT_OF_MEMORY. */
uint32_t s2ix_shape_cover(const s2ix_shape *shape, uint32_t max_cells, uint32_t min_level, uint32_t max_level, uint64_t *cells, size_t room,
                          size_t *number);

/* The inner covering of a shape: at most max_cells rising cells that lie in it, under the same limits. There may be none. It leaves out
   cells that are so small that more than about 64 times max_cells of their size (and 4,096) lie along the rim. The same statuses, but for
   S2IX_PLACES_TOO_FINE. */
uint32_t s2ix_shape_cover_inside(const s2ix_shape *shape, uint32_t max_cells, uint32_t min_level, uint32_t max_level, uint64_t *cells,
                                 size_t room, size_t *number);

/* Whether a cell lies within a shape, for each of some cells: inside[k] becomes the answer for cell k. It may be false for a cell that
   the rim comes closer to than rounding can tell, but a point of a cell for which it is true needs no second test. If the status is not
   S2IX_PLACES_DONE, `inside` stays as it was; *wrong is the place of the first number that is no cell's for S2IX_PLACES_NO_CELL, else 0.
   S2IX_PLACES_NO_CELL, S2IX_PLACES_NO_POINTER, S2IX_PLACES_OUT_OF_MEMORY. */
uint32_t s2ix_shape_has_each(const s2ix_shape *shape, const uint64_t *cells, size_t len, bool *inside, size_t *wrong);

/* For each of some points, which of some shapes it lies in, exactly: the places of these shapes among those given, rising. A point on a rim
   belongs to one side only: if shapes cover the sphere without overlaps, each point is in exactly one.

   The lists lie one after the other in `found`, and ends[k] is how many items the lists have up to and with that of point k; `ends` has
   room for `points` numbers. For S2IX_PLACES_NO_POINT *number is the place of the first wrong point. For S2IX_PLACES_NO_ROOM both buffers
   may be overwritten, and *number is how much room `found` needs. Shapes may be repeated. With more than 64 points it makes an index of
   all shapes first, in O(e log e) for e corners. Then a point takes O(log e) mostly.

   S2IX_PLACES_NO_POINT, S2IX_PLACES_NO_ROOM, S2IX_PLACES_TOO_LARGE, S2IX_PLACES_NO_POINTER, S2IX_PLACES_OUT_OF_MEMORY. */
uint32_t s2ix_shapes_at_each(const s2ix_shape *const *shapes, size_t len, const double *latitudes, const double *longitudes, size_t points,
                             size_t *ends, uint32_t *found, size_t room, size_t *number);

/* Whether a point lies in a shape, for each of `pairs` pairs: pair k is of the point points_of[k] and the shape shapes_of[k], and
   inside[k] becomes the answer, which is that of s2ix_shapes_at_each. So whoever holds coverings asks for the pairs of rim cells alone. If
   the status is not S2IX_PLACES_DONE, `inside` stays as it was, and *wrong is the place of the first wrong point or pair; else *wrong is
   0. Points are looked at before pairs. S2IX_PLACES_NO_POINT, S2IX_PLACES_NO_SHAPE, S2IX_PLACES_NO_POINTER, S2IX_PLACES_OUT_OF_MEMORY. */
uint32_t s2ix_shapes_hold_each(const s2ix_shape *const *shapes, size_t len, const double *latitudes, const double *longitudes,
                               size_t points, const uint32_t *points_of, const uint32_t *shapes_of, size_t pairs, bool *inside,
                               size_t *wrong);

/* The outline of a union of cells, which come in any order, repeated, nested or not: outer rings turn left around their inside, holes
   right. No ring is cut at the date line, and an outer ring may go around more than half the sphere; s2ix_shape_read takes its other side
   then. An outline of no cells has no polygon. *wrong is the place of the first number that is no cell's for S2IX_PLACES_NO_CELL, else 0.
   O(n log n). S2IX_PLACES_NO_CELL, S2IX_PLACES_TOO_LARGE for more than 1,000,000 cells, S2IX_PLACES_WHOLE, S2IX_PLACES_NO_ROOM,
   S2IX_PLACES_NO_POINTER, S2IX_PLACES_OUT_OF_MEMORY. */
uint32_t s2ix_cells_outline(const uint64_t *cells, size_t len, s2ix_rings_room *outline, size_t *wrong);

/* The outline of a union of cells, cut along longitude 180 as that of s2ix_shape_outline_cut. The same statuses as s2ix_cells_outline. */
uint32_t s2ix_cells_outline_cut(const uint64_t *cells, size_t len, s2ix_rings_room *outline, size_t *wrong);

/* Makes a set of no shapes. It cuts each shape that it takes into about `cells` cells (1 to 100,000; 50 are a good choice): a point in an
   inner cell needs no test, and one in a cell at the rim is tested against the few edges in it. More cells make points faster, and take
   more memory: about 150 bytes each. Free the set with s2ix_shape_set_free. *set is NULL if the status is not S2IX_PLACES_DONE.
   S2IX_PLACES_NO_LIMITS, S2IX_PLACES_NO_POINTER, S2IX_PLACES_OUT_OF_MEMORY. */
uint32_t s2ix_shape_set_new(uint32_t cells, s2ix_shape_set **set);

/* Frees a set. NULL is none. */
void s2ix_shape_set_free(s2ix_shape_set *set);

/* Changes a set: shapes[k] comes under numbers[k], in place of a shape that is there. If shapes[k] is NULL, a shape that is there goes. If
   a number is repeated, its last place counts. All of it happens at once or, if the status is not S2IX_PLACES_DONE, nothing. The set keeps
   what it needs, so a shape may be freed at once. O(e log e) for e corners of the shapes that come and go, however many others the set
   has.

   S2IX_PLACES_TOO_LARGE, S2IX_PLACES_NO_POINTER, S2IX_PLACES_OUT_OF_MEMORY. */
uint32_t s2ix_shape_set_put(s2ix_shape_set *set, const uint32_t *numbers, const s2ix_shape *const *shapes, size_t len);

/* The numbers of a set, rising. S2IX_PLACES_NO_ROOM, S2IX_PLACES_NO_POINTER, S2IX_PLACES_OUT_OF_MEMORY. */
uint32_t s2ix_shape_set_numbers(const s2ix_shape_set *set, uint32_t *numbers, size_t room, size_t *number);

/* For each of some points, the numbers of the shapes of a set that it lies in, rising: exactly, and in the form of s2ix_shapes_at_each,
   whose answers these are. A point takes O(log e) mostly, and more where many shapes overlap; nothing is built. S2IX_PLACES_NO_POINT,
   S2IX_PLACES_NO_ROOM, S2IX_PLACES_NO_POINTER, S2IX_PLACES_OUT_OF_MEMORY. */
uint32_t s2ix_shape_set_at_each(const s2ix_shape_set *set, const double *latitudes, const double *longitudes, size_t points,
                                size_t *ends, uint32_t *found, size_t room, size_t *number);

/* Whether a point lies in a shape of a set, for each of some pairs, as s2ix_shapes_hold_each tells it: pair k is of the point points_of[k]
   and the shape under the number numbers_of[k]. Points that no pair names are not looked at. A pair takes O(log e) for e corners of its
   shape, and less if pairs of one point follow each other. A point out of range is told by its place, a wrong pair by its own.
   S2IX_PLACES_NO_POINT, S2IX_PLACES_NO_SHAPE, S2IX_PLACES_NO_POINTER, S2IX_PLACES_OUT_OF_MEMORY. */
uint32_t s2ix_shape_set_hold_each(const s2ix_shape_set *set, const double *latitudes, const double *longitudes, size_t points,
                                  const uint32_t *points_of, const uint32_t *numbers_of, size_t pairs, bool *inside, size_t *wrong);

#ifdef __cplusplus
}
#endif
#endif
