/* Prints the version of libs2ix_places, and for two points in how many squares they lie, of the one that there is. */
#include <s2ix_places.h>
#include <stdio.h>

int main(void) {
    const double latitudes[] = {0, 0, 10, 10, 0}, longitudes[] = {0, 10, 10, 0, 0};
    const size_t ring_ends[] = {5}, polygon_ends[] = {1};
    const s2ix_rings square = {latitudes, longitudes, 5, ring_ends, 1, polygon_ends, 1};
    const double point_latitudes[] = {5, 5}, point_longitudes[] = {5, 15};
    uint8_t version[64];
    uint32_t found[2];
    size_t length, ends[2], number;
    s2ix_shape *shape = NULL;
    s2ix_fault fault;
    if (s2ix_places_version(version, sizeof version, &length) || s2ix_shape_read(&square, false, &shape, &fault)) return 1;
    const s2ix_shape *shapes[] = {shape};
    if (s2ix_shapes_at_each(shapes, 1, point_latitudes, point_longitudes, 2, ends, found, 2, &number)) return 1;
    printf("%.*s: %zu %zu\n", (int)length, (const char *)version, ends[0], ends[1] - ends[0]);
    s2ix_shape_free(shape);
    return 0;
}
