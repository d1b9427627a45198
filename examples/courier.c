/* A day of a delivery service: zones are laid, a courier is asked about, and one zone is withdrawn by its change. The next day goes on from
   the first one's dump and journal. It prints courier.txt.

       cc courier.c $(pkg-config --cflags --libs s2ix) -o courier && ./courier */
#include <stdio.h>
#include <stdlib.h>

#include "s2ix.h"

enum { CENTRE = 1, STATION = 2, CLOSED_ROADS = 3, ROOM = 64 };

static const uint64_t centre[] = {0x4786590000000000, 0x4786570000000000, 0x47865f0000000000};
static const uint64_t station[] = {0x4786596c00000000, 0x4786596400000000};
static const uint64_t road = 0x4786596c4f000000, courier = 0x4786596c4f1d6f9b;

/* Ends the program if a call was refused. */
static void done(uint32_t status) {
    if (status != S2IX_DONE) exit(1);
}

static void print_token(uint64_t cell) {
    uint8_t text[16] = {0};
    size_t length = 0;
    done(s2ix_cell_to_token(cell, text, &length)), fwrite(text, 1, length, stdout);
}

static void show(const char *question, s2ix_handle *zones) {
    s2ix_row rows[ROOM] = {0};
    size_t number = 0;
    done(s2ix_at(zones, courier, rows, ROOM, &number)), puts(question);
    for (size_t k = 0; k < number; k++) printf("  "), print_token(rows[k].cell), printf(" zone %u, %u\n", rows[k].label, rows[k].count);
}

int main(void) {
    s2ix_handle zones = {0};
    size_t number = 0;
    uint32_t labels[ROOM] = {0};
    uint64_t cells[ROOM] = {0};
    uint8_t text[1024] = {0};
    size_t dump = 0, journal = 0, place = 0, entry = 0;
    done(s2ix_open(&zones, 1000, 100, 100));
    /* Each edit is a change: these are the first to the fourth. */
    done(s2ix_add_union(&zones, centre, 3, CENTRE, &number)), printf("the centre has %zu cells\n", number);
    done(s2ix_add_union(&zones, station, 2, STATION, &number)), printf("the station has %zu cells\n", number);
    done(s2ix_add(&zones, road, CLOSED_ROADS, 1, &number)), printf("roads are closed in %zu cell\n", number);
    done(s2ix_add(&zones, station[0], STATION, 1, &number)), printf("the station is counted twice: %zu pair\n", number);
    show("where is the courier?", &zones);
    done(s2ix_labels(&zones, station, 2, labels, ROOM, &number)), printf("zones near the station:");
    for (size_t k = 0; k < number; k++) printf(" %u", labels[k]);
    puts("");
    done(s2ix_revert(&zones, 3, &number)), printf("the roads are open again: %zu pair changed\n", number);
    show("where is the courier now?", &zones);
    if (s2ix_remove(&zones, road, CLOSED_ROADS, 1, &number) == S2IX_NOT_HELD) puts("a second time is refused: none is held");
    done(s2ix_undo(&zones, &number)), printf("the last change is undone: %zu pair is back\n", number);
    done(s2ix_region(&zones, STATION, cells, ROOM, &number)), printf("the station's region:");
    for (size_t k = 0; k < number; k++) printf(" "), print_token(cells[k]);
    puts("");
    /* At night a program keeps both texts in a file. */
    done(s2ix_dump(&zones, text, sizeof text, &dump));
    done(s2ix_journal(&zones, text + dump, sizeof text - dump, &journal)), fwrite(text, 1, dump + journal, stdout);
    s2ix_close(&zones);
    done(s2ix_resume(&zones, text, dump, text + dump, journal, 1000, 100, 100, &place, &entry));
    done(s2ix_done_count(&zones, &number)), printf("the next day %zu changes can be taken back\n", number);
    done(s2ix_revert(&zones, 3, &number)), printf("the roads of the day before are open: %zu pair changed\n", number);
    show("where is the courier?", &zones);
    s2ix_close(&zones);
}
