/*
 * A recorder that reads a drum from a heat file in its memory, finds the box that is certain, takes readings during a roast, and is refused
 * what makes no sense. tools/firmware builds and runs it; examples/firmware.txt is what it prints.
 */
#include "heat_balance.h"

#include <inttypes.h>
#include <stdio.h>
#include <string.h>

/* Two nodes, as in examples/two_nodes.heat. */
static const char file[] =
    "bent tip replaced\n"
    "size 2\n"
    "a 1 1 4 5\n"
    "a 1 2 -1 1\n"
    "a 2 1 -1 1\n"
    "a 2 2 4 5\n"
    "b 1 8 10\n"
    "b 2 -10 -8\n"
    "end 18 7\n";

/* Three nodes, wall, air and beans: row after row with the right side last, in mW/K and uW. */
static const heat_range wall_air_beans[] = {
    {1050, 1100}, {-420, -400}, {-160, -150}, {140000000, 147000000},
    {-420, -400}, {1050, 1095}, {-315, -300}, {7000000, 9000000},
    {-160, -150}, {-315, -300}, {650, 685}, {4000000, 5250000},
};
static const int64_t ones[] = {1, 1, 1};

#define COUNT(array) (sizeof(array) / sizeof((array)[0]))

/* All that a recorder needs. */
static heat_range cells[HEAT_CELLS];
static int64_t certificate[HEAT_NODES];
static heat_range box[HEAT_NODES];

static void show(const char *call, heat_reply reply)
{
    if (reply.refusal == HEAT_ACCEPTED)
        printf("%s: %zu\n", call, reply.value);
    else if (reply.refusal == HEAT_REFUSED_LIMIT)
        printf("%s: refused %u %zu %zu %zu\n", call, (unsigned)reply.refusal, reply.part, reply.row, reply.column);
    else
        printf("%s: refused %u %zu\n", call, (unsigned)reply.refusal, reply.place);
}

static void show_box(const heat_range *ranges, size_t count)
{
    for (size_t i = 0; i < count; i++)
        printf("  %zu %" PRId64 " %" PRId64 "\n", i + 1, ranges[i].lower, ranges[i].upper);
}

static void roast_from_a_file(void)
{
    heat_reply reply = heat_read_file((const uint8_t *)file, sizeof file - 1, cells, HEAT_CELLS, certificate, HEAT_NODES);
    show("read file", reply);
    size_t n = reply.value, count = n * (n + 1);

    show("open", heat_open(n, cells, count, certificate, n, box, n));
    show_box(box, n);
    show("row step 1", heat_row_step(n, cells, count, certificate, n, box, n, 1));
    show("round", heat_round(n, cells, count, certificate, n, box, n));
    show_box(box, n);
    show("settle", heat_settle(n, cells, count, certificate, n, box, n));
    show("reading [2, 3] at node 1", heat_reading(n, cells, count, certificate, n, box, n, 1, 2, 3));
    show("at rest", heat_at_rest(n, cells, count, certificate, n, box, n));
    show("settle", heat_settle(n, cells, count, certificate, n, box, n));
    show_box(box, n);
    heat_range ends = {0, 0};
    show("ends of node 2", heat_ends(n, cells, count, certificate, n, box, n, 2, &ends));
    printf("  %" PRId64 " %" PRId64 "\n", ends.lower, ends.upper);

    const int64_t fits[] = {10, -10}, beyond[] = {11, -11};
    show("possible (10, -10) / 3", heat_possible(n, cells, count, fits, 2, 3));
    show("possible (11, -11) / 3", heat_possible(n, cells, count, beyond, 2, 3));
}

static void roast_from_cells(void)
{
    show("open wall, air and beans", heat_open(3, wall_air_beans, COUNT(wall_air_beans), ones, 3, box, 3));
    show("settle", heat_settle(3, wall_air_beans, COUNT(wall_air_beans), ones, 3, box, 3));
    show_box(box, 3);
    show("beans at 100 to 101 degrees", heat_reading(3, wall_air_beans, COUNT(wall_air_beans), ones, 3, box, 3, 3, 100000, 101000));
    show("settle", heat_settle(3, wall_air_beans, COUNT(wall_air_beans), ones, 3, box, 3));
    show_box(box, 3);
}

/* Each of these writes nothing. */
static void refusals(void)
{
    heat_range few[2] = {{0, 0}, {0, 0}}, kept[3];
    memcpy(kept, box, sizeof kept);
    show("a file cut off", heat_read_file((const uint8_t *)file, sizeof file - 2, cells, HEAT_CELLS, certificate, HEAT_NODES));
    show("too little room", heat_read_file((const uint8_t *)file, sizeof file - 1, few, 2, certificate, HEAT_NODES));
    show("two cells for three nodes", heat_open(3, wall_air_beans, 2, ones, 3, box, 3));
    show("a box of two ranges", heat_open(3, wall_air_beans, COUNT(wall_air_beans), ones, 3, box, 2));
    show("a certificate of two numbers", heat_round(3, wall_air_beans, COUNT(wall_air_beans), ones, 2, box, 3));
    show("crossed ends", heat_reading(3, wall_air_beans, COUNT(wall_air_beans), ones, 3, box, 3, 2, 5, 4));
    show("a reading far off", heat_reading(3, wall_air_beans, COUNT(wall_air_beans), ones, 3, box, 3, 2, 0, 1));
    show("node 4", heat_row_step(3, wall_air_beans, COUNT(wall_air_beans), ones, 3, box, 3, 4));

    heat_range wide[COUNT(wall_air_beans)];
    memcpy(wide, wall_air_beans, sizeof wide);
    wide[6].upper = INT64_C(2000000);
    show("a coefficient beyond its limits", heat_settle(3, wide, COUNT(wide), ones, 3, box, 3));
    wide[6] = (heat_range){-2000, -300};
    show("a row that is not dominated", heat_settle(3, wide, COUNT(wide), ones, 3, box, 3));
    printf("box %s\n", memcmp(kept, box, sizeof kept) == 0 ? "kept" : "changed");
}

/* A box that was damaged is narrowed to the first box, or refused. */
static void damage(void)
{
    box[0] = (heat_range){INT64_MIN, INT64_MAX};
    show("settle with a range that was widened", heat_settle(3, wall_air_beans, COUNT(wall_air_beans), ones, 3, box, 3));
    show_box(box, 3);
    box[1] = (heat_range){2, 1};
    show("settle with a range that was crossed", heat_settle(3, wall_air_beans, COUNT(wall_air_beans), ones, 3, box, 3));
    box[1] = (heat_range){INT64_MAX, INT64_MAX};
    show("settle with a range that was moved", heat_settle(3, wall_air_beans, COUNT(wall_air_beans), ones, 3, box, 3));
}

int main(void)
{
    roast_from_a_file();
    roast_from_cells();
    refusals();
    damage();
    return 0;
}
