/*
 * Loading a recipe in plain C, to be timed beside the proved call.
 *
 * The first line of the input is how often, a tab, and a letter that is not looked at; the rest is the recipe. A card of
 * sixteen fresh zones gets the recipe so often, loaded whole, and the room with the last replies is written, with the
 * lengths of all replies, mixed, as its last byte.
 *
 * Zones and lines are those of the log program of this folder. Built with TEST_SOUND=1 a recipe tests the record once, as
 * answer 2 demands; built with TEST_SOUND=0 never. The lines are gone through twice: to count them and to see that each
 * has its zone and tab, and to try them; built with CUT_ONCE=1 what the first time found is kept for the second.
 */

#ifndef CUT_ONCE
#define CUT_ONCE 0
#endif

#define main log_main
#include "card.c"
#undef main

extern void *memset(void *to, int byte, usize size);

enum {
    MOST = 64,    /* lines of a recipe at most */
    NO_ROOM = 1,
    NO_RECIPE = 14
};

/* A line: its zone, and its command, which is null if the line lacks its zone or its tab. */
struct cut {
    u32 zone;
    const u8 *command, *end;
};

static const u8 *command_in(const u8 *line, const u8 *end, u32 *zone)
{
    line = decimal(line, end, zone);
    return line && line < end && *line == '\t' ? line + 1 : 0;
}

static struct cut line_at(const u8 *p, const u8 *end)
{
    const u8 *feed = memchr(p, '\n', (usize)(end - p));
    struct cut line = {0, 0, feed ? feed : end};

    line.command = command_in(p, line.end, &line.zone);
    return line;
}

/* The answer; the number of the line that was refused, or 0; and how long the reply to each line is. */
static int load(struct zone *zones, const u8 *recipe, usize size, u8 *room, usize room_size, usize *lengths,
                usize *refused)
{
    struct zone tried[ZONES];
#if CUT_ONCE
    struct cut cuts[MOST];
#endif
    struct cut line;
    u8 replies[MOST * ROOM];
    const u8 *end = recipe + size, *p;
    enum answer answer;
    usize lines = 0, k;
    int formed = 1;

    *refused = 0;
    memset(lengths, 0, MOST * sizeof *lengths);
    for (p = recipe; p < end; p = line.end + 1, lines++) {
        line = line_at(p, end);
        formed &= line.command != 0;
#if CUT_ONCE
        if (lines < MOST)
            cuts[lines] = line;
#endif
    }
    if (room_size / ROOM < lines)
        return NO_ROOM;
#if TEST_SOUND
    if (!sound(zones))
        return UNSOUND;
#endif
    if (lines > MOST || !formed)
        return NO_RECIPE;

    memcpy(tried, zones, sizeof tried);
    for (p = recipe, k = 0; k < lines; p = line.end + 1, k++) {
#if CUT_ONCE
        line = cuts[k];
#else
        line = line_at(p, end);
#endif
        answer = text_road(tried, line.zone, line.command, (usize)(line.end - line.command), replies + ROOM * k,
                           &lengths[k]);
        if (answer != DONE) {
            *refused = k + 1;
            memset(lengths, 0, MOST * sizeof *lengths);
            return answer;
        }
    }
    memcpy(zones, tried, sizeof tried);
    for (k = 0; k < lines; k++)
        memcpy(room + ROOM * k, replies + ROOM * k, lengths[k]);
    return DONE;
}

int main(void)
{
    static u8 input[4096 + 1], room[MOST * ROOM];    /* a place behind the input, to step to from a last line */
    static usize lengths[MOST];
    struct zone zones[ZONES] = {{0}};
    usize refused, mixed = 0;
    u32 rounds = 0;
    long got = read(0, input, sizeof input - 1);
    const u8 *end, *recipe;

    if (got < 0)
        return 1;
    end = input + got;
    recipe = command_in(input, end, &rounds);
    if (!recipe || end - recipe < 2)
        return 1;
    recipe += 2;
    memset(room, ' ', sizeof room);
    for (u32 z = 0; z < ZONES; z++)
        add(zones, z, z + 1, 300);
    for (u32 i = 0; i < rounds; i++) {
        if (load(zones, recipe, (usize)(end - recipe), room, sizeof room, lengths, &refused) != DONE)
            return 1;
        for (usize k = 0; k < MOST; k++)
            mixed ^= lengths[k];
        /* The compiler has to take it that zones and room are read here, and can leave no round out. */
        __asm__ volatile("" : : "r"(zones), "r"(room) : "memory");
    }
    room[sizeof room - 1] = (u8)mixed;
    return write(1, room, sizeof room) != (long)sizeof room;
}
