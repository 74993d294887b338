/*
 * Logs for the log program, made from a seed: logs SEED LINES [bench | frames L | unended L]
 *
 * The same seed always gives the same log. Without a further word a log is meant to find differences: about half of
 * its commands are in order and done, and the others come as near to what is in order as they can, on both roads and
 * at every boundary. A log with a word is for the clock: bench is a day's ordinary traffic. frames adds the sixteen zones and
 * goes on with frames of that length to them, 3 to 255, with a right checksum; unended is the same log with another end
 * byte, so that its frames are not of the shape and no checksum is taken.
 *
 * The generator follows which zones are present, with which address, range and state, so that it can aim. It knows
 * no answers. No expression makes two draws in an order that C leaves open, so that the log does not depend on the
 * compiler. A log of an odd seed has no line feed after its last line; without a word each second one of those lines is
 * too long.
 */

#include "output.h"

extern int strcmp(const char *a, const char *b);
extern usize strlen(const char *s);

#define COUNT(table) ((u32)(sizeof(table) / sizeof((table)[0])))

/* ---- chance: splitmix64 */

static u64 seed;

static u32 chance(void)
{
    u64 z = seed += 0x9E3779B97F4A7C15u;

    z = (z ^ z >> 30) * 0xBF58476D1CE4E5B9u;
    z = (z ^ z >> 27) * 0x94D049BB133111EBu;
    return (u32)((z ^ z >> 31) >> 32);
}

/* A number below the one given. */
static u32 below(u32 most)
{
    return (u32)((u64)chance() * most >> 32);
}

static u32 between(u32 least, u32 most)
{
    return least + below(most - least + 1);
}

/* True so many times in a thousand. */
static int once_in(u32 thousandths)
{
    return below(1000) < thousandths;
}

#define PICK(table) ((table)[below(COUNT(table))])

/* ---- the line being made, and the output */

static u8 line[262144];
static usize size;

static void put(u32 byte)
{
    line[size++] = (u8)byte;
}

static void put_string(const char *s)
{
    while (*s)
        put((u8)*s++);
}

static void put_decimal(u32 number)
{
    if (number >= 10)
        put_decimal(number / 10);
    put('0' + number % 10);
}

static void put_three(u32 number)
{
    put('0' + number / 100 % 10);
    put('0' + number / 10 % 10);
    put('0' + number % 10);
}

static void put_hex(u32 byte)
{
    put((u8)"0123456789ABCDEF"[byte >> 4 & 15]);
    put((u8)"0123456789ABCDEF"[byte & 15]);
}

/* Puts a byte into the line, or takes one out. */
static void insert(usize at, u32 byte)
{
    memmove(line + at + 1, line + at, size - at);
    line[at] = (u8)byte;
    size++;
}

static void take_out(usize at)
{
    memmove(line + at, line + at + 1, size - at - 1);
    size--;
}

/* Any byte but a line feed; often one that is near to being right. */
static u32 stray(void)
{
    static const u8 near[] = " 0123456789/:+-.,ALSXlsx\t\r\0\x7F\x80\xFF\xC2\xB2";
    u32 byte = once_in(700) ? near[below(sizeof near - 1)] : below(256);

    return byte == '\n' ? '\v' : byte;
}

static void put_out(const u8 *bytes, usize count)
{
    while (count > 0) {
        usize part = sizeof out - filled < count ? sizeof out - filled : count;

        memcpy(out + filled, bytes, part);
        filled += part;
        bytes += part;
        count -= part;
        if (filled == sizeof out)
            flush();
    }
}

/* ---- what is known of the card */

enum { ZONES = 16 };
enum { OFF, ON, CALIBRATION, ERROR };

static struct {
    u32 address;    /* 0: the zone is absent */
    u32 range;
    u32 state;
} known[ZONES];

static u32 removed = 33;    /* the address of the zone that was removed last */

/* A present zone, or an absent one; any zone where there is none. */
static u32 some_zone(int present)
{
    u32 from = below(ZONES);

    for (u32 i = 0; i < ZONES; i++)
        if ((known[(from + i) % ZONES].address != 0) == present)
            return (from + i) % ZONES;
    return from;
}

static u32 odd_zone(void)
{
    static const u32 odd[] = {15, 16, 17, 18, 19, 20, 31, 32, 255, 256, 261, 999, 32768, 65535, 65536, 65541, 65551,
                              65552, 99999};

    switch (below(3)) {
    case 0:
        return below(21);
    case 1:
        return some_zone(0);
    default:
        return PICK(odd);
    }
}

static int held(u32 address)
{
    for (u32 i = 0; i < ZONES; i++)
        if (known[i].address == address)
            return 1;
    return 0;
}

static u32 free_address(void)
{
    u32 address;

    do
        address = once_in(200) ? PICK(((const u32[]){1, 2, 253, 254, 33, 0x68, 0x16, 0x10})) : between(1, 254);
    while (held(address));
    return address;
}

/* ---- commands */

enum group { AHUE_DEADLINE, AHUE_WINDOW, HZBG, RRUE, SOLW, GROUPS };

static const char *const names[GROUPS] = {"AHUE", "AHUE", "HZBG", "RRUE", "SOLW"};
static const u32 indices[GROUPS] = {0x0B, 0x0B, 0x70, 0x15, 0x35};

/* The figures of a group: the least and the most of each, and the bytes that it takes in a frame. */
static const struct {
    u32 count;
    struct {
        u32 least, most, bytes;
    } figure[5];
} groups[GROUPS] = {
    {4, {{0, 1, 1}, {5, 99, 1}, {5, 99, 1}, {0, 999, 2}}},
    {5, {{0, 1, 1}, {5, 99, 1}, {5, 99, 1}, {0, 998, 2}, {1, 999, 2}}},
    {1, {{0, 999, 2}}},
    {3, {{0, 1, 1}, {5, 100, 1}, {5, 100, 1}}},
    {1, {{0, 300, 2}}},
};

static int has_flag(enum group group)
{
    return groups[group].count >= 3;
}

struct command {
    enum group group;
    u32 figure[5];
};

static const u32 boundaries[] = {0,   1,   2,   4,   5,   6,   9,   10,  11,  98,  99,  100, 101, 102, 253,
                                 254, 255, 256, 257, 298, 299, 300, 301, 302, 498, 499, 500, 501, 502, 997,
                                 998, 999, 1000, 1001, 1023, 1024, 9999, 32767, 32768, 65280, 65534, 65535};

/* A figure within its range, often at one of its ends. */
static u32 good_figure(u32 least, u32 most)
{
    switch (below(8)) {
    case 0:
        return least;
    case 1:
        return most;
    case 2:
        return below(2) ? least + 1 : most - 1;
    default:
        return between(least, most);
    }
}

/* Puts the lower figure of a window first. */
static void order_window(struct command *c)
{
    u32 begin = c->figure[3], end = c->figure[4];

    if (end < begin) {
        c->figure[3] = end;
        c->figure[4] = begin;
    }
}

/* How a window's end stands to its begin: mostly above it, and now and then equal, one above, one below, or as drawn. */
static void relate_window(struct command *c)
{
    u32 begin = c->figure[3];

    switch (below(10)) {
    case 0:
        c->figure[4] = begin;
        break;
    case 1:
        c->figure[4] = begin + 1;
        break;
    case 2:
        c->figure[4] = begin - (begin > 0);
        break;
    case 3:
        break;
    default:
        order_window(c);
        break;
    }
}

/* A command for a zone with that range: its figures in order, one of them at a boundary, or all of them. */
static void choose_command(struct command *c, u32 range)
{
    u32 wild = below(100), one;

    c->group = (enum group)below(GROUPS);
    one = below(groups[c->group].count);
    for (u32 i = 0; i < groups[c->group].count; i++) {
        u32 most = c->group == SOLW ? range : groups[c->group].figure[i].most;

        c->figure[i] = good_figure(groups[c->group].figure[i].least, most);
        if (wild < 5 || (wild < 22 && i == one))
            c->figure[i] = c->group == SOLW && below(2) ? range - 2 + below(5) : PICK(boundaries);
    }
    if (c->group == AHUE_WINDOW)
        relate_window(c);
}

/* ---- the text road */

/* The write line; a figure that three digits or one cannot carry loses its first digits. */
static void put_write_line(const struct command *c)
{
    put('S');
    put_string(names[c->group]);
    for (u32 i = 0; i < groups[c->group].count; i++) {
        put(' ');
        if (i == 0 && has_flag(c->group))
            put('0' + c->figure[i] % 10);
        else
            put_three(c->figure[i] % 1000);
    }
}

static void put_read_line(enum group group)
{
    put('L');
    put_string(names[group]);
}

/* Spoils the command that begins at that place of the line, by one slip of many kinds. */
static void spoil_text(usize from)
{
    static const char *const other_names[] = {"PRUE", "AHUF", "HZBH", "RRUR", "SOLV", "BAUD", "AHU ", "Ahue", "hzbg",
                                              "rrue", "solw", "HZB\xC7", "TOKG", "    ", "VERS", "EUHA", "0000"};
    static const char *const bad_digits[] = {"1 0", "+10", "-10", " 10", "10 ", "0x1", "1.0", "01O", "\xB2\x30\x30",
                                             "1\t0", "00\r", "\0\0\0", "/00", "00:", "1e2", ".05"};
    static const char *const tails[] = {" ", "\r", "0", "X", "\t", "  ", " 0", " 000", " 010", "\r\r", ";", "\x80"};
    static const char firsts[] = "AQlsa0M MRK\x4D\xCC\xD3";
    usize length = size - from, at;
    const char *bytes;

    switch (below(18)) {
    case 0:    /* one byte replaced */
        at = from + below((u32)length);
        line[at] = (u8)stray();
        break;
    case 1:    /* one byte too many */
        at = from + below((u32)length + 1);
        insert(at, stray());
        break;
    case 2:    /* one byte missing */
        take_out(from + below((u32)length));
        break;
    case 3:    /* cut short */
        size = from + below((u32)length);
        break;
    case 4:    /* surplus at the end */
        put_string(PICK(tails));
        break;
    case 5:    /* a NUL at the end */
        put(0);
        break;
    case 6:    /* another first letter */
        line[from] = (u8)firsts[below(sizeof firsts - 1)];
        break;
    case 7:    /* another name */
        memcpy(line + from + 1, PICK(other_names), 4);
        break;
    case 8:    /* small letters */
        for (at = from; at < size; at++)
            if (line[at] >= 'A' && line[at] <= 'Z' && (at > from || below(2)))
                line[at] += 'a' - 'A';
        break;
    case 9:    /* a field that is no number */
    case 10:
        if (length >= 9) {
            at = size - 3 - 4 * below((u32)(length - 5) / 4);
            memcpy(line + at, PICK(bad_digits), 3);
        } else {
            put_string(" 1 0");
        }
        break;
    case 11:    /* a space doubled, or another byte in its place */
        for (at = from; at < size && line[at] != ' '; at++)
            ;
        if (at == size || below(2))
            insert(at, ' ');
        else
            line[at] = (u8)stray();
        break;
    case 12:    /* the address in front, as some interfaces take it */
        for (bytes = " 330"; *bytes; bytes++)
            insert(from, (u8)*bytes);
        break;
    case 13:    /* read and write taken for each other */
        line[from] = line[from] == 'S' ? 'L' : 'S';
        break;
    case 14:    /* two slips: a figure out of range, and a bad digit after it */
        if (length >= 15) {
            line[from + 6] = '7';
            line[size - 1 - below(3)] = 'x';
        } else {
            line[size - 1] = (u8)stray();
        }
        break;
    case 15:    /* a digit made the byte before 0 or the one after 9 */
    case 16:
        if (length >= 9) {
            do
                at = from + 6 + below((u32)length - 6);
            while (line[at] == ' ');
            line[at] = (u8)(below(2) ? '/' : ':');
        }
        break;
    default:    /* very long, up to the longest line that can be read */
        for (at = once_in(400) ? 600 : between(30, 600); size < at;)
            put(once_in(900) ? '0' + below(10) : stray());
        break;
    }
}

/* ---- the frame road */

static u8 frame[512];
static usize frame_size;

/* Puts the frame's ends round an address, a function, an index and so many bytes of data that stand in it already. */
static void close_frame(u32 address, u32 function, u32 index, usize data)
{
    u32 total = 0;

    frame[0] = frame[3] = 0x68;
    frame[1] = frame[2] = (u8)(data + 3);
    frame[4] = (u8)address;
    frame[5] = (u8)function;
    frame[6] = (u8)index;
    for (usize i = 4; i < data + 7; i++)
        total += frame[i];
    frame[data + 7] = (u8)total;
    frame[data + 8] = 0x16;
    frame_size = data + 9;
}

static usize put_data(const struct command *c)
{
    u8 *p = frame + 7;

    for (u32 i = 0; i < groups[c->group].count; i++) {
        *p++ = (u8)c->figure[i];
        if (groups[c->group].figure[i].bytes == 2)
            *p++ = (u8)(c->figure[i] >> 8);
    }
    return (usize)(p - frame) - 7;
}

/* So many bytes of data without order. */
static usize random_data(usize data)
{
    for (usize i = 0; i < data; i++)
        frame[7 + i] = (u8)below(256);
    return data;
}

/* Changes a bit of a long frame, or none: where a sum that is taken in blocks of eight bytes could go wrong. */
static void spoil_long_frame(void)
{
    usize body = frame[1], at;

    switch (below(6)) {
    case 0:    /* in the last byte of a block */
        at = 4 + 8 * below((u32)body / 8) + 7;
        break;
    case 1:    /* in the first byte behind the last block, where there is one */
        at = 4 + body / 8 * 8;
        break;
    case 2:    /* in the checksum */
        at = 4 + body;
        break;
    case 3:    /* anywhere */
        at = below((u32)frame_size);
        break;
    default:
        return;
    }
    frame[at] ^= (u8)(1u << below(8));
}

/* Spoils the frame of a command, by one slip of many kinds. */
static void spoil_frame(void)
{
    static const u8 functions[] = {0x00, 0x01, 0x08, 0x10, 0x68, 0x6A, 0x49, 0x80, 0x88, 0x8A, 0x96, 0x98, 0xFF};
    static const u8 unknown[] = {0x00, 0x02, 0x0A, 0x0C, 0x14, 0x16, 0x34, 0x36, 0x6F, 0x71, 0x78, 0x8B, 0xF0, 0xFF};
    usize data = frame_size - 9, at;
    u32 address = frame[4], function = frame[5], index = frame[6];

    switch (below(18)) {
    case 0:    /* the checksum */
    case 1:
        frame[frame_size - 2] += (u8)(below(2) ? 1 : between(1, 255));
        break;
    case 2:    /* the end byte */
        frame[frame_size - 1] = (u8)below(256);
        break;
    case 3:    /* one of the two lengths */
        at = between(1, 2);
        frame[at] += (u8)(below(2) ? 1 : 255);
        break;
    case 4:    /* both lengths */
        frame[2] = frame[1] += (u8)(below(2) ? 1 : below(256));
        break;
    case 5:    /* one of the two head bytes */
        at = below(2) ? 0 : 3;
        frame[at] = (u8)(below(2) ? 0x10 : below(256));
        break;
    case 6:    /* cut short */
        frame_size = below((u32)frame_size);
        break;
    case 7:    /* surplus bytes, behind the end or in front of it */
        for (u32 more = between(1, 3); more > 0; more--)
            frame[frame_size++] = (u8)(below(2) ? 0x16 : below(256));
        break;
    case 8:    /* an unknown function, with a right checksum */
        close_frame(address, below(4) ? PICK(functions) : below(256), index, data);
        break;
    case 9:    /* an unknown index */
        close_frame(address, function, below(4) ? PICK(unknown) : below(256), data);
        break;
    case 10:    /* a command of the wrong length: a read with data, or a write with too much or too little */
    case 11:
        data = between(0, 12);
        for (usize i = 0; i < data; i++)
            frame[7 + i] = (u8)PICK(boundaries);
        close_frame(address, function, index, data);
        break;
    case 12:    /* a long frame, often the longest */
        data = random_data(below(2) ? 252 : between(200, 252));
        function = below(4) ? function : below(256);
        index = below(4) ? index : below(256);
        close_frame(address, function, index, data);
        spoil_long_frame();
        break;
    case 13:    /* too short for its own three bytes */
        frame_size = 6 + below(3);
        frame[1] = frame[2] = (u8)(frame_size - 6);
        frame[frame_size - 2] = frame_size > 6 ? (u8)(frame[4] + (frame_size > 7 ? frame[5] : 0)) : 0;
        frame[frame_size - 1] = 0x16;
        break;
    case 14:    /* a short frame */
        frame[0] = 0x10;
        frame[1] = (u8)address;
        frame[2] = (u8)function;
        frame[3] = (u8)(address + function);
        frame[4] = 0x16;
        frame_size = 5;
        break;
    case 15:    /* one bit */
        at = below((u32)frame_size);
        frame[at] ^= (u8)(1u << below(8));
        break;
    case 16:    /* a read reply in place of a request */
        close_frame(address, 0x00, index, data);
        break;
    default:    /* bytes without order, perhaps none */
        frame_size = below(20);
        for (usize i = 0; i < frame_size; i++)
            frame[i] = (u8)below(256);
        break;
    }
}

static u32 odd_address(void)
{
    switch (below(5)) {
    case 0:
        return 0;
    case 1:
        return 255;
    case 2:
        return removed;
    default:
        return below(256);
    }
}

static void put_frame(void)
{
    put_string("F\t");
    for (usize i = 0; i < frame_size; i++)
        put_hex(frame[i]);
}

/* ---- the lines of a log that is to find differences */

static void text_line(void)
{
    u32 zone = once_in(900) ? some_zone(1) : odd_zone();
    struct command c;
    usize from;

    choose_command(&c, zone < ZONES && known[zone].address ? known[zone].range : 300);
    put_string("T\t");
    put_decimal(zone);
    put('\t');
    from = size;
    if (once_in(420))
        put_read_line(c.group);
    else
        put_write_line(&c);
    if (once_in(170))
        spoil_text(from);
}

static void frame_line(void)
{
    u32 zone = some_zone(1);
    u32 address = once_in(910) && known[zone].address ? known[zone].address : odd_address();
    struct command c;

    choose_command(&c, known[zone].address ? known[zone].range : 300);
    if (once_in(420))
        close_frame(address, 0x89, indices[c.group], 0);
    else
        close_frame(address, 0x69, indices[c.group], put_data(&c));
    if (once_in(190))
        spoil_frame();
    put_frame();
}

static void put_numbers(u32 letter, const u32 *numbers, u32 count)
{
    put(letter);
    for (u32 i = 0; i < count; i++) {
        put('\t');
        put_decimal(numbers[i]);
    }
}

static void add_line(void)
{
    static const u32 addresses[] = {0, 255, 256, 257, 510, 65535, 65536, 65569, 99999};
    static const u32 ranges[] = {0, 1, 100, 299, 301, 400, 499, 501, 999, 65535, 65536, 65836, 66036, 99999};
    u32 number[3];

    number[0] = some_zone(0);
    number[1] = free_address();
    number[2] = below(2) ? 300 : 500;
    if (once_in(180))
        number[0] = below(2) ? some_zone(1) : odd_zone();
    if (once_in(180))
        number[1] = below(2) ? known[some_zone(1)].address : PICK(addresses);
    if (once_in(120))
        number[2] = PICK(ranges);
    put_numbers('N', number, 3);
    if (number[0] < ZONES && !known[number[0]].address && number[1] >= 1 && number[1] <= 254 && !held(number[1]) &&
        (number[2] == 300 || number[2] == 500)) {
        known[number[0]].address = number[1];
        known[number[0]].range = number[2];
        known[number[0]].state = OFF;
    }
}

static void remove_line(void)
{
    u32 zone = once_in(800) ? some_zone(1) : odd_zone();

    put_numbers('X', &zone, 1);
    if (zone < ZONES && known[zone].address) {
        removed = known[zone].address;
        known[zone].address = 0;
    }
}

static void report_line(void)
{
    static const u32 states[] = {4, 5, 255, 256, 257, 65535, 65536, 65537, 99999};
    static const u32 actuals[] = {0, 1, 998, 999, 1000, 1001, 65535, 65536, 66535, 99999};
    u32 number[3];

    number[0] = once_in(870) ? some_zone(1) : odd_zone();
    number[1] = once_in(450) ? OFF : below(4);
    number[2] = below(1000);
    if (once_in(120))
        number[1] = PICK(states);
    if (once_in(250))
        number[2] = PICK(actuals);
    put_numbers('M', number, 3);
    if (number[0] < ZONES && known[number[0]].address && number[1] <= ERROR && number[2] <= 999)
        known[number[0]].state = number[1];
}

/* A line that is far too long, and lies across blocks. Often it can be read from many a place in it to its end. */
static void long_line(void)
{
    usize at = below(4) ? between(603, 5000) : between(5000, 200000);
    int again = once_in(700);

    while (size < at)
        if (again)
            put_string("T\t5\t");
        else
            put(below(16) ? 'N' : stray());
}

/* A line that cannot be read, or one that is at the edge of it. */
static void unreadable_line(void)
{
    static const char *const fixed[] = {
        "", " ", "\t", "N", "X", "M", "T", "F", "E", "N\t", "X\t", "M\t", "T\t", "T\t\t", "T\t\tLHZBG", "T\t5",
        "T\t0", "T\t15", "T\t16", "F\t", "F", "F680303682189701A16", "F 680303682189701A16", "F\t680303682189701A1",
        "F\t680303682189701A16\t", "F\t680303682189701A16\r", "F\t680303682189701A16 ", "F\t 680303682189701A16",
        "F\t680303682189701a16", "F\t6803036821897O1A16", "F\t68 03 03 68 21 89 70 1A 16", "F\t\t680303682189701A16",
        "F\t5\t680303682189701A16", "F\t6", "F\t68", "f\t680303682189701A16", "F\t6803036821@9701A16",
        "F\t6803036821G9701A16", "F\t6803036821:9701A16", "F\t6803036821/9701A16", "N\t5\t33", "N\t5\t33\t",
        "N\t5\t33\t300\t", "N\t5\t33\t300\t1", "N\t5\t33\t300\r", "N\t5\t33\t300 ", "N\t05\t33\t300", "N\t5\t033\t300",
        "N\t5\t33\t0300", "N\t000005\t33\t300", "N\t5\t100033\t300", "N\t5\t33\t100300", "N\t+5\t33\t300",
        "N\t-5\t33\t300", "N\t 5\t33\t300", "N\t5 \t33\t300", "N\t\t33\t300", "N\t5\t\t300", "N\t5\t33\t\t300",
        "N 5 33 300", "N5\t33\t300", "NN\t5\t33\t300", "n\t5\t33\t300", "\tN\t5\t33\t300", "N\t5,33,300",
        "N\t0x5\t33\t300", "X\t05", "X\t5\t", "X\t5\t5", "X\t5\r", "X\t", "X5", "X\t100005", "X\t00", "X\t-0",
        "x\t5", "X\t5a", "X\ta",
        "M\t5\t0", "M\t5\t0\t", "M\t5\t0\t0\t", "M\t5\t00\t0", "M\t5\t0\t00", "M\t05\t0\t0", "M\t5\t0\t100000",
        "M\t5\t0\t0\r", "M\t5\t1.0\t0", "m\t5\t0\t0", "M\t5\tOn\t0", "T\t05\tLHZBG", "T\t00\tLHZBG", "T\t100005\tLHZBG",
        "T\t5 LHZBG", "T\t 5\tLHZBG", "T\t5 \tLHZBG", "T5\tLHZBG", "t\t5\tLHZBG", "TT\t5\tLHZBG", "T\t-5\tLHZBG",
        "T \t5\tLHZBG", "Q\t5", "A\t5\t33\t300", "E\t13\t-", "13", "LHZBG", "SHZBG 050", "\xEF\xBB\xBFN\t5\t33\t300",
        "\x80", "\xFF\xFF", "\xCE\t5\t33\t300", "# a note", "T\t/\tLHZBG", "T\t:\tLHZBG",
    };
    u32 kind = below(100);
    usize at;

    if (kind < 55) {
        put_string(PICK(fixed));
    } else if (kind < 65) {    /* a good line with one byte put in that it cannot bear */
        frame_line();
        at = between(2, (u32)size);
        insert(at, PICK(((const u8[]){' ', '\r', '\t', 0, 'a', 'f', 'G', 'g', '@', '`', 0x80})));
    } else if (kind < 72) {    /* an odd number of digits */
        frame_line();
        if (size > 2)
            size--;
        else
            put('0');
    } else if (kind < 82) {    /* 520 digits, 522, which is the most, and more */
        put_string("F\t");
        for (at = 2 * (below(2) ? between(259, 263) : between(262, 299)); at > 0; at--)
            put('0' + below(10));
    } else if (kind < 90) {    /* bytes without order */
        for (at = between(1, 40); at > 0; at--)
            put(stray());
    } else if (kind < 99) {    /* a command of 599 to 602 bytes: up to 600 it can be read */
        put_string("T\t");
        put_decimal(some_zone(1));
        put_string(below(2) ? "\tSHZBG 050" : "\tLAHUE ");
        for (at = between(599, 602); size < at;)
            put(below(8) ? ' ' : stray());
    } else {
        long_line();
    }
}

static void mixed_line(void)
{
    u32 kind = below(1000);

    if (kind < 405)
        text_line();
    else if (kind < 810)
        frame_line();
    else if (kind < 870)
        add_line();
    else if (kind < 895)
        remove_line();
    else if (kind < 955)
        report_line();
    else
        unreadable_line();
}

/* ---- ordinary traffic */

/* A zone's command that will be done: in On and Calibration only the setpoint is written. */
static int ordinary_command(struct command *c, u32 zone)
{
    int writes = once_in(450);
    u32 state = known[zone].state;

    c->group = (enum group)below(GROUPS);
    if (writes && (state == ON || state == CALIBRATION))
        c->group = SOLW;
    for (u32 i = 0; i < groups[c->group].count; i++)
        c->figure[i] = between(groups[c->group].figure[i].least, groups[c->group].figure[i].most);
    if (c->group == AHUE_WINDOW) {
        order_window(c);
        c->figure[4] += c->figure[3] == c->figure[4];
    }
    return writes;
}

static void ordinary_line(void)
{
    u32 kind = below(1000), zone = some_zone(1);
    u32 number[3] = {some_zone(0), 0, 500};
    struct command c;
    int writes;

    if (known[number[0]].address == 0 && (kind < 100 || known[zone].address == 0)) {    /* an absent zone comes back */
        number[1] = known[number[0]].address = free_address();
        known[number[0]].range = number[2];
        known[number[0]].state = OFF;
        put_numbers('N', number, 3);
    } else if (kind < 29) {    /* some traffic of the other kind: about a third of it is refused */
        text_line();
    } else if (kind < 58) {
        frame_line();
    } else if (kind < 98) {
        number[0] = zone;
        number[1] = known[zone].state = once_in(600) ? OFF : below(4);
        number[2] = below(400);
        put_numbers('M', number, 3);
    } else if (kind < 99) {
        removed = known[zone].address;
        known[zone].address = 0;
        put_numbers('X', &zone, 1);
    } else {
        writes = ordinary_command(&c, zone);
        if (kind < 549) {
            put_string("T\t");
            put_decimal(zone);
            put('\t');
            if (writes)
                put_write_line(&c);
            else
                put_read_line(c.group);
        } else {
            if (writes)
                close_frame(known[zone].address, 0x69, indices[c.group], put_data(&c));
            else
                close_frame(known[zone].address, 0x89, indices[c.group], 0);
            put_frame();
        }
    }
}

/* ---- frames of one length */

static u32 frame_length;    /* L; 0 where the log is another */
static u32 end_byte = 0x16;

static void frame_of_length(void)
{
    u32 number[3] = {some_zone(0), 0, 500}, index;

    if (known[number[0]].address == 0) {
        number[1] = known[number[0]].address = free_address();
        put_numbers('N', number, 3);
        return;
    }
    index = indices[below(GROUPS)];
    close_frame(known[number[0]].address, 0x69, index, random_data(frame_length - 3));
    frame[frame_size - 1] = (u8)end_byte;
    put_frame();
}

/* ---- */

static int number_of(const char *s, u64 *number)
{
    *number = 0;
    if (!*s || strlen(s) > 18)
        return 0;
    for (; *s; s++) {
        if (*s < '0' || *s > '9')
            return 0;
        *number = *number * 10 + (u64)(*s - '0');
    }
    return 1;
}

int main(int argc, char **argv)
{
    static const char usage[] = "usage: logs SEED LINES [bench | frames L | unended L]\n";
    u64 lines, first, length = 0;
    int bench = argc == 4 && strcmp(argv[3], "bench") == 0;
    int unended = argc == 5 && strcmp(argv[3], "unended") == 0;
    int frames = unended || (argc == 5 && strcmp(argv[3], "frames") == 0);

    if ((argc != 3 && !bench && !frames) || !number_of(argv[1], &first) || !number_of(argv[2], &lines) ||
        (frames && (!number_of(argv[4], &length) || length < 3 || length > 255))) {
        write(2, usage, sizeof usage - 1);
        return 2;
    }
    frame_length = (u32)length;
    if (unended)
        end_byte = 0x17;
    seed = first;
    for (u64 i = 1; i <= lines; i++) {
        int last = i == lines && first % 2 == 1;

        do {    /* a last line without its line feed has to have a byte at least, else it would be none */
            size = 0;
            if (bench)
                ordinary_line();
            else if (frames)
                frame_of_length();
            else if (last && first % 4 == 3)
                long_line();
            else
                mixed_line();
        } while (last && size == 0);
        if (!last)
            put('\n');
        put_out(line, size);
    }
    flush();
    return 0;
}
