/*
 * The log program of the card in plain C.
 *
 * It was written from the definition of the card and its change requests alone and shares nothing with the proved
 * program. The two are held against each other, line by line for what they answer and by the clock for how long they
 * take.
 *
 * Built with TEST_SOUND=1 it tests the whole record before each call, as answer 2 demands; no log can bring that answer
 * about. Built with TEST_SOUND=0 it leaves the test out.
 *
 * It needs no header of the system: the few functions of the C library that it calls are declared here and in output.h.
 */

#ifndef TEST_SOUND
#define TEST_SOUND 1
#endif

#include "output.h"

extern long read(int file, void *room, usize size);
extern void *memchr(const void *bytes, int byte, usize size);
extern int memcmp(const void *a, const void *b, usize size);

enum {
    ZONES = 16,
    ROOM = 32,           /* bytes of a reply at most */
    FRAME_MOST = 261,    /* bytes of a frame at most: L = 255 */
    LINE_MOST = 600,     /* bytes of a log line at most, its line feed not counted */
    BLOCK = 65536        /* bytes asked for at a time */
};

enum answer {
    DONE = 0,
    UNSOUND = 2,
    NO_ZONE = 3,
    NO_FRAME = 4,
    NO_HOLDER = 5,
    BAD_SUM = 6,
    UNKNOWN = 7,
    MALFORMED = 8,
    OUT_OF_RANGE = 9,
    LOCKED = 10,
    ADDRESS_HELD = 11,
    ZONE_PRESENT = 12,
    UNREADABLE = 13
};

/* ---- the record */

enum state { OFF, ON, CALIBRATION, ERROR };
enum form { DEADLINE, WINDOW };

/* An absent zone is all zeros. The struct has no padding, so a zone can be compared as bytes. */
struct zone {
    u8 present;
    u8 address;
    u8 state;
    u8 form;                              /* of the heating watch, AHUE */
    u8 watch, watch_lower, watch_upper;   /* AHUE: flag and limits, in both forms */
    u8 ref, ref_lower, ref_upper;         /* RRUE */
    u16 time;                             /* AHUE, deadline; 0 in a window */
    u16 begin, end;                       /* AHUE, window; 0 in a deadline */
    u16 limit;                            /* HZBG */
    u16 setpoint;                         /* SOLW */
    u16 range;
    u16 actual;
};

static const struct zone absent;

_Static_assert(sizeof(struct zone) == 24, "a zone has no padding");

static int within(u32 figure, u32 least, u32 most)
{
    return figure - least <= most - least;
}

#if TEST_SOUND
static int figures_sound(const struct zone *z)
{
    return z->present == 1 && within(z->address, 1, 254) && (z->range == 300 || z->range == 500) &&
           z->state <= ERROR && z->actual <= 999 && z->watch <= 1 && within(z->watch_lower, 5, 99) &&
           within(z->watch_upper, 5, 99) && z->limit <= 999 && z->ref <= 1 && within(z->ref_lower, 5, 100) &&
           within(z->ref_upper, 5, 100) && z->setpoint <= z->range &&
           (z->form == DEADLINE ? z->time <= 999
                                : z->form == WINDOW && z->begin <= 998 && within(z->end, 1, 999) && z->begin < z->end);
}

/* Whether the record is sound: the figures of present zones in range, their addresses different, absent zones empty. */
static int sound(const struct zone *zones)
{
    u8 seen[256] = {0};

    /* The compiler has to take it that anything may have been written to the record, and cannot leave the test out. */
    __asm__ volatile("" : : "r"(zones) : "memory");
    for (int i = 0; i < ZONES; i++) {
        const struct zone *z = &zones[i];

        if (z->present) {
            if (!figures_sound(z) || seen[z->address])
                return 0;
            seen[z->address] = 1;
        } else if (memcmp(z, &absent, sizeof absent) != 0) {
            return 0;
        }
    }
    return 1;
}
#endif

/* ---- adding, removing, reporting */

static enum answer add(struct zone *zones, u32 zone, u32 address, u32 range)
{
    if (zone >= ZONES)
        return NO_ZONE;
    if (zones[zone].present)
        return ZONE_PRESENT;
    if (!within(address, 1, 254) || (range != 300 && range != 500))
        return OUT_OF_RANGE;
    for (int i = 0; i < ZONES; i++)
        if (zones[i].present && zones[i].address == address)
            return ADDRESS_HELD;
    zones[zone] = (struct zone){
        .present = 1,
        .address = (u8)address,
        .state = OFF,
        .form = DEADLINE,
        .watch_lower = 10,
        .watch_upper = 10,
        .time = 10,
        .ref_lower = 10,
        .ref_upper = 10,
        .range = (u16)range,
    };
    return DONE;
}

static enum answer take_away(struct zone *zones, u32 zone)
{
    if (zone >= ZONES || !zones[zone].present)
        return NO_ZONE;
    zones[zone] = absent;
    return DONE;
}

static enum answer report(struct zone *zones, u32 zone, u32 state, u32 actual)
{
    if (zone >= ZONES || !zones[zone].present)
        return NO_ZONE;
    if (state > ERROR || actual > 999)
        return OUT_OF_RANGE;
    zones[zone].state = (u8)state;
    zones[zone].actual = (u16)actual;
    return DONE;
}

/* ---- writing, the same on both roads */

/* The figures of a write in the order of the command, whatever the road could carry. */
struct figures {
    u32 flag, lower, upper;
    u32 time;          /* AHUE deadline, HZBG and SOLW: their only number of this kind */
    u32 begin, end;
};

static int locked(const struct zone *z)
{
    return z->state == ON || z->state == CALIBRATION;
}

static enum answer write_ahue(struct zone *z, enum form form, const struct figures *f)
{
    if (f->flag > 1 || !within(f->lower, 5, 99) || !within(f->upper, 5, 99))
        return OUT_OF_RANGE;
    if (form == DEADLINE ? f->time > 999 : f->begin > 998 || !within(f->end, 1, 999) || f->begin >= f->end)
        return OUT_OF_RANGE;
    if (locked(z))
        return LOCKED;
    z->form = (u8)form;
    z->watch = (u8)f->flag;
    z->watch_lower = (u8)f->lower;
    z->watch_upper = (u8)f->upper;
    z->time = form == DEADLINE ? (u16)f->time : 0;
    z->begin = form == DEADLINE ? 0 : (u16)f->begin;
    z->end = form == DEADLINE ? 0 : (u16)f->end;
    return DONE;
}

static enum answer write_hzbg(struct zone *z, u32 time)
{
    if (time > 999)
        return OUT_OF_RANGE;
    if (locked(z))
        return LOCKED;
    z->limit = (u16)time;
    return DONE;
}

static enum answer write_rrue(struct zone *z, const struct figures *f)
{
    if (f->flag > 1 || !within(f->lower, 5, 100) || !within(f->upper, 5, 100))
        return OUT_OF_RANGE;
    if (locked(z))
        return LOCKED;
    z->ref = (u8)f->flag;
    z->ref_lower = (u8)f->lower;
    z->ref_upper = (u8)f->upper;
    return DONE;
}

static enum answer write_solw(struct zone *z, u32 setpoint)
{
    if (setpoint > z->range)
        return OUT_OF_RANGE;
    z->setpoint = (u16)setpoint;
    return DONE;
}

/* ---- the text road */

/* Four letters as one number, so that a name is found by one comparison. */
#define NAME(a, b, c, d) ((u32)(a) | (u32)(b) << 8 | (u32)(c) << 16 | (u32)(d) << 24)

enum name {
    AHUE = NAME('A', 'H', 'U', 'E'),
    HZBG = NAME('H', 'Z', 'B', 'G'),
    RRUE = NAME('R', 'R', 'U', 'E'),
    SOLW = NAME('S', 'O', 'L', 'W')
};

/* A space and one digit; false where they are not there. */
static int read1(const u8 *p, u32 *figure)
{
    *figure = p[1] - (u32)'0';
    return p[0] == ' ' && *figure <= 9;
}

/* A space and three digits. */
static int read3(const u8 *p, u32 *figure)
{
    u32 a = p[1] - (u32)'0', b = p[2] - (u32)'0', c = p[3] - (u32)'0';

    *figure = a * 100 + b * 10 + c;
    return p[0] == ' ' && a <= 9 && b <= 9 && c <= 9;
}

static u8 *put1(u8 *p, u32 figure)
{
    p[0] = ' ';
    p[1] = (u8)('0' + figure);
    return p + 2;
}

static u8 *put3(u8 *p, u32 figure)
{
    p[0] = ' ';
    p[1] = (u8)('0' + figure / 100);
    p[2] = (u8)('0' + figure / 10 % 10);
    p[3] = (u8)('0' + figure % 10);
    return p + 4;
}

static enum answer write_text(struct zone *z, u32 name, const u8 *line, usize size)
{
    struct figures f;

    switch (name) {
    case AHUE:
        if (size == 19) {
            if (!read1(line + 5, &f.flag) || !read3(line + 7, &f.lower) || !read3(line + 11, &f.upper) ||
                !read3(line + 15, &f.time))
                return MALFORMED;
            return write_ahue(z, DEADLINE, &f);
        }
        if (size == 23) {
            if (!read1(line + 5, &f.flag) || !read3(line + 7, &f.lower) || !read3(line + 11, &f.upper) ||
                !read3(line + 15, &f.begin) || !read3(line + 19, &f.end))
                return MALFORMED;
            return write_ahue(z, WINDOW, &f);
        }
        return MALFORMED;
    case HZBG:
        if (size != 9 || !read3(line + 5, &f.time))
            return MALFORMED;
        return write_hzbg(z, f.time);
    case RRUE:
        if (size != 15 || !read1(line + 5, &f.flag) || !read3(line + 7, &f.lower) || !read3(line + 11, &f.upper))
            return MALFORMED;
        return write_rrue(z, &f);
    case SOLW:
        if (size != 9 || !read3(line + 5, &f.time))
            return MALFORMED;
        return write_solw(z, f.time);
    default:
        return UNKNOWN;
    }
}

/* The reply to a read after its first five bytes; hands back its end. */
static u8 *read_text(const struct zone *z, u32 name, u8 *p)
{
    switch (name) {
    case AHUE:
        p = put3(put3(put1(p, z->watch), z->watch_lower), z->watch_upper);
        return z->form == DEADLINE ? put3(p, z->time) : put3(put3(p, z->begin), z->end);
    case HZBG:
        return put3(p, z->limit);
    case RRUE:
        return put3(put3(put1(p, z->ref), z->ref_lower), z->ref_upper);
    default:
        return put3(p, z->setpoint);
    }
}

static enum answer text_road(struct zone *zones, u32 zone, const u8 *line, usize size, u8 *reply, usize *length)
{
    enum answer answer;
    struct zone *z;
    u32 name;

    if (zone >= ZONES || !zones[zone].present)
        return NO_ZONE;
    z = &zones[zone];
    *length = 5;
    answer = UNKNOWN;
    if (size >= 5 && (line[0] == 'L' || line[0] == 'S')) {
        memcpy(&name, line + 1, 4);
        if (line[0] == 'S') {
            answer = write_text(z, name, line, size);
        } else if (name == AHUE || name == HZBG || name == RRUE || name == SOLW) {
            if (size == 5) {
                reply[0] = 'A';
                memcpy(reply + 1, &name, 4);
                *length = (usize)(read_text(z, name, reply + 5) - reply);
                return DONE;
            }
            answer = MALFORMED;
        }
    }
    switch (answer) {
    case DONE:
        memcpy(reply, "QOK00", 5);
        break;
    case UNKNOWN:
        memcpy(reply, "QFE01", 5);
        break;
    case LOCKED:
        memcpy(reply, "QFE03", 5);
        break;
    default:
        memcpy(reply, "QFE02", 5);
        break;
    }
    return answer;
}

/* ---- the frame road */

enum { HEAD = 0x68, SHORT_HEAD = 0x10, TAIL = 0x16 };
enum { READ = 0x89, WRITE = 0x69, REPLY = 0x00 };
enum { I_AHUE = 0x0B, I_RRUE = 0x15, I_SOLW = 0x35, I_HZBG = 0x70 };

/* A plain loop: the compiler makes of it additions of 32 bytes at a time. */
static u8 sum(const u8 *bytes, usize size)
{
    u32 total = 0;

    for (usize i = 0; i < size; i++)
        total += bytes[i];
    return (u8)total;
}

static u32 two(const u8 *p)
{
    return p[0] | (u32)p[1] << 8;
}

static u8 *put_two(u8 *p, u32 figure)
{
    p[0] = (u8)figure;
    p[1] = (u8)(figure >> 8);
    return p + 2;
}

static enum answer write_frame(struct zone *z, const u8 *frame)
{
    const u8 *data = frame + 7;
    u32 l = frame[1];
    struct figures f;

    switch (frame[6]) {
    case I_AHUE:
        if (l != 8 && l != 10)
            return MALFORMED;
        f.flag = data[0];
        f.lower = data[1];
        f.upper = data[2];
        if (l == 8) {
            f.time = two(data + 3);
            return write_ahue(z, DEADLINE, &f);
        }
        f.begin = two(data + 3);
        f.end = two(data + 5);
        return write_ahue(z, WINDOW, &f);
    case I_HZBG:
        return l == 5 ? write_hzbg(z, two(data)) : MALFORMED;
    case I_RRUE:
        if (l != 6)
            return MALFORMED;
        f.flag = data[0];
        f.lower = data[1];
        f.upper = data[2];
        return write_rrue(z, &f);
    case I_SOLW:
        return l == 5 ? write_solw(z, two(data)) : MALFORMED;
    default:
        return UNKNOWN;
    }
}

/* The reply to a read: the frame of the stored figures. Its length is 0 where the index is unknown. */
static usize read_frame(const struct zone *z, u8 index, u8 *reply)
{
    u8 *p = reply + 7;
    usize l;

    switch (index) {
    case I_AHUE:
        *p++ = z->watch;
        *p++ = z->watch_lower;
        *p++ = z->watch_upper;
        p = z->form == DEADLINE ? put_two(p, z->time) : put_two(put_two(p, z->begin), z->end);
        break;
    case I_HZBG:
        p = put_two(p, z->limit);
        break;
    case I_RRUE:
        *p++ = z->ref;
        *p++ = z->ref_lower;
        *p++ = z->ref_upper;
        break;
    case I_SOLW:
        p = put_two(p, z->setpoint);
        break;
    default:
        return 0;
    }
    l = (usize)(p - (reply + 4));
    reply[0] = HEAD;
    reply[1] = (u8)l;
    reply[2] = (u8)l;
    reply[3] = HEAD;
    reply[4] = z->address;
    reply[5] = REPLY;
    reply[6] = index;
    p[0] = sum(reply + 4, l);
    p[1] = TAIL;
    return l + 6;
}

static enum answer frame_road(struct zone *zones, const u8 *frame, usize size, u8 *reply, usize *length)
{
    enum answer answer;
    struct zone *z;
    u8 function;
    int i;

    /* the shape 68 L L 68 .. 16; nine bytes are the shortest */
    if (size < 9 || frame[0] != HEAD || frame[1] != frame[2] || frame[3] != HEAD || frame[1] < 3 ||
        size != (usize)frame[1] + 6 || frame[size - 1] != TAIL)
        return NO_FRAME;

    for (i = 0; i < ZONES; i++)
        if (zones[i].present && zones[i].address == frame[4])
            break;
    if (i == ZONES)
        return NO_HOLDER;
    z = &zones[i];

    if (sum(frame + 4, frame[1]) != frame[size - 2]) {
        answer = BAD_SUM;
    } else if (frame[5] == WRITE) {
        answer = write_frame(z, frame);
    } else if (frame[5] == READ) {
        *length = read_frame(z, frame[6], reply);
        if (*length != 0 && frame[1] == 3)
            return DONE;
        answer = *length == 0 ? UNKNOWN : MALFORMED;
    } else {
        answer = UNKNOWN;
    }

    switch (answer) {
    case DONE:
        function = 0x00;
        break;
    case LOCKED:
        function = 0x08;
        break;
    case UNKNOWN:
        function = 0x10;
        break;
    case BAD_SUM:
        function = 0x20;
        break;
    default:
        function = 0x80;
        break;
    }
    reply[0] = SHORT_HEAD;
    reply[1] = z->address;
    reply[2] = function;
    reply[3] = (u8)(z->address + function);
    reply[4] = TAIL;
    *length = 5;
    return answer;
}

/* ---- the output */

/* One line of output: at most a letter, two digits, twice the room and three separators. */
static void put_line(u8 letter, enum answer answer, const u8 *reply, usize length)
{
    u8 *p;

    if (filled > sizeof out - 2 * ROOM - 8)
        flush();
    p = out + filled;
    *p++ = letter;
    *p++ = '\t';
    if (answer >= 10)
        *p++ = '1';
    *p++ = (u8)('0' + answer % 10);
    *p++ = '\t';
    if (length == 0) {
        *p++ = '-';
    } else if (letter == 'F') {
        for (usize i = 0; i < length; i++) {
            *p++ = (u8)"0123456789ABCDEF"[reply[i] >> 4];
            *p++ = (u8)"0123456789ABCDEF"[reply[i] & 15];
        }
    } else {
        memcpy(p, reply, ROOM);    /* a fixed size copies faster; what is beyond the length is overwritten */
        p += length;
    }
    *p++ = '\n';
    filled = (usize)(p - out);
}

/* ---- the log */

/* A decimal of one to five digits with no leading zero. Hands back its end, or null where there is none. */
static const u8 *decimal(const u8 *p, const u8 *end, u32 *number)
{
    u32 value, digit;

    if (p == end || (value = *p++ - (u32)'0') > 9)
        return 0;
    if (value != 0)
        for (int i = 1; i < 5 && p < end && (digit = *p - (u32)'0') <= 9; i++, p++)
            value = value * 10 + digit;
    *number = value;
    return p;
}

/* A number of decimals, each after a tab, up to the end of the line. */
static int decimals(const u8 *p, const u8 *end, u32 *numbers, int count)
{
    for (int i = 0; i < count; i++)
        if (p == end || *p != '\t' || !(p = decimal(p + 1, end, &numbers[i])))
            return 0;
    return p == end;
}

/* The value of a capital hex digit, with HEX_DIGIT added; 0 for every other byte. */
enum { HEX_DIGIT = 0x10 };

static const u8 hex[256] = {
    ['0'] = 0x10, ['1'] = 0x11, ['2'] = 0x12, ['3'] = 0x13, ['4'] = 0x14, ['5'] = 0x15, ['6'] = 0x16, ['7'] = 0x17,
    ['8'] = 0x18, ['9'] = 0x19, ['A'] = 0x1A, ['B'] = 0x1B, ['C'] = 0x1C, ['D'] = 0x1D, ['E'] = 0x1E, ['F'] = 0x1F,
};

/* The bytes that hex digits stand for; false where the digits are odd in number, too many, or no digits. */
static int bytes_of(const u8 *digits, usize count, u8 *bytes)
{
    u32 good = HEX_DIGIT;

    if (count % 2 != 0 || count > 2 * FRAME_MOST)
        return 0;
    for (usize i = 0; i < count; i += 2) {
        u32 high = hex[digits[i]], low = hex[digits[i + 1]];

        good &= high & low;
        *bytes++ = (u8)(high << 4 | (low & 15));
    }
    return good != 0;
}

/* Answers one line of the log. A size of 0, or above the most, stands for a line that cannot be read. */
static void answer_line(struct zone *zones, const u8 *p, usize size)
{
    const u8 *end = p + size, *rest = 0;
    u8 reply[ROOM] = {0}, frame[FRAME_MOST];
    usize length = 0;
    enum answer answer = UNREADABLE;
    u8 letter = size > 0 && size <= LINE_MOST ? *p : 'E';
    u32 number[3];
    int readable;

    switch (letter) {
    case 'T':
        p++;
        readable = p < end && *p == '\t' && (rest = decimal(p + 1, end, &number[0])) && rest < end && *rest == '\t';
        break;
    case 'F':
        readable = size >= 2 && p[1] == '\t' && bytes_of(p + 2, size - 2, frame);
        break;
    case 'N':
    case 'M':
        readable = decimals(p + 1, end, number, 3);
        break;
    case 'X':
        readable = decimals(p + 1, end, number, 1);
        break;
    default:
        readable = 0;
        break;
    }
    if (!readable) {
        put_line('E', UNREADABLE, reply, 0);
        return;
    }

#if TEST_SOUND
    if (!sound(zones)) {
        put_line(letter, UNSOUND, reply, 0);
        return;
    }
#endif

    switch (letter) {
    case 'T':
        answer = text_road(zones, number[0], rest + 1, (usize)(end - (rest + 1)), reply, &length);
        break;
    case 'F':
        answer = frame_road(zones, frame, (size - 2) / 2, reply, &length);
        break;
    case 'N':
        answer = add(zones, number[0], number[1], number[2]);
        break;
    case 'M':
        answer = report(zones, number[0], number[1], number[2]);
        break;
    case 'X':
        answer = take_away(zones, number[0]);
        break;
    }
    put_line(letter, answer, reply, length);
}

int main(void)
{
    static u8 in[LINE_MOST + BLOCK];
    struct zone zones[ZONES] = {{0}};
    usize kept = 0;      /* bytes at the front of in: the start of a line whose end is still to come */
    int skipping = 0;    /* within a line that is too long already */
    long got;

    while ((got = read(0, in + kept, BLOCK)) > 0) {
        const u8 *p = in, *end = in + kept + got, *feed;

        while ((feed = memchr(p, '\n', (usize)(end - p)))) {
            if (skipping)
                answer_line(zones, p, 0);
            else
                answer_line(zones, p, (usize)(feed - p));
            skipping = 0;
            p = feed + 1;
        }
        kept = (usize)(end - p);
        if (skipping || kept > LINE_MOST) {
            skipping = 1;
            kept = 0;
        }
        memmove(in, p, kept);
    }
    if (skipping || kept > 0)
        answer_line(zones, in, kept);
    flush();
    return got < 0;
}
