/*
 * What the witness and the generator of logs have in common: short names of types, and buffered output. No header of the
 * system is read; the few functions of the C library that are called are declared where they are used.
 */

typedef unsigned char u8;
typedef unsigned short u16;
typedef unsigned int u32;
typedef unsigned long u64;
typedef __SIZE_TYPE__ usize;

extern long write(int file, const void *bytes, usize size);
extern void _exit(int status) __attribute__((noreturn));
extern void *memcpy(void *to, const void *from, usize size);
extern void *memmove(void *to, const void *from, usize size);

static u8 out[65536];
static usize filled;

/* Writes out what is held. The program ends where standard output takes no more. */
static void flush(void)
{
    const u8 *p = out;

    while (filled > 0) {
        long taken = write(1, p, filled);

        if (taken <= 0)
            _exit(1);
        p += taken;
        filled -= (usize)taken;
    }
}
