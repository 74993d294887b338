/*
 * One call of the C library, given as CALL where this is compiled, and then status 0. For the tests of the launcher,
 * which need a standard input that fails after its first bytes, and programs that end otherwise than with 0.
 */

extern int fcntl(int file, int command, ...);
extern int raise(int signal);
extern void _exit(int status) __attribute__((noreturn));

/* The figures are those of x86-64 Linux, since no header is at hand. */
enum { SET_FLAGS = 4, NON_BLOCKING = 04000, KILL = 9 };

int main(void)
{
    CALL;
    return 0;
}
