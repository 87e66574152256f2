/* Stands in front of the C library in a proved program: every other read and write is interrupted before it moves a byte, and each of
 * the others moves at most seven. No headers, so that the kit's own compiler will do. */
extern int *__errno_location(void);
extern long syscall(long number, ...);

enum { INTERRUPTED = 4, READ = 0, WRITE = 1, MOST = 7 };

static long some(long number, int fd, const void *buffer, unsigned long count)
{
    static unsigned calls;
    if (calls++ % 2 == 0) {
        *__errno_location() = INTERRUPTED;
        return -1;
    }
    return syscall(number, fd, buffer, count < MOST ? count : MOST);
}

long read(int fd, void *buffer, unsigned long count) { return some(READ, fd, buffer, count); }
long write(int fd, const void *buffer, unsigned long count) { return some(WRITE, fd, buffer, count); }
