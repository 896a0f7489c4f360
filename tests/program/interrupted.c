/* read and write as a program sees them under many signals: they are interrupted READS or WRITES times before a byte is moved, and then 5
   bytes are moved at most; where LATER is 0, the first call of each alone is interrupted. Loaded before the program's C library. Programs
   are made for x86-64, so this is too, on every machine, and it can have no headers. */
enum { EINTR = 4, READ = 0, WRITE = 1, PART = 5 };

extern int *__errno_location(void);
extern long syscall(long number, ...);

static long call(long number, int fd, const void *bytes, unsigned long n, long *left, long times) {
    if (*left > 0) {
        --*left;
        *__errno_location() = EINTR;
        return -1;
    }
    *left = LATER ? times : 0;
    return syscall(number, (long)fd, bytes, n < PART ? n : PART);
}

long read(int fd, void *bytes, unsigned long n) {
    static long left = READS;
    return call(READ, fd, bytes, n, &left, READS);
}

long write(int fd, const void *bytes, unsigned long n) {
    static long left = WRITES;
    return call(WRITE, fd, bytes, n, &left, WRITES);
}
