/* A library to be preloaded in a program: it lets one call of the program fail, the Nth of its kind.
 *
 * The variable FAIL is KIND:N, or KIND:N.. for the Nth and all that follow. KIND is growth (malloc, calloc and realloc), late
 * (growths behind the first of 16 MiB), read (read and recv), write (write and writev), send (send and sendmsg), or setting
 * (setsockopt), or seed (getentropy). Where a call failed, a byte is written to the descriptor of the variable FAIL_TOLD. Where KIND is accept, each
 * accept after the Nth connection fails with the error of the variable FAIL_ERROR, a number. Where FAIL is options, no call fails:
 * before each send that descriptor gets six numbers, to which the socket's options are set (OPTION_NAMES). Where it is steady, no call
 * fails, and each seed is the same. Where it is clock, no call fails, and the clock that never goes back stands at so many milliseconds
 * as the file of that descriptor begins with, a number of eight bytes. Where KIND is aborted, the Nth connection is closed as it is
 * accepted, and accept fails with the error of FAIL_ERROR. Where it is types, no call fails: before each send that descriptor gets a
 * byte, the type of the packet with which the sent bytes begin. Where it is sends, no call fails: before each send that descriptor gets
 * two numbers of four bytes, which thread sends and how many bytes. Where it is hasty, no call fails, that clock goes on by 20
 * milliseconds whenever it is read, and if there is such a descriptor, it gets these numbers too. Where it is naps, no call fails, that
 * clock stands, and before each pause of a thread that descriptor gets a byte.
 *
 * gm_trials asks for it itself: a growth to 2^47 + N bytes, which succeeds nowhere else, has the Nth growth after it refused, and
 * one to 2^47 bytes ends that, and succeeds where one was refused. */

typedef unsigned long size_t;

extern void *__libc_malloc(size_t);
extern void *__libc_calloc(size_t, size_t);
extern void *__libc_realloc(void *, size_t);
extern long syscall(long, ...);
extern char *getenv(const char *);
extern int *__errno_location(void);

enum { NONE, GROWTH, LATE, READ, WRITE, SEND, SETTING, SEED, ACCEPT, ABORTED, OPTIONS, STEADY, CLOCK, HASTY, TYPES, SENDS, NAPS };
enum { SYS_READ = 0, SYS_WRITE = 1, SYS_CLOSE = 3, SYS_PREAD = 17, SYS_WRITEV = 20, SYS_NANOSLEEP = 35, SYS_SENDTO = 44, SYS_RECVFROM = 45,
       SYS_SENDMSG = 46, SYS_SETSOCKOPT = 54, SYS_GETSOCKOPT = 55, SYS_GETTID = 186, SYS_CLOCK_GETTIME = 228, SYS_ACCEPT4 = 288,
       SYS_GETRANDOM = 318 };
enum { SOL_SOCKET = 1, SO_KEEPALIVE = 9, IPPROTO_TCP = 6, TCP_NODELAY = 1, TCP_KEEPIDLE = 4, TCP_KEEPINTVL = 5, TCP_KEEPCNT = 6,
       TCP_USER_TIMEOUT = 18 };
enum { EIO = 5, ENOMEM = 12 };
enum { CLOCK_MONOTONIC = 1 };

static const size_t ASKED = 1ul << 47, LONG = 1ul << 24;

static const int OPTION_NAMES[][2] = {{SOL_SOCKET, SO_KEEPALIVE}, {IPPROTO_TCP, TCP_KEEPIDLE}, {IPPROTO_TCP, TCP_KEEPINTVL},
                                      {IPPROTO_TCP, TCP_KEEPCNT}, {IPPROTO_TCP, TCP_USER_TIMEOUT}, {IPPROTO_TCP, TCP_NODELAY}};

static int kind;     /* which calls are counted */
static int forever;  /* whether all fail from the Nth on */
static long left;    /* how many succeed before the first that fails */
static int has_failed;
static int is_late; /* whether there was a growth of this length */
static int told = -1;
static int accept_error;

static long number_at(const char *text) {
    long number = 0;
    for (; *text >= '0' && *text <= '9'; text++)
        number = 10 * number + (*text - '0');
    return number;
}

static const char *after(const char *text, const char *word) {
    for (; *word; text++, word++)
        if (*text != *word)
            return 0;
    return text;
}

__attribute__((constructor)) static void read_settings(void) {
    static const char *const KINDS[] = {"", "growth:", "late:", "read:", "write:", "send:", "setting:", "seed:", "accept:", "aborted:",
                                        "options", "steady", "clock", "hasty", "types", "sends", "naps"};
    const char *text = getenv("FAIL"), *number;
    if (getenv("FAIL_TOLD"))
        told = number_at(getenv("FAIL_TOLD"));
    if (getenv("FAIL_ERROR"))
        accept_error = number_at(getenv("FAIL_ERROR"));
    for (int at = GROWTH; text && at <= NAPS; at++)
        if ((number = after(text, KINDS[at]))) {
            left = number_at(number);
            for (; *number; number++)
                forever |= *number == '.';
            kind = at;
        }
}

/* Whether this call is to fail. */
static int fails(int of, int error) {
    if (kind != of)
        return 0;
    long before = __atomic_fetch_sub(&left, 1, __ATOMIC_SEQ_CST);
    if (before > 1 || (before < 1 && !forever))
        return 0;
    if (!__atomic_exchange_n(&has_failed, 1, __ATOMIC_SEQ_CST) && told >= 0)
        syscall(SYS_WRITE, told, "x", 1);
    *__errno_location() = error;
    return 1;
}

/* Whether this growth is to fail. */
static int fails_growth(size_t size) {
    if (kind != LATE)
        return fails(GROWTH, ENOMEM);
    if (__atomic_load_n(&is_late, __ATOMIC_SEQ_CST))
        return fails(LATE, ENOMEM);
    if (size >= LONG)
        __atomic_store_n(&is_late, 1, __ATOMIC_SEQ_CST);
    return 0;
}

/* Tells what a socket's options are set to. */
static void tell_options(int fd) {
    enum { COUNT = sizeof OPTION_NAMES / sizeof *OPTION_NAMES };
    int values[COUNT];
    for (int at = 0; at < COUNT; at++) {
        unsigned size = sizeof *values;
        values[at] = -1;
        syscall(SYS_GETSOCKOPT, fd, OPTION_NAMES[at][0], OPTION_NAMES[at][1], &values[at], &size);
    }
    syscall(SYS_WRITE, told, values, sizeof values);
}

/* Tells which thread sends how many bytes. */
static void tell_send(size_t size) {
    const int numbers[] = {syscall(SYS_GETTID), size};
    syscall(SYS_WRITE, told, numbers, sizeof numbers);
}

/* gm_trials asks. */
static int is_granted(size_t number) {
    kind = number ? GROWTH : NONE;
    if (!number)
        return has_failed;
    left = number;
    has_failed = 0;
    return 1;
}

void *malloc(size_t size) {
    if (size >= ASKED && size - ASKED < 1ul << 32)
        return is_granted(size - ASKED) ? __libc_malloc(1) : 0;
    return fails_growth(size) ? 0 : __libc_malloc(size);
}

void *calloc(size_t count, size_t size) {
    return fails_growth(count * size) ? 0 : __libc_calloc(count, size);
}

void *realloc(void *block, size_t size) {
    return fails_growth(size) ? 0 : __libc_realloc(block, size);
}

long read(int fd, void *bytes, size_t size) {
    return fails(READ, EIO) ? -1 : syscall(SYS_READ, fd, bytes, size);
}

long recv(int fd, void *bytes, size_t size, int flags) {
    return fails(READ, EIO) ? -1 : syscall(SYS_RECVFROM, fd, bytes, size, flags, 0, 0);
}

long write(int fd, const void *bytes, size_t size) {
    return fails(WRITE, EIO) ? -1 : syscall(SYS_WRITE, fd, bytes, size);
}

long __write(int fd, const void *bytes, size_t size) {
    return write(fd, bytes, size);
}

long writev(int fd, const void *parts, int count) {
    return fails(WRITE, EIO) ? -1 : syscall(SYS_WRITEV, fd, parts, count);
}

long send(int fd, const void *bytes, size_t size, int flags) {
    if (kind == OPTIONS)
        tell_options(fd);
    if (kind == TYPES && size >= 8)
        syscall(SYS_WRITE, told, (const char *)bytes + 7, 1);
    if (kind == SENDS || (kind == HASTY && told >= 0))
        tell_send(size);
    return fails(SEND, EIO) ? -1 : syscall(SYS_SENDTO, fd, bytes, size, flags, 0, 0);
}

long sendmsg(int fd, const void *message, int flags) {
    if (kind == OPTIONS)
        tell_options(fd);
    return fails(SEND, EIO) ? -1 : syscall(SYS_SENDMSG, fd, message, flags);
}

int setsockopt(int fd, int level, int name, const void *value, unsigned size) {
    return fails(SETTING, EIO) ? -1 : syscall(SYS_SETSOCKOPT, fd, level, name, value, size);
}

int nanosleep(const void *time, void *rest) {
    if (kind == NAPS)
        syscall(SYS_WRITE, told, "x", 1);
    return syscall(SYS_NANOSLEEP, time, rest);
}

int getentropy(void *bytes, size_t size) {
    if (fails(SEED, EIO))
        return -1;
    if (kind != STEADY)
        return syscall(SYS_GETRANDOM, bytes, size, 0) == (long)size ? 0 : -1;
    for (size_t at = 0; at < size; at++)
        ((unsigned char *)bytes)[at] = 37 * at + 11;
    return 0;
}

int accept4(int fd, void *address, void *size, int flags) {
    if (kind == ACCEPT && left <= 0) {
        *__errno_location() = accept_error;
        return -1;
    }
    long taken = syscall(SYS_ACCEPT4, fd, address, size, flags);
    if (kind == ACCEPT)
        left -= taken >= 0;
    if (taken >= 0 && fails(ABORTED, accept_error)) {
        syscall(SYS_CLOSE, (int)taken);
        *__errno_location() = accept_error;
        return -1;
    }
    return taken;
}

int accept(int fd, void *address, void *size) {
    return accept4(fd, address, size, 0);
}

int clock_gettime(int clock, void *time) {
    static long hasty;
    long milliseconds = 0, *parts = time;
    if ((kind != CLOCK && kind != HASTY && kind != NAPS) || clock != CLOCK_MONOTONIC)
        return syscall(SYS_CLOCK_GETTIME, clock, time);
    if (kind == HASTY)
        milliseconds = __atomic_add_fetch(&hasty, 20, __ATOMIC_SEQ_CST);
    else if (kind == CLOCK)
        syscall(SYS_PREAD, told, &milliseconds, sizeof milliseconds, 0l);
    parts[0] = milliseconds / 1000;
    parts[1] = milliseconds % 1000 * 1000000;
    return 0;
}
