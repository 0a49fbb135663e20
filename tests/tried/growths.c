/* Refuses growths of a program that runs under AddressSanitizer, as each program does that `rt try` builds. The sanitizer refuses all growths
 * while it takes the program to be beyond a limit of memory (soft_rss_limit_mb), and it calls a hook after each that succeeds. */

typedef unsigned long size_t;

int __sanitizer_install_malloc_and_free_hooks(void (*)(const volatile void *, size_t), void (*)(const volatile void *));
void _ZN11__sanitizer19SetRssLimitExceededEb(_Bool);

static size_t left; /* how many growths succeed before all are refused; with none left they aren't counted */
static _Bool has_begun;

static void begin(void) {
    has_begun = 1;
    _ZN11__sanitizer19SetRssLimitExceededEb(1);
}

static void grew(const volatile void *at, size_t size) {
    (void)at;
    (void)size;
    if (left > 0 && --left == 0)
        begin();
}

static void shrank(const volatile void *at) {
    (void)at;
}

/* From now on the growth of this number and all after it are refused. */
void refuse_from(size_t number) {
    static _Bool is_installed;
    is_installed = is_installed || __sanitizer_install_malloc_and_free_hooks(grew, shrank);
    has_begun = 0;
    left = number - 1;
    if (left == 0)
        begin();
}

/* From now on none is. It answers whether there were as many growths since, but for one. */
_Bool refuse_none(void) {
    left = 0;
    _ZN11__sanitizer19SetRssLimitExceededEb(0);
    return has_begun;
}
