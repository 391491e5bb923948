/* Test equipment: refuses growths of memory of the program that it is loaded into by LD_PRELOAD.

   A growth is a call of malloc or realloc after the program has begun. GROWTH_REFUSE=5 refuses the
   fifth, and GROWTH_REFUSE=5+ the fifth and each later one. At the end the number of growths that
   were asked for goes to the file that GROWTH_COUNT names. It includes no header, so the clang of
   the toolchain builds it wherever the toolchain is. */
typedef unsigned long bytes;

extern void *__libc_malloc(bytes);
extern void *__libc_realloc(void *, bytes);
extern char *getenv(const char *);
extern int *__errno_location(void);
extern int open(const char *, int, ...);
extern long write(int, const void *, bytes);
extern void _exit(int);

enum { NO_MEMORY = 12, WRITE_ANEW = 01 | 0100 | 01000, BROKEN = 99 };

static bytes asked, first;
static int counts, all_later;

__attribute__((constructor)) static void begin(void) {
    const char *text = getenv("GROWTH_REFUSE");
    while (text && *text >= '0' && *text <= '9') first = 10 * first + (bytes)(*text++ - '0');
    all_later = text && *text == '+';
    counts = 1;
}

__attribute__((destructor)) static void end(void) {
    const char *path = getenv("GROWTH_COUNT");
    char digits[24];
    int from = sizeof digits;
    bytes left = asked;
    counts = 0;
    if (!path) return;
    do digits[--from] = (char)('0' + left % 10); while (left /= 10);
    long written = write(open(path, WRITE_ANEW, 0644), digits + from, sizeof digits - (bytes)from);
    if (written < 0) _exit(BROKEN);
}

static int is_refused(void) {
    bytes number = counts ? __atomic_add_fetch(&asked, 1, __ATOMIC_SEQ_CST) : 0;
    if (!number || !first || (all_later ? number < first : number != first)) return 0;
    *__errno_location() = NO_MEMORY;
    return 1;
}

void *malloc(bytes count) { return is_refused() ? 0 : __libc_malloc(count); }
void *realloc(void *block, bytes count) { return is_refused() ? 0 : __libc_realloc(block, count); }
