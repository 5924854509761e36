// Stands in front of the C library's `malloc` and `realloc`, by LD_PRELOAD, and refuses one call of them: the one whose number,
// from 1 on, is in REFUSED_GROWTH. A refusal writes a byte to descriptor 9.
typedef unsigned long size_t;
extern void *__libc_malloc(size_t size);
extern void *__libc_realloc(void *old, size_t size);
extern char *getenv(const char *name);
extern long write(int descriptor, const void *bytes, size_t count);

static long calls;
static long refused = -1;

static int is_refused(void) {
    if (refused < 0) {
        const char *word = getenv("REFUSED_GROWTH");
        refused = 0;
        while (word && *word)
            refused = 10 * refused + (*word++ - '0');
    }
    return ++calls == refused && write(9, "x", 1) == 1;
}

void *malloc(size_t size) { return is_refused() ? 0 : __libc_malloc(size); }

void *realloc(void *old, size_t size) { return is_refused() ? 0 : __libc_realloc(old, size); }
