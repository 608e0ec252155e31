/* Refuses one growth of a program: LD_PRELOAD=refuse.so REFUSE=N TELL=D PROGRAM
   The N-th call of malloc and realloc gives no memory, and a byte on descriptor D tells that it was met. All others are
   given. No header is needed, so that any C compiler makes it. */
typedef unsigned long size;
extern void *__libc_malloc(size);
extern void *__libc_realloc(void *, size);
extern char *getenv(const char *);
extern long write(int, const void *, size);

static unsigned long left; /* growths up to the one that is refused; 0: none is */
static int told;           /* where a refusal is told */

static unsigned long number(const char *name) {
    unsigned long value = 0;
    for (const char *text = getenv(name); text && *text >= '0' && *text <= '9'; text++)
        value = value * 10 + (unsigned long)(*text - '0');
    return value;
}

__attribute__((constructor)) static void begin(void) {
    told = (int)number("TELL");
    left = number("REFUSE");
}

static int is_refused(void) {
    if (!left || __atomic_sub_fetch(&left, 1, __ATOMIC_SEQ_CST))
        return 0;
    write(told, "x", 1);
    return 1;
}

void *malloc(size bytes) { return is_refused() ? 0 : __libc_malloc(bytes); }

void *realloc(void *block, size bytes) { return is_refused() ? 0 : __libc_realloc(block, bytes); }
