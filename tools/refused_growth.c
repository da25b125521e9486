/* Preloaded (LD_PRELOAD), refuses one growth of a program's memory: of the calls of malloc and realloc, which are all that
   a program of Rattle makes for memory, that whose number REFUSED_GROWTH says, counted from 1 over all threads. It tells
   so by a byte to the descriptor that REFUSED_GROWTH_TOLD says. */

typedef unsigned long size;

extern void *dlsym(void *, const char *);
extern char *getenv(const char *);
extern long atol(const char *);
extern long write(int, const void *, size);
extern int *__errno_location(void);

#define NEXT ((void *)-1L) /* RTLD_NEXT */
#define NO_MEMORY 12 /* ENOMEM, which the C library looks at */

static long growths;

static long number(const char *name)
{
    const char *text = getenv(name);
    return text ? atol(text) : 0;
}

/* Whether this growth is the one to refuse. */
static int is_refused(void)
{
    static long refused = -1;
    if (refused < 0)
        refused = number("REFUSED_GROWTH");
    if (refused == 0 || __atomic_add_fetch(&growths, 1, __ATOMIC_SEQ_CST) != refused)
        return 0;
    (void)write((int)number("REFUSED_GROWTH_TOLD"), "!", 1);
    *__errno_location() = NO_MEMORY;
    return 1;
}

void *malloc(size count)
{
    static void *(*real)(size);
    if (!real)
        real = (void *(*)(size))dlsym(NEXT, "malloc");
    return is_refused() ? 0 : real(count);
}

void *realloc(void *old, size count)
{
    static void *(*real)(void *, size);
    if (!real)
        real = (void *(*)(void *, size))dlsym(NEXT, "realloc");
    return is_refused() ? 0 : real(old, count);
}
