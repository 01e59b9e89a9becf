// Refuses one request for memory of a process, the one whose number REFUSE_REQUEST has, counted
// from 1. It is loaded over a test program by LD_PRELOAD. REFUSE_TOLD names a file that gets a line
// when a request was refused.
typedef unsigned long size_t;

extern void *__libc_malloc(size_t);
extern void *__libc_realloc(void *, size_t);
extern char *getenv(const char *);
extern int open(const char *, int, ...);
extern long write(int, const void *, size_t);
extern int close(int);

enum { WRITE_ONLY = 01, CREATE = 0100, APPEND = 02000 };

static long left = -1;

static void tell(void) {
    const char *file = getenv("REFUSE_TOLD");
    int told = file ? open(file, WRITE_ONLY | CREATE | APPEND, 0600) : -1;
    if (told >= 0) {
        write(told, "refused\n", 8);
        close(told);
    }
}

static int is_refused(void) {
    if (left == -1) {
        const char *text = getenv("REFUSE_REQUEST");
        left = 0;
        for (; text && *text >= '0' && *text <= '9'; text++) left = left * 10 + (*text - '0');
    }
    if (left == 0 || --left != 0) return 0;
    tell();
    return 1;
}

void *malloc(size_t n) { return is_refused() ? 0 : __libc_malloc(n); }
void *realloc(void *p, size_t n) { return is_refused() ? 0 : __libc_realloc(p, n); }
