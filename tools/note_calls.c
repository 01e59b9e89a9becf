// Notes the calls of a program on files, a line each, in the file that NOTE_CALLS names. It is
// loaded over the program by LD_PRELOAD.
//
// FAIL_CALL is the number of the call that fails, counted from 1, with the error number FAIL_WITH,
// or else 5, EIO. Writes to the standard outputs are noted, and not counted, and so are waits, with
// their milliseconds. MOST is how many bytes a read or a write of a file moves at most. TELL and LET
// are the numbers of open files: before each call that is counted its name is written to TELL, a line,
// and a byte is awaited from LET.
typedef unsigned long size_t;

extern void *dlsym(void *, const char *);
extern char *getenv(const char *);
extern int atoi(const char *);
extern int dprintf(int, const char *, ...);
extern int close(int);
extern int *__errno_location(void);

enum { WRITE_ONLY = 01, CREATE = 0100, EXCLUSIVE = 0200, APPEND = 02000 };

#define NEXT(call) (dlsym((void *)-1L, call))

typedef int opens(const char *, int, int);
typedef int takes_one(int);
typedef int looks(int, const char *, int, unsigned, void *);
typedef long moves(int, void *, size_t, long);

typedef struct { long seconds, nanoseconds; } duration;
typedef int waits(const duration *, duration *);

static long number_of(const char *name, long without) {
    const char *text = getenv(name);
    return text ? atoi(text) : without;
}

static void note(const char *call, const char *path, long file, long at, long n) {
    int notes = ((opens *)NEXT("open"))(getenv("NOTE_CALLS"), WRITE_ONLY | CREATE | APPEND, 0600);
    if (path) dprintf(notes, "%s %s\n", call, path);
    else dprintf(notes, "%s %ld %ld %ld\n", call, file, at, n);
    close(notes);
}

static void wait_for_leave(const char *call) {
    long tell = number_of("TELL", -1);
    char leave;
    if (tell < 0) return;
    dprintf(tell, "%s\n", call);
    ((moves *)NEXT("read"))(number_of("LET", -1), &leave, 1, 0);
}

static int fails(const char *call) {
    static long calls;
    wait_for_leave(call);
    if (++calls != number_of("FAIL_CALL", 0)) return 0;
    *__errno_location() = number_of("FAIL_WITH", 5);
    return 1;
}

static size_t most(size_t n) {
    size_t at_once = number_of("MOST", n);
    return n < at_once ? n : at_once;
}

int open(const char *path, int flags, int mode) {
    note(flags & CREATE && flags & EXCLUSIVE ? "make" : "open", path, 0, 0, 0);
    return fails("open") ? -1 : ((opens *)NEXT("open"))(path, flags, mode);
}

int flock(int file, int how) {
    note("lock", 0, file, 0, how);
    return fails("lock") ? -1 : ((int (*)(int, int))NEXT("flock"))(file, how);
}

int ftruncate(int file, long n) {
    note("set_length", 0, file, 0, n);
    return fails("set_length") ? -1 : ((int (*)(int, long))NEXT("ftruncate"))(file, n);
}

int statx(int file, const char *path, int flags, unsigned mask, void *told) {
    note("length", 0, file, 0, 0);
    return fails("length") ? -1 : ((looks *)NEXT("statx"))(file, path, flags, mask, told);
}

int fsync(int file) {
    note("sync", 0, file, 0, 0);
    return fails("sync") ? -1 : ((takes_one *)NEXT("fsync"))(file);
}

int fdatasync(int file) {
    note("sync_data", 0, file, 0, 0);
    return fails("sync_data") ? -1 : ((takes_one *)NEXT("fdatasync"))(file);
}

long pread(int file, void *to, size_t n, long at) {
    note("read", 0, file, at, n);
    return fails("read") ? -1 : ((moves *)NEXT("pread"))(file, to, most(n), at);
}

long pwrite(int file, const void *from, size_t n, long at) {
    note("write", 0, file, at, n);
    return fails("write") ? -1 : ((moves *)NEXT("pwrite"))(file, (void *)from, most(n), at);
}

int nanosleep(const duration *asked, duration *left) {
    note("wait", 0, 0, 0, 1000 * asked->seconds + asked->nanoseconds / 1000000);
    return ((waits *)NEXT("nanosleep"))(asked, left);
}

long write(int file, const void *from, size_t n) {
    note("print", 0, file, 0, n);
    return ((long (*)(int, const void *, size_t))NEXT("write"))(file, from, n);
}
