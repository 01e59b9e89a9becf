/* SQLite FTS5 as a peer over a pipe: a base in a file is asked a line each, and answers as the
   program does.
     fts5 ask PATH    a line is an expression of FTS5; with `!` before it, what it does not match
     fts5 merge PATH  at each line the index becomes one, made lasting, and `merged` is answered
     fts5 fill PATH   makes a base of the lines, without positions of words, a transaction for each
                      4,096, behind which it answers `committed` */
#include <sqlite3.h>
#include <stdio.h>
#include <stdlib.h>
#include <string.h>

static const char matching[] =
    "SELECT rowid FROM documents WHERE documents MATCH ? ORDER BY rowid";
static const char others[] =
    "SELECT rowid FROM documents EXCEPT SELECT rowid FROM documents WHERE documents MATCH ?"
    " ORDER BY rowid";
static const char optimizing[] = "INSERT INTO documents(documents) VALUES ('optimize')";
static const char creating[] =
    "PRAGMA journal_mode=DELETE; PRAGMA synchronous=FULL;"
    "CREATE VIRTUAL TABLE documents USING fts5(text, detail=none)";
static const char adding[] = "INSERT INTO documents(text) VALUES (?)";
static char line[1 << 16];
enum { BATCH = 4096 };

static void stop(sqlite3 *base)
{
    fprintf(stderr, "fts5: %s\n", sqlite3_errmsg(base));
    exit(1);
}

/* Decimal digits behind a space, as fast as they come. */
static char *put(char *at, sqlite3_int64 number)
{
    char digits[20];
    int n = 0;
    do
        digits[n++] = '0' + number % 10;
    while (number /= 10);
    *at++ = ' ';
    while (n)
        *at++ = digits[--n];
    return at;
}

static void ask(sqlite3 *base)
{
    static char numbers[1 << 24];
    sqlite3_stmt *match, *other;
    if (sqlite3_prepare_v2(base, matching, -1, &match, NULL)
        || sqlite3_prepare_v2(base, others, -1, &other, NULL))
        stop(base);
    while (fgets(line, sizeof line, stdin)) {
        line[strcspn(line, "\n")] = 0;
        sqlite3_stmt *ask = *line == '!' ? other : match;
        char *end = numbers;
        int step, found = 0;
        sqlite3_bind_text(ask, 1, line + (*line == '!'), -1, SQLITE_STATIC);
        for (; (step = sqlite3_step(ask)) == SQLITE_ROW; found++)
            end = put(end, sqlite3_column_int64(ask, 0));
        if (step != SQLITE_DONE)
            stop(base);
        sqlite3_reset(ask);
        *end++ = '\n';
        printf("found %d:", found);
        fwrite(numbers, 1, end - numbers, stdout);
        fflush(stdout);
    }
}

static void merge(sqlite3 *base)
{
    if (sqlite3_exec(base, "PRAGMA journal_mode=DELETE; PRAGMA synchronous=FULL", NULL, NULL, NULL))
        stop(base);
    while (fgets(line, sizeof line, stdin)) {
        if (sqlite3_exec(base, optimizing, NULL, NULL, NULL))
            stop(base);
        puts("merged");
        fflush(stdout);
    }
}

static void run(sqlite3 *base, const char *command)
{
    if (sqlite3_exec(base, command, NULL, NULL, NULL))
        stop(base);
}

static void commit(sqlite3 *base)
{
    run(base, "COMMIT");
    puts("committed");
    fflush(stdout);
}

static void fill(sqlite3 *base)
{
    sqlite3_stmt *add;
    int count = 0;
    run(base, creating);
    if (sqlite3_prepare_v2(base, adding, -1, &add, NULL))
        stop(base);
    for (; fgets(line, sizeof line, stdin); count++) {
        if (count % BATCH == 0)
            run(base, "BEGIN");
        sqlite3_bind_text(add, 1, line, strcspn(line, "\n"), SQLITE_STATIC);
        if (sqlite3_step(add) != SQLITE_DONE)
            stop(base);
        sqlite3_reset(add);
        if (count % BATCH == BATCH - 1)
            commit(base);
    }
    if (count % BATCH)
        commit(base);
}

static const struct task {
    const char *name;
    int flags;
    void (*run)(sqlite3 *);
} tasks[] = {
    {"ask", SQLITE_OPEN_READONLY, ask},
    {"merge", SQLITE_OPEN_READWRITE, merge},
    {"fill", SQLITE_OPEN_READWRITE | SQLITE_OPEN_CREATE, fill},
};

int main(int argc, char **argv)
{
    sqlite3 *base;
    for (size_t at = 0; argc == 3 && at < sizeof tasks / sizeof *tasks; at++) {
        if (strcmp(argv[1], tasks[at].name))
            continue;
        if (sqlite3_open_v2(argv[2], &base, tasks[at].flags, NULL))
            stop(base);
        tasks[at].run(base);
        return 0;
    }
    return 2;
}
