/* SQLite's index over the same words (a table without rowid), in memory, by prepared statements. */
#include <sqlite3.h>
#include <stdio.h>
#include <stdlib.h>
#include <string.h>
#include <time.h>

static long long now(void) {
    struct timespec t;
    clock_gettime(CLOCK_PROCESS_CPUTIME_ID, &t);
    return t.tv_sec * 1000000000LL + t.tv_nsec;
}

int main(void) {
    size_t size = 0, room = 1 << 24;
    char *text = malloc(room);
    size = fread(text, 1, room, stdin);
    int n = 0;
    char **words = malloc(sizeof(char *) * 400000);
    int *lens = malloc(sizeof(int) * 400000);
    for (char *p = text; p < text + size;) {
        char *e = memchr(p, '\n', text + size - p);
        if (!e) break;
        words[n] = p; lens[n++] = (int)(e - p); p = e + 1;
    }
    sqlite3 *db;
    sqlite3_stmt *s;
    sqlite3_open(":memory:", &db);
    sqlite3_exec(db, "create table d(term blob primary key, frequency int, at int, bytes int) without rowid", 0, 0, 0);
    long long start = now();
    sqlite3_exec(db, "begin", 0, 0, 0);
    sqlite3_prepare_v2(db, "insert into d values(?,?,?,?)", -1, &s, 0);
    unsigned at = 0;
    for (int i = 0; i < n; i++) {
        sqlite3_bind_blob(s, 1, words[i], lens[i], SQLITE_STATIC);
        sqlite3_bind_int(s, 2, 1 + at % 100);
        sqlite3_bind_int64(s, 3, at);
        sqlite3_bind_int(s, 4, 9);
        sqlite3_step(s);
        sqlite3_reset(s);
        at += 9;
    }
    sqlite3_finalize(s);
    sqlite3_exec(db, "commit", 0, 0, 0);
    long long build = now() - start;
    sqlite3_prepare_v2(db, "select page_count * page_size from pragma_page_count, pragma_page_size", -1, &s, 0);
    sqlite3_step(s);
    long long bytes = sqlite3_column_int64(s, 0);
    sqlite3_finalize(s);
    printf("words %d bytes %lld build_ns %lld\n", n, bytes, build);
    sqlite3_prepare_v2(db, "select frequency from d where term = ?", -1, &s, 0);
    start = now();
    long long found = 0, i = 0;
    for (int k = 0; k < n; k++) {
        i = (i + 7919) % n;
        sqlite3_bind_blob(s, 1, words[i], lens[i], SQLITE_STATIC);
        if (sqlite3_step(s) == SQLITE_ROW) found += sqlite3_column_int(s, 0);
        sqlite3_reset(s);
    }
    printf("look_up_ns %lld sum %lld\n", now() - start, found);
    return 0;
}
