/* The limit of an opening and of shows: the reads that a session made of its store, and as many
   bytes as its replies, and nothing else.
     limit STORE PLAN
   PLAN has a line for each reply: how many bytes it has, how many reads came before it, and of each
   the place and the length. Each line of the input is answered by the next of them. */
#include <fcntl.h>
#include <stdio.h>
#include <stdlib.h>
#include <string.h>
#include <unistd.h>

static char room[1 << 17];

/* A number of the plan. */
static long next(FILE *plan)
{
    long number;
    if (fscanf(plan, "%ld", &number) != 1)
        exit(1);
    return number;
}

/* Makes the next reply's reads, and writes as many bytes as it has. */
static void answer(int store, FILE *plan)
{
    const long length = next(plan);
    for (long reads = next(plan); reads > 0; reads--) {
        const long at = next(plan), count = next(plan);
        if (pread(store, room, count, at) != count)
            exit(1);
    }
    memset(room, '.', length);
    room[length - 1] = '\n';
    if (write(1, room, length) != length)
        exit(1);
}

int main(int count, char **words)
{
    static char line[1 << 12];
    if (count != 3)
        return 2;
    const int store = open(words[1], O_RDONLY);
    FILE *plan = fopen(words[2], "r");
    if (store < 0 || !plan)
        return 1;
    for (ssize_t got; (got = read(0, line, sizeof line)) > 0;)
        for (ssize_t i = 0; i < got; i++)
            if (line[i] == '\n')
                answer(store, plan);
    return 0;
}
