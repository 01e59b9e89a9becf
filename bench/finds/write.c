/* The way over a pipe and back with a reply, alone: to each line the bytes of a file are answered, by
   one write, with nothing looked for.
     write FILE */
#include <stdio.h>
#include <stdlib.h>
#include <unistd.h>

static char lines[1 << 16];

/* Sends the first n bytes; false where the reader is gone. */
static int send_all(const char *from, size_t n)
{
    while (n) {
        ssize_t sent = write(1, from, n);
        if (sent <= 0)
            return 0;
        from += sent;
        n -= sent;
    }
    return 1;
}

int main(int argc, char **argv)
{
    FILE *file = argc == 2 ? fopen(argv[1], "r") : NULL;
    if (!file || fseek(file, 0, SEEK_END))
        return 2;
    const size_t size = ftell(file);
    char *reply = malloc(size);
    rewind(file);
    if (!reply || fread(reply, 1, size, file) != size)
        return 2;
    for (ssize_t got; (got = read(0, lines, sizeof lines)) > 0;)
        for (ssize_t at = 0; at < got; at++)
            if (lines[at] == '\n' && !send_all(reply, size))
                return 0;
    return 0;
}
