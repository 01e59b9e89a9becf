/* The way over a pipe and back, alone: each line is sent back as it is, by a write of its own, as
   the program and its peers send their replies. */
#include <string.h>
#include <unistd.h>

static char bytes[1 << 16];

/* Sends the first n bytes; false where the reader is gone. */
static int send_all(const char *from, size_t n)
{
    while (n) {
        ssize_t sent = write(1, from, n);
        if (sent <= 0)
            return 0;
        from += sent;
        n -= sent;
    }
    return 1;
}

/* Lines come in pieces: what is behind the last line feed waits for the next piece. */
int main(void)
{
    size_t held = 0;
    ssize_t got;
    while ((got = read(0, bytes + held, sizeof bytes - held)) > 0) {
        char *line = bytes, *end;
        held += got;
        while ((end = memchr(line, '\n', held))) {
            size_t n = end + 1 - line;
            if (!send_all(line, n))
                return 0;
            line += n;
            held -= n;
        }
        memmove(bytes, line, held);
    }
    return 0;
}
