/* The limit: the lists that a find needs, packed as a segment has them, decoded and joined by plain
   loops in memory. No dictionary, no file, no pipe.
     limit FILE
   FILE has for each class of finds a line with its name, an expression behind what it joins, as
   `0 1 AND`, and how many lists follow; then each list, a line of numbers. `*` is all documents, the
   last list. Prints each name with the least microseconds of 51 runs, and how many were found. */
#include "../posting/kernels.h"
#include <stdio.h>
#include <stdlib.h>
#include <string.h>
#include <time.h>

enum { RUNS = 51, MOST = 8, LONGEST = 1 << 21 };

struct list {
    uint32_t *numbers;
    size_t count;
};

static uint8_t *packed[MOST];
static size_t lengths[MOST];
static struct list all;

static double now(void)
{
    struct timespec time;
    clock_gettime(CLOCK_MONOTONIC, &time);
    return 1e6 * time.tv_sec + time.tv_nsec / 1e3;
}

static struct list with_room(size_t count)
{
    return (struct list){malloc(4 * count + 4), 0};
}

static struct list both(struct list a, struct list b)
{
    struct list out = with_room(a.count);
    size_t i = 0, j = 0;
    while (i < a.count && j < b.count) {
        const uint32_t x = a.numbers[i], y = b.numbers[j];
        out.numbers[out.count] = x;
        out.count += x == y;
        i += x <= y;
        j += y <= x;
    }
    return out;
}

static struct list either(struct list a, struct list b)
{
    struct list out = with_room(a.count + b.count);
    size_t i = 0, j = 0;
    while (i < a.count && j < b.count) {
        const uint32_t x = a.numbers[i], y = b.numbers[j];
        out.numbers[out.count++] = x < y ? x : y;
        i += x <= y;
        j += y <= x;
    }
    for (; i < a.count; i++)
        out.numbers[out.count++] = a.numbers[i];
    for (; j < b.count; j++)
        out.numbers[out.count++] = b.numbers[j];
    return out;
}

static struct list without(struct list a, struct list b)
{
    struct list out = with_room(a.count);
    size_t j = 0;
    for (size_t i = 0; i < a.count; i++) {
        while (j < b.count && b.numbers[j] < a.numbers[i])
            j++;
        out.numbers[out.count] = a.numbers[i];
        out.count += j == b.count || b.numbers[j] != a.numbers[i];
    }
    return out;
}

static struct list taken(const char *token)
{
    struct list out;
    if (*token == '*') {
        out = with_room(all.count);
        memcpy(out.numbers, all.numbers, 4 * all.count);
        out.count = all.count;
        return out;
    }
    out.numbers = c_decode(packed[atoi(token)], lengths[atoi(token)], &out.count);
    if (!out.numbers)
        exit(3);
    return out;
}

static size_t run(const char *expression)
{
    struct list stack[MOST];
    int top = 0;
    char copy[256];
    strcpy(copy, expression);
    for (char *token = strtok(copy, " "); token; token = strtok(NULL, " ")) {
        if (strchr("AON", *token) == NULL) {
            stack[top++] = taken(token);
            continue;
        }
        const struct list b = stack[--top], a = stack[top - 1];
        stack[top - 1] = *token == 'A' ? both(a, b) : *token == 'O' ? either(a, b) : without(a, b);
        free(a.numbers);
        free(b.numbers);
    }
    free(stack[0].numbers);
    return stack[0].count;
}

int main(int argc, char **argv)
{
    static char name[256], expression[256];
    static uint32_t numbers[LONGEST];
    FILE *file = argc == 2 ? fopen(argv[1], "r") : NULL;
    int count;
    if (!file)
        return 2;
    while (fscanf(file, " %255[^\t]\t%255[^\t]\t%d", name, expression, &count) == 3) {
        if (count > MOST)
            return 3;
        for (int k = 0; k < count; k++) {
            size_t n, i;
            if (fscanf(file, "%zu", &n) != 1 || n > LONGEST)
                return 3;
            for (i = 0; i < n; i++)
                if (fscanf(file, "%u", &numbers[i]) != 1)
                    return 3;
            packed[k] = c_encode(numbers, n, &lengths[k]);
            if (k == count - 1) {
                all = (struct list){malloc(4 * n), n};
                memcpy(all.numbers, numbers, 4 * n);
            }
        }
        double least = 1e30;
        size_t found = 0;
        for (int k = 0; k < RUNS; k++) {
            const double start = now();
            found = run(expression);
            const double taken = now() - start;
            least = taken < least ? taken : least;
        }
        printf("%s\t%.2f\t%zu\n", name, least, found);
        for (int k = 0; k < count; k++)
            free(packed[k]);
        free(all.numbers);
    }
    return 0;
}
