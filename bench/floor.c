/* What any reader has to do: reads a file of a set, parses its cubes of full corners and counts them.
 *
 *     cc -O2 -o floor bench/floor.c && ./floor FILE
 *
 * bench/run.py sets the times of the program beside those of this one, so that figures of different machines can be
 * compared. It checks nothing and proves nothing.
 */
#include <stdint.h>
#include <stdio.h>
#include <stdlib.h>

static char *contents(const char *name, size_t *length)
{
    FILE *file = fopen(name, "rb");
    if (!file) {
        perror(name);
        exit(1);
    }
    fseek(file, 0, SEEK_END);
    *length = (size_t)ftell(file);
    rewind(file);
    char *text = malloc(*length + 1);
    if (!text || fread(text, 1, *length, file) != *length) {
        fprintf(stderr, "%s: not read\n", name);
        exit(1);
    }
    text[*length] = 0;
    fclose(file);
    return text;
}

int main(int count, char **words)
{
    size_t cubes = 0, length;
    uint64_t sum = 0;
    for (int i = 1; i < count; i++) {
        char *text = contents(words[i], &length), *end = text + length;
        for (char *at = text; at < end; at++) {
            if (*at == ')') {
                cubes++;
            } else if (*at >= '0' && *at <= '9') {
                int64_t value = 0;
                for (; *at >= '0' && *at <= '9'; at++)
                    value = 10 * value + (*at - '0');
                sum += (uint64_t)value;
                at--;
            }
        }
        free(text);
    }
    printf("%zu cubes, %llu\n", cubes, (unsigned long long)sum);
    return 0;
}
