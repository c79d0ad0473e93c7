/* Prints header names of seven bytes that share a place in a table of 2^14 groups, a name to a line, for bench/readers.
 *
 * The place is the low 14 bits of the hash that the kit's hash set gives a `Vec<u8>` of these bytes, whose seed is fixed: the
 * set would look through all earlier names for each name.
 */
#include <stdint.h>
#include <stdio.h>
#include <stdlib.h>

#define LEN 7
#define MULTIPLIER 0x9e3779b97f4a7c15u

static const char letters[] = "abcdefghijklmnopqrstuvwxyz";

static uint64_t folded_multiply(uint64_t a, uint64_t b)
{
    unsigned __int128 product = (unsigned __int128)a * b;
    return (uint64_t)product ^ (uint64_t)(product >> 64);
}

static uint64_t after_byte(uint64_t state, unsigned char b)
{
    return folded_multiply(state ^ (uint64_t)b * 0x010101u, MULTIPLIER ^ 2);
}

static uint32_t place(uint64_t state)
{
    return (uint32_t)(state ^ state >> 32) & 0x3fff;
}

/* Prints the names that begin with the first `len` bytes of `name`, until none is left to print. */
static void print_names(char *name, int len, uint64_t state, long *left)
{
    for (const char *letter = letters; *letter && *left; letter++) {
        uint64_t next = after_byte(state, (unsigned char)*letter);
        name[len] = *letter;
        if (len + 1 < LEN) {
            print_names(name, len + 1, next, left);
        } else if (place(next) == 0) {
            puts(name);
            --*left;
        }
    }
}

int main(int count, char **words)
{
    char name[LEN + 1] = {0};
    long left = count == 2 ? atol(words[1]) : 0;
    uint64_t state = folded_multiply(0x243f6a8885a308d3u ^ LEN, MULTIPLIER ^ 16); /* the length is hashed first */
    print_names(name, 0, state, &left);
    return left != 0;
}
