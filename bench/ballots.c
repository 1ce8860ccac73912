// Writes a file of random ballots to standard output, the same one each time. A ballot ranks some of the candidates,
// few or many, in any order, and gives an equal rank now and then.
#include <stdint.h>
#include <stdio.h>
#include <stdlib.h>

enum {
    SEED = 1,
    // One rank in so many is equal to the one before it.
    EQUAL_IN = 8,
};

// SplitMix64.
static uint64_t random_number(void)
{
    static uint64_t state = SEED;
    uint64_t z = state += UINT64_C(0x9e3779b97f4a7c15);
    z = (z ^ z >> 30) * UINT64_C(0xbf58476d1ce4e5b9);
    z = (z ^ z >> 27) * UINT64_C(0x94d049bb133111eb);
    return z ^ z >> 31;
}

static int below(int limit)
{
    return (int)(random_number() % (uint64_t)limit);
}

static void write_ballot(int candidates)
{
    uint8_t ranks[UINT8_MAX] = {0};
    int left[UINT8_MAX];
    for (int x = 0; x < candidates; x++) {
        left[x] = x;
    }
    int ranked = below(candidates + 1);
    int rank = 1;
    for (int i = 0; i < ranked; i++) {
        int drawn = below(candidates - i);
        ranks[left[drawn]] = (uint8_t)rank;
        left[drawn] = left[candidates - i - 1];
        rank += below(EQUAL_IN) != 0;
    }
    fwrite(ranks, 1, (size_t)candidates, stdout);
}

int main(int argc, char **argv)
{
    int candidates = argc == 3 ? atoi(argv[1]) : 0;
    int ballots = argc == 3 ? atoi(argv[2]) : 0;
    if (candidates < 1 || candidates > UINT8_MAX || ballots < 0 || ballots > UINT16_MAX) {
        fprintf(stderr, "usage: ballots CANDIDATES BALLOTS\n");
        return EXIT_FAILURE;
    }
    putchar(candidates);
    putchar(ballots & 0xff);
    putchar(ballots >> 8);
    for (int i = 0; i < ballots; i++) {
        write_ballot(candidates);
    }
    return fflush(stdout) == 0 && !ferror(stdout) ? EXIT_SUCCESS : EXIT_FAILURE;
}
