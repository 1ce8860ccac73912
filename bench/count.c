// The count of a file of ballots in plain C, with which the proved program is compared: the same report, and a
// certificate that the proved checker accepts. Files are as docs/FORMAT.md says; there is no draw.
#include <stdbool.h>
#include <stdint.h>
#include <stdio.h>
#include <stdlib.h>
#include <string.h>

enum {
    MOST_CANDIDATES = 30,
    HEADER_LENGTH = 3,
    // Below every rank.
    UNRANKED = 256,
    // The number of candidates, the table, an entry for each pair with all candidates on its path, the best.
    LONGEST_CERTIFICATE = 1 + 2 * MOST_CANDIDATES * MOST_CANDIDATES
        + MOST_CANDIDATES * (MOST_CANDIDATES - 1) * (2 + 1 + MOST_CANDIDATES + 4) + 4,
};

struct vote {
    int candidates;
    int ballots;
    const uint8_t *ranks;
};

struct outcome {
    int candidates;
    int ballots;
    // n(x, y).
    int preferring[MOST_CANDIDATES][MOST_CANDIDATES];
    int strength[MOST_CANDIDATES][MOST_CANDIDATES];
    // Who follows x on the strongest path to y.
    int next[MOST_CANDIDATES][MOST_CANDIDATES];
    uint32_t best;
    int order[MOST_CANDIDATES];
};

_Noreturn static void fail(const char *what, const char *path)
{
    fprintf(stderr, "count: cannot %s %s\n", what, path);
    exit(EXIT_FAILURE);
}

_Noreturn static void refuse(int number, size_t place)
{
    printf("refused %d at %zu\n", number, place);
    exit(EXIT_FAILURE);
}

static uint8_t *read_file(const char *path, size_t *length)
{
    FILE *file = fopen(path, "rb");
    if (!file || fseek(file, 0, SEEK_END) != 0) {
        fail("read", path);
    }
    long size = ftell(file);
    // One byte more, since for none malloc may answer NULL.
    uint8_t *bytes = size < 0 ? NULL : malloc((size_t)size + 1);
    rewind(file);
    if (!bytes || fread(bytes, 1, (size_t)size, file) != (size_t)size) {
        fail("read", path);
    }
    fclose(file);
    *length = (size_t)size;
    return bytes;
}

static struct vote read_vote(const uint8_t *bytes, size_t length)
{
    if (length == 0) {
        refuse(1, 0);
    }
    int candidates = bytes[0];
    if (candidates == 0 || candidates > MOST_CANDIDATES) {
        refuse(2, 0);
    }
    if (length < HEADER_LENGTH) {
        refuse(1, length);
    }
    int ballots = bytes[1] | bytes[2] << 8;
    size_t whole = HEADER_LENGTH + (size_t)ballots * (size_t)candidates;
    if (length != whole) {
        refuse(1, length < whole ? length : whole);
    }
    return (struct vote){candidates, ballots, bytes + HEADER_LENGTH};
}

// The comparison is added, since a branch on random ranks is mispredicted; int is as fast here as any type.
static void count_pairs(const struct vote *vote, struct outcome *outcome)
{
    int v = vote->candidates;
    for (int i = 0; i < vote->ballots; i++) {
        const uint8_t *ballot = vote->ranks + i * v;
        int rank[MOST_CANDIDATES];
        for (int x = 0; x < v; x++) {
            rank[x] = ballot[x] ? ballot[x] : UNRANKED;
        }
        for (int x = 0; x < v; x++) {
            for (int y = 0; y < v; y++) {
                outcome->preferring[x][y] += rank[x] < rank[y];
            }
        }
    }
}

static void find_strengths(struct outcome *o)
{
    int v = o->candidates;
    for (int x = 0; x < v; x++) {
        for (int y = 0; y < v; y++) {
            o->strength[x][y] = o->preferring[x][y] > o->preferring[y][x] ? o->preferring[x][y] : 0;
            o->next[x][y] = y;
        }
    }
    for (int middle = 0; middle < v; middle++) {
        for (int x = 0; x < v; x++) {
            for (int y = 0; y < v; y++) {
                int to = o->strength[x][middle];
                int from = o->strength[middle][y];
                int through = to < from ? to : from;
                if (x != y && o->strength[x][y] < through) {
                    o->strength[x][y] = through;
                    o->next[x][y] = o->next[x][middle];
                }
            }
        }
    }
}

static bool is_ahead(const struct outcome *o, int x, int y)
{
    return o->strength[x][y] > o->strength[y][x];
}

// The candidates of the set of whom nobody in the set is ahead.
static uint32_t unbeaten(const struct outcome *o, uint32_t set)
{
    uint32_t found = set;
    for (int x = 0; x < o->candidates; x++) {
        for (int y = 0; y < o->candidates; y++) {
            if (set >> y & 1 && is_ahead(o, y, x)) {
                found &= ~(UINT32_C(1) << x);
            }
        }
    }
    return found;
}

static void find_order(struct outcome *o)
{
    uint32_t left = (UINT32_C(1) << o->candidates) - 1;
    o->best = unbeaten(o, left);
    for (int place = 0; place < o->candidates; place++) {
        uint32_t found = unbeaten(o, left);
        int first = 0;
        while (!(found >> first & 1)) {
            first++;
        }
        o->order[place] = first;
        left &= ~(UINT32_C(1) << first);
    }
}

static void print_report(const struct outcome *o)
{
    printf("papers %d best", o->ballots);
    for (int x = 0; x < o->candidates; x++) {
        if (o->best >> x & 1) {
            printf(" %d", x);
        }
    }
    printf("\n");
    for (int x = 0; x < o->candidates; x++) {
        for (int y = 0; y < o->candidates; y++) {
            if (is_ahead(o, x, y)) {
                printf("ahead %d %d %d %d\n", x, y, o->strength[x][y], o->strength[y][x]);
            }
        }
    }
    printf("order");
    for (int place = 0; place < o->candidates; place++) {
        printf(" %d", o->order[place]);
    }
    printf("\n");
}

static uint8_t *put_two(uint8_t *at, int number)
{
    *at++ = (uint8_t)number;
    *at++ = (uint8_t)(number >> 8);
    return at;
}

static uint8_t *put_four(uint8_t *at, uint32_t set)
{
    at = put_two(at, (int)(set & 0xffff));
    return put_two(at, (int)(set >> 16));
}

static uint8_t *put_path(uint8_t *at, const struct outcome *o, int x, int y)
{
    uint8_t *count = at++;
    if (o->strength[x][y] > 0) {
        *at++ = (uint8_t)x;
        while (x != y) {
            x = o->next[x][y];
            *at++ = (uint8_t)x;
        }
    }
    *count = (uint8_t)(at - count - 1);
    return at;
}

// x, and whoever x reaches more strongly than y.
static uint32_t cut(const struct outcome *o, int x, int y)
{
    uint32_t set = UINT32_C(1) << x;
    for (int z = 0; z < o->candidates; z++) {
        if (o->strength[x][z] > o->strength[x][y]) {
            set |= UINT32_C(1) << z;
        }
    }
    return set;
}

static size_t make_certificate(const struct outcome *o, uint8_t *certificate)
{
    uint8_t *at = certificate;
    *at++ = (uint8_t)o->candidates;
    for (int x = 0; x < o->candidates; x++) {
        for (int y = 0; y < o->candidates; y++) {
            at = put_two(at, o->preferring[x][y]);
        }
    }
    for (int x = 0; x < o->candidates; x++) {
        for (int y = 0; y < o->candidates; y++) {
            if (x != y) {
                at = put_two(at, o->strength[x][y]);
                at = put_path(at, o, x, y);
                at = put_four(at, cut(o, x, y));
            }
        }
    }
    at = put_four(at, o->best);
    return (size_t)(at - certificate);
}

static void write_certificate(const struct outcome *o, const char *path)
{
    static uint8_t certificate[LONGEST_CERTIFICATE];
    size_t length = make_certificate(o, certificate);
    FILE *file = fopen(path, "wb");
    if (!file || fwrite(certificate, 1, length, file) != length || fclose(file) != 0) {
        fail("write", path);
    }
}

int main(int argc, char **argv)
{
    bool to_file = argc == 4 && strcmp(argv[2], "--sheet") == 0;
    if (argc != 2 && !to_file) {
        fprintf(stderr, "usage: count BALLOTS [--sheet FILE]\n");
        return EXIT_FAILURE;
    }
    size_t length;
    uint8_t *bytes = read_file(argv[1], &length);
    struct vote vote = read_vote(bytes, length);
    struct outcome outcome = {.candidates = vote.candidates, .ballots = vote.ballots};
    count_pairs(&vote, &outcome);
    find_strengths(&outcome);
    find_order(&outcome);
    print_report(&outcome);
    if (to_file) {
        write_certificate(&outcome, argv[3]);
    }
    free(bytes);
    return EXIT_SUCCESS;
}
