// Holds the literal matcher to libc's memmem: first the answers, on short random lines that end just before memory that
// may not be read, then the answers and the time for each line of 64 MiB of text.
#define _GNU_SOURCE
#include <stdbool.h>
#include <stdint.h>
#include <stdio.h>
#include <stdlib.h>
#include <string.h>
#include <sys/mman.h>
#include <time.h>
#include <unistd.h>

struct pair {
    size_t first;
    size_t second;
};

struct pair literal_choose(const uint8_t *literal, size_t size);
bool literal_contains(const uint8_t *line, size_t length, const uint8_t *literal, size_t size);
bool literal_contains_by(const uint8_t *line, size_t length, const uint8_t *literal, size_t size, struct pair pair);

static uint64_t state = 0x9e3779b97f4a7c15;

// The same numbers in every run, so that two runs measure the same work.
static uint64_t below(uint64_t n) {
    state ^= state << 13;
    state ^= state >> 7;
    state ^= state << 17;
    return (state >> 11) % n;
}

static void fail(const char *what) {
    fprintf(stderr, "harness: %s\n", what);
    exit(1);
}

// # Answers on random lines

enum { LONGEST_LINE = 200, LONGEST_LITERAL = 40, CASES = 24, GAPS = 16 };

static void one_case(const uint8_t *line, size_t length, const uint8_t *literal, size_t size) {
    bool wanted = memmem(line, length, literal, size) != NULL;
    struct pair any = {below(size + 2), below(size + 2)};
    if (literal_contains(line, length, literal, size) != wanted) fail("contains differs from memmem");
    if (literal_contains_by(line, length, literal, size, literal_choose(literal, size)) != wanted) fail("contains_by differs from memmem");
    if (literal_contains_by(line, length, literal, size, any) != wanted) fail("contains_by with any pair differs from memmem");
}

// A random literal, a part of the line, or a part with one byte altered, which makes near misses.
static void make_literal(uint8_t *literal, size_t size, const uint8_t *line, size_t length, const uint8_t *alphabet, size_t letters) {
    for (size_t i = 0; i < size; i++) literal[i] = alphabet[below(letters)];
    if (size > length || below(3) == 0) return;
    memcpy(literal, line + below(length - size + 1), size);
    if (size > 0 && below(2) == 0) literal[below(size)] = alphabet[below(letters)];
}

static void random_answers(void) {
    static const uint8_t alphabet[] = {'a', 'b', 0, 255, 'c', ' '};
    size_t page = (size_t)sysconf(_SC_PAGESIZE);
    uint8_t *memory = mmap(NULL, 2 * page, PROT_READ | PROT_WRITE, MAP_PRIVATE | MAP_ANONYMOUS, -1, 0);
    if (memory == MAP_FAILED || mprotect(memory + page, page, PROT_NONE) != 0) fail("no guarded memory");
    uint8_t literal[LONGEST_LITERAL];
    size_t count = 0;
    for (size_t length = 0; length <= LONGEST_LINE; length++) {
        for (size_t size = 0; size <= LONGEST_LITERAL; size++) {
            for (size_t k = 0; k < CASES; k++, count++) {
                uint8_t *line = memory + page - length - count % GAPS;
                size_t letters = 1 + below(sizeof alphabet);
                for (size_t i = 0; i < length; i++) line[i] = alphabet[below(letters)];
                make_literal(literal, size, line, length, alphabet, letters);
                one_case(line, length, literal, size);
            }
        }
    }
    munmap(memory, 2 * page);
    printf("random answers: %zu lines of 0 to %d bytes, literals of 0 to %d: all as memmem\n", count, LONGEST_LINE, LONGEST_LITERAL);
}

// # Time on a large text

enum { TEXT = 64 << 20, SHORTEST = 20, SPAN = 201, ROUNDS = 9, WAYS = 3 };

struct text {
    uint8_t *bytes;
    size_t *starts; // one more than there are lines
    size_t lines;
};

// Words with letters as often as in English, and now and then a number; one line in a thousand gets the literal.
static void make_text(struct text *text, const char *literal, bool planted) {
    static const char letters[] =
        "eeeeeeeeeeeetttttttttaaaaaaaaooooooooiiiiiiinnnnnnnssssssrrrrrrhhhhhhllllddddcccuuummmffppgwwyybvk";
    size_t size = strlen(literal), at = 0;
    text->lines = 0;
    while (at + SHORTEST + SPAN <= TEXT) {
        size_t length = SHORTEST + below(SPAN), i = 0;
        while (i < length) {
            bool number = below(12) == 0;
            for (size_t left = 1 + below(9); left > 0 && i < length; left--)
                text->bytes[at + i++] = number ? (uint8_t)('0' + below(10)) : (uint8_t)letters[below(sizeof letters - 1)];
            if (i < length) text->bytes[at + i++] = ' ';
        }
        if (planted && below(1000) == 0) memcpy(text->bytes + at + below(length - size + 1), literal, size);
        text->starts[text->lines++] = at;
        at += length;
    }
    text->starts[text->lines] = at;
}

static double now(void) {
    struct timespec t;
    clock_gettime(CLOCK_MONOTONIC, &t);
    return (double)t.tv_sec * 1e9 + (double)t.tv_nsec;
}

// One pass over all lines, in nanoseconds a line. Each way's loop is its own, so that none pays for choosing among them.
static double pass(int way, const struct text *text, const char *literal, uint8_t *answers) {
    const uint8_t *wanted = (const uint8_t *)literal;
    size_t size = strlen(literal);
    const size_t *starts = text->starts;
    double begun = now();
    if (way == 0) {
        for (size_t i = 0; i < text->lines; i++)
            answers[i] = memmem(text->bytes + starts[i], starts[i + 1] - starts[i], wanted, size) != NULL;
    } else if (way == 1) {
        for (size_t i = 0; i < text->lines; i++)
            answers[i] = literal_contains(text->bytes + starts[i], starts[i + 1] - starts[i], wanted, size);
    } else {
        struct pair pair = literal_choose(wanted, size);
        for (size_t i = 0; i < text->lines; i++)
            answers[i] = literal_contains_by(text->bytes + starts[i], starts[i + 1] - starts[i], wanted, size, pair);
    }
    return (now() - begun) / (double)text->lines;
}

static int ascending(const void *a, const void *b) {
    double x = *(const double *)a, y = *(const double *)b;
    return (x > y) - (x < y);
}

// The median of the rounds, and the least and the greatest.
static double print_spread(double *values) {
    qsort(values, ROUNDS, sizeof *values, ascending);
    printf("   %5.2f (%.2f to %.2f)", values[ROUNDS / 2], values[0], values[ROUNDS - 1]);
    return values[ROUNDS / 2];
}

// The ways take turns within a round, so that whatever else the machine does falls on all of them.
static void compare(struct text *text, uint8_t **answers, const char *literal, bool planted, double *worst) {
    double theirs[ROUNDS], ratio[WAYS][ROUNDS];
    make_text(text, literal, planted);
    for (int round = -1; round < ROUNDS; round++) { // the first round only warms up
        double time[WAYS];
        for (int turn = 0; turn < WAYS; turn++) {
            int way = (turn + round + 1) % WAYS;
            time[way] = pass(way, text, literal, answers[way]);
        }
        for (int way = 1; way < WAYS; way++) {
            if (memcmp(answers[0], answers[way], text->lines) != 0) fail("a line of the text is answered otherwise than by memmem");
            if (round >= 0) ratio[way][round] = time[way] / time[0];
        }
        if (round >= 0) theirs[round] = time[0];
    }
    size_t matches = 0;
    for (size_t i = 0; i < text->lines; i++) matches += answers[0][i];
    qsort(theirs, ROUNDS, sizeof *theirs, ascending);
    printf("%-20s %7zu   %6.1f", literal, matches, theirs[ROUNDS / 2]);
    for (int way = 1; way < WAYS; way++) {
        double median = print_spread(ratio[way]);
        if (median > worst[way]) worst[way] = median;
    }
    printf("\n");
}

static void large_text(void) {
    static const struct {
        const char *literal;
        bool planted;
    } cases[] = {
        {"#", true},                // one byte
        {"zq#x", true},             // rare bytes
        {"tion", true},             // common letters ..
        {"there", true},
        {" to ", true},             // .. between spaces
        {"subscrib", true},
        {"0049301234", true},
        {"international ca", true},
        {"there are the same", true},
        {"NOWHERE!", false},        // absent
        {"no such thing", false},
        {"e", false},               // in nearly every line
    };
    struct text text = {malloc(TEXT), malloc((TEXT / SHORTEST + 2) * sizeof(size_t)), 0};
    uint8_t *answers[WAYS];
    double worst[WAYS] = {0};
    for (int way = 0; way < WAYS; way++) answers[way] = malloc(TEXT / SHORTEST + 1);
    printf("time a line, %d rounds, median (least to greatest)\n", ROUNDS);
    printf("literal              matches   memmem   contains / memmem     contains_by / memmem\n");
    printf("                                   ns\n");
    for (size_t i = 0; i < sizeof cases / sizeof *cases; i++)
        compare(&text, answers, cases[i].literal, cases[i].planted, worst);
    printf("%zu lines of %.0f bytes in the mean; every answer as memmem; greatest medians %.2f and %.2f\n", text.lines,
           (double)text.starts[text.lines] / (double)text.lines, worst[1], worst[2]);
}

int main(void) {
    random_answers();
    large_text();
    return 0;
}
