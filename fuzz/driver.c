/* Runs the target where libFuzzer is not to be had: the corpus first, then inputs made from it by a stated seed, for a stated time.
 * A corpus that does not reach every outcome is a failure, so that it cannot wear away unseen.
 *
 * usage: driver SECONDS SEED FOUND FILE... (an input that fails is left in FOUND) */
#define _POSIX_C_SOURCE 200809L
#include "call.h"
#include "osturdam.h"

#include <fcntl.h>
#include <signal.h>
#include <stdio.h>
#include <stdlib.h>
#include <string.h>
#include <time.h>
#include <unistd.h>

enum { MOST_FILES = 64, LONGEST = 4096, CHANGES = 8 };

int LLVMFuzzerTestOneInput(const uint8_t *data, size_t size);

static uint8_t corpus[MOST_FILES][LONGEST], input[LONGEST];
static size_t lengths[MOST_FILES], length;
static int files;
static uint64_t state;
static unsigned long executions;
static const char *found;

static unsigned chance(unsigned below)
{
    state ^= state >> 12;
    state ^= state << 25;
    state ^= state >> 27;
    return (unsigned)((state * 0x2545F4914F6CDD1Du >> 33) % below);
}

static void load(const char *name)
{
    FILE *f = fopen(name, "rb");
    if (f == NULL || files == MOST_FILES) {
        fprintf(stderr, "fuzz: %s cannot be read\n", name);
        exit(2);
    }
    lengths[files] = fread(corpus[files], 1, LONGEST, f);
    files++;
    fclose(f);
}

/* Only calls that a signal handler may make. */
static void left_behind(int signal_number)
{
    static const char said[] = "fuzz: failed by a signal; the input is kept\n";
    int f = open(found, O_WRONLY | O_CREAT | O_TRUNC, 0644);
    ssize_t wrote = f < 0 ? -1 : write(f, input, length);
    ssize_t told = write(2, said, sizeof said - 1);
    _exit(wrote < 0 || told < 0 ? 2 : signal_number == SIGABRT ? 3 : 4);
}

static void catch_signals(void)
{
    static const int caught[] = {SIGABRT, SIGSEGV, SIGBUS, SIGILL, SIGFPE, SIGTRAP};
    for (size_t i = 0; i < sizeof caught / sizeof caught[0]; i++)
        signal(caught[i], left_behind);
}

/* The front of one input, the end of another, and some characters changed; or wholly by chance. */
static void make_input(void)
{
    int front = (int)chance((unsigned)files + 1), back = (int)chance((unsigned)files);
    length = 0;
    if (front < files) {
        size_t cut = chance((unsigned)lengths[front] + 1), from = chance((unsigned)lengths[back] + 1);
        size_t rest = lengths[back] - from < LONGEST - cut ? lengths[back] - from : LONGEST - cut;
        memcpy(input, corpus[front], cut);
        memcpy(input + cut, corpus[back] + from, rest);
        length = cut + rest;
    }
    for (size_t more = chance(front < files ? 64 : 1024); more > 0 && length < LONGEST; more--)
        input[length++] = (uint8_t)chance(256);
    for (unsigned i = chance(CHANGES); i > 0 && length > 0; i--)
        input[chance((unsigned)length)] = (uint8_t)chance(256);
}

static void execute(void)
{
    executions++;
    LLVMFuzzerTestOneInput(input, length);
}

static double now(void)
{
    struct timespec t;
    clock_gettime(CLOCK_MONOTONIC, &t);
    return (double)t.tv_sec + (double)t.tv_nsec / 1e9;
}

int main(int argc, char **argv)
{
    if (argc < 5) {
        fprintf(stderr, "usage: driver SECONDS SEED FOUND FILE...\n");
        return 2;
    }
    double end = now() + atof(argv[1]);
    state = strtoull(argv[2], NULL, 10) * 2 + 1; /* never 0, where the numbers would stand still */
    found = argv[3];
    for (int i = 4; i < argc; i++)
        load(argv[i]);
    catch_signals();
    for (int i = 0; i < files; i++) {
        length = lengths[i];
        memcpy(input, corpus[i], length);
        execute();
    }
    int outcomes = call_outcomes();
    while (now() < end) {
        make_input();
        execute();
    }
    printf("fuzz: %lu executions, %lu calls, seed %s; the corpus, %d inputs, reaches %d outcomes\n", executions, call_count(), argv[2],
           files, outcomes);
    return outcomes == OSTURDAM_BUFFER_SHORT + 1 ? 0 : 1;
}
