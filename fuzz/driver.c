/* A driver for compilers without libFuzzer:
     driver SECONDS SEED LAST LEAST    makes inputs of a seed, and keeps each in the file LAST; fewer queries than LEAST, or too few
                                       of an answer or refusal, are exit status 3
     driver FILE                       asks what the file holds, one input */
#include "fuzz.h"

#include <fcntl.h>
#include <stdio.h>
#include <stdlib.h>
#include <string.h>
#include <sys/mman.h>
#include <time.h>
#include <unistd.h>

enum { LONGEST = 1024, TOO_LITTLE = 3 };

static uint64_t random_number(uint64_t *state) {
    uint64_t x = *state += 0x9e3779b97f4a7c15;
    x = (x ^ x >> 30) * 0xbf58476d1ce4e5b9;
    x = (x ^ x >> 27) * 0x94d049bb133111eb;
    return x ^ x >> 31;
}

/* The file's bytes are written through memory, so that they are there after an abort. */
static uint8_t *kept_in(const char *path) {
    int file = open(path, O_RDWR | O_CREAT | O_TRUNC, 0666);
    if (file < 0 || ftruncate(file, LONGEST) != 0) return NULL;
    uint8_t *at = mmap(NULL, LONGEST, PROT_READ | PROT_WRITE, MAP_SHARED, file, 0);
    close(file);
    return at == MAP_FAILED ? NULL : at;
}

static int run_seed(unsigned long seconds, uint64_t state, const char *path, unsigned long least) {
    uint8_t *input = kept_in(path);
    if (input == NULL) {
        perror(path);
        return 2;
    }
    for (time_t end = time(NULL) + (time_t)seconds; time(NULL) < end;) {
        size_t len = random_number(&state) % (LONGEST + 1);
        memset(input, 0, LONGEST);
        for (size_t i = 0; i < len; i++) input[i] = (uint8_t)random_number(&state);
        LLVMFuzzerTestOneInput(input, LONGEST);
    }
    return enough_seen(least) ? 0 : TOO_LITTLE;
}

static int run_file(const char *path) {
    static uint8_t bytes[ROOM];
    FILE *file = fopen(path, "rb");
    if (file == NULL) {
        perror(path);
        return 2;
    }
    size_t len = fread(bytes, 1, sizeof bytes, file);
    fclose(file);
    return LLVMFuzzerTestOneInput(bytes, len);
}

int main(int argc, char **argv) {
    if (argc == 5) return run_seed(strtoul(argv[1], NULL, 10), strtoull(argv[2], NULL, 10), argv[3], strtoul(argv[4], NULL, 10));
    return argc == 2 ? run_file(argv[1]) : 2;
}
