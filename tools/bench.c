/* Measures how many steps a second the engine makes, through the exported call hub_play.
 *
 * Four cores add 1 to the same word over and over, each in a block of its own, so that blocks conflict, roll back and wait
 * for the commit token. A list of turns, with a clear after every 61st, is played on a new engine again and again.
 *
 *   bash tools/staticlib.sh
 *   cc -O2 tools/bench.c target/staticlib/libpesilyum_hub.a -o /some/where/bench
 *   /some/where/bench [millions of calls]
 *
 * The forms of all bytes are told in docs/10-play-over-bytes.md.
 */
#include <stddef.h>
#include <stdint.h>
#include <stdio.h>
#include <stdlib.h>
#include <string.h>
#include <time.h>

uint64_t hub_play(const uint8_t *program, size_t program_length, const uint8_t *settings, size_t settings_length,
                  uint8_t *memory, size_t memory_length, const uint8_t *calls, size_t calls_length,
                  uint8_t *answers, size_t answers_length, uint8_t *sent, size_t sent_length);

enum { CALLS = 65536, CLEAR_EVERY = 62, CORES = 4, WORDS = 16 };
enum { TURN = 2, CLEAR = 3 };
enum { DONE = 3, ROLLED_BACK = 8, ANSWERS = 11 };

static const char *const names[ANSWERS] = {"",     "running", "waiting",     "done",    "committing", "early",
                                           "full", "stopped", "rolled back", "retried", "faulted"};

static const uint32_t program_words[] = {
    0x50000000, /* 0 BEGIN             */
    0x29000000, /* 1 LOAD d 1          */
    0x0A000001, /* 2 SET d 2 n 1       */
    0x11280000, /* 3 ADD d 1 a 1 b 2   */
    0x30040000, /* 4 STORE b 1         */
    0x58000000, /* 5 END               */
    0x38000000, /* 6 JUMP 0            */
};

static uint8_t program[sizeof program_words];
static uint8_t settings[1 + 2 * CORES];
static uint8_t memory[4 * WORDS];
static uint8_t calls[4 * CALLS];
static uint8_t answers[8 * CALLS];
static uint8_t sent[5 * 64];

static void put_word(uint8_t *at, uint32_t word) {
    at[0] = (uint8_t)(word >> 24);
    at[1] = (uint8_t)(word >> 16);
    at[2] = (uint8_t)(word >> 8);
    at[3] = (uint8_t)word;
}

static uint32_t word_at(const uint8_t *at) {
    return (uint32_t)at[0] << 24 | (uint32_t)at[1] << 16 | (uint32_t)at[2] << 8 | at[3];
}

static double seconds(clockid_t clock) {
    struct timespec now;
    clock_gettime(clock, &now);
    return (double)now.tv_sec + (double)now.tv_nsec / 1e9;
}

int main(int argc, char **argv) {
    long millions = argc > 1 ? atol(argv[1]) : 50;
    long rounds = millions * 1000000 / CALLS;
    uint64_t counted[ANSWERS] = {0}, steps = 0, refused_turns = 0, clears = 0, refused_clears = 0;
    double passed = 0, used = 0; /* seconds by the clock, and of the processor */

    for (size_t i = 0; i < sizeof program_words / sizeof *program_words; i++)
        put_word(program + 4 * i, program_words[i]);
    settings[0] = 4; /* lines; every core starts at instruction 0 */
    for (size_t i = 0; i < CALLS; i++)
        put_word(calls + 4 * i, (uint32_t)((i + 1) % CLEAR_EVERY == 0 ? CLEAR : TURN) << 24);

    for (long round = 0; round < rounds; round++) {
        uint64_t done_before = counted[DONE];
        memset(memory, 0, sizeof memory);
        double start = seconds(CLOCK_MONOTONIC), started = seconds(CLOCK_PROCESS_CPUTIME_ID);
        uint64_t played = hub_play(program, sizeof program, settings, sizeof settings, memory, sizeof memory, calls,
                                   sizeof calls, answers, sizeof answers, sent, sizeof sent);
        used += seconds(CLOCK_PROCESS_CPUTIME_ID) - started;
        passed += seconds(CLOCK_MONOTONIC) - start;
        if (played != CALLS) {
            printf("hub_play: 0x%016llx\n", (unsigned long long)played);
            return 1;
        }
        for (size_t i = 0; i < CALLS; i++) {
            const uint8_t *answer = answers + 8 * i;
            if (answer[0] == CLEAR) {
                clears++;
                refused_clears += answer[1] != 0;
            } else if (answer[1] != 0) {
                refused_turns++;
            } else {
                steps++;
                counted[answer[2]]++;
            }
        }
        /* each core is done with a block and with a jump in turn, so the shared word is half of all "done" */
        uint64_t twice = 2 * (uint64_t)word_at(memory), done = counted[DONE] - done_before;
        if (twice < done || twice > done + CORES) {
            printf("shared word %u, done %llu\n", word_at(memory), (unsigned long long)done);
            return 1;
        }
    }

    printf("%llu steps of %d cores\n", (unsigned long long)steps, CORES);
    printf("  %.3f s of the processor: %.2f million steps a second\n", used, (double)steps / used / 1e6);
    printf("  %.3f s by the clock: %.2f million steps a second\n", passed, (double)steps / passed / 1e6);
    for (size_t i = 1; i < ANSWERS; i++)
        if (counted[i] != 0)
            printf("  %-12s%llu\n", names[i], (unsigned long long)counted[i]);
    printf("  %llu clears (%llu refused), %llu turns refused\n", (unsigned long long)clears,
           (unsigned long long)refused_clears, (unsigned long long)refused_turns);
    return 0;
}
