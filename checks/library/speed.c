/* Prints how many times as fast as they sound 64 voices are played in blocks of 64 frames: speed BANK. */
#define _POSIX_C_SOURCE 199309L
#include "files.h"
#include <time.h>

/* The seconds of the processor. */
static double now(void) {
    struct timespec t;
    clock_gettime(CLOCK_PROCESS_CPUTIME_ID, &t);
    return (double)t.tv_sec + (double)t.tv_nsec / 1e9;
}

int main(int words, char **word) {
    CHECK(words == 2);
    size_t length, voices;
    uint8_t *file = read_file(word[1], &length);
    sfbank_bank bank = SFBANK_CLOSED;
    sfbank_player player = SFBANK_CLOSED;
    int16_t values[128];
    double best = 0;
    CHECK(sfbank_open(file, length, &bank) == SFBANK_OK && sfbank_player_open(&player) == SFBANK_OK);
    for (uint8_t k = 0; k < 64; k++) CHECK(sfbank_press(&player, &bank, 0, 0, (uint8_t)(30 + k), 100, k) == SFBANK_OK);
    CHECK(sfbank_voices(&player, &voices) == SFBANK_OK && voices == 64);
    for (int turn = 0; turn < 20; turn++) {
        double start = now();
        for (int n = 0; n < 2000; n++) CHECK(sfbank_block(&player, values, 128) == SFBANK_OK);
        double factor = 2000 * 64 / 44100.0 / (now() - start);
        if (factor > best) best = factor;
    }
    CHECK(sfbank_voices(&player, &voices) == SFBANK_OK && voices == 64);
    CHECK(sfbank_player_close(&player) == SFBANK_OK && sfbank_close(&bank) == SFBANK_OK);
    free(file);
    printf("%.0f\n", best);
    return 0;
}
