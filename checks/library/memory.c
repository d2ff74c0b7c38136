/* With the shim in place of the allocator: no call for an audio thread allocates, and none frees but for samples in
 * several pieces; each allocation of the other calls fails in turn: memory BANK. A failed call must change nothing, and
 * succeed when it is repeated. */
#include "files.h"

unsigned long shim_calls(void);
unsigned long shim_frees(void);
void shim_fail(unsigned long number);
int shim_failed(void);

static const char script[] =
    "rename-sample 0 \"Flute\"\nset-gen inst 0 global 51 -12\nadd-preset 1 \"New\" 0 7 0 0 0 { 0 }\n";
static uint8_t *file, *pool, *before, *after;
static size_t file_length, pool_size;
static sfbank_bank bank = SFBANK_CLOSED;
static sfbank_player player = SFBANK_CLOSED;

static size_t written(uint8_t **bytes) {
    uint64_t size;
    CHECK(sfbank_file_size(&bank, &size) == SFBANK_OK);
    *bytes = room(size);
    CHECK(sfbank_file(&bank, *bytes, size) == SFBANK_OK);
    return size;
}

/* Makes a call, with each allocation failing in turn, until it succeeds. `keeps`: a failed call keeps the bank. */
#define WITH_FAILURES(keeps, call) do { \
    size_t size = bank.is_open ? written(&before) : 0; \
    size_t voices = 0, later = 0; \
    for (unsigned long n = 1;; n++) { \
        if (player.is_open) CHECK(sfbank_voices(&player, &voices) == SFBANK_OK); \
        shim_fail(n); \
        int32_t error = (call); \
        int failed = shim_failed(); \
        shim_fail(0); \
        if (!failed) { CHECK(error == SFBANK_OK); tries += n; break; } \
        if (!error) { tries += n; break; } \
        CHECK(error == SFBANK_OUT_OF_MEMORY); \
        if (player.is_open) CHECK(sfbank_voices(&player, &later) == SFBANK_OK && later == voices); \
        if (size && keeps) { CHECK(written(&after) == size && !memcmp(before, after, size)); free(after); } \
    } \
    if (size) free(before); \
} while (0)

/* A call that neither allocates nor frees. */
#define AUDIO(call) do { \
    unsigned long seen = shim_calls(); \
    CHECK((call) == SFBANK_OK); \
    CHECK(shim_calls() == seen); \
} while (0)

/* Voices of a sample in several pieces own memory, which a block frees as they end. It allocates nothing. */
static void try_pieces(void) {
    static const char text[] = "extend 0 x0100 x0200\nextend 1 x0100 x0200\n";
    static const uint8_t points[] = {1, 0, 2, 0, 1, 0, 2, 0};
    static int16_t values[2048];
    uint64_t line;
    size_t voices = 2;
    CHECK(sfbank_apply(&bank, text, sizeof text - 1, points, sizeof points, &line) == SFBANK_OK);
    CHECK(sfbank_start(&player, &bank, 0, 0, 50, 100, 100) == SFBANK_OK);
    CHECK(sfbank_start(&player, &bank, 0, 0, 70, 100, 100) == SFBANK_OK);
    unsigned long seen = shim_calls(), freed = shim_frees();
    for (int n = 0; n < 100; n++) CHECK(sfbank_block(&player, values, 2048) == SFBANK_OK);
    CHECK(shim_frees() > freed && shim_calls() - seen == shim_frees() - freed);
    CHECK(sfbank_voices(&player, &voices) == SFBANK_OK && voices == 0);
}

static void undo_all(void) {
    while (sfbank_undo(&bank) == SFBANK_OK) {}
}

int main(int words, char **word) {
    CHECK(words == 2);
    unsigned long tries = 0, seen = shim_calls();
    file = read_file(word[1], &file_length);
    CHECK(shim_calls() > seen);
    uint64_t line, size;
    size_t count;
    WITH_FAILURES(0, sfbank_open(file, file_length, &bank));
    WITH_FAILURES(0, sfbank_player_open(&player));
    WITH_FAILURES(1, sfbank_pool_size(script, sizeof script - 1, &pool_size, &line));
    pool = room(pool_size);
    WITH_FAILURES(1, sfbank_pool(script, sizeof script - 1, pool, pool_size, &line));
    WITH_FAILURES(0, (undo_all(), sfbank_apply(&bank, script, sizeof script - 1, pool, pool_size, &line)));
    WITH_FAILURES(1, sfbank_undo(&bank));
    WITH_FAILURES(1, sfbank_redo(&bank));
    WITH_FAILURES(1, sfbank_undo_size(&bank, &count));
    char *undo = (char *)room(count);
    WITH_FAILURES(1, sfbank_undo_script(&bank, undo, count));
    CHECK(sfbank_file_size(&bank, &size) == SFBANK_OK);
    uint8_t *out = room(size);
    WITH_FAILURES(1, sfbank_file(&bank, out, size));
    static int16_t values[4096];
    static float left[2048], right[2048];
    for (int turn = 0; turn < 40; turn++) {
        WITH_FAILURES(1, sfbank_press(&player, &bank, 0, 0, (uint8_t)(40 + turn), 100, (uint64_t)turn));
        WITH_FAILURES(1, sfbank_start(&player, &bank, 0, 0, (uint8_t)(80 - turn), 100, 5000));
        for (size_t frames = 0; frames <= 2048; frames = 2 * frames + 1) {
            AUDIO(sfbank_block(&player, values, 2 * frames));
            AUDIO(sfbank_block_float(&player, left, right, frames));
        }
        AUDIO(sfbank_voices(&player, &count));
        AUDIO(sfbank_release(&player, (uint64_t)(turn / 2)));
        if (turn == 20) AUDIO(sfbank_release_all(&player));
    }
    AUDIO(sfbank_stop(&player));
    char name[SFBANK_NAME_SIZE];
    uint16_t preset_bank, preset;
    AUDIO(sfbank_count(&bank, SFBANK_SAMPLES, &count));
    AUDIO(sfbank_name(&bank, SFBANK_SAMPLES, 0, name));
    AUDIO(sfbank_preset(&bank, 0, &preset_bank, &preset));
    try_pieces();
    CHECK(sfbank_player_close(&player) == SFBANK_OK && sfbank_close(&bank) == SFBANK_OK);
    free(file), free(pool), free(undo), free(out);
    printf("%lu\n", tries);
    return 0;
}
