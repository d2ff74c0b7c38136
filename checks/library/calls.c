/* Each call with each of its errors, on examples/organ.sf2: calls BANK. */
#include "files.h"

static const char script[] = "rename-sample 0 \"Flute\"\n";

static void try_closed(void) {
    sfbank_bank bank = SFBANK_CLOSED;
    sfbank_player player = SFBANK_CLOSED;
    size_t count = 7;
    uint64_t size = 7, line = 7;
    uint16_t a = 7, b = 7;
    char name[SFBANK_NAME_SIZE] = "x";
    uint8_t byte = 7;
    int16_t values[2] = {7, 7};
    float left = 7, right = 7;
    for (int null = 0; null < 2; null++) {
        sfbank_bank *k = null ? NULL : &bank;
        sfbank_player *p = null ? NULL : &player;
        int32_t error = null ? SFBANK_NULL : SFBANK_NOT_OPEN;
        CHECK(sfbank_count(k, 0, &count) == error && sfbank_name(k, 0, 0, name) == error);
        CHECK(sfbank_preset(k, 0, &a, &b) == error && sfbank_undo(k) == error && sfbank_redo(k) == error);
        CHECK(sfbank_apply(k, script, sizeof script - 1, &byte, 1, &line) == error && line == 0);
        CHECK(sfbank_file_size(k, &size) == error && sfbank_file(k, &byte, 1) == error);
        CHECK(sfbank_undo_size(k, &count) == error && sfbank_undo_script(k, (char *)&byte, 1) == error);
        CHECK(sfbank_close(k) == error && sfbank_player_close(p) == error);
        CHECK(sfbank_press(p, k, 0, 0, 60, 100, 1) == error && sfbank_start(p, k, 0, 0, 60, 100, 9) == error);
        CHECK(sfbank_release(p, 1) == error && sfbank_release_all(p) == error && sfbank_stop(p) == error);
        CHECK(sfbank_voices(p, &count) == error && sfbank_block(p, values, 2) == error);
        CHECK(sfbank_block_float(p, &left, &right, 1) == error);
    }
    CHECK(count == 7 && size == 7 && a == 7 && b == 7 && byte == 7 && values[0] == 7 && left == 7 && right == 7);
    CHECK(name[0] == 'x' && !bank.is_open && !player.is_open);
    CHECK(sfbank_open(NULL, 1, &bank) == SFBANK_NULL && sfbank_open(NULL, 0, NULL) == SFBANK_NULL);
    CHECK(sfbank_open(NULL, 0, &bank) == 1 && sfbank_open((const uint8_t *)"RIFF", 4, &bank) == 3);
    CHECK(sfbank_player_open(NULL) == SFBANK_NULL);
}

static void try_bank(sfbank_bank *bank, const uint8_t *file, size_t length) {
    size_t count;
    uint16_t a = 7, b = 7;
    char name[SFBANK_NAME_SIZE];
    CHECK(sfbank_open(file, length, bank) == SFBANK_OK && bank->is_open);
    CHECK(sfbank_open(file, length, bank) == SFBANK_IN_USE);
    CHECK(sfbank_count(bank, SFBANK_PRESETS, &count) == SFBANK_OK && count == 1);
    CHECK(sfbank_count(bank, SFBANK_INSTRUMENTS, &count) == SFBANK_OK && count == 1);
    CHECK(sfbank_count(bank, SFBANK_SAMPLES, &count) == SFBANK_OK && count == 2);
    CHECK(sfbank_count(bank, 3, &count) == SFBANK_BAD_LIST && count == 2);
    CHECK(sfbank_count(bank, 0, NULL) == SFBANK_NULL && sfbank_name(bank, 0, 0, NULL) == SFBANK_NULL);
    CHECK(sfbank_name(bank, SFBANK_PRESETS, 0, name) == SFBANK_OK && !strcmp(name, "Organ"));
    CHECK(sfbank_name(bank, SFBANK_INSTRUMENTS, 0, name) == SFBANK_OK && strlen(name) < SFBANK_NAME_SIZE);
    CHECK(sfbank_name(bank, SFBANK_SAMPLES, 1, name) == SFBANK_OK);
    CHECK(sfbank_name(bank, SFBANK_SAMPLES, 2, name) == SFBANK_NO_MEMBER);
    CHECK(sfbank_name(bank, 3, 0, name) == SFBANK_BAD_LIST);
    CHECK(sfbank_abi_name(bank, 1, 0, 0, (uint8_t *)name, 20) == SFBANK_BAD_LENGTH);
    CHECK(sfbank_preset(bank, 0, &a, &b) == SFBANK_OK && a == 0 && b == 0);
    CHECK(sfbank_preset(bank, 1, &a, &b) == SFBANK_NO_MEMBER && sfbank_preset(bank, 0, NULL, &b) == SFBANK_NULL);
}

static void try_edits(sfbank_bank *bank, uint8_t *pool) {
    static const char bad[] = "\nrename-sample 0\n", refused[] = "rename-sample 0 \"Reed\"\nremove-sample 9\n";
    static const char broken[] = "rename-sample 0 \"\n";
    char name[SFBANK_NAME_SIZE];
    uint64_t line = 7;
    size_t size = 7;
    CHECK(sfbank_pool_size(script, sizeof script - 1, &size, &line) == SFBANK_OK && size == 5 && line == 0);
    CHECK(sfbank_pool(script, sizeof script - 1, pool, 4, &line) == SFBANK_BAD_LENGTH);
    CHECK(sfbank_pool(script, sizeof script - 1, pool, 5, &line) == SFBANK_OK && !memcmp(pool, "Flute", 5));
    CHECK(sfbank_pool_size(broken, sizeof broken - 1, &size, &line) == 43 && line == 1 && size == 5);
    CHECK(sfbank_pool(broken, sizeof broken - 1, pool, 5, &line) == 43 && line == 1);
    CHECK(sfbank_undo(bank) == SFBANK_NOTHING_TO_UNDO && sfbank_redo(bank) == SFBANK_NOTHING_TO_REDO);
    CHECK(sfbank_apply(bank, script, sizeof script - 1, pool, 4, &line) == SFBANK_BAD_POOL && line == 0);
    CHECK(sfbank_apply(bank, broken, sizeof broken - 1, pool, 5, &line) == 43 && line == 1);
    CHECK(sfbank_apply(bank, bad, sizeof bad - 1, NULL, 0, &line) == 41 && line == 2);
    CHECK(sfbank_apply(bank, script, sizeof script - 1, pool, 5, NULL) == SFBANK_NULL);
    CHECK(sfbank_apply(bank, script, sizeof script - 1, pool, 5, &line) == SFBANK_OK && line == 0);
    CHECK(sfbank_name(bank, SFBANK_SAMPLES, 0, name) == SFBANK_OK && !strcmp(name, "Flute"));
    CHECK(sfbank_apply(bank, refused, sizeof refused - 1, (const uint8_t *)"Reed", 4, &line) == 22 && line == 2);
    CHECK(sfbank_name(bank, SFBANK_SAMPLES, 0, name) == SFBANK_OK && !strcmp(name, "Reed"));
    CHECK(sfbank_undo(bank) == SFBANK_OK && sfbank_redo(bank) == SFBANK_OK && sfbank_undo(bank) == SFBANK_OK);
    CHECK(sfbank_name(bank, SFBANK_SAMPLES, 0, name) == SFBANK_OK && !strcmp(name, "Flute"));
}

static void try_notes(sfbank_bank *bank, sfbank_player *player) {
    size_t count = 7;
    int16_t values[400], again[400];
    float left[200], right[200];
    CHECK(sfbank_player_open(player) == SFBANK_OK && sfbank_player_open(player) == SFBANK_IN_USE);
    CHECK(sfbank_press(player, bank, 0, 0, 128, 100, 1) == SFBANK_BAD_NOTE);
    CHECK(sfbank_press(player, bank, 0, 0, 60, 128, 1) == SFBANK_BAD_NOTE);
    CHECK(sfbank_start(player, bank, 0, 0, 60, 100, 100000001) == SFBANK_BAD_NOTE);
    CHECK(sfbank_press(player, bank, 5, 5, 60, 100, 1) == SFBANK_OK);
    CHECK(sfbank_voices(player, &count) == SFBANK_OK && count == 0);
    CHECK(sfbank_press(player, NULL, 0, 0, 60, 100, 1) == SFBANK_NULL);
    for (int turn = 0; turn < 2; turn++) {
        CHECK(sfbank_press(player, bank, 0, 0, 60, 100, 1) == SFBANK_OK);
        CHECK(sfbank_start(player, bank, 0, 0, 67, 100, 50) == SFBANK_OK);
        CHECK(sfbank_voices(player, &count) == SFBANK_OK && count == 2);
        CHECK(sfbank_block(player, values, 3) == SFBANK_BAD_LENGTH && sfbank_block(player, NULL, 2) == SFBANK_NULL);
        CHECK(sfbank_block(player, NULL, 0) == SFBANK_OK && sfbank_block_float(player, NULL, NULL, 0) == SFBANK_OK);
        CHECK(sfbank_abi_block_float(player, 1, left, 2, right, 3) == SFBANK_BAD_LENGTH);
        if (turn) CHECK(sfbank_block_float(player, left, right, 200) == SFBANK_OK);
        else CHECK(sfbank_block(player, values, 400) == SFBANK_OK);
        CHECK(sfbank_release(player, 2) == SFBANK_OK && sfbank_voices(player, &count) == SFBANK_OK && count > 0);
        CHECK(sfbank_stop(player) == SFBANK_OK && sfbank_voices(player, &count) == SFBANK_OK && count == 0);
    }
    CHECK(values[100] != 0 || values[200] != 0);
    for (int k = 0; k < 200; k++) {
        CHECK(left[k] * 32768 == values[2 * k] && right[k] * 32768 == values[2 * k + 1]);
    }
    CHECK(sfbank_block(player, again, 400) == SFBANK_OK && again[0] == 0 && again[399] == 0);
}

/* Notes play on when their bank is closed; a release ends those with its id. */
static void try_release(sfbank_bank *bank, sfbank_player *player) {
    size_t count = 7;
    int16_t values[2];
    CHECK(sfbank_press(player, bank, 0, 0, 60, 100, 1) == SFBANK_OK);
    CHECK(sfbank_press(player, bank, 0, 0, 72, 100, 2) == SFBANK_OK);
    CHECK(sfbank_close(bank) == SFBANK_OK && !bank->is_open && sfbank_close(bank) == SFBANK_NOT_OPEN);
    CHECK(sfbank_press(player, bank, 0, 0, 60, 100, 1) == SFBANK_NOT_OPEN);
    CHECK(sfbank_release(player, 1) == SFBANK_OK);
    for (int k = 0; k < 400000; k++) CHECK(sfbank_block(player, values, 2) == SFBANK_OK);
    CHECK(sfbank_voices(player, &count) == SFBANK_OK && count == 1);
    CHECK(sfbank_release_all(player) == SFBANK_OK);
    for (int k = 0; k < 400000; k++) CHECK(sfbank_block(player, values, 2) == SFBANK_OK);
    CHECK(sfbank_voices(player, &count) == SFBANK_OK && count == 0);
    CHECK(sfbank_player_close(player) == SFBANK_OK && sfbank_player_close(player) == SFBANK_NOT_OPEN);
}

int main(int words, char **word) {
    CHECK(words == 2 && sfbank_abi_version() == SFBANK_ABI);
    size_t length;
    uint8_t *file = read_file(word[1], &length), *pool = room(5);
    sfbank_bank bank = SFBANK_CLOSED;
    sfbank_player player = SFBANK_CLOSED;
    try_closed();
    try_bank(&bank, file, length);
    try_edits(&bank, pool);
    try_notes(&bank, &player);
    try_release(&bank, &player);
    free(file), free(pool);
    return 0;
}
