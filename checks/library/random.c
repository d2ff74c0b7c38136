/* Random sequences of calls, with null and closed handles and lengths that don't fit: random BANK SEED COUNT. It checks
 * the errors that follow from which handles are open, and from lengths, and that a refused call changes no buffer. Its
 * buffers have exactly the passed lengths, for valgrind and AddressSanitizer. */
#include "files.h"

enum { BANKS = 2, PLAYERS = 2, POOLS = 64, CALLS = 24 };

static uint64_t state;
static sfbank_bank banks[BANKS];
static sfbank_player players[PLAYERS];
static uint8_t *pools[POOLS];
static size_t kept;
static const uint8_t *file;
static size_t file_length;

static uint32_t below(uint32_t n) {
    state ^= state << 13, state ^= state >> 7, state ^= state << 17;
    return (uint32_t)(state >> 32) % n;
}

static sfbank_bank *some_bank(void) {
    uint32_t at = below(2 * BANKS + 1);
    return at == 0 ? NULL : &banks[at % BANKS];
}

static sfbank_player *some_player(void) {
    uint32_t at = below(2 * PLAYERS + 1);
    return at == 0 ? NULL : &players[at % PLAYERS];
}

/* The error of a handle, or this one if it is open. */
static int32_t of_bank(const sfbank_bank *bank, int32_t error) {
    return !bank ? SFBANK_NULL : !bank->is_open ? SFBANK_NOT_OPEN : error;
}

static int32_t of_player(const sfbank_player *player, int32_t error) {
    return !player ? SFBANK_NULL : !player->is_open ? SFBANK_NOT_OPEN : error;
}

static void try_open(void) {
    sfbank_bank *bank = some_bank();
    int32_t wanted = !bank ? SFBANK_NULL : bank->is_open ? SFBANK_IN_USE : SFBANK_OK;
    if (below(3)) {
        CHECK(sfbank_open(file, file_length, bank) == wanted);
        return;
    }
    size_t length = below((uint32_t)file_length + 1);
    uint8_t *bytes = room(length);
    memcpy(bytes, file, length);
    for (uint32_t n = below(4); n && length; n--) bytes[below((uint32_t)length)] = (uint8_t)below(256);
    int32_t error = sfbank_open(bytes, length, bank);
    CHECK(wanted ? error == wanted : (error >= 0 && error <= 18));
    if (!error) sfbank_close(bank);
    free(bytes);
}

static void try_texts(void) {
    sfbank_bank *bank = some_bank();
    uint64_t size = 0;
    size_t undo = 0;
    CHECK(sfbank_file_size(bank, &size) == of_bank(bank, SFBANK_OK));
    CHECK(sfbank_undo_size(bank, &undo) == of_bank(bank, SFBANK_OK));
    size_t more = below(3) ? 0 : 1 + below(9);
    uint8_t *bytes = room(size + more), *text = room(undo + more);
    int32_t wanted = of_bank(bank, more ? SFBANK_BAD_LENGTH : SFBANK_OK);
    CHECK(sfbank_file(bank, bytes, size + more) == wanted);
    CHECK(sfbank_undo_script(bank, (char *)text, undo + more) == wanted);
    free(bytes), free(text);
}

static void try_members(void) {
    sfbank_bank *bank = some_bank();
    uint32_t list = below(4), number = below(6);
    size_t count = 0;
    char name[SFBANK_NAME_SIZE];
    uint16_t a, b;
    CHECK(sfbank_count(bank, list, &count) == of_bank(bank, list < 3 ? SFBANK_OK : SFBANK_BAD_LIST));
    int32_t wanted = list == 3 ? SFBANK_BAD_LIST : number < count ? SFBANK_OK : SFBANK_NO_MEMBER;
    CHECK(sfbank_name(bank, list, number, name) == of_bank(bank, wanted));
    if (list == SFBANK_PRESETS) CHECK(sfbank_preset(bank, number, &a, &b) == of_bank(bank, wanted));
    uint32_t size = below(40);
    uint8_t *other = room(size);
    CHECK(sfbank_abi_name(bank, bank != NULL, list, number, other, size)
          == of_bank(bank, wanted ? wanted : size == SFBANK_NAME_SIZE ? SFBANK_OK : SFBANK_BAD_LENGTH));
    free(other);
}

static void try_script(void) {
    static const char *const texts[] = {
        "rename-sample 0 \"Flute\"\n", "remove-preset 0\n",
        "set-gen inst 0 global 51 -12\n# a comment\n\nremove-inst 0\n", "add-preset 0 \"New\" 0 7 0 0 0 { 0 }\n",
        "group { remove-preset 0 } { remove-inst 0 } { remove-sample 9 }\n",
        "set-info ICMT \"a text\"\nset-info INAM x4142\n", "rename-sample 0\n", "rename-sample 0 \"no end\n", "",
    };
    sfbank_bank *bank = some_bank();
    const char *text = texts[below(sizeof texts / sizeof *texts)];
    size_t length = strlen(text), size = 0;
    uint64_t line = 7;
    char *script = (char *)room(length);
    memcpy(script, text, length);
    if (length && !below(4)) script[below((uint32_t)length)] = (char)(32 + below(95));
    int32_t error = sfbank_pool_size(script, length, &size, &line);
    CHECK(error == SFBANK_OK || error == 43);
    size_t more = below(4) ? 0 : 1 + below(3);
    uint8_t *pool = room(size + more);
    memset(pool, 7, size + more);
    if (!error) {
        if (!more) CHECK(sfbank_pool(script, length, pool, size, &line) == SFBANK_OK);
        else CHECK(sfbank_pool(script, length, pool, size + more, &line) == SFBANK_BAD_LENGTH);
    }
    int32_t wanted = of_bank(bank, error ? error : more ? SFBANK_BAD_POOL : SFBANK_OK);
    error = sfbank_apply(bank, script, length, pool, size + more, &line);
    CHECK(wanted ? error == wanted : error == SFBANK_OK || (error >= 20 && error <= 48));
    CHECK((error >= 20 && error <= 48) == (line > 0));
    free(script);
    if (kept < POOLS) pools[kept++] = pool;
}

static void try_history(void) {
    sfbank_bank *bank = some_bank();
    int32_t error = sfbank_undo(bank);
    CHECK(error == of_bank(bank, SFBANK_OK) || error == of_bank(bank, SFBANK_NOTHING_TO_UNDO));
    if (!error && below(2)) CHECK(sfbank_redo(bank) == SFBANK_OK);
    error = sfbank_redo(bank);
    CHECK(error == of_bank(bank, SFBANK_OK) || error == of_bank(bank, SFBANK_NOTHING_TO_REDO));
}

static void try_note(void) {
    sfbank_player *player = some_player();
    sfbank_bank *bank = some_bank();
    uint8_t key = (uint8_t)below(140), velocity = (uint8_t)below(140);
    uint32_t length = below(8) ? below(2000) : 100000000 + below(2);
    int32_t wanted = key > 127 || velocity > 127 ? SFBANK_BAD_NOTE : SFBANK_OK;
    uint16_t preset = below(5) ? 0 : (uint16_t)below(9);
    CHECK(sfbank_press(player, bank, 0, preset, key, velocity, below(3)) == of_player(player, of_bank(bank, wanted)));
    if (length > 100000000) wanted = SFBANK_BAD_NOTE;
    CHECK(sfbank_start(player, bank, 0, preset, key, velocity, length) == of_player(player, of_bank(bank, wanted)));
    if (!below(3)) CHECK(sfbank_release(player, below(3)) == of_player(player, SFBANK_OK));
}

static void try_block(void) {
    sfbank_player *player = some_player();
    size_t length = below(300), count = 7;
    int16_t *values = (int16_t *)room(2 * length);
    memset(values, 7, 2 * length);
    int32_t wanted = of_player(player, length % 2 ? SFBANK_BAD_LENGTH : SFBANK_OK);
    CHECK(sfbank_block(player, values, length) == wanted);
    for (size_t k = 0; wanted && k < length; k++) CHECK(values[k] == 0x0707);
    float *left = (float *)room(4 * length), *right = (float *)room(4 * length + 4);
    CHECK(sfbank_block_float(player, left, right, length) == of_player(player, SFBANK_OK));
    for (size_t k = 0; !of_player(player, SFBANK_OK) && k < length; k++) CHECK(left[k] >= -1 && right[k] < 1);
    CHECK(sfbank_abi_block_float(player, player != NULL, left, length, right, length + 1)
          == of_player(player, SFBANK_BAD_LENGTH));
    free(values), free(left), free(right);
    CHECK(sfbank_voices(player, &count) == of_player(player, SFBANK_OK));
    if (!below(6)) CHECK(sfbank_stop(player) == of_player(player, SFBANK_OK));
    if (!below(6)) CHECK(sfbank_release_all(player) == of_player(player, SFBANK_OK));
}

static void try_call(void) {
    sfbank_player *player = some_player();
    sfbank_bank *bank = some_bank();
    switch (below(12)) {
    case 0: case 1: try_open(); break;
    case 2: try_texts(); break;
    case 3: try_members(); break;
    case 4: case 5: try_script(); break;
    case 6: try_history(); break;
    case 7: case 8: try_note(); break;
    case 9: try_block(); break;
    case 10: {
        int32_t wanted = !player ? SFBANK_NULL : player->is_open ? SFBANK_IN_USE : SFBANK_OK;
        CHECK(sfbank_player_open(player) == wanted && (!player || player->is_open));
        break;
    }
    case 11: {
        int32_t wanted = of_bank(bank, SFBANK_OK), other = of_player(player, SFBANK_OK);
        if (below(3)) CHECK(sfbank_close(bank) == wanted && (!bank || !bank->is_open));
        else CHECK(sfbank_player_close(player) == other && (!player || !player->is_open));
        break;
    }
    }
}

int main(int words, char **word) {
    CHECK(words == 4);
    file = read_file(word[1], &file_length);
    for (int count = atoi(word[3]), seed = atoi(word[2]); count; count--, seed++) {
        state = 88172645463325252u ^ ((uint64_t)(uint32_t)seed << 20);
        for (int n = 0; n < CALLS; n++) try_call();
        for (int k = 0; k < BANKS; k++) sfbank_close(&banks[k]);
        for (int k = 0; k < PLAYERS; k++) sfbank_player_close(&players[k]);
        while (kept) free(pools[--kept]);
    }
    free((void *)file);
    return 0;
}
