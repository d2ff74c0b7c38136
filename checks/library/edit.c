/* Applies a script as the program does: edit BANK SCRIPT OUT UNDO. Then undoes all edits, compares the bank with the
 * first, redoes them, and compares it with the edited one. Prints the line and the number if the script stops. */
#include "files.h"

static uint8_t *whole_file(sfbank_bank *bank, size_t *size) {
    uint64_t length = 0;
    CHECK(sfbank_file_size(bank, &length) == SFBANK_OK);
    uint8_t *bytes = room(length);
    CHECK(sfbank_file(bank, bytes, length + 1) == SFBANK_BAD_LENGTH);
    CHECK(sfbank_file(bank, bytes, length) == SFBANK_OK);
    *size = length;
    return bytes;
}

static void same_file(sfbank_bank *bank, const uint8_t *bytes, size_t size) {
    size_t other;
    uint8_t *now = whole_file(bank, &other);
    CHECK(other == size && !memcmp(now, bytes, size));
    free(now);
}

int main(int words, char **word) {
    CHECK(words == 5);
    size_t length, script_length, pool_size, size, undo_size, edits = 0;
    uint64_t line;
    uint8_t *file = read_file(word[1], &length);
    char *script = (char *)read_file(word[2], &script_length);
    sfbank_bank bank = SFBANK_CLOSED;
    CHECK(sfbank_open(file, length, &bank) == SFBANK_OK);
    size_t first_size;
    uint8_t *first = whole_file(&bank, &first_size);
    int32_t error = sfbank_pool_size(script, script_length, &pool_size, &line);
    uint8_t *pool = error ? room(0) : room(pool_size);
    if (!error) {
        CHECK(sfbank_pool(script, script_length, pool, pool_size + 1, &line) == SFBANK_BAD_LENGTH);
        CHECK(sfbank_pool(script, script_length, pool, pool_size, &line) == SFBANK_OK);
        error = sfbank_apply(&bank, script, script_length, pool, pool_size, &line);
    }
    free(script);
    if (error) printf("%u %d\n", (unsigned)line, (int)error);
    CHECK(!error == !line);
    uint8_t *edited = whole_file(&bank, &size);
    write_file(word[3], edited, size);
    CHECK(sfbank_undo_size(&bank, &undo_size) == SFBANK_OK);
    char *undo = (char *)room(undo_size);
    CHECK(sfbank_undo_script(&bank, undo, undo_size + 1) == SFBANK_BAD_LENGTH);
    CHECK(sfbank_undo_script(&bank, undo, undo_size) == SFBANK_OK);
    write_file(word[4], (uint8_t *)undo, undo_size);
    while (!(error = sfbank_undo(&bank))) edits++;
    CHECK(error == SFBANK_NOTHING_TO_UNDO);
    same_file(&bank, first, first_size);
    for (; edits; edits--) CHECK(sfbank_redo(&bank) == SFBANK_OK);
    CHECK(sfbank_redo(&bank) == SFBANK_NOTHING_TO_REDO);
    same_file(&bank, edited, size);
    CHECK(sfbank_close(&bank) == SFBANK_OK);
    free(first), free(edited), free(undo), free(pool), free(file);
    return 0;
}
