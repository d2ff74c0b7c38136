/* Renders a note list on a bank as a WAVE file: render BANK NOTES OUT. Each line of the list is START LENGTH BANK
 * PRESET KEY VELOCITY, as docs/NOTES.md explains. The file ends with the last note and voice. */
#include <sfbank.h>
#include <stdio.h>
#include <stdlib.h>
#include <string.h>

enum { LAST_FRAME = 100000000 };

typedef struct {
    unsigned start, length, bank, preset, key, velocity;
} note;

static void stop(const char *what, int32_t error) {
    if (error) fprintf(stderr, "render: %s: error %d\n", what, (int)error);
    else perror(what);
    exit(1);
}

static uint8_t *read_file(const char *path, size_t *length) {
    FILE *file = fopen(path, "rb");
    uint8_t *bytes = NULL;
    size_t room = 0;
    if (!file) stop(path, 0);
    for (*length = 0; !feof(file) && !ferror(file); *length += fread(bytes + *length, 1, room - *length, file))
        if (*length == room && !(bytes = realloc(bytes, room = 2 * room + 4096))) stop(path, SFBANK_OUT_OF_MEMORY);
    fclose(file);
    return bytes;
}

static bool is_note(note n) {
    bool ends = n.start <= LAST_FRAME && n.length <= LAST_FRAME - n.start;
    return ends && n.bank < 65536 && n.preset < 65536 && n.key < 128 && n.velocity < 128;
}

/* Reads the notes, sorted by start; notes that start together stay in order. */
static size_t read_notes(const char *path, note **notes) {
    FILE *file = fopen(path, "r");
    char line[256];
    size_t count = 0;
    if (!file) stop(path, 0);
    while (fgets(line, sizeof line, file)) {
        note n;
        line[strcspn(line, "#")] = 0;
        int fields = sscanf(line, "%u%u%u%u%u%u", &n.start, &n.length, &n.bank, &n.preset, &n.key, &n.velocity);
        if (fields < 0) continue;
        if (fields != 6 || !is_note(n)) stop(path, SFBANK_BAD_NOTE);
        if (!(*notes = realloc(*notes, (count + 1) * sizeof n))) stop(path, SFBANK_OUT_OF_MEMORY);
        size_t at = count++;
        for (; at && (*notes)[at - 1].start > n.start; at--) (*notes)[at] = (*notes)[at - 1];
        (*notes)[at] = n;
    }
    fclose(file);
    return count;
}

static void put(FILE *out, unsigned long value, int bytes) {
    for (; bytes--; value >>= 8) fputc(value & 255, out);
}

static void put_head(FILE *out, unsigned long frames) {
    fputs("RIFF", out), put(out, 36 + 4 * frames, 4), fputs("WAVEfmt ", out), put(out, 16, 4), put(out, 1, 2);
    put(out, 2, 2), put(out, 44100, 4), put(out, 176400, 4), put(out, 4, 2), put(out, 16, 2);
    fputs("data", out), put(out, 4 * frames, 4);
}

/* Plays frames in blocks of at most 64. */
static void play(sfbank_player *player, FILE *out, size_t frames) {
    int16_t values[128];
    while (frames) {
        size_t count = frames < 64 ? frames : 64;
        int32_t error = sfbank_block(player, values, 2 * count);
        if (error) stop("block", error);
        for (size_t i = 0; i < 2 * count; i++) put(out, (uint16_t)values[i], 2);
        frames -= count;
    }
}

int main(int words, char **word) {
    if (words != 4) return fputs("usage: render BANK NOTES OUT\n", stderr), 2;
    size_t length, frames = 0, end = 0, voices = 0;
    uint8_t *file = read_file(word[1], &length);
    note *notes = NULL;
    size_t count = read_notes(word[2], &notes);
    sfbank_bank bank = SFBANK_CLOSED;
    sfbank_player player = SFBANK_CLOSED;
    int32_t error = sfbank_open(file, length, &bank);
    if (error || (error = sfbank_player_open(&player))) stop(word[1], error);
    FILE *out = fopen(word[3], "wb");
    if (!out) stop(word[3], 0);
    put_head(out, 0);
    for (size_t i = 0; i < count; i++) {
        note n = notes[i];
        play(&player, out, n.start - frames);
        frames = n.start;
        if (end < n.start + n.length) end = n.start + n.length;
        error = sfbank_start(&player, &bank, (uint16_t)n.bank, (uint16_t)n.preset, (uint8_t)n.key, (uint8_t)n.velocity,
                             n.length);
        if (error) stop(word[2], error);
    }
    for (; frames < end || (!sfbank_voices(&player, &voices) && voices); frames++) play(&player, out, 1);
    rewind(out);
    put_head(out, frames);
    sfbank_player_close(&player);
    sfbank_close(&bank);
    free(notes), free(file);
    return fclose(out) ? 1 : 0;
}
