/* sfbank: SoundFont 2 banks with undo and redo, and players, for C and C++. docs/LIBRARY.md explains the calls.
 *
 * The library is proved to do what its contracts state, provided that the caller keeps these rules:
 *  - A handle begins as SFBANK_CLOSED, or all zero bytes. Only these calls write it, and an open one is never copied.
 *  - A handle is in one call at a time, on any thread.
 *  - A buffer has the stated length, and nothing else reads or writes it during the call. Buffers, handles and the
 *    other results of one call don't overlap: left and right are two buffers.
 *  - The bytes of a file and of a pool stay where they are, unchanged, until each bank that borrows from them is
 *    closed, and each player on which a note of such a bank was started. (The contracts state it for all time. After
 *    these calls no handle points to the bytes, so they may be freed.)
 *  - malloc, realloc and free are one allocator. No call is made in a signal handler, or in the child of a fork of a
 *    process with threads.
 *
 * Calls marked [audio] don't allocate or wait: they may run on an audio thread. They free memory only for voices that
 * end, of samples that an edit extended, whose points are in several pieces. A bank that is written and opened again
 * has none.
 *
 * Each call returns SFBANK_OK or the number of an error, and an error changes nothing, except where a comment states
 * otherwise. */
#ifndef SFBANK_H
#define SFBANK_H

#include <stdbool.h>
#include <stddef.h>
#include <stdint.h>

#ifdef __cplusplus
extern "C" {
#endif

/* The version of this interface: calls and numbers are only added while it stays the same. */
#define SFBANK_ABI 1

/* A bank, and a player. */
typedef struct sfbank_bank {
    bool is_open;
    void *at;
} sfbank_bank;

typedef struct sfbank_player {
    bool is_open;
    void *at;
} sfbank_player;

#define SFBANK_CLOSED { false, NULL }

/* Errors. The numbers 1 to 18, 20 to 37, 39 to 43 and 48 are those of docs/FAULTS.md. */
enum {
    SFBANK_OK = 0,
    SFBANK_OUT_OF_MEMORY = 38,
    SFBANK_NOTHING_TO_UNDO = 39,
    SFBANK_NOTHING_TO_REDO = 40,
    SFBANK_NULL = 90,       /* a handle is null, or a pointer with a length above 0 */
    SFBANK_NOT_OPEN = 91,   /* a handle is closed */
    SFBANK_IN_USE = 92,     /* a handle to be opened is open */
    SFBANK_BAD_LENGTH = 93, /* the length of a buffer doesn't fit */
    SFBANK_BAD_NOTE = 94,   /* a note ends after frame 100,000,000, or its key or velocity is above 127 */
    SFBANK_BAD_LIST = 95,   /* a bank has no list with this number */
    SFBANK_NO_MEMBER = 96,  /* a list has no member with this number */
    SFBANK_BAD_POOL = 97    /* the bytes are not the pool of the script */
};

/* The lists of a bank, and the size of a name with its zero byte. */
enum { SFBANK_PRESETS = 0, SFBANK_INSTRUMENTS = 1, SFBANK_SAMPLES = 2 };
#define SFBANK_NAME_SIZE 21

/* The exported functions. A handle is passed with its count, 1, or 0 if it is null. */
uint32_t sfbank_abi_version(void);
int32_t sfbank_abi_open(const uint8_t *file, size_t length, sfbank_bank *bank, size_t banks);
int32_t sfbank_abi_count(sfbank_bank *bank, size_t banks, uint32_t list, size_t *count);
int32_t sfbank_abi_name(sfbank_bank *bank, size_t banks, uint32_t list, uint32_t number, uint8_t *name, size_t size);
int32_t sfbank_abi_preset(sfbank_bank *bank, size_t banks, uint32_t number, uint16_t *preset_bank, uint16_t *preset);
int32_t sfbank_abi_pool_size(const uint8_t *script, size_t length, size_t *size, uint64_t *line);
int32_t sfbank_abi_pool(const uint8_t *script, size_t length, uint8_t *pool, size_t size, uint64_t *line);
int32_t sfbank_abi_apply(sfbank_bank *bank, size_t banks, const uint8_t *script, size_t length, const uint8_t *pool,
                         size_t size, uint64_t *line);
int32_t sfbank_abi_undo(sfbank_bank *bank, size_t banks);
int32_t sfbank_abi_redo(sfbank_bank *bank, size_t banks);
int32_t sfbank_abi_file_size(sfbank_bank *bank, size_t banks, uint64_t *size);
int32_t sfbank_abi_file(sfbank_bank *bank, size_t banks, uint8_t *out, size_t size);
int32_t sfbank_abi_undo_size(sfbank_bank *bank, size_t banks, size_t *size);
int32_t sfbank_abi_undo_script(sfbank_bank *bank, size_t banks, uint8_t *out, size_t size);
int32_t sfbank_abi_close(sfbank_bank *bank, size_t banks);
int32_t sfbank_abi_player(sfbank_player *player, size_t players);
int32_t sfbank_abi_press(sfbank_player *player, size_t players, sfbank_bank *bank, size_t banks, uint16_t preset_bank,
                         uint16_t preset, uint8_t key, uint8_t velocity, uint64_t id);
int32_t sfbank_abi_start(sfbank_player *player, size_t players, sfbank_bank *bank, size_t banks, uint16_t preset_bank,
                         uint16_t preset, uint8_t key, uint8_t velocity, uint32_t length);
int32_t sfbank_abi_release(sfbank_player *player, size_t players, uint64_t id);
int32_t sfbank_abi_release_all(sfbank_player *player, size_t players);
int32_t sfbank_abi_stop(sfbank_player *player, size_t players);
int32_t sfbank_abi_voices(sfbank_player *player, size_t players, size_t *count);
int32_t sfbank_abi_block(sfbank_player *player, size_t players, int16_t *out, size_t values);
int32_t sfbank_abi_block_float(sfbank_player *player, size_t players, float *left, size_t left_frames, float *right,
                               size_t right_frames);
int32_t sfbank_abi_close_player(sfbank_player *player, size_t players);

/* ---- banks */

/* Opens the bank in a file, whose bytes the caller keeps. Errors: 1 to 18, the fault of the file; SFBANK_IN_USE,
 * SFBANK_OUT_OF_MEMORY, SFBANK_NULL. */
static inline int32_t sfbank_open(const uint8_t *file, size_t length, sfbank_bank *bank) {
    if (!file && length) return SFBANK_NULL;
    return sfbank_abi_open(file, length, bank, bank != NULL);
}

/* [audio] Counts the members of a list: SFBANK_PRESETS, SFBANK_INSTRUMENTS or SFBANK_SAMPLES. Errors: SFBANK_NOT_OPEN,
 * SFBANK_BAD_LIST, SFBANK_NULL. */
static inline int32_t sfbank_count(sfbank_bank *bank, uint32_t list, size_t *count) {
    if (!count) return SFBANK_NULL;
    return sfbank_abi_count(bank, bank != NULL, list, count);
}

/* [audio] Writes the name of a member, numbered from 0, with zero bytes after it. Errors: SFBANK_NOT_OPEN,
 * SFBANK_BAD_LIST, SFBANK_NO_MEMBER, SFBANK_NULL. */
static inline int32_t sfbank_name(sfbank_bank *bank, uint32_t list, uint32_t number, char name[SFBANK_NAME_SIZE]) {
    if (!name) return SFBANK_NULL;
    return sfbank_abi_name(bank, bank != NULL, list, number, (uint8_t *)name, SFBANK_NAME_SIZE);
}

/* [audio] Returns the bank and preset numbers of a preset, by which notes select it. Errors: SFBANK_NOT_OPEN,
 * SFBANK_NO_MEMBER, SFBANK_NULL. */
static inline int32_t sfbank_preset(sfbank_bank *bank, uint32_t number, uint16_t *preset_bank, uint16_t *preset) {
    if (!preset_bank || !preset) return SFBANK_NULL;
    return sfbank_abi_preset(bank, bank != NULL, number, preset_bank, preset);
}

/* Returns the size of the pool of a script, the bytes of its literals. `line`, counted from 1, is that of an error, or
 * 0. Errors: 43, a literal of that line is malformed; SFBANK_OUT_OF_MEMORY, SFBANK_NULL. */
static inline int32_t sfbank_pool_size(const char *script, size_t length, size_t *size, uint64_t *line) {
    if ((!script && length) || !size || !line) return SFBANK_NULL;
    return sfbank_abi_pool_size((const uint8_t *)script, length, size, line);
}

/* Writes the pool of a script to a buffer of its size. Errors as before, and SFBANK_BAD_LENGTH. */
static inline int32_t sfbank_pool(const char *script, size_t length, uint8_t *pool, size_t size, uint64_t *line) {
    if ((!script && length) || (!pool && size) || !line) return SFBANK_NULL;
    return sfbank_abi_pool((const uint8_t *)script, length, pool, size, line);
}

/* Runs a script, up to the first edit that is refused. The caller keeps its pool, not the script. Each line is an edit
 * that sfbank_undo undoes; a line `group { STEP } { STEP }` is one edit, done or refused as a whole. `line` is that of
 * an error, or 0; the edits of earlier lines are done. Errors: 20 to 37 or 48, the refusal of that line's edit; 41 to
 * 43, the fault of that line, and SFBANK_BAD_POOL, before any edit; SFBANK_OUT_OF_MEMORY, SFBANK_NOT_OPEN, SFBANK_NULL.
 */
static inline int32_t sfbank_apply(sfbank_bank *bank, const char *script, size_t length, const uint8_t *pool,
                                   size_t size, uint64_t *line) {
    if ((!script && length) || (!pool && size) || !line) return SFBANK_NULL;
    return sfbank_abi_apply(bank, bank != NULL, (const uint8_t *)script, length, pool, size, line);
}

/* Undoes the last edit. Errors: SFBANK_NOTHING_TO_UNDO, SFBANK_OUT_OF_MEMORY, SFBANK_NOT_OPEN, SFBANK_NULL. */
static inline int32_t sfbank_undo(sfbank_bank *bank) {
    return sfbank_abi_undo(bank, bank != NULL);
}

/* Redoes the edit that was undone last. Errors: SFBANK_NOTHING_TO_REDO, SFBANK_OUT_OF_MEMORY, SFBANK_NOT_OPEN,
 * SFBANK_NULL. */
static inline int32_t sfbank_redo(sfbank_bank *bank) {
    return sfbank_abi_redo(bank, bank != NULL);
}

/* Returns the size of the canonical file. Errors: SFBANK_NOT_OPEN, SFBANK_NULL. */
static inline int32_t sfbank_file_size(sfbank_bank *bank, uint64_t *size) {
    if (!size) return SFBANK_NULL;
    return sfbank_abi_file_size(bank, bank != NULL, size);
}

/* Writes the canonical file to a buffer of its size. Errors: SFBANK_BAD_LENGTH, SFBANK_OUT_OF_MEMORY, SFBANK_NOT_OPEN,
 * SFBANK_NULL. */
static inline int32_t sfbank_file(sfbank_bank *bank, uint8_t *out, size_t size) {
    if (!out && size) return SFBANK_NULL;
    return sfbank_abi_file(bank, bank != NULL, out, size);
}

/* Returns the size of the undo script. Errors: SFBANK_OUT_OF_MEMORY, SFBANK_NOT_OPEN, SFBANK_NULL. */
static inline int32_t sfbank_undo_size(sfbank_bank *bank, size_t *size) {
    if (!size) return SFBANK_NULL;
    return sfbank_abi_undo_size(bank, bank != NULL, size);
}

/* Writes the undo script, which undoes all edits, to a buffer of its size. Errors as of sfbank_file. */
static inline int32_t sfbank_undo_script(sfbank_bank *bank, char *out, size_t size) {
    if (!out && size) return SFBANK_NULL;
    return sfbank_abi_undo_script(bank, bank != NULL, (uint8_t *)out, size);
}

/* Closes a bank. Its notes play on. Errors: SFBANK_NOT_OPEN, SFBANK_NULL. */
static inline int32_t sfbank_close(sfbank_bank *bank) {
    return sfbank_abi_close(bank, bank != NULL);
}

/* ---- players */

/* Opens a player without voices. Errors: SFBANK_IN_USE, SFBANK_OUT_OF_MEMORY, SFBANK_NULL. */
static inline int32_t sfbank_player_open(sfbank_player *player) {
    return sfbank_abi_player(player, player != NULL);
}

/* Starts a note at the next frame, which lasts until the release of its id, but at most 100,000,000 frames. A bank
 * without the preset, or a preset without the key, starts no voice. Velocity 0 is the softest, not a release as in MIDI.
 * Errors: SFBANK_BAD_NOTE, SFBANK_OUT_OF_MEMORY, SFBANK_NOT_OPEN, SFBANK_NULL. */
static inline int32_t sfbank_press(sfbank_player *player, sfbank_bank *bank, uint16_t preset_bank, uint16_t preset,
                                   uint8_t key, uint8_t velocity, uint64_t id) {
    return sfbank_abi_press(player, player != NULL, bank, bank != NULL, preset_bank, preset, key, velocity, id);
}

/* Starts a note of a length in frames at the next frame. Errors as before. */
static inline int32_t sfbank_start(sfbank_player *player, sfbank_bank *bank, uint16_t preset_bank, uint16_t preset,
                                   uint8_t key, uint8_t velocity, uint32_t length) {
    return sfbank_abi_start(player, player != NULL, bank, bank != NULL, preset_bank, preset, key, velocity, length);
}

/* [audio] Releases the pressed notes with an id. Errors: SFBANK_NOT_OPEN, SFBANK_NULL. */
static inline int32_t sfbank_release(sfbank_player *player, uint64_t id) {
    return sfbank_abi_release(player, player != NULL, id);
}

/* [audio] Releases all pressed notes. Errors: SFBANK_NOT_OPEN, SFBANK_NULL. */
static inline int32_t sfbank_release_all(sfbank_player *player) {
    return sfbank_abi_release_all(player, player != NULL);
}

/* [audio] Ends all voices at once. Errors: SFBANK_NOT_OPEN, SFBANK_NULL. */
static inline int32_t sfbank_stop(sfbank_player *player) {
    return sfbank_abi_stop(player, player != NULL);
}

/* [audio] Counts the voices that sound at the next frame. Errors: SFBANK_NOT_OPEN, SFBANK_NULL. */
static inline int32_t sfbank_voices(sfbank_player *player, size_t *count) {
    if (!count) return SFBANK_NULL;
    return sfbank_abi_voices(player, player != NULL, count);
}

/* [audio] Plays the next frames, 44,100 a second: `values` 16-bit values, left and right in turn. Errors:
 * SFBANK_BAD_LENGTH for an odd number of values, SFBANK_NOT_OPEN, SFBANK_NULL. */
static inline int32_t sfbank_block(sfbank_player *player, int16_t *out, size_t values) {
    if (!out && values) return SFBANK_NULL;
    return sfbank_abi_block(player, player != NULL, out, values);
}

/* [audio] The same as floats, each exactly the 16-bit value divided by 32,768: `frames` to each buffer. Errors:
 * SFBANK_NOT_OPEN, SFBANK_NULL. */
static inline int32_t sfbank_block_float(sfbank_player *player, float *left, float *right, size_t frames) {
    if ((!left || !right) && frames) return SFBANK_NULL;
    return sfbank_abi_block_float(player, player != NULL, left, frames, right, frames);
}

/* Closes a player. Errors: SFBANK_NOT_OPEN, SFBANK_NULL. */
static inline int32_t sfbank_player_close(sfbank_player *player) {
    return sfbank_abi_close_player(player, player != NULL);
}

#ifdef __cplusplus
}
#endif

#endif
