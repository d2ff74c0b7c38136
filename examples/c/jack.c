/* Plays a bank by MIDI through JACK, at 44,100 frames a second: jack BANK. `jack_lsp` lists its ports, sfbank:keys,
 * sfbank:left and sfbank:right, and `jack_connect` connects them. It needs JACK:
 *     cc jack.c $(pkg-config --cflags --libs sfbank jack) -o jack
 * Notes begin at their frames. sfbank_press allocates, so blocks may be late where the allocator is slow. */
#include <jack/jack.h>
#include <jack/midiport.h>
#include <sfbank.h>
#include <stdio.h>
#include <stdlib.h>
#include <unistd.h>

static sfbank_bank bank = SFBANK_CLOSED;
static sfbank_player player = SFBANK_CLOSED;
static uint16_t selected[16], banks[16], presets[16];
static jack_port_t *keys, *left, *right;

static void stop(const char *what, int error) {
    if (error) fprintf(stderr, "jack: %s: error %d\n", what, error);
    else fprintf(stderr, "jack: %s\n", what);
    exit(1);
}

static void open_bank(const char *path) {
    static uint8_t file[1 << 28];
    FILE *in = fopen(path, "rb");
    if (!in) stop("the bank can't be read", 0);
    int32_t error = sfbank_open(file, fread(file, 1, sizeof file, in), &bank);
    if (error || (error = sfbank_player_open(&player))) stop(path, error);
    fclose(in);
}

/* Channel 10 has the drums, which are bank 128; on others controller 0 selects the bank of the next program. The id of a
 * note is its channel and key. */
static void handle(const jack_midi_event_t *event) {
    if (event->size < 2 || event->buffer[0] < 128) return;
    unsigned kind = event->buffer[0] >> 4, channel = event->buffer[0] & 15, key = event->buffer[1] & 127;
    unsigned value = event->size < 3 ? 0 : event->buffer[2] & 127;
    uint64_t id = 128 * channel + key;
    if (kind == 8 || kind == 9) sfbank_release(&player, id);
    if (kind == 9 && value)
        sfbank_press(&player, &bank, channel == 9 ? 128 : banks[channel], presets[channel], (uint8_t)key,
                     (uint8_t)value, id);
    if (kind == 12) banks[channel] = selected[channel], presets[channel] = (uint16_t)key;
    if (kind == 11 && key == 0) selected[channel] = (uint16_t)value;
    if (kind == 11 && key == 120) sfbank_stop(&player);
    if (kind == 11 && key == 123) sfbank_release_all(&player);
}

/* Plays the next frames of JACK's cycle, with each note at its frame. */
static int process(jack_nframes_t frames, void *unused) {
    (void)unused;
    void *events = jack_port_get_buffer(keys, frames);
    float *one = jack_port_get_buffer(left, frames), *other = jack_port_get_buffer(right, frames);
    jack_nframes_t done = 0;
    jack_midi_event_t event;
    for (uint32_t i = 0; !jack_midi_event_get(&event, events, i); i++) {
        if (sfbank_block_float(&player, one + done, other + done, event.time - done)) return 1;
        done = event.time;
        handle(&event);
    }
    return sfbank_block_float(&player, one + done, other + done, frames - done) != 0;
}

int main(int words, char **word) {
    if (words != 2) return fputs("usage: jack BANK\n", stderr), 2;
    open_bank(word[1]);
    jack_client_t *client = jack_client_open("sfbank", JackNoStartServer, NULL);
    if (!client) stop("no JACK server", 0);
    if (jack_get_sample_rate(client) != 44100) stop("the rate is not 44100", 0);
    keys = jack_port_register(client, "keys", JACK_DEFAULT_MIDI_TYPE, JackPortIsInput, 0);
    left = jack_port_register(client, "left", JACK_DEFAULT_AUDIO_TYPE, JackPortIsOutput, 0);
    right = jack_port_register(client, "right", JACK_DEFAULT_AUDIO_TYPE, JackPortIsOutput, 0);
    if (!keys || !left || !right || jack_set_process_callback(client, process, NULL) || jack_activate(client))
        stop("no ports", 0);
    for (;;) pause();
}
