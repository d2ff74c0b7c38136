/* Plays a bank by MIDI: keys BANK [CLIENT:PORT]. `aconnect -l` lists the ports. It needs ALSA:
 *     cc keys.c $(pkg-config --cflags --libs sfbank alsa) -o keys
 * One thread does all: sfbank_press allocates, so blocks may be late where the allocator is slow. */
#include <alsa/asoundlib.h>
#include <sfbank.h>
#include <stdio.h>
#include <stdlib.h>

enum { FRAMES = 64, LATENCY = 10000 /* microseconds */ };

static sfbank_bank bank = SFBANK_CLOSED;
static sfbank_player player = SFBANK_CLOSED;
static uint16_t selected[16], banks[16], presets[16];

static void stop(const char *what, const char *why) {
    fprintf(stderr, "keys: %s: %s\n", what, why);
    exit(1);
}

static void check(const char *what, long status) {
    if (status < 0) stop(what, snd_strerror((int)status));
}

static void open_bank(const char *path) {
    static uint8_t file[1 << 28];
    FILE *in = fopen(path, "rb");
    if (!in) stop(path, "it can't be read");
    int32_t error = sfbank_open(file, fread(file, 1, sizeof file, in), &bank);
    char number[16];
    snprintf(number, sizeof number, "error %d", (int)error);
    if (error || sfbank_player_open(&player)) stop(path, number);
    fclose(in);
}

static snd_seq_t *open_input(const char *port) {
    snd_seq_t *input;
    snd_seq_addr_t address;
    check("sequencer", snd_seq_open(&input, "default", SND_SEQ_OPEN_INPUT, SND_SEQ_NONBLOCK));
    snd_seq_set_client_name(input, "sfbank");
    int own = snd_seq_create_simple_port(input, "keys", SND_SEQ_PORT_CAP_WRITE | SND_SEQ_PORT_CAP_SUBS_WRITE,
                                         SND_SEQ_PORT_TYPE_MIDI_GENERIC | SND_SEQ_PORT_TYPE_SYNTHESIZER);
    check("port", own);
    if (port) check(port, snd_seq_parse_address(input, &address, port));
    if (port) check(port, snd_seq_connect_from(input, own, address.client, address.port));
    return input;
}

/* Channel 10 has the drums, which are bank 128; on others controller 0 selects the bank of the next program. The id of a
 * note is its channel and key. */
static void handle(const snd_seq_event_t *event) {
    unsigned channel = event->data.note.channel & 15, key = event->data.note.note & 127;
    uint64_t id = 128 * channel + key;
    switch (event->type) {
    case SND_SEQ_EVENT_NOTEON:
        sfbank_release(&player, id);
        if (event->data.note.velocity)
            sfbank_press(&player, &bank, channel == 9 ? 128 : banks[channel], presets[channel], (uint8_t)key,
                         event->data.note.velocity & 127, id);
        break;
    case SND_SEQ_EVENT_NOTEOFF:
        sfbank_release(&player, id);
        break;
    case SND_SEQ_EVENT_PGMCHANGE:
        channel = event->data.control.channel & 15;
        banks[channel] = selected[channel];
        presets[channel] = (uint16_t)event->data.control.value;
        break;
    case SND_SEQ_EVENT_CONTROLLER:
        if (event->data.control.param == 0)
            selected[event->data.control.channel & 15] = (uint16_t)event->data.control.value;
        if (event->data.control.param == 120) sfbank_stop(&player);
        if (event->data.control.param == 123) sfbank_release_all(&player);
        break;
    default:
        break;
    }
}

int main(int words, char **word) {
    if (words != 2 && words != 3) return fputs("usage: keys BANK [CLIENT:PORT]\n", stderr), 2;
    open_bank(word[1]);
    snd_seq_t *input = open_input(word[2]);
    snd_pcm_t *output;
    check("sound", snd_pcm_open(&output, "default", SND_PCM_STREAM_PLAYBACK, 0));
    check("sound", snd_pcm_set_params(output, SND_PCM_FORMAT_S16, SND_PCM_ACCESS_RW_INTERLEAVED, 2, 44100, 1, LATENCY));
    for (;;) {
        snd_seq_event_t *event;
        while (snd_seq_event_input(input, &event) >= 0) handle(event);
        int16_t values[2 * FRAMES];
        if (sfbank_block(&player, values, 2 * FRAMES)) return 1;
        snd_pcm_sframes_t done = snd_pcm_writei(output, values, FRAMES);
        if (done < 0) check("sound", snd_pcm_recover(output, (int)done, 1));
    }
}
