/* SPDX-License-Identifier: GPL-2.0 */
/* The parts of the player: text of transcripts, the substreams and clients of a script, and its lines. */
#ifndef PLAYER_H
#define PLAYER_H

#include <pthread.h>
#include <stddef.h>
#include <sound/asound.h>
#include "stepped_card.h"

#define SUBSTREAMS CARD_DEVICES
#define CLIENTS 16
#define MOST_MAPPINGS 4096
#define MOST_CHANNELS 16
#define GREATEST_READ 1048576UL
#define DEFAULT_LONG_MAX 2147483647UL
#define LEAST_LONG_MAX 15UL
#define GREATEST_LONG_MAX ((1UL << 36) - 1)

/* The states as the kernel numbers them. */
enum state { OPEN, SETUP, PREPARED, RUNNING, XRUN, DRAINING, PAUSED, SUSPENDED };

struct substream {
	int number, declared, model, capture, file;	/* file: -1 where it is closed */
	int planar, mappings;
	unsigned long channels, width, frame_bytes, buffer, boundary;
	void *mapping[MOST_MAPPINGS];
};

/* A client; `job` and `done` are futexes between the script's thread and the client's. */
struct client {
	pthread_t thread;
	int number, thread_number;
	volatile int job, done;
	int busy, awake;		/* has a call in progress; that was woken */
	struct substream *substream;
	int drains, writing, planar, error;
	unsigned long command, frames, frame_bytes, width, channels;
	struct snd_xferi interleaved;
	struct snd_xfern by_channel;
	void *areas[MOST_CHANNELS];
	unsigned char *data;
};

extern struct substream substreams[SUBSTREAMS];
extern struct client clients[CLIENTS];
extern unsigned long long_max;

/* text.c */
void say(const char *format, ...) __attribute__((format(printf, 1, 2)));
void say_hex(const unsigned char *bytes, size_t count);
void say_error(int error);
void say_done(int error);
void send_text(void);
size_t bytes_of_hex(const char *digits, unsigned char *bytes);

/* substream.c */
int open_card_control(void);
struct card_request ask_card(struct substream *substream, int operation, long number, long second,
			     void *data, size_t size);
int call_kernel(struct substream *substream, unsigned long command, void *argument);
struct snd_pcm_sync_ptr page_of(struct substream *substream);
int state_of(struct substream *substream);
const char *state_name(struct substream *substream);
long available(struct substream *substream, struct snd_pcm_sync_ptr *page);
void say_pointers(struct substream *substream, struct snd_pcm_sync_ptr *page);
int set_hardware(struct substream *substream, char **words);
void copy_mapped(struct substream *substream, unsigned long slot, unsigned char *frame, int take);

/* client.c */
void start_clients(void);
void set_priority(int thread_number, int priority);
void make_call(struct client *client, int blocking);
void go_on(struct client *client);
int has_call_on(struct substream *substream);
void say_woken(void);
void end_calls(void);

/* lines.c */
void play_line(int number, char *line);
void begin_script(void);
void end_script(void);

#endif
