// SPDX-License-Identifier: GPL-2.0
/*
 * The lines of a script as calls of the kernel, and what each answers.
 *
 * What no call of the kernel has is answered here: a client with a call in progress, a substream that is not there, the
 * refusals of an opening, a close and an munmap, of frames stored, loaded and given, of a fault plan's entry, of a write of
 * no whole frames by channels, and of a read of too many frames. A transfer in the wrong direction goes by read(2) and
 * write(2), since the requests for frames go by the substream's direction.
 */
#include <errno.h>
#include <fcntl.h>
#include <poll.h>
#include <stdio.h>
#include <stdlib.h>
#include <string.h>
#include <sys/mman.h>
#include <unistd.h>
#include "player.h"

#define MOST_WORDS 16
#define PLAN_LENGTH 64
#define GREATEST_MOVE (65536 * 32)

struct line {
	struct client *client;
	struct substream *substream;
	char **words;		/* those behind the names of client and substream */
};

static unsigned long number_in(const char *word)
{
	return strtoul(word, NULL, 10);
}

static int index_in(const char *name)
{
	return atoi(name + 1);
}

/* Opening and closing. */

static void line_open(struct line *line)
{
	struct substream *substream = line->substream;
	char path[32];

	if (substream->file >= 0) {
		say_error(EBUSY);
		return;
	}
	ask_card(substream, CARD_MODEL, substream->model, long_max, NULL, 0);
	snprintf(path, sizeof(path), "/dev/snd/pcmC0D%d%c", substream->number, substream->capture ? 'c' : 'p');
	substream->file = open(path, O_RDWR | O_NONBLOCK);
	substream->frame_bytes = 0;
	substream->mappings = 0;
	say_done(substream->file < 0 ? errno : 0);
}

static void line_close(struct line *line)
{
	struct substream *substream = line->substream;
	int linked = ask_card(substream, CARD_LINKED, 0, 0, NULL, 0).result;

	if (linked || substream->mappings || has_call_on(substream)) {
		say_error(EBUSY);
		return;
	}
	close(substream->file);
	substream->file = -1;
	say("ok");
}

/* Parameters. */

static void line_hw(struct line *line)
{
	say_done(set_hardware(line->substream, line->words));
}

static void line_sw(struct line *line)
{
	struct snd_pcm_sw_params params;

	memset(&params, 0, sizeof(params));
	params.period_step = 1;
	params.avail_min = number_in(line->words[0]);
	params.start_threshold = number_in(line->words[1]);
	params.stop_threshold = number_in(line->words[2]);
	params.silence_threshold = number_in(line->words[3]);
	params.silence_size = number_in(line->words[4]);
	say_done(call_kernel(line->substream, SNDRV_PCM_IOCTL_SW_PARAMS, &params));
}

/* Calls without an argument. */

static void line_hwfree(struct line *line)
{
	say_done(call_kernel(line->substream, SNDRV_PCM_IOCTL_HW_FREE, NULL));
}

static void line_prepare(struct line *line)
{
	say_done(call_kernel(line->substream, SNDRV_PCM_IOCTL_PREPARE, NULL));
}

static void line_start(struct line *line)
{
	say_done(call_kernel(line->substream, SNDRV_PCM_IOCTL_START, NULL));
}

static void line_drop(struct line *line)
{
	say_done(call_kernel(line->substream, SNDRV_PCM_IOCTL_DROP, NULL));
}

static void line_pause(struct line *line)
{
	say_done(call_kernel(line->substream, SNDRV_PCM_IOCTL_PAUSE, (void *)1L));
}

static void line_release(struct line *line)
{
	say_done(call_kernel(line->substream, SNDRV_PCM_IOCTL_PAUSE, (void *)0L));
}

static void line_resume(struct line *line)
{
	say_done(call_kernel(line->substream, SNDRV_PCM_IOCTL_RESUME, NULL));
}

static void line_xrun(struct line *line)
{
	say_done(call_kernel(line->substream, SNDRV_PCM_IOCTL_XRUN, NULL));
}

static void line_hwsync(struct line *line)
{
	say_done(call_kernel(line->substream, SNDRV_PCM_IOCTL_HWSYNC, NULL));
}

static void line_unlink(struct line *line)
{
	say_done(call_kernel(line->substream, SNDRV_PCM_IOCTL_UNLINK, NULL));
}

static void line_link(struct line *line)
{
	struct substream *second = &substreams[index_in(line->words[0])];

	if (!second->declared || second->file < 0)
		say_error(ENXIO);
	else
		say_done(call_kernel(line->substream, SNDRV_PCM_IOCTL_LINK, (void *)(long)second->file));
}

/* Transfers and drains. */

static void line_drain(struct line *line)
{
	int blocking = line->words[0][0] == 'b', file = line->substream->file, flags = fcntl(file, F_GETFL);

	line->client->substream = line->substream;
	line->client->drains = 1;
	fcntl(file, F_SETFL, blocking ? flags & ~O_NONBLOCK : flags | O_NONBLOCK);
	make_call(line->client, blocking);
}

static void wrong_direction(struct line *line, int writing)
{
	char byte = 0;
	int file = line->substream->file;
	long moved = writing ? write(file, &byte, 1) : read(file, &byte, 1);

	say_done(moved < 0 ? errno : 0);
}

/* The client's call, but for its data and whether it blocks. */
static void begin_transfer(struct line *line, int writing, int planar)
{
	struct client *client = line->client;

	free(client->data);
	client->data = NULL;
	client->substream = line->substream;
	client->drains = 0;
	client->writing = writing;
	client->planar = planar;
	client->frame_bytes = line->substream->frame_bytes;
	client->width = line->substream->width;
	client->channels = line->substream->channels;
}

static void transfer_frames(struct line *line, unsigned long frames, int opened_only)
{
	struct client *client = line->client;
	int blocking = line->words[0][0] == 'b';
	unsigned long channel;

	ask_card(line->substream, CARD_MODE, !blocking, 0, NULL, 0);
	client->frames = frames;
	memset(client->areas, 0, sizeof(client->areas));
	for (channel = 0; !opened_only && channel < client->channels; channel++)
		client->areas[channel] = client->data + channel * frames * client->width;
	client->by_channel = (struct snd_xfern){ .bufs = client->areas, .frames = frames };
	client->interleaved = (struct snd_xferi){ .buf = client->data, .frames = frames };
	if (client->planar)
		client->command = client->writing ? SNDRV_PCM_IOCTL_WRITEN_FRAMES : SNDRV_PCM_IOCTL_READN_FRAMES;
	else
		client->command = client->writing ? SNDRV_PCM_IOCTL_WRITEI_FRAMES : SNDRV_PCM_IOCTL_READI_FRAMES;
	make_call(client, blocking);
}

/* A write of bytes that are no whole frames: by write(2), which no call by channels is like. */
static void write_parts(struct line *line, size_t size)
{
	long moved;

	if (line->client->planar) {
		say_error(EINVAL);
		return;
	}
	moved = write(line->substream->file, line->client->data, size);
	say_done(moved < 0 ? errno : 0);
}

static void line_write(struct line *line, int planar)
{
	int opened_only = state_of(line->substream) == OPEN;
	size_t size;

	if (line->substream->capture) {
		wrong_direction(line, 1);
		return;
	}
	begin_transfer(line, 1, planar);
	line->client->data = malloc(strlen(line->words[1]) / 2 + 64);
	size = bytes_of_hex(line->words[1], line->client->data);
	if (!opened_only && size % line->substream->frame_bytes)
		write_parts(line, size);
	else
		transfer_frames(line, opened_only ? size : size / line->substream->frame_bytes, opened_only);
}

static void line_read(struct line *line, int planar)
{
	int opened_only = state_of(line->substream) == OPEN;
	unsigned long frames = number_in(line->words[1]);

	if (!line->substream->capture) {
		wrong_direction(line, 0);
		return;
	}
	if (!opened_only && frames > GREATEST_READ) {
		say_error(EINVAL);
		return;
	}
	begin_transfer(line, 0, planar);
	line->client->data = malloc(opened_only ? 64 : frames * line->substream->frame_bytes + 64);
	transfer_frames(line, frames, opened_only);
}

static void line_writei(struct line *line)
{
	line_write(line, 0);
}

static void line_writen(struct line *line)
{
	line_write(line, 1);
}

static void line_readi(struct line *line)
{
	line_read(line, 0);
}

static void line_readn(struct line *line)
{
	line_read(line, 1);
}

/* Pointers. */

static void seek(struct line *line, unsigned long command)
{
	snd_pcm_uframes_t frames = number_in(line->words[0]);
	int error = call_kernel(line->substream, command, &frames);

	if (error)
		say_error(error);
	else
		say("frames %lu", (unsigned long)frames);
}

static void line_rewind(struct line *line)
{
	seek(line, SNDRV_PCM_IOCTL_REWIND);
}

static void line_forward(struct line *line)
{
	seek(line, SNDRV_PCM_IOCTL_FORWARD);
}

static void line_delay(struct line *line)
{
	snd_pcm_sframes_t delay = 0;
	int error = call_kernel(line->substream, SNDRV_PCM_IOCTL_DELAY, &delay);

	if (error)
		say_error(error);
	else
		say("delay %ld", (long)delay);
}

static void line_status(struct line *line)
{
	struct snd_pcm_status status;
	int error;

	memset(&status, 0, sizeof(status));
	error = call_kernel(line->substream, SNDRV_PCM_IOCTL_STATUS, &status);
	if (error)
		say_error(error);
	else
		say("ptrs hw %lu appl %lu avail %lu", (unsigned long)status.hw_ptr, (unsigned long)status.appl_ptr,
		    (unsigned long)status.avail);
}

static void line_page(struct line *line)
{
	struct snd_pcm_sync_ptr page = page_of(line->substream);

	say_pointers(line->substream, &page);
}

static void line_sync(struct line *line)
{
	struct snd_pcm_sync_ptr page;
	int error;

	memset(&page, 0, sizeof(page));
	page.flags = SNDRV_PCM_SYNC_PTR_AVAIL_MIN;
	page.c.control.appl_ptr = number_in(line->words[0]);
	error = call_kernel(line->substream, SNDRV_PCM_IOCTL_SYNC_PTR, &page);
	if (error)
		say_error(error);
	else
		line_page(line);
}

static void line_poll(struct line *line)
{
	struct pollfd asked = { line->substream->file, POLLIN | POLLOUT, 0 };

	poll(&asked, 1, 0);
	if (asked.revents & POLLERR)
		say("poll error");
	else
		say("poll %s", asked.revents & (POLLIN | POLLOUT) ? "ready" : "none");
}

/* The mapped buffer. */

static void line_mmap(struct line *line)
{
	struct substream *substream = line->substream;
	size_t size = substream->frame_bytes ? substream->buffer * substream->frame_bytes : 4096;
	int protection = substream->capture ? PROT_READ : PROT_READ | PROT_WRITE;
	void *mapping = mmap(NULL, size, protection, MAP_SHARED, substream->file, 0);

	if (mapping == MAP_FAILED) {
		say_error(errno);
	} else if (substream->mappings == MOST_MAPPINGS) {
		say("NOTE too many mappings");
	} else {
		substream->mapping[substream->mappings++] = mapping;
		say("ok");
	}
}

static void line_munmap(struct line *line)
{
	struct substream *substream = line->substream;

	if (!substream->mappings) {
		say_error(EINVAL);
		return;
	}
	substream->mappings--;
	munmap(substream->mapping[substream->mappings], substream->buffer * substream->frame_bytes);
	say("ok");
}

static int outside(struct substream *substream, unsigned long offset, unsigned long count)
{
	return offset > substream->buffer || count > substream->buffer || offset + count > substream->buffer;
}

static void line_store(struct line *line)
{
	struct substream *substream = line->substream;
	unsigned long offset = number_in(line->words[0]), frame_bytes = substream->frame_bytes, place;
	unsigned char *frames = malloc(strlen(line->words[1]) / 2 + 64);
	size_t size = bytes_of_hex(line->words[1], frames);

	if (substream->capture || !substream->mappings || size % frame_bytes ||
	    outside(substream, offset, size / frame_bytes)) {
		say_error(EINVAL);
	} else {
		for (place = 0; place < size / frame_bytes; place++)
			copy_mapped(substream, offset + place, frames + place * frame_bytes, 0);
		say("frames %lu", (unsigned long)(size / frame_bytes));
	}
	free(frames);
}

static void line_load(struct line *line)
{
	struct substream *substream = line->substream;
	unsigned long offset = number_in(line->words[0]), count = number_in(line->words[1]), place;
	unsigned char *frames;

	if (!substream->mappings || outside(substream, offset, count)) {
		say_error(EINVAL);
		return;
	}
	frames = malloc(count * substream->frame_bytes + 64);
	for (place = 0; place < count; place++)
		copy_mapped(substream, offset + place, frames + place * substream->frame_bytes, 1);
	say("frames %lu ", count);
	say_hex(frames, count * substream->frame_bytes);
	free(frames);
}

/* Events of the card. */

static void line_suspend(struct line *line)
{
	struct card_request answer = ask_card(line->substream, CARD_SUSPEND, 0, 0, NULL, 0);

	if (answer.second != 1)
		say("NOTE suspend %lld ", (long long)answer.second);
	say_done(-answer.result);
}

static void line_move(struct line *line)
{
	static unsigned char taken[GREATEST_MOVE];
	struct card_request answer = ask_card(line->substream, CARD_MOVE, number_in(line->words[0]), 0, taken, 0);

	if (answer.result == CARD_IDLE) {
		say("idle");
	} else if (answer.result == CARD_LATE) {
		say("late %lld", (long long)answer.second);
	} else if (answer.result < 0) {
		say("NOTE move %lld", (long long)answer.result);
	} else {
		say("moved %lld", (long long)answer.result);
		if (!line->substream->capture) {
			say(" ");
			say_hex(taken, answer.size);
		}
	}
}

static void line_irq(struct line *line)
{
	ask_card(line->substream, CARD_IRQ, 0, 0, NULL, 0);
	say("ok");
}

static void line_fail(struct line *line)
{
	unsigned long entry = number_in(line->words[0]);

	if (entry < 1 || entry > PLAN_LENGTH) {
		say_error(EINVAL);
		return;
	}
	ask_card(line->substream, CARD_FAIL, entry, 0, NULL, 0);
	say("ok");
}

static void line_give(struct line *line)
{
	struct substream *substream = line->substream;
	unsigned char *frames = malloc(strlen(line->words[0]) / 2 + 64);
	size_t size = bytes_of_hex(line->words[0], frames);

	if (!substream->capture || state_of(substream) == OPEN || size % substream->frame_bytes) {
		say_error(EINVAL);
	} else {
		ask_card(substream, CARD_GIVE, 0, 0, frames, size);
		say("ok");
	}
	free(frames);
}

/* A line by its first word. */

static const struct form {
	const char *word;
	int by_card;		/* names a substream and no client */
	void (*act)(struct line *line);
} forms[] = {
	{ "open", 0, line_open }, { "close", 0, line_close }, { "hw", 0, line_hw }, { "hwfree", 0, line_hwfree },
	{ "sw", 0, line_sw }, { "prepare", 0, line_prepare }, { "start", 0, line_start }, { "drop", 0, line_drop },
	{ "pause", 0, line_pause }, { "release", 0, line_release }, { "suspend", 0, line_suspend },
	{ "resume", 0, line_resume }, { "xrun", 0, line_xrun }, { "drain", 0, line_drain },
	{ "writei", 0, line_writei }, { "writen", 0, line_writen }, { "readi", 0, line_readi },
	{ "readn", 0, line_readn }, { "rewind", 0, line_rewind }, { "forward", 0, line_forward },
	{ "hwsync", 0, line_hwsync }, { "delay", 0, line_delay }, { "status", 0, line_status },
	{ "page", 0, line_page }, { "sync", 0, line_sync }, { "poll", 0, line_poll }, { "mmap", 0, line_mmap },
	{ "munmap", 0, line_munmap }, { "store", 0, line_store }, { "load", 0, line_load }, { "link", 0, line_link },
	{ "unlink", 0, line_unlink }, { "move", 1, line_move }, { "irq", 1, line_irq }, { "fail", 1, line_fail },
	{ "give", 1, line_give },
};

static const struct form *form_of(const char *word)
{
	const struct form *form = forms;

	while (form < forms + sizeof(forms) / sizeof(*forms) && strcmp(form->word, word))
		form++;
	return form < forms + sizeof(forms) / sizeof(*forms) ? form : NULL;
}

/* The lines of a session: they have no substream that is called. */

static void line_long(char **words)
{
	unsigned long number = number_in(words[1]);
	int place, error = number < LEAST_LONG_MAX || number > GREATEST_LONG_MAX ? EINVAL : 0;

	for (place = 0; place < SUBSTREAMS; place++)
		if (substreams[place].declared)
			error = EBUSY;
	if (!error)
		long_max = number;
	say_done(error);
	say(" -");
}

static int model_number(const char *word)
{
	static const char *const names[] = { "basic", "duplex", "studio", "nopause", "noresume", "indirect" };
	int number = 0;

	while (strcmp(names[number], word))
		number++;
	return number;
}

static void line_card(char **words)
{
	struct substream *substream = &substreams[index_in(words[1])];

	if (substream->declared) {
		say("err EBUSY 16 %s", state_name(substream));
		return;
	}
	substream->declared = 1;
	substream->capture = words[3][0] == 'c';
	substream->model = model_number(words[2]);
	say("ok CLOSED");
}

static void line_go(char **words)
{
	struct client *client = &clients[index_in(words[1])];

	if (!client->busy) {
		say("err EINVAL 22 -");
		return;
	}
	go_on(client);
	say(" %s", state_name(client->substream));
}

static void play_call(const struct form *form, char **words)
{
	struct line line;

	line.client = form->by_card ? NULL : &clients[index_in(words[1])];
	line.substream = &substreams[index_in(words[form->by_card ? 1 : 2])];
	line.words = words + (form->by_card ? 2 : 3);
	if (line.client && line.client->busy)
		say("busy c%d", line.client->number);
	else if (!line.substream->declared || (line.substream->file < 0 && form->act != line_open))
		say("err ENXIO 6");
	else
		form->act(&line);
	say(" %s", state_name(line.substream));
}

static void play_words(char **words)
{
	const struct form *form = form_of(words[0]);

	if (!strcmp(words[0], "version"))
		say("ok -");
	else if (!strcmp(words[0], "long"))
		line_long(words);
	else if (!strcmp(words[0], "card"))
		line_card(words);
	else if (!strcmp(words[0], "go"))
		line_go(words);
	else if (form)
		play_call(form, words);
	else
		say("NOTE no such line: %s", words[0]);
}

void play_line(int number, char *line)
{
	char *words[MOST_WORDS + 1] = { NULL };
	int count = 0;

	while (line && count < MOST_WORDS) {
		words[count++] = line;
		line = strchr(line, ' ');
		if (line)
			*line++ = 0;
	}
	say("%d ", number);
	play_words(words);
	say_woken();
	say("\n");
	send_text();
}

/* A script. */

void begin_script(void)
{
	int number;

	for (number = 0; number < SUBSTREAMS; number++) {
		substreams[number].number = number;
		substreams[number].file = -1;
		substreams[number].declared = 0;
		substreams[number].mappings = 0;
		substreams[number].frame_bytes = 0;
	}
	long_max = DEFAULT_LONG_MAX;
}

static void say_end(struct substream *substream)
{
	struct snd_pcm_sync_ptr page;
	long long moved;

	if (substream->file < 0) {
		say("end s%d CLOSED hw 0 appl 0 moved 0\n", substream->number);
		return;
	}
	page = page_of(substream);
	moved = page.s.status.state == OPEN ? 0 : ask_card(substream, CARD_LINKED, 0, 0, NULL, 0).second;
	say("end s%d %s hw %lu appl %lu moved %lld\n", substream->number, state_name(substream),
	    (unsigned long)page.s.status.hw_ptr, (unsigned long)page.c.control.appl_ptr, moved);
}

static void close_substream(struct substream *substream)
{
	while (substream->mappings)
		munmap(substream->mapping[--substream->mappings], substream->buffer * substream->frame_bytes);
	if (substream->file >= 0)
		close(substream->file);
	substream->file = -1;
}

void end_script(void)
{
	int number;

	for (number = 0; number < SUBSTREAMS; number++)
		if (substreams[number].declared)
			say_end(&substreams[number]);
	end_calls();
	for (number = 0; number < SUBSTREAMS; number++)
		close_substream(&substreams[number]);
	send_text();
}
