// SPDX-License-Identifier: GPL-2.0
/* A substream of the script: its card, its file, its pointers and its mapped buffer. */
#include <errno.h>
#include <fcntl.h>
#include <limits.h>
#include <stdlib.h>
#include <string.h>
#include <sys/ioctl.h>
#include "player.h"

#define NO_ANSWER (-1000)

struct substream substreams[SUBSTREAMS];
unsigned long long_max;
static int control;

int open_card_control(void)
{
	control = open("/dev/stepped_card", O_RDWR);
	return control < 0 ? errno : 0;
}

struct card_request ask_card(struct substream *substream, int operation, long number, long second,
			     void *data, size_t size)
{
	struct card_request request = {
		.operation = operation, .number = number, .second = second, .data = (unsigned long)data, .size = size,
	};

	if (substream) {
		request.device = substream->number;
		request.direction = substream->capture;
	}
	if (ioctl(control, CARD_IOCTL, &request) < 0)
		request.result = NO_ANSWER - errno;
	return request;
}

/* The error of a call, or 0. */
int call_kernel(struct substream *substream, unsigned long command, void *argument)
{
	return ioctl(substream->file, command, argument) < 0 ? errno : 0;
}

struct snd_pcm_sync_ptr page_of(struct substream *substream)
{
	struct snd_pcm_sync_ptr page;

	memset(&page, 0, sizeof(page));
	page.flags = SNDRV_PCM_SYNC_PTR_APPL | SNDRV_PCM_SYNC_PTR_AVAIL_MIN;
	call_kernel(substream, SNDRV_PCM_IOCTL_SYNC_PTR, &page);
	return page;
}

int state_of(struct substream *substream)
{
	return page_of(substream).s.status.state;
}

const char *state_name(struct substream *substream)
{
	static const char *const names[] = {
		"OPEN", "SETUP", "PREPARED", "RUNNING", "XRUN", "DRAINING", "PAUSED", "SUSPENDED", "DISCONNECTED",
	};

	return substream->file < 0 ? "CLOSED" : names[state_of(substream)];
}

/* The frames available between the pointers of a page, which does not tell them; none without a configuration. */
long available(struct substream *substream, struct snd_pcm_sync_ptr *page)
{
	long head = page->s.status.hw_ptr + (substream->capture ? 0 : substream->buffer);
	long frames = head - (long)page->c.control.appl_ptr;

	if (page->s.status.state == OPEN)
		return 0;
	if (frames < 0)
		return frames + substream->boundary;
	return frames >= (long)substream->boundary ? frames - (long)substream->boundary : frames;
}

void say_pointers(struct substream *substream, struct snd_pcm_sync_ptr *page)
{
	say("ptrs hw %lu appl %lu avail %ld", (unsigned long)page->s.status.hw_ptr,
	    (unsigned long)page->c.control.appl_ptr, available(substream, page));
}

/* hw_params. */

static void want_one(struct snd_pcm_hw_params *params, int which, unsigned int bit)
{
	struct snd_mask *mask = &params->masks[which - SNDRV_PCM_HW_PARAM_FIRST_MASK];

	memset(mask, 0, sizeof(*mask));
	mask->bits[bit / 32] = 1u << (bit % 32);
}

static void want_number(struct snd_pcm_hw_params *params, int which, const char *word)
{
	struct snd_interval *span = &params->intervals[which - SNDRV_PCM_HW_PARAM_FIRST_INTERVAL];
	unsigned long number = strtoul(word, NULL, 10);

	memset(span, 0, sizeof(*span));
	span->min = span->max = number > UINT_MAX ? UINT_MAX : number;
	span->integer = 1;
}

static void want_anything(struct snd_pcm_hw_params *params)
{
	int which;

	memset(params, 0, sizeof(*params));
	memset(params->masks, 0xff, sizeof(params->masks));
	for (which = SNDRV_PCM_HW_PARAM_FIRST_INTERVAL; which <= SNDRV_PCM_HW_PARAM_LAST_INTERVAL; which++)
		params->intervals[which - SNDRV_PCM_HW_PARAM_FIRST_INTERVAL].max = UINT_MAX;
	params->rmask = ~0u;
}

static unsigned int access_number(const char *word)
{
	if (!strcmp(word, "MMAP_INTERLEAVED"))
		return 0;
	if (!strcmp(word, "MMAP_NONINTERLEAVED"))
		return 1;
	return strcmp(word, "RW_INTERLEAVED") ? 4 : 3;
}

struct sample_format {
	const char *name;
	unsigned int number, width;
};

static const struct sample_format *format_named(const char *word)
{
	static const struct sample_format formats[] = {
		{ "S8", 0, 1 }, { "U8", 1, 1 }, { "S16_LE", 2, 2 }, { "S16_BE", 3, 2 },
		{ "S24_LE", 6, 4 }, { "S32_LE", 10, 4 }, { "S32_BE", 11, 4 }, { "S24_3LE", 32, 3 },
	};
	const struct sample_format *format = formats;

	while (strcmp(format->name, word))
		format++;
	return format;
}

/* The words are access, format, channels, rate, period and periods. */
int set_hardware(struct substream *substream, char **words)
{
	const struct sample_format *format = format_named(words[1]);
	unsigned int access = access_number(words[0]);
	struct snd_pcm_hw_params params;
	int error;

	want_anything(&params);
	want_one(&params, SNDRV_PCM_HW_PARAM_ACCESS, access);
	want_one(&params, SNDRV_PCM_HW_PARAM_FORMAT, format->number);
	want_number(&params, SNDRV_PCM_HW_PARAM_CHANNELS, words[2]);
	want_number(&params, SNDRV_PCM_HW_PARAM_RATE, words[3]);
	want_number(&params, SNDRV_PCM_HW_PARAM_PERIOD_SIZE, words[4]);
	want_number(&params, SNDRV_PCM_HW_PARAM_PERIODS, words[5]);
	error = call_kernel(substream, SNDRV_PCM_IOCTL_HW_PARAMS, &params);
	if (error)
		return error;
	ask_card(substream, CARD_TUNE, 0, 0, NULL, 0);
	substream->planar = access == 1 || access == 4;
	substream->channels = strtoul(words[2], NULL, 10);
	substream->width = format->width;
	substream->frame_bytes = format->width * substream->channels;
	substream->buffer = strtoul(words[4], NULL, 10) * strtoul(words[5], NULL, 10);
	substream->boundary = substream->buffer;
	while (substream->boundary * 2 <= long_max - substream->buffer)
		substream->boundary *= 2;
	return 0;
}

/* One frame between the mapped buffer and a place where its samples stand together. */
void copy_mapped(struct substream *substream, unsigned long slot, unsigned char *frame, int take)
{
	unsigned char *mapping = substream->mapping[substream->mappings - 1];
	unsigned long channel, width = substream->width;

	for (channel = 0; channel < substream->channels; channel++) {
		unsigned long sample = substream->planar ? channel * substream->buffer + slot
							 : slot * substream->channels + channel;

		if (take)
			memcpy(frame + channel * width, mapping + sample * width, width);
		else
			memcpy(mapping + sample * width, frame + channel * width, width);
	}
}
