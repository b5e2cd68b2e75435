// SPDX-License-Identifier: GPL-2.0
/*
 * The stepped card: sixteen PCM devices under the unchanged PCM core. A card moves when the player says so and not else,
 * so that no answer depends on time. It has the card models of the scripts, frames to give, a plan of failing triggers,
 * and refuses a late movement.
 *
 * Some fields of the core are set here, since no call reaches them: the boundary and the rate (CARD_TUNE), the flags of
 * the file (CARD_MODE), and the time of the last interrupt (CARD_IRQ).
 */
#include <linux/kprobes.h>
#include <linux/miscdevice.h>
#include <linux/module.h>
#include <linux/pid.h>
#include <linux/platform_device.h>
#include <linux/sched.h>
#include <linux/uaccess.h>
#include <linux/vmalloc.h>
#include <sound/core.h>
#include <sound/pcm.h>
#include <sound/pcm_params.h>
#include "stepped_card.h"

struct card_model {
	u64 formats;
	unsigned int channels, rate_min, rate_max, wide_rate, period_min, period_max, bytes;
	bool can_pause, can_resume;
};

#define BASIC_FORMATS (SNDRV_PCM_FMTBIT_U8 | SNDRV_PCM_FMTBIT_S16_LE)
#define STUDIO_FORMATS (SNDRV_PCM_FMTBIT_S16_LE | SNDRV_PCM_FMTBIT_S24_LE | \
			SNDRV_PCM_FMTBIT_S32_LE | SNDRV_PCM_FMTBIT_S24_3LE)
#define ALL_FORMATS (STUDIO_FORMATS | BASIC_FORMATS | SNDRV_PCM_FMTBIT_S8 | \
		     SNDRV_PCM_FMTBIT_S16_BE | SNDRV_PCM_FMTBIT_S32_BE)

/* The order is that of the player's names: basic, duplex, studio, nopause, noresume, indirect. */
static const struct card_model models[] = {
	{ BASIC_FORMATS, 2, 8000, 48000, 48000, 1, 8192, 65536, true, true },
	{ ALL_FORMATS, 8, 4000, 192000, 192000, 1, 32768, 2097152, true, true },
	{ STUDIO_FORMATS, 8, 44100, 192000, 96000, 16, 8192, 1048576, true, true },
	{ BASIC_FORMATS, 2, 8000, 48000, 48000, 1, 8192, 65536, false, true },
	{ BASIC_FORMATS, 2, 8000, 48000, 48000, 1, 8192, 65536, true, false },
	{ BASIC_FORMATS, 2, 8000, 48000, 48000, 1, 8192, 65536, true, true },
};

struct card_stream {
	struct snd_pcm_substream *substream;
	const struct card_model *model;
	s64 long_max;
	unsigned long position, moved;
	bool runs;
	u64 plan;		/* the lowest bit is the next trigger that consults it */
	u8 *give;		/* what a capture puts, of give_size bytes, of which `given` are put */
	size_t give_size, given;
};

static struct card_stream streams[CARD_DEVICES][2];
static struct snd_pcm *devices[CARD_DEVICES];
static struct platform_device *platform;

/* What the core's acts answer: a suspend tells its callers nothing. */

static atomic_t act_answer, act_count;

static int act_ended(struct kretprobe_instance *instance, struct pt_regs *regs)
{
	atomic_set(&act_answer, (int)regs_return_value(regs));
	atomic_inc(&act_count);
	return 0;
}

static struct kretprobe act_probe = {
	.kp.symbol_name = "snd_pcm_action",
	.handler = act_ended,
	.maxactive = 64,
};

/* The driver. */

static const struct snd_pcm_hardware wide_hardware = {
	.info = SNDRV_PCM_INFO_MMAP | SNDRV_PCM_INFO_MMAP_VALID |
		SNDRV_PCM_INFO_INTERLEAVED | SNDRV_PCM_INFO_NONINTERLEAVED,
	.formats = ALL_FORMATS,
	.rates = SNDRV_PCM_RATE_CONTINUOUS,
	.rate_min = 1, .rate_max = 1000000,
	.channels_min = 1, .channels_max = 16,
	.buffer_bytes_max = 1 << 25,
	.period_bytes_min = 1, .period_bytes_max = 1 << 24,
	.periods_min = 1, .periods_max = 1024,
};

static struct card_stream *stream_of(struct snd_pcm_substream *substream)
{
	return &streams[substream->pcm->device][substream->stream];
}

static void forget_frames(struct card_stream *stream)
{
	vfree(stream->give);
	stream->give = NULL;
	stream->give_size = stream->given = 0;
	stream->moved = 0;
}

static int card_open(struct snd_pcm_substream *substream)
{
	struct card_stream *stream = stream_of(substream);

	stream->substream = substream;
	stream->position = 0;
	stream->runs = false;
	stream->plan = 0;
	if (!stream->model)
		stream->model = models;
	forget_frames(stream);
	/* A day: a sleeping transfer is to be woken and not to time out. */
	substream->wait_time = 24 * 3600 * 1000;
	substream->runtime->hw = wide_hardware;
	if (stream->model->can_pause)
		substream->runtime->hw.info |= SNDRV_PCM_INFO_PAUSE;
	if (stream->model->can_resume)
		substream->runtime->hw.info |= SNDRV_PCM_INFO_RESUME;
	return 0;
}

static int card_close(struct snd_pcm_substream *substream)
{
	forget_frames(stream_of(substream));
	stream_of(substream)->substream = NULL;
	return 0;
}

static bool model_takes(const struct card_model *model, struct snd_pcm_hw_params *params)
{
	unsigned int channels = params_channels(params), rate = params_rate(params);
	unsigned int period = params_period_size(params);
	u64 buffer = (u64)period * params_periods(params);
	u64 bytes = buffer * channels * (snd_pcm_format_physical_width(params_format(params)) / 8);

	return model->formats & (1ULL << (__force int)params_format(params)) &&
	       channels >= 1 && channels <= model->channels &&
	       rate >= model->rate_min && rate <= model->rate_max &&
	       (rate <= model->wide_rate || channels <= 2) &&
	       period >= model->period_min && period <= model->period_max && bytes <= model->bytes;
}

static int card_hw_params(struct snd_pcm_substream *substream, struct snd_pcm_hw_params *params)
{
	struct card_stream *stream = stream_of(substream);
	unsigned int periods = params_periods(params);
	u64 buffer = (u64)params_period_size(params) * periods;

	if (periods < 2 || periods > 32 || buffer < 4 || buffer > 65536 || params_buffer_size(params) != buffer ||
	    stream->long_max < 4 * (s64)buffer || !model_takes(stream->model, params))
		return -EINVAL;
	forget_frames(stream);
	stream->position = 0;
	stream->runs = false;
	return 0;
}

static int card_hw_free(struct snd_pcm_substream *substream)
{
	forget_frames(stream_of(substream));
	stream_of(substream)->position = 0;
	stream_of(substream)->runs = false;
	return 0;
}

static int card_prepare(struct snd_pcm_substream *substream)
{
	stream_of(substream)->position = 0;
	return 0;
}

static snd_pcm_uframes_t card_pointer(struct snd_pcm_substream *substream)
{
	return stream_of(substream)->position;
}

static int card_trigger(struct snd_pcm_substream *substream, int command)
{
	struct card_stream *stream = stream_of(substream);
	bool starts = command == SNDRV_PCM_TRIGGER_START || command == SNDRV_PCM_TRIGGER_PAUSE_RELEASE ||
		      command == SNDRV_PCM_TRIGGER_RESUME;

	if (starts || command == SNDRV_PCM_TRIGGER_PAUSE_PUSH) {
		bool fails = stream->plan & 1;

		stream->plan >>= 1;
		if (fails)
			return -EIO;
	}
	stream->runs = starts;
	return 0;
}

static const struct snd_pcm_ops card_ops = {
	.open = card_open, .close = card_close, .hw_params = card_hw_params, .hw_free = card_hw_free,
	.prepare = card_prepare, .trigger = card_trigger, .pointer = card_pointer,
};

/* What the player asks of a card. */

static int ask_model(struct card_stream *stream, struct card_request *request)
{
	if (request->number < 0 || request->number >= ARRAY_SIZE(models))
		return -EINVAL;
	stream->model = &models[request->number];
	stream->long_max = request->second;
	return 0;
}

static int ask_tune(struct card_stream *stream, struct card_request *request)
{
	struct snd_pcm_runtime *runtime = stream->substream->runtime;
	unsigned long flags, boundary = runtime->buffer_size;

	while ((s64)(boundary * 2) <= stream->long_max - (s64)runtime->buffer_size)
		boundary *= 2;
	snd_pcm_stream_lock_irqsave(stream->substream, flags);
	runtime->boundary = boundary;
	runtime->rate = 1;
	snd_pcm_stream_unlock_irqrestore(stream->substream, flags);
	return 0;
}

static int ask_mode(struct card_stream *stream, struct card_request *request)
{
	unsigned long flags;

	snd_pcm_stream_lock_irqsave(stream->substream, flags);
	if (request->number)
		stream->substream->f_flags |= O_NONBLOCK;
	else
		stream->substream->f_flags &= ~O_NONBLOCK;
	snd_pcm_stream_unlock_irqrestore(stream->substream, flags);
	return 0;
}

/* One frame between the ring and a place where its samples stand together. */
static void copy_frame(struct snd_pcm_runtime *runtime, unsigned long slot, u8 *frame, bool take)
{
	size_t width = runtime->sample_bits / 8;
	bool planar = runtime->access == SNDRV_PCM_ACCESS_RW_NONINTERLEAVED ||
		      runtime->access == SNDRV_PCM_ACCESS_MMAP_NONINTERLEAVED;
	unsigned int channel;

	for (channel = 0; channel < runtime->channels; channel++) {
		size_t area = channel * (runtime->dma_bytes / runtime->channels) + slot * width;
		size_t mixed = (slot * runtime->channels + channel) * width;
		u8 *sample = runtime->dma_area + (planar ? area : mixed);

		if (take)
			memcpy(frame + channel * width, sample, width);
		else
			memcpy(sample, frame + channel * width, width);
	}
}

/* The next frames to give; zero frames are behind them. */
static void next_given(struct card_stream *stream, u8 *bytes, size_t wanted)
{
	size_t left = min(stream->give_size - stream->given, wanted);

	if (left)
		memcpy(bytes, stream->give + stream->given, left);
	stream->given += left;
}

/* Moves with the stream locked; answers how far, or why not. */
static s64 move_locked(struct card_stream *stream, struct card_request *request, u8 *bytes)
{
	struct snd_pcm_runtime *runtime = stream->substream->runtime;
	bool playback = stream->substream->stream == SNDRV_PCM_STREAM_PLAYBACK;
	unsigned long size = runtime->buffer_size, count = request->number, unseen, k;
	size_t frame_bytes = runtime->frame_bits / 8;

	if (!stream->runs)
		return CARD_IDLE;
	unseen = (stream->position + size - runtime->status->hw_ptr % size) % size;
	if (count >= size || unseen + count >= size) {
		request->second = size - 1 - unseen;
		return CARD_LATE;
	}
	if (!playback && bytes)
		next_given(stream, bytes, count * frame_bytes);
	for (k = 0; k < count; k++)
		copy_frame(runtime, (stream->position + k) % size, bytes + k * frame_bytes, playback);
	stream->position = (stream->position + count) % size;
	stream->moved += count;
	request->size = playback ? count * frame_bytes : 0;
	return count;
}

static int ask_move(struct card_stream *stream, struct card_request *request)
{
	struct snd_pcm_runtime *runtime = stream->substream->runtime;
	unsigned long flags;
	u8 *bytes = NULL;
	int error = 0;

	request->size = 0;
	if (request->number > 0 && request->number < runtime->buffer_size) {
		bytes = vzalloc(request->number * (runtime->frame_bits / 8));
		if (!bytes)
			return -ENOMEM;
	}
	snd_pcm_stream_lock_irqsave(stream->substream, flags);
	request->result = move_locked(stream, request, bytes);
	snd_pcm_stream_unlock_irqrestore(stream->substream, flags);
	if (request->size && copy_to_user(u64_to_user_ptr(request->data), bytes, request->size))
		error = -EFAULT;
	vfree(bytes);
	return error;
}

static int ask_irq(struct card_stream *stream, struct card_request *request)
{
	/* Not late: the core may else take it that a whole buffer was missed. */
	stream->substream->runtime->hw_ptr_jiffies = jiffies;
	snd_pcm_period_elapsed(stream->substream);
	return 0;
}

static int ask_fail(struct card_stream *stream, struct card_request *request)
{
	stream->plan |= 1ULL << (request->number - 1);
	return 0;
}

static int ask_give(struct card_stream *stream, struct card_request *request)
{
	u8 *bytes = NULL;

	if (request->size) {
		bytes = vmalloc(request->size);
		if (!bytes)
			return -ENOMEM;
		if (copy_from_user(bytes, u64_to_user_ptr(request->data), request->size)) {
			vfree(bytes);
			return -EFAULT;
		}
	}
	vfree(stream->give);
	stream->give = bytes;
	stream->give_size = request->size;
	stream->given = 0;
	return 0;
}

static int ask_suspend(struct card_stream *stream, struct card_request *request)
{
	atomic_set(&act_count, 0);
	atomic_set(&act_answer, 1);
	snd_pcm_suspend_all(devices[request->device]);
	request->result = atomic_read(&act_answer);
	request->second = atomic_read(&act_count);
	return 0;
}

static int ask_linked(struct card_stream *stream, struct card_request *request)
{
	request->result = snd_pcm_stream_linked(stream->substream);
	request->second = stream->moved;
	return 0;
}

static int ask_asleep(struct card_stream *stream, struct card_request *request)
{
	struct pid *pid = find_get_pid(request->number);
	struct task_struct *task = pid ? get_pid_task(pid, PIDTYPE_PID) : NULL;

	request->result = 1;
	if (task) {
		request->result = !task_is_running(task);
		put_task_struct(task);
	}
	put_pid(pid);
	return 0;
}

static int (*const asks[CARD_OPERATIONS])(struct card_stream *, struct card_request *) = {
	[CARD_MODEL] = ask_model, [CARD_TUNE] = ask_tune, [CARD_MODE] = ask_mode, [CARD_MOVE] = ask_move,
	[CARD_IRQ] = ask_irq, [CARD_FAIL] = ask_fail, [CARD_GIVE] = ask_give, [CARD_SUSPEND] = ask_suspend,
	[CARD_LINKED] = ask_linked, [CARD_ASLEEP] = ask_asleep,
};

static long control_ioctl(struct file *file, unsigned int command, unsigned long argument)
{
	struct card_request request;
	struct card_stream *stream;
	int error;

	if (command != CARD_IOCTL)
		return -ENOTTY;
	if (copy_from_user(&request, (void __user *)argument, sizeof(request)))
		return -EFAULT;
	if (request.device < 0 || request.device >= CARD_DEVICES || request.direction < 0 || request.direction > 1 ||
	    request.operation < 0 || request.operation >= CARD_OPERATIONS)
		return -EINVAL;
	stream = &streams[request.device][request.direction];
	if (!stream->substream && request.operation != CARD_MODEL && request.operation != CARD_ASLEEP)
		return -ENODEV;
	request.result = 0;
	error = asks[request.operation](stream, &request);
	if (error)
		return error;
	return copy_to_user((void __user *)argument, &request, sizeof(request)) ? -EFAULT : 0;
}

static const struct file_operations control_files = {
	.owner = THIS_MODULE, .unlocked_ioctl = control_ioctl,
};

static struct miscdevice control_device = {
	.minor = MISC_DYNAMIC_MINOR, .name = "stepped_card", .fops = &control_files,
};

/* The module. */

static int add_device(struct snd_card *card, int number)
{
	int error = snd_pcm_new(card, "stepped", number, 1, 1, &devices[number]);

	if (error < 0)
		return error;
	snd_pcm_set_ops(devices[number], SNDRV_PCM_STREAM_PLAYBACK, &card_ops);
	snd_pcm_set_ops(devices[number], SNDRV_PCM_STREAM_CAPTURE, &card_ops);
	strscpy(devices[number]->name, "stepped", sizeof(devices[number]->name));
	snd_pcm_set_managed_buffer_all(devices[number], SNDRV_DMA_TYPE_VMALLOC, NULL, 0, 0);
	return 0;
}

static int card_probe(struct platform_device *found)
{
	struct snd_card *card;
	int error, number;

	error = snd_devm_card_new(&found->dev, 0, "stepped", THIS_MODULE, 0, &card);
	if (error < 0)
		return error;
	strscpy(card->driver, "stepped", sizeof(card->driver));
	strscpy(card->shortname, "stepped", sizeof(card->shortname));
	strscpy(card->longname, "stepped card", sizeof(card->longname));
	for (number = 0; number < CARD_DEVICES; number++) {
		error = add_device(card, number);
		if (error < 0)
			return error;
	}
	return snd_card_register(card);
}

static struct platform_driver card_driver = {
	.probe = card_probe, .driver = { .name = "stepped_card" },
};

static int __init card_init(void)
{
	int error = platform_driver_register(&card_driver);

	if (error)
		return error;
	platform = platform_device_register_simple("stepped_card", -1, NULL, 0);
	if (IS_ERR(platform)) {
		platform_driver_unregister(&card_driver);
		return PTR_ERR(platform);
	}
	if (register_kretprobe(&act_probe))
		pr_warn("stepped_card: suspends will show no answer\n");
	return misc_register(&control_device);
}

module_init(card_init);
MODULE_DESCRIPTION("stepped PCM card that plays scripts");
MODULE_LICENSE("GPL");
