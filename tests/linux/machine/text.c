// SPDX-License-Identifier: GPL-2.0
/* The text of transcripts. It is gathered, and sent to the debug port of the machine. */
#include <errno.h>
#include <stdarg.h>
#include <stdio.h>
#include <stdlib.h>
#include <sys/io.h>
#include "player.h"

#define DEBUG_PORT 0xe9
#define LONGEST_PIECE 512

static char *text;
static size_t text_length, text_room;

static void make_room(size_t more)
{
	if (text_length + more <= text_room)
		return;
	text_room = 2 * (text_length + more);
	text = realloc(text, text_room);
	if (!text)
		abort();
}

void say(const char *format, ...)
{
	va_list arguments;

	make_room(LONGEST_PIECE);
	va_start(arguments, format);
	text_length += vsnprintf(text + text_length, LONGEST_PIECE, format, arguments);
	va_end(arguments);
}

void say_hex(const unsigned char *bytes, size_t count)
{
	static const char digits[] = "0123456789abcdef";
	size_t place;

	make_room(2 * count + 1);
	if (count == 0)
		text[text_length++] = '-';
	for (place = 0; place < count; place++) {
		text[text_length++] = digits[bytes[place] >> 4];
		text[text_length++] = digits[bytes[place] & 15];
	}
}

static const char *error_name(int error)
{
	switch (error) {
	case EIO: return "EIO";
	case ENXIO: return "ENXIO";
	case EAGAIN: return "EAGAIN";
	case EBUSY: return "EBUSY";
	case EINVAL: return "EINVAL";
	case EPIPE: return "EPIPE";
	case ENOSYS: return "ENOSYS";
	case EBADFD: return "EBADFD";
	case ESTRPIPE: return "ESTRPIPE";
	case EALREADY: return "EALREADY";
	default: return "another";
	}
}

void say_error(int error)
{
	say("err %s %d", error_name(error), error);
}

void say_done(int error)
{
	if (error)
		say_error(error);
	else
		say("ok");
}

void send_text(void)
{
	outsb(DEBUG_PORT, text, text_length);
	text_length = 0;
}

static int digit_value(char digit)
{
	return digit <= '9' ? digit - '0' : digit - 'a' + 10;
}

/* The bytes of these digits, at a place that has room for them; answers how many. */
size_t bytes_of_hex(const char *digits, unsigned char *bytes)
{
	size_t count = 0;

	if (digits[0] == '-')
		return 0;
	for (; digits[0] && digits[1]; digits += 2)
		bytes[count++] = digit_value(digits[0]) << 4 | digit_value(digits[1]);
	return count;
}
