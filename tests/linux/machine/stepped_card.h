/* SPDX-License-Identifier: GPL-2.0 */
/* The control interface of the stepped card, shared by the module and the player. */
#ifndef STEPPED_CARD_H
#define STEPPED_CARD_H

#include <linux/ioctl.h>
#include <linux/types.h>

#define CARD_DEVICES 16	/* device j is substream sj of a script; it has one stream of each direction */

enum card_operation {
	CARD_MODEL,	/* before an opening: number is the card model, second is LONG_MAX */
	CARD_TUNE,	/* after an accepted hw_params: the boundary of that LONG_MAX, and a rate of 1 for time-outs */
	CARD_MODE,	/* number 1: the next transfer does not block */
	CARD_MOVE,	/* number frames; result: moved, or CARD_IDLE, or CARD_LATE with the room in second */
	CARD_IRQ,	/* an interrupt */
	CARD_FAIL,	/* the trigger of that number from now answers EIO, of those that consult the plan */
	CARD_GIVE,	/* size bytes at data are the frames that a capture puts next */
	CARD_SUSPEND,	/* suspends the substream; result: its answer, second: how many acts that took */
	CARD_LINKED,	/* result: 1 where the substream is linked, second: frames moved since hw_params */
	CARD_ASLEEP,	/* result: 1 where the thread of that number sleeps, 0 where it may run */
	CARD_OPERATIONS
};

#define CARD_IDLE (-1)
#define CARD_LATE (-2)

struct card_request {
	__s32 operation, device, direction, padding;
	__s64 number, second, result;
	__u64 data, size;
};

#define CARD_IOCTL _IOWR('Z', 3, struct card_request)

#endif
