// SPDX-License-Identifier: GPL-2.0
/*
 * Clients. The machine has one processor. The script's thread runs at SCHED_FIFO priority 50 and never sleeps in a script.
 * A client has a thread for its blocking calls: it runs above the script's thread from its call, or its `go`, until it
 * sleeps or returns, and below it else. So a client that the core has woken stays runnable, inside the core's wait, and
 * goes on at its `go` alone. A client is woken where it slept and is runnable.
 */
#define _GNU_SOURCE
#include <errno.h>
#include <linux/futex.h>
#include <sched.h>
#include <signal.h>
#include <stdlib.h>
#include <sys/ioctl.h>
#include <sys/syscall.h>
#include <unistd.h>
#include "player.h"

#define ABOVE_SCRIPT 60
#define BELOW_SCRIPT 10
#define THREAD_STACK 65536

struct client clients[CLIENTS];

static void futex_wait(volatile int *word, int value)
{
	syscall(SYS_futex, word, FUTEX_WAIT, value, NULL, NULL, 0);
}

static void futex_wake(volatile int *word)
{
	syscall(SYS_futex, word, FUTEX_WAKE, 1, NULL, NULL, 0);
}

void set_priority(int thread_number, int priority)
{
	struct sched_param wanted = { .sched_priority = priority };

	if (sched_setscheduler(thread_number, SCHED_FIFO, &wanted) < 0)
		say("NOTE priority %d: %d\n", priority, errno);
}

static int call_of(struct client *client)
{
	if (client->drains)
		return call_kernel(client->substream, SNDRV_PCM_IOCTL_DRAIN, NULL);
	if (client->planar)
		return call_kernel(client->substream, client->command, &client->by_channel);
	return call_kernel(client->substream, client->command, &client->interleaved);
}

static void *client_main(void *argument)
{
	struct client *client = argument;

	client->thread_number = syscall(SYS_gettid);
	client->done = 1;
	futex_wake(&client->done);
	for (;;) {
		while (!client->job)
			futex_wait(&client->job, 0);
		client->job = 0;
		client->error = call_of(client);
		client->done = 1;
	}
	return NULL;
}

static void do_nothing(int signal_number)
{
	(void)signal_number;
}

void start_clients(void)
{
	struct sigaction action = { .sa_handler = do_nothing };
	pthread_attr_t attributes;
	int number;

	sigaction(SIGUSR1, &action, NULL);
	pthread_attr_init(&attributes);
	pthread_attr_setstacksize(&attributes, THREAD_STACK);
	for (number = 0; number < CLIENTS; number++) {
		struct client *client = &clients[number];

		client->number = number;
		pthread_create(&client->thread, &attributes, client_main, client);
		while (!client->done)
			futex_wait(&client->done, 0);
		set_priority(client->thread_number, BELOW_SCRIPT);
	}
}

/* Runs this client's thread until it sleeps or its call has returned. */
static void let_run(struct client *client)
{
	set_priority(client->thread_number, ABOVE_SCRIPT);
	set_priority(client->thread_number, BELOW_SCRIPT);
}

static void say_read(struct client *client, unsigned long count)
{
	unsigned long channel;

	say("frames %lu ", count);
	if (!client->planar || count == 0) {
		say_hex(client->data, count * client->frame_bytes);
		return;
	}
	for (channel = 0; channel < client->channels; channel++)
		say_hex(client->data + channel * client->frames * client->width, count * client->width);
}

static void say_result(struct client *client)
{
	unsigned long count = client->planar ? client->by_channel.result : client->interleaved.result;

	if (client->error || client->drains)
		say_done(client->error);
	else if (client->writing)
		say("frames %lu", count);
	else
		say_read(client, count);
}

/* Makes the call on the client's thread where it blocks, else on this one. */
void make_call(struct client *client, int blocking)
{
	if (!blocking) {
		client->error = call_of(client);
		say_result(client);
		return;
	}
	client->done = 0;
	client->job = 1;
	futex_wake(&client->job);
	let_run(client);
	client->busy = !client->done;
	client->awake = 0;
	if (client->busy)
		say("asleep");
	else
		say_result(client);
}

/* A client with a call in progress goes on, where it is awake. */
void go_on(struct client *client)
{
	if (client->awake)
		let_run(client);
	client->busy = !client->done;
	client->awake = 0;
	if (client->busy)
		say("asleep");
	else
		say_result(client);
}

int has_call_on(struct substream *substream)
{
	int number, found = 0;

	for (number = 0; number < CLIENTS; number++)
		found |= clients[number].busy && clients[number].substream == substream;
	return found;
}

static int was_woken(struct client *client)
{
	if (!client->busy || client->awake)
		return 0;
	return client->done || !ask_card(NULL, CARD_ASLEEP, client->thread_number, 0, NULL, 0).result;
}

void say_woken(void)
{
	const char *before = " wake";
	int number;

	for (number = 0; number < CLIENTS; number++) {
		if (!was_woken(&clients[number]))
			continue;
		if (clients[number].done)
			say(" NOTE ended by itself");
		clients[number].awake = 1;
		say("%s c%d", before, number);
		before = "";
	}
}

/* A signal ends the calls in progress at the end of a script. */
void end_calls(void)
{
	int number;

	for (number = 0; number < CLIENTS; number++) {
		struct client *client = &clients[number];

		if (client->busy) {
			pthread_kill(client->thread, SIGUSR1);
			let_run(client);
			if (!client->done)
				say("NOTE client %d stays\n", number);
		}
		client->busy = 0;
		free(client->data);
		client->data = NULL;
	}
}
