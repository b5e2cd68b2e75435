// SPDX-License-Identifier: GPL-2.0
/*
 * The first process of a small virtual machine. It plays the scripts of the file /scripts on the PCM core of the machine's
 * kernel, and sends their transcripts to the debug port. In both stands a line `=== NUMBER` before each script.
 */
#define _GNU_SOURCE
#include <errno.h>
#include <fcntl.h>
#include <stdio.h>
#include <string.h>
#include <sys/io.h>
#include <sys/mman.h>
#include <sys/mount.h>
#include <sys/reboot.h>
#include <sys/stat.h>
#include <sys/syscall.h>
#include <sys/utsname.h>
#include <time.h>
#include <unistd.h>
#include "player.h"

#define DEBUG_PORT 0xe9
#define EXIT_PORT 0xf4
#define SCRIPT_PRIORITY 50

static void insert_module(const char *name, const char *parameters)
{
	char path[64];
	int file;

	snprintf(path, sizeof(path), "/modules/%s.ko", name);
	file = open(path, O_RDONLY);
	if (file < 0 || syscall(SYS_finit_module, file, parameters, 0) < 0)
		say("NOTE module %s: %s\n", name, strerror(errno));
	if (file >= 0)
		close(file);
}

/* Real-time threads may else not take the whole processor. */
static void allow_real_time(void)
{
	int file = open("/proc/sys/kernel/sched_rt_runtime_us", O_WRONLY);

	if (file < 0 || write(file, "-1", 2) < 0)
		say("NOTE real time: %s\n", strerror(errno));
	if (file >= 0)
		close(file);
}

static void set_up_machine(void)
{
	struct utsname names;
	int error;

	ioperm(DEBUG_PORT, 1, 1);
	ioperm(EXIT_PORT, 4, 1);
	mkdir("/dev", 0755);
	mkdir("/proc", 0755);
	mkdir("/sys", 0755);
	mount("dev", "/dev", "devtmpfs", 0, NULL);
	mount("proc", "/proc", "proc", 0, NULL);
	mount("sys", "/sys", "sysfs", 0, NULL);
	uname(&names);
	say("KERNEL %s %s\n", names.release, names.version);
	allow_real_time();
	insert_module("soundcore", "");
	insert_module("snd", "");
	insert_module("snd-timer", "");
	insert_module("snd-pcm", "max_alloc_per_card=0");
	insert_module("stepped_card", "");
	error = open_card_control();
	if (error)
		say("NOTE stepped card: %s\n", strerror(error));
}

/* The bytes of the scripts and one more, or NULL. */
static char *map_scripts(size_t *size)
{
	struct stat status;
	char *scripts = MAP_FAILED;
	int file = open("/scripts", O_RDONLY);

	if (file >= 0 && fstat(file, &status) == 0) {
		*size = status.st_size;
		scripts = mmap(NULL, *size + 1, PROT_READ | PROT_WRITE, MAP_PRIVATE | MAP_POPULATE, file, 0);
	}
	if (scripts != MAP_FAILED)
		return scripts;
	say("NOTE scripts: %s\n", strerror(errno));
	return NULL;
}

static int starts_script(const char *line)
{
	return !strncmp(line, "=== ", 4);
}

/* Ends a script, and lets everything else in the machine run for a while. */
static void leave_script(int inside)
{
	struct timespec pause = { 0, 2000000 };

	if (!inside)
		return;
	end_script();
	nanosleep(&pause, NULL);
}

static void play_scripts(char *scripts, size_t size)
{
	char *end = scripts + size, *line, *next;
	int number = 0, inside = 0;

	for (line = scripts; line < end; line = next) {
		next = memchr(line, '\n', end - line);
		next = next ? next : end;
		*next++ = 0;
		number++;
		if (starts_script(line)) {
			leave_script(inside);
			begin_script();
			say("%s\n", line);
			inside = 1;
			number = 0;
		} else if (line[0] && line[0] != '#') {
			play_line(number, line);
		}
	}
	leave_script(inside);
}

int main(void)
{
	char *scripts;
	size_t size = 0;

	set_up_machine();
	start_clients();
	scripts = map_scripts(&size);
	mlockall(MCL_CURRENT);
	send_text();
	set_priority(0, SCRIPT_PRIORITY);
	if (scripts)
		play_scripts(scripts, size);
	say("END\n");
	send_text();
	outb(0, EXIT_PORT);
	reboot(RB_POWER_OFF);
	return 0;
}
