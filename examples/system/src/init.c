/* init: process 1. It has /etc/rc done, and keeps a getty, or what has become of it, on each line of /etc/ttys. */
#include <signal.h>
#include <string.h>
#include <unix.h>

#define SINGLE 0173030		/* the switches for a shell of user 0 at the console first */
#define LINES 10
#define LOST 0377		/* the status of a child whose line or program isn't there */

static struct line {
	char name, kind;		/* X of /dev/ttyX, and what getty gets */
	char wanted, lost;		/* users are let in; the line can't be opened, or has no getty */
	int process;
} lines[LINES];
static volatile int changed;
static char terminal[] = "/dev/ttyX";
static const char nobody[16];

/* A line is user 0's again, and is the files 0, 1 and 2. */
static void begin(int name)
{
	terminal[8] = name;
	chown(terminal, 0);
	chmod(terminal, 0622);
	if (open(terminal, 2) != 0)
		exit(LOST);
	dup(0);
	dup(0);
}

static void await(int child)
{
	int ended;

	if (child > 0)
		while ((ended = wait(NULL)) != child && ended != -1)
			;
}

static void alone(void)
{
	int child = fork();

	if (child == 0) {
		begin('8');
		execl("/bin/sh", "-", NULL);
		exit(LOST);
	}
	await(child);
}

/* The commands of /etc/rc, without a terminal. */
static void first_commands(void)
{
	int child = fork();

	if (child == 0) {
		open("/dev/null", 2);
		dup(0);
		dup(0);
		execl("/bin/sh", "sh", "/etc/rc", NULL);
		exit(LOST);
	}
	await(child);
}

static void spawn(struct line *line)
{
	char kind[2];
	int child = fork();

	if (child == 0) {
		signal(SIGHUP, SIG_DFL);
		begin(line->name);
		kind[0] = line->kind;
		kind[1] = 0;
		execl("/etc/getty", "-", kind, NULL);
		exit(LOST);
	}
	line->process = child < 0 ? 0 : child;
}

/* Nobody is logged in on a line. */
static void log_out(struct line *line)
{
	int file = open("/etc/utmp", 1);

	if (file < 0)
		return;
	seek(file, (line->name - '0') * 16, 0);
	write(file, nobody, sizeof nobody);
	close(file);
}

/* A line of the file: 1 where users are let in, X for /dev/ttyX, and what getty gets. */
static void want(const char *text)
{
	struct line *line, *free = NULL;

	if (text[0] != '1' || text[1] < '0' || text[1] > '9')
		return;
	for (line = lines; line < lines + LINES; line++)
		if (line->name == text[1]) {
			if (line->kind != text[2] && line->process)
				kill(line->process, SIGKILL);
			line->kind = text[2];
			line->wanted = 1;
			line->lost = 0;
			return;
		} else if (line->name == 0 && free == NULL)
			free = line;
	if (free) {
		free->name = text[1];
		free->kind = text[2];
		free->wanted = 1;
	}
}

/* Reads /etc/ttys. What is on a line that isn't let in any more, or in another way, is ended. */
static void read_lines(void)
{
	static char text[256];
	struct line *line;
	int file = open("/etc/ttys", 0), size, at, start = 0;

	for (line = lines; line < lines + LINES; line++)
		line->wanted = 0;
	size = file < 0 ? 0 : read(file, text, sizeof text);
	close(file);
	for (at = 0; at < size; at++)
		if (text[at] == '\n') {
			if (at - start == 3)
				want(text + start);
			start = at + 1;
		}
	for (line = lines; line < lines + LINES; line++)
		if (line->name && !line->wanted && line->process)
			kill(line->process, SIGKILL);
}

static void hang_up(int number)
{
	signal(number, hang_up);
	changed = 1;
}

/* One child has ended. */
static void ended(int child, int status)
{
	struct line *line;

	for (line = lines; line < lines + LINES; line++)
		if (line->name && line->process == child) {
			line->process = 0;
			line->lost = status == LOST << 8;
			log_out(line);
		}
}

int main(void)
{
	struct line *line;
	int child, status;

	if (csw() == SINGLE)
		alone();
	first_commands();
	close(creat("/etc/utmp", 0644));
	signal(SIGHUP, hang_up);
	changed = 1;
	for (;;) {
		if (changed) {
			changed = 0;
			read_lines();
		}
		for (line = lines; line < lines + LINES; line++)
			if (line->name && line->wanted && line->process == 0 && !line->lost)
				spawn(line);
		child = wait(&status);
		if (child >= 0)
			ended(child, status);
		else if (!changed)
			sleep(10);
	}
}
