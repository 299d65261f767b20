/* time command [argument ..]: how long a command took, and how much of that in it and in the system. */
#include <errno.h>
#include <signal.h>
#include "say.h"
#include "paths.h"
#include "run.h"

struct {
	unsigned user, system;
	long children_user, children_system;
} spent;

/* A line of seconds and tenths, of sixtieths of a second. */
static void show(const char *name, long ticks)
{
	char line[24], *at = line + sizeof line - 1;
	int tenths = ticks % 60 / 6;
	long seconds = ticks / 60;

	*at = 0;
	*--at = '\n';
	*--at = '0' + tenths;
	*--at = '.';
	do {
		*--at = '0' + (int)(seconds % 10);
		seconds /= 10;
	} while (seconds);
	while (at > line + 12)
		*--at = ' ';
	say(name);
	say(at);
}

int main(int argc, char **argv)
{
	long begin = time();
	int child, done, status = 0;

	if (argc < 2) {
		say("usage: time command\n");
		return 1;
	}
	child = fork();
	if (child < 0)
		return complain("time", "try again");
	if (child == 0) {
		argv[argc] = 0;
		run(argv + 1);
		complain(argv[1], "not found");
		return 1;
	}
	signal(SIGINT, SIG_IGN);
	signal(SIGQUIT, SIG_IGN);
	while ((done = wait(&status)) != child)
		if (done < 0 && errno != EINTR)
			return 1;
	if (status & 0177)
		say("Command terminated abnormally.\n");
	begin = time() - begin;
	times(&spent);
	say("\n");
	show("real", begin * 60);
	show("user", spent.children_user);
	show("sys ", spent.children_system);
	return status >> 8 & 0377;
}
