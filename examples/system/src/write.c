/* write user [line]: lines of the standard input go to the terminal of a user. */
#include <signal.h>
#include "say.h"
#include "accounts.h"
#include "lines.h"

static int terminal = -1;
static char me[16], text[256];

static void tell(const char *what)
{
	write(terminal, what, strlen(what));
}

static void end(int number)
{
	(void)number;
	tell("EOT\n");
	exit(0);
}

/* The line at which a user is logged in, the one that is asked for or the first; 0 where there is none. */
static int find_line(const char *name, int wanted)
{
	struct login entry;
	int file = open("/etc/utmp", 0), found = 0, count = 0;

	while (file >= 0 && read(file, &entry, 16) == 16)
		if (strncmp(entry.name, name, sizeof entry.name) == 0 && (wanted == 0 || entry.line == wanted)) {
			if (count++ == 0)
				found = entry.line;
		}
	close(file);
	if (count > 1) {
		say(name);
		say(" logged in more than once\nwriting to tty");
		write(2, &found, 1);
		say("\n");
	}
	return found;
}

/* A line that begins with ! is a command. */
static void command(char *line)
{
	int child = fork(), ended;

	if (child == 0) {
		execl("/bin/sh", "sh", "-c", line, NULL);
		exit(1);
	}
	while ((ended = wait(NULL)) != child && ended != -1)
		;
	say("!\n");
}

static void greet(int line)
{
	static char from[] = " ttyX...\n";

	from[4] = line;
	tell("\nMessage from ");
	tell(me);
	tell(from);
}

int main(int argc, char **argv)
{
	static char name[] = "/dev/ttyX";
	int here, there, size;

	if (argc < 2 || argc > 3 || argc == 3 && argv[2][1])
		return complain("usage", "write user [ttyno]");
	here = line_of(0);
	if (here == 0)
		here = line_of(2);
	if (here == 0 || !find_account(NULL, getuid() & 0377))
		return complain("write", "cannot find your tty");
	strncpy(me, account.name, sizeof me - 1);
	there = find_line(argv[1], argc == 3 ? argv[2][0] : 0);
	if (there == 0) {
		say(argv[1]);
		say(" not logged in.\n");
		return 1;
	}
	name[8] = there;
	terminal = open(name, 1);
	if (terminal < 0) {
		say("Permission denied.\n");
		return 1;
	}
	signal(SIGINT, end);
	greet(here);
	while ((size = read(0, text, sizeof text - 1)) > 0) {
		text[size] = 0;
		if (*text == '!')
			command(text + 1);
		else
			tell(text);
	}
	end(0);
	return 0;
}
