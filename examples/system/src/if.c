/* if expression command [argument ..]: the command is done where the expression is true. */
#include "say.h"

static char **next;

static void fail(const char *what)
{
	complain("if", what);
	seek(0, 0, 2);
	exit(1);
}

static char *word(void)
{
	if (*next == NULL)
		fail("expression missing");
	return *next++;
}

static int is(const char *text)
{
	return *next && strcmp(*next, text) == 0;
}

static int any(void);

/* Whether a command between braces comes to the status 0. It is done only where it counts. */
static int done(char **words, int counts)
{
	static char path[300] = "/usr/bin/";
	int child, ended, status;

	if (!counts)
		return 0;
	child = fork();
	if (child == 0) {
		execv(words[0], words);
		if (strlen(words[0]) < 280) {
			strcpy(path + 9, words[0]);
			execv(path + 4, words);
			execv(path, words);
		}
		exit(complain(words[0], "not found"));
	}
	while ((ended = wait(&status)) != child && ended != -1)
		;
	return ended == child && status == 0;
}

static int can(const char *name, int mode)
{
	int file = mode == 2 ? creat(name, 0666) : open(name, mode);

	if (file < 0)
		return 0;
	close(file);
	return 1;
}

static int counting = 1;

/* What an expression without -a and -o says. */
static int one(void)
{
	char *first, **words;
	int found;

	first = word();
	if (strcmp(first, "!") == 0)
		return !one();
	if (strcmp(first, "(") == 0) {
		found = any();
		if (strcmp(word(), ")") != 0)
			fail(") expected");
		return found;
	}
	if (strcmp(first, "{") == 0) {
		words = next;
		while (strcmp(word(), "}") != 0)
			;
		next[-1] = NULL;
		if (words == next - 1)
			fail("expression missing");
		return done(words, counting);
	}
	if (first[0] == '-' && first[1] && first[2] == 0 && strchr("rwc", first[1])) {
		first = first + 1;
		words = next;
		word();
		return counting && can(*words, *first == 'r' ? 0 : *first == 'w' ? 1 : 2);
	}
	if (is("="))
		next++, found = 1;
	else if (is("!="))
		next++, found = 0;
	else
		fail("unknown operator");
	return (strcmp(first, word()) == 0) == found;
}

static int all(void)
{
	int found = one(), before = counting, other;

	if (!is("-a"))
		return found;
	next++;
	counting = before && found;
	other = all();
	counting = before;
	return found && other;
}

static int any(void)
{
	int found = all(), before = counting, other;

	if (!is("-o"))
		return found;
	next++;
	counting = before && !found;
	other = any();
	counting = before;
	return found || other;
}

int main(int argc, char **argv)
{
	static char path[300] = "/usr/bin/";

	argv[argc] = NULL;
	next = argv + 1;
	if (!any() || *next == NULL)
		return 1;
	execv(*next, next);
	if (strlen(*next) < 280) {
		strcpy(path + 9, *next);
		execv(path + 4, next);
		execv(path, next);
	}
	return complain(*next, "not found");
}
