/* What a command says on the diagnostic output. What it has written by then on the standard output is shown first. */
#include <string.h>
#include <unix.h>

extern void (*_flush)(void);	/* writes what putc(III) keeps, where the program has that */

static void say(const char *text)
{
	if (_flush)
		_flush();
	write(2, text, strlen(text));
}

/* NAME: TEXT, a line; the status of a command that goes on after it. */
static int complain(const char *name, const char *text)
{
	say(name);
	say(": ");
	say(text);
	say("\n");
	return 1;
}
