/* stty [option ..]: sets the modes of the terminal that is the standard output, or shows them. */
#include "say.h"

static const struct { const char *name; int flag; } flags[] = {
	{ "tabs", 02 }, { "lcase", 04 }, { "echo", 010 }, { "nl", 020 }, { "raw", 040 }
};
#define FLAGS (sizeof flags / sizeof *flags)
#define reversed(at) ((at) == 0 || (at) == 3)	/* -tabs is XTABS, and -nl is CRMOD */

static int modes[3];

/* A character that is typed as ^X where it isn't printed. */
static char *shown(char *to, int c)
{
	char *at = to;

	if (c < 040 || c == 0177) {
		*at++ = '^';
		c ^= 0100;
	}
	*at++ = c;
	*at = 0;
	return to;
}

static void show(void)
{
	char erase[4], kill[4];
	int at;

	say("erase = '");
	say(shown(erase, modes[1] & 0177));
	say("'; kill = '");
	say(shown(kill, modes[1] >> 8 & 0177));
	say("'\n");
	for (at = 0; at < FLAGS; at++) {
		if (((modes[2] & flags[at].flag) != 0) == reversed(at))
			say("-");
		say(flags[at].name);
		say(at == FLAGS - 1 ? "\n" : " ");
	}
}

/* A character as it is named: itself, or ^ and another for a control character. */
static int key(const char *text)
{
	return text[0] == '^' && text[1] ? text[1] & 037 : text[0];
}

/* Whether an option is one of the flags; it is set then. */
static int is_flag(const char *option)
{
	int off = option[0] == '-', at;

	for (at = 0; at < FLAGS; at++)
		if (strcmp(option + off, flags[at].name) == 0) {
			if (off == reversed(at))
				modes[2] |= flags[at].flag;
			else
				modes[2] &= ~flags[at].flag;
			return 1;
		}
	return 0;
}

int main(int argc, char **argv)
{
	int at, status = 0;

	if (gtty(1, modes) < 0)
		return complain("stty", "not a terminal");
	if (argc == 1)
		show();
	for (at = 1; at < argc; at++)
		if (strcmp(argv[at], "erase") == 0 && at + 1 < argc)
			modes[1] = modes[1] & 0177400 | key(argv[++at]);
		else if (strcmp(argv[at], "kill") == 0 && at + 1 < argc)
			modes[1] = modes[1] & 0377 | key(argv[++at]) << 8;
		else if (strcmp(argv[at], "cooked") == 0)
			modes[2] &= ~040;
		else if (!is_flag(argv[at]))
			status = complain(argv[at], "unknown mode");
	if (argc > 1)
		stty(1, modes);
	return status;
}
