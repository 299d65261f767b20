/* getty: asks for a name on the line that is its standard input, learns from it what terminal is there, and becomes login. */
#include <string.h>
#include <unix.h>

#define XTABS 02
#define LCASE 04
#define ECHO 010
#define CRMOD 020
#define RAW 040

static int modes[3] = { 0, '@' << 8 | '#', 0 };
static char name[16];

static void say(const char *text)
{
	write(1, text, strlen(text));
}

/* Reads a name key by key; the key that ends it, or 0 where the line has ended. */
static int read_name(void)
{
	int size = 0;
	char c;

	while (read(0, &c, 1) == 1 && c != 004) {
		if (c == '\r' || c == '\n') {
			name[size] = 0;
			return c;
		}
		if (c == '#') {
			if (size)
				size--;
		} else if (c == '@') {
			size = 0;
			say("\r\n");
		} else if (size < sizeof name - 1)
			name[size++] = c;
	}
	return 0;
}

/* Whether a name has capitals and no small letters, as of a terminal without them; it becomes small. */
static int capitals(void)
{
	int large = 0;
	char *at;

	for (at = name; *at; at++) {
		if (*at >= 'a' && *at <= 'z')
			return 0;
		large |= *at >= 'A' && *at <= 'Z';
	}
	if (large)
		for (at = name; *at; at++)
			if (*at >= 'A' && *at <= 'Z')
				*at += 'a' - 'A';
	return large;
}

int main(void)
{
	int last;

	do {
		modes[2] = RAW | ECHO;
		stty(0, modes);
		say("\r\nlogin: ");
		last = read_name();
		if (last == 0)
			return 1;
		say(last == '\r' ? "\n" : "\r");
	} while (*name == 0);
	modes[2] = ECHO | XTABS | (last == '\r' ? CRMOD : 0) | (capitals() ? LCASE : 0);
	stty(0, modes);
	execl("/bin/login", "login", name, NULL);
	return 1;
}
