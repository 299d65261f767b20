/* A question at the terminal: whether the answer begins with y. */
static int yes(void)
{
	char first = 0, c = 0;
	int size;

	while ((size = read(0, &c, 1)) == 1 && c != '\n')
		if (first == 0)
			first = c;
	return first == 'y';
}

/* Whether the standard input is a terminal. */
static int asks(void)
{
	int modes[3];

	return gtty(0, modes) == 0;
}

/* NAME: MODE, in octal, and no new line. */
static void show_mode(const char *name, unsigned mode)
{
	char text[8], *at = text + 7;

	*at = 0;
	*--at = ' ';
	mode &= 07777;
	do {
		*--at = '0' + (mode & 7);
		mode >>= 3;
	} while (mode);
	say(name);
	say(": mode ");
	say(at);
}
