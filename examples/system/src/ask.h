/* What is asked for at a terminal. */
#define ECHO 010

/* Reads a line without its end, and leaves out what has no room; whether there was one. */
static int answer(char *to, int most)
{
	int size = 0;
	char c;

	for (;;) {
		if (read(0, &c, 1) != 1)
			return 0;
		if (c == '\n')
			break;
		if (size < most - 1)
			to[size++] = c;
	}
	to[size] = 0;
	return 1;
}

/* The same, and the terminal doesn't show what is typed. */
static int ask_password(char *to, int most)
{
	int modes[3], shown, done;

	say("Password: ");
	shown = gtty(0, modes) == 0 && modes[2] & ECHO;
	if (shown) {
		modes[2] &= ~ECHO;
		stty(0, modes);
	}
	done = answer(to, most);
	if (shown) {
		modes[2] |= ECHO;
		stty(0, modes);
	}
	say("\n");
	return done;
}
