/* The copy on which ed works: its lines in a file of /tmp, where each of them begins there, and what is shown. */
#define LINE 512		/* of a line with its end */
#define UNIT 4			/* a line begins in the file at a multiple of so many bytes */
#define MARK 0100000		/* of a line that g has still to come to */
#define STEP 512		/* lines for which there is room at a time */

static unsigned *lines;		/* where each line begins; from 1 on */
static int room, dot, last, failed;
static char line[LINE];
static int temporary, in_block = -1, out_block, out_count;
static char in[512], out[512];	/* the block that was read last, and the one that grows */
static char shown[512];		/* what is still to be written to the terminal */
static int shown_count;

static void flush(void)
{
	if (shown_count)
		write(1, shown, shown_count);
	shown_count = 0;
}

static void put(int c)
{
	if (shown_count == sizeof shown)
		flush();
	shown[shown_count++] = c;
}

static void say(const char *text)
{
	while (*text)
		put(*text++);
	flush();
}

static void put_number(long number)
{
	if (number > 9)
		put_number(number / 10);
	put(number % 10 + '0');
}

/* What can't be done: the command has failed, and its caller comes back to the next one. */
static int fail(void)
{
	failed = 1;
	return 0;
}

/* Reads the block of the temporary file in which the unit is; its place in the buffer. */
static char *unit_at(unsigned unit)
{
	int block = (unit & ~MARK) / (512 / UNIT);
	char *buffer = in;

	if (block == out_block)
		buffer = out;
	else if (block != in_block) {
		seek(temporary, block, 3);
		read(temporary, in, 512);
		in_block = block;
	}
	return buffer + (unit % (512 / UNIT)) * UNIT;
}

/* Line `at` of the text to `line`. */
static char *get_line(int at)
{
	unsigned unit = lines[at] & ~MARK;
	char *from, *to = line;
	int count;

	for (;; unit++) {
		from = unit_at(unit);
		for (count = UNIT; count > 0; count--)
			if ((*to++ = *from++) == 0)
				return line;
	}
}

static void put_out(int c)
{
	out[out_count++] = c;
	if (out_count < 512)
		return;
	seek(temporary, out_block, 3);
	if (write(temporary, out, 512) != 512)
		failed = 1;
	out_block++;
	out_count = 0;
}

/* Keeps a line in the temporary file, and gives where. */
static unsigned keep_line(const char *text)
{
	unsigned unit = out_block * (512 / UNIT) + out_count / UNIT;

	if (out_block >= 254) {
		say("TMP\n");
		return fail();
	}
	do
		put_out(*text);
	while (*text++);
	while (out_count % UNIT)
		put_out(0);
	return unit;
}

/* Puts a line after line `at`; it is the current one then. */
static void insert(int at, const char *text)
{
	unsigned unit = keep_line(text);

	if (failed)
		return;
	if (last + 2 > room) {
		if (sbrk(STEP * sizeof *lines) == (void *)-1) {
			fail();
			return;
		}
		room += STEP;
	}
	memmove(lines + at + 2, lines + at + 1, (last - at) * sizeof *lines);
	lines[at + 1] = unit;
	last++;
	dot = at + 1;
}

static void delete(int from, int to)
{
	memmove(lines + from, lines + to + 1, (last - to) * sizeof *lines);
	last -= to - from + 1;
	dot = from > last ? last : from;
}
