/* dd [option=value ..]: copies a file in blocks of other sizes, and changes its bytes on the way. */
#include <stdlib.h>
#include "say.h"

enum { LOWER = 1, UPPER = 2, SWAB = 4, SYNC = 8, NOERROR = 16 };

static const char *const words[] = { "lcase", "ucase", "swab", "sync", "noerror" };
static char *in_name, *out_name;
static unsigned in_size = 512, out_size = 512, skipped, sought, most = 65535, conversion;
static unsigned in_full, in_part, out_full, out_part, filled;
static unsigned char *in, *out;
static int from, to;

static void stop(const char *text, const char *name)
{
	say(text);
	say(name);
	say("\n");
	exit(1);
}

/* A number, with k for 1024, b for 512 and w for 2 after it, and products with x. */
static unsigned size_of(const char *text)
{
	const char *at = text;
	unsigned value = 0;

	if (*at < '0' || *at > '9')
		stop("bad arg: ", text);
	for (; *at >= '0' && *at <= '9'; at++)
		value = value * 10 + (*at - '0');
	if (*at == 'k')
		value *= 1024;
	else if (*at == 'b')
		value *= 512;
	else if (*at == 'w')
		value *= 2;
	if (*at == 'k' || *at == 'b' || *at == 'w')
		at++;
	if (*at == 'x' || *at == '*')
		value *= size_of(at + 1);
	else if (*at)
		stop("bad arg: ", text);
	return value;
}

/* The words after conv=, parted by commas. */
static void take_conversions(const char *text)
{
	const char *at = text;
	int word, size;

	for (;;) {
		for (word = 0; word < 5; word++) {
			size = strlen(words[word]);
			if (strncmp(at, words[word], size) == 0 && (at[size] == 0 || at[size] == ','))
				break;
		}
		if (word == 5)
			stop("bad arg: ", text);
		conversion |= 1 << word;
		at += size;
		if (*at++ == 0)
			return;
	}
}

static int is_option(const char **text, const char *name)
{
	int size = strlen(name);

	if (strncmp(*text, name, size) != 0)
		return 0;
	*text += size;
	return 1;
}

static void take(const char *text)
{
	const char *whole = text;

	if (is_option(&text, "if="))
		in_name = (char *)text;
	else if (is_option(&text, "of="))
		out_name = (char *)text;
	else if (is_option(&text, "ibs="))
		in_size = size_of(text);
	else if (is_option(&text, "obs="))
		out_size = size_of(text);
	else if (is_option(&text, "bs="))
		in_size = out_size = size_of(text);
	else if (is_option(&text, "skip="))
		skipped = size_of(text);
	else if (is_option(&text, "seek="))
		sought = size_of(text);
	else if (is_option(&text, "count="))
		most = size_of(text);
	else if (is_option(&text, "conv="))
		take_conversions(text);
	else
		stop("bad arg: ", whole);
}

static void put_number(unsigned value)
{
	char text[6], *at = text + 5;

	*at = 0;
	do {
		*--at = '0' + value % 10;
		value /= 10;
	} while (value);
	say(at);
}

/* Records that were whole, and those that weren't: the last lines of every run. */
static void tell(void)
{
	put_number(in_full);
	say("+");
	put_number(in_part);
	say(" records in\n");
	put_number(out_full);
	say("+");
	put_number(out_part);
	say(" records out\n");
}

static void flush(void)
{
	if (filled == 0)
		return;
	if (write(to, out, filled) != (int)filled) {
		say("write error\n");
		tell();
		exit(1);
	}
	if (filled == out_size)
		out_full++;
	else
		out_part++;
	filled = 0;
}

static void convert(unsigned size)
{
	unsigned at, c;

	if (conversion & SWAB)
		for (at = 0; at + 1 < size; at += 2) {
			c = in[at];
			in[at] = in[at + 1];
			in[at + 1] = c;
		}
	for (at = 0; at < size; at++) {
		c = in[at];
		if (conversion & LOWER && c >= 'A' && c <= 'Z')
			in[at] = c - 'A' + 'a';
		else if (conversion & UPPER && c >= 'a' && c <= 'z')
			in[at] = c - 'a' + 'A';
	}
}

static void copy(void)
{
	unsigned at, count;
	int size;

	for (count = 0; count < most; count++) {
		memset(in, 0, in_size);
		size = read(from, in, in_size);
		if (size == 0)
			return;
		if (size < 0) {
			say("read error\n");
			return;
		}
		if ((unsigned)size == in_size)
			in_full++;
		else
			in_part++;
		if (conversion & SYNC)
			size = in_size;
		convert(size);
		for (at = 0; at < (unsigned)size; at++) {
			out[filled++] = in[at];
			if (filled == out_size)
				flush();
		}
	}
}

int main(int argc, char **argv)
{
	unsigned count;

	while (--argc > 0)
		take(*++argv);
	if (in_size == 0 || out_size == 0)
		stop("bad arg: ", "bs=0");
	from = in_name ? open(in_name, 0) : 0;
	if (from < 0)
		stop("cannot open: ", in_name);
	to = out_name ? creat(out_name, 0666) : 1;
	if (to < 0)
		stop("cannot create: ", out_name);
	in = malloc(in_size);
	out = malloc(out_size);
	if (in == NULL || out == NULL)
		stop("not enough memory", "");
	for (count = 0; count < skipped; count++)
		read(from, in, in_size);
	for (count = 0; count < sought; count++)
		for (filled = 0; filled < out_size; filled += 512)
			seek(to, out_size - filled < 512 ? out_size - filled : 512, 1);
	filled = 0;
	copy();
	flush();
	tell();
	return 0;
}
