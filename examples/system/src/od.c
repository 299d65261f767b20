/* od [-bcdho] [name] [[+]offset[.][b]]: a file, sixteen bytes a line, as octal bytes, characters, and words in decimal, in
 * hexadecimal or in octal. */
#include <stdio.h>
#include <string.h>
#include "say.h"

static const char kinds[] = "bcdho";
static char chosen[8];
static long place;
static FILE *file;

/* The bytes that have letters, and what they are. */
static void show_character(int c)
{
	static const char names[] = "\0" "0\b" "b\n" "n\r" "r\t" "t\f" "f";
	int at;

	for (at = 0; at < 12; at += 2)
		if (c == names[at]) {
			printf("  \\%c", names[at + 1]);
			return;
		}
	if (c >= ' ' && c < 0177)
		printf("   %c", c);
	else
		printf(" %03o", c);
}

static void show_line(int kind, const unsigned char *bytes, int size, int width)
{
	int at;
	unsigned word;

	for (at = 0; at < size; at += kind == 'b' || kind == 'c' ? 1 : 2) {
		word = bytes[at] | bytes[at + 1] << 8;
		switch (kind) {
		case 'b':
			printf(" %03o", bytes[at]);
			break;
		case 'c':
			show_character(bytes[at]);
			break;
		case 'd':
			printf(width == 8 ? "   %05u" : "  %05u", word);
			break;
		case 'h':
			printf(width == 8 ? "    %04x" : "   %04x", word);
			break;
		default:
			printf(width == 8 ? "  %06o" : " %06o", word);
		}
	}
	putchar('\n');
}

/* Each form of a line; the place stands before the first. */
static void show(const unsigned char *bytes, int size)
{
	int width = strchr(chosen, 'b') || strchr(chosen, 'c') ? 8 : 7;
	char *kind;

	for (kind = chosen; *kind; kind++) {
		if (kind == chosen)
			printf("%07lo", place);
		else
			printf("       ");
		show_line(*kind, bytes, size, width);
	}
}

static void dump(void)
{
	static unsigned char line[18], before[16];
	int size, c, same = 0, first = 1;

	for (;; place += size, first = 0) {
		memset(line, 0, sizeof line);
		for (size = 0; size < 16 && (c = getc(file)) != EOF; size++)
			line[size] = c;
		if (size == 0)
			break;
		if (!first && size == 16 && memcmp(line, before, 16) == 0) {
			if (!same)
				puts("*");
			same = 1;
			continue;
		}
		same = 0;
		show(line, size);
		memcpy(before, line, 16);
	}
	printf("%07lo\n", place);
}

/* Where to begin: in octal, or with a point in decimal, and with b in blocks. */
static int take_offset(const char *text)
{
	const char *end;
	int base = 8;

	if (*text == '+')
		text++;
	for (end = text; *end >= '0' && *end <= '9'; end++)
		;
	if (end == text)
		return 0;
	if (*end == '.') {
		base = 10;
		end++;
	}
	if (*end == 'b')
		end++;
	if (*end)
		return 0;
	for (; *text >= '0' && *text <= '9'; text++)
		place = place * base + (*text - '0');
	if (end[-1] == 'b')
		place *= 512;
	return 1;
}

static int skip(void)
{
	long left;

	for (left = place; left > 0; left--)
		if (getc(file) == EOF)
			return complain("od", "the offset is past the end");
	return 0;
}

int main(int argc, char **argv)
{
	char *flag;
	int count = 0;

	for (; argc > 1 && argv[1][0] == '-' && argv[1][1]; argc--, argv++)
		for (flag = argv[1] + 1; *flag; flag++) {
			if (strchr(kinds, *flag) == NULL) {
				say("od: bad flag\n");
				return 1;
			}
			if (strchr(chosen, *flag) == NULL)
				chosen[count++] = *flag;
		}
	if (count == 0)
		chosen[0] = 'o';
	file = stdin;
	if (argc > 1 && argv[1][0] != '+') {
		file = fopen(argv[1], "r");
		if (file == NULL)
			return complain(argv[1], "cannot open");
		argc--;
		argv++;
	}
	if (argc > 2 || argc == 2 && !take_offset(argv[1])) {
		say("od: bad offset\n");
		return 1;
	}
	if (skip())
		return 1;
	dump();
	return 0;
}
