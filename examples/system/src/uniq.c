/* uniq [-udc] [-N] [+N] [input [output]]: of lines that are the same and stand together, one. */
#include <ctype.h>
#include <stdio.h>
#include <stdlib.h>
#include <string.h>
#include "text.h"
#include "written.h"

static int alone, repeated, counted, fields, letters;
static char lines[2][MOST];

/* What is compared of a line. */
static char *rest(char *text)
{
	int count;

	for (count = 0; count < fields; count++) {
		while (*text == ' ' || *text == '\t')
			text++;
		while (*text && *text != ' ' && *text != '\t')
			text++;
	}
	for (count = 0; count < letters && *text; count++)
		text++;
	return text;
}

static void show(FILE *out, const char *text, int count)
{
	if (counted)
		fprintf(out, "%4d ", count);
	else if (count == 1 ? !alone : !repeated)
		return;
	put_line(out, text);
}

static FILE *opened(const char *name, const char *mode)
{
	FILE *file = fopen(name, mode);

	if (file == NULL) {
		fprintf(stderr, *mode == 'r' ? "uniq: can't open %s\n" : "uniq: can't create %s\n", name);
		exit(1);
	}
	return file;
}

static void take_options(const char *text)
{
	if (*text == '+')
		letters = atoi(text + 1);
	else if (isdigit(text[1]))
		fields = atoi(text + 1);
	else
		while (*++text)
			switch (*text) {
			case 'u': alone = 1; break;
			case 'd': repeated = 1; break;
			case 'c': counted = 1; break;
			}
}

int main(int argc, char **argv)
{
	FILE *in = stdin, *out = stdout;
	int at, now = 0, count = 1;

	for (at = 1; at < argc && (argv[at][0] == '-' || argv[at][0] == '+'); at++)
		take_options(argv[at]);
	if (!alone && !repeated)
		alone = repeated = 1;
	if (at < argc)
		in = opened(argv[at++], "r");
	if (at < argc)
		out = opened(argv[at], "w");
	if (!read_line(in, lines[0]))
		return 0;
	while (read_line(in, lines[!now]))
		if (strcmp(rest(lines[0]), rest(lines[1])) == 0)
			count++;
		else {
			show(out, lines[now], count);
			now = !now;
			count = 1;
		}
	show(out, lines[now], count);
	return written("uniq", out, 0, 1);
}
