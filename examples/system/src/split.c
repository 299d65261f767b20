/* split [-N] [file [name]]: pieces of a file of N lines each, as the files nameaa, nameab and so on. */
#include <stdio.h>
#include <stdlib.h>
#include <string.h>
#include "written.h"

static FILE *in;
static int lines = 1000;
static char name[64];

/* Takes what is given; whether it is right. */
static int take_arguments(int argc, char **argv)
{
	int at, named = 0;

	in = stdin;
	strcpy(name, "x");
	for (at = 1; at < argc; at++)
		if (argv[at][0] == '-' && argv[at][1]) {
			lines = atoi(argv[at] + 1);
			if (lines <= 0) {
				fprintf(stderr, "usage: split [-N] [file [name]]\n");
				return 0;
			}
		} else if (named++ == 0) {
			if (strcmp(argv[at], "-") && (in = fopen(argv[at], "r")) == NULL) {
				fprintf(stderr, "split: can't open %s\n", argv[at]);
				return 0;
			}
		} else if (strlen(argv[at]) < sizeof name - 3)
			strcpy(name, argv[at]);
	return 1;
}

/* The next piece; NULL where it can't be made. */
static FILE *next_piece(int at)
{
	static int piece;
	FILE *out;

	if (piece == 26 * 26) {
		fprintf(stderr, "split: more than aa-zz files\n");
		return NULL;
	}
	name[at] = 'a' + piece / 26;
	name[at + 1] = 'a' + piece++ % 26;
	if ((out = fopen(name, "w")) == NULL)
		fprintf(stderr, "split: can't create %s\n", name);
	return out;
}

int main(int argc, char **argv)
{
	FILE *out = NULL;
	int at, c, count = 0;

	if (!take_arguments(argc, argv))
		return 1;
	at = strlen(name);
	while ((c = getc(in)) != EOF) {
		if (out == NULL && (out = next_piece(at)) == NULL)
			return 1;
		putc(c, out);
		if (c == '\n' && ++count == lines) {
			if (written("split", out, 0, 1))
				return 1;
			fclose(out);
			out = NULL;
			count = 0;
		}
	}
	return out ? written("split", out, 0, 1) : 0;
}
