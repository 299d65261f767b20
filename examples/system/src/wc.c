/* wc [-lwc] [file ..]: how many lines, words and characters; without a file, of the standard input. */
#include <stdio.h>
#include <string.h>
#include "fast.h"
#include "written.h"

static long counts[3], all[3];
static const char *wanted = "lwc";

static void show(long *of, const char *name)
{
	const char *what;

	for (what = wanted; *what; what++)
		printf("%7ld", of[*what == 'l' ? 0 : *what == 'w' ? 1 : 2]);
	printf(*name ? " %s\n" : "\n", name);
}

static void count(FILE *file, const char *name)
{
	int c, inside = 0;

	counts[0] = counts[1] = counts[2] = 0;
	while ((c = fast_getc(file)) != EOF) {
		counts[2]++;
		if (c == '\n')
			counts[0]++;
		if (c == ' ' || c == '\t' || c == '\n')
			inside = 0;
		else if (!inside && c > ' ' && c < 0177) {
			inside = 1;
			counts[1]++;
		}
	}
	show(counts, name);
	for (c = 0; c < 3; c++)
		all[c] += counts[c];
}

int main(int argc, char **argv)
{
	FILE *file;
	int at = 1, several, status = 0;

	if (argc > 1 && argv[1][0] == '-' && argv[1][1]) {
		wanted = argv[at++] + 1;
		if (strchr("lwc", *wanted) == NULL) {
			fprintf(stderr, "usage: wc [-lwc] [file ..]\n");
			return 1;
		}
	}
	if (at == argc)
		count(stdin, "");
	several = argc - at > 1;
	for (; at < argc; at++) {
		file = fopen(argv[at], "r");
		if (file == NULL) {
			fprintf(stderr, "wc: can't open %s\n", argv[at]);
			status = 1;
			continue;
		}
		count(file, argv[at]);
		fclose(file);
	}
	if (several)
		show(all, "total");
	return written("wc", stdout, status, 1);
}
