/* wc [file ..]: how many lines, words and bytes; without a file, of the standard input. */
#include <ctype.h>
#include <stdio.h>

static long all[3];

static void show(long *counts, const char *name)
{
	printf("%7ld%8ld%8ld", counts[0], counts[1], counts[2]);
	printf(*name ? " %s\n" : "\n", name);
}

static void count(FILE *file, const char *name)
{
	long counts[3];
	int c, inside = 0;

	counts[0] = counts[1] = counts[2] = 0;
	while ((c = getc(file)) != EOF) {
		counts[2]++;
		if (c == '\n')
			counts[0]++;
		if (isspace(c))
			inside = 0;
		else if (!inside) {
			inside = 1;
			counts[1]++;
		}
	}
	show(counts, name);
	for (c = 0; c < 3; c++)
		all[c] += counts[c];
}

int main(int argc, char **argv)
{
	FILE *file;
	int at, status = 0;

	if (argc < 2)
		count(stdin, "");
	for (at = 1; at < argc; at++) {
		file = fopen(argv[at], "r");
		if (file == NULL) {
			fprintf(stderr, "wc: can't open %s\n", argv[at]);
			status = 1;
			continue;
		}
		count(file, argv[at]);
		fclose(file);
	}
	if (argc > 2)
		show(all, "total");
	return status;
}
