/* Lines of text, for the commands that read them. */
#include "fast.h"

#define MOST 512

/* A line without its end; what has no room is left out. Whether there was one. */
static int read_line(FILE *file, char *to)
{
	int c, size = 0;

	to[0] = 0;
	if (feof(file))
		return 0;
	while ((c = fast_getc(file)) != EOF && c != '\n')
		if (size < MOST - 1 && (c & 0177))
			to[size++] = c & 0177;
	to[size] = 0;
	return c != EOF || size > 0;
}

/* Writes a line and its end. */
static void put_line(FILE *file, const char *text)
{
	for (; *text; text++)
		fast_putc(*text, file);
	putc('\n', file);
}

/* The file by its name; without it, a line that says so. */
static FILE *open_file(const char *command, const char *name)
{
	FILE *file = fopen(name, "r");

	if (file == NULL)
		fprintf(stderr, "%s: can't open %s\n", command, name);
	return file;
}
