/* sum name ..: the sum of the bytes of each file, modulo 65,536, in octal, and how many blocks it has. */
#include <stdio.h>
#include "say.h"

static unsigned char buffer[512];

static int show_sum(const char *name, int file)
{
	unsigned sum = 0, blocks = 0;
	int size, at;

	while ((size = read(file, buffer, sizeof buffer)) > 0) {
		for (at = 0; at < size; at++)
			sum += buffer[at];
		blocks++;
	}
	if (size < 0)
		return complain(name, "read error");
	printf("%06o %u\n", sum, blocks);
	return 0;
}

int main(int argc, char **argv)
{
	int file, failed = 0;

	if (argc < 2) {
		say("arg count\n");
		return 1;
	}
	while (--argc > 0) {
		file = open(*++argv, 0);
		if (file < 0) {
			failed = complain(*argv, "cannot open");
			continue;
		}
		failed |= show_sum(*argv, file);
		close(file);
	}
	return failed;
}
