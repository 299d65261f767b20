/* goto label: the file of commands goes on after the line `: label`. */
#include "say.h"

static char block[512];
static unsigned size, at, place;

/* The next byte of the file; -1 at its end. */
static int next(void)
{
	if (at == size) {
		size = read(0, block, sizeof block);
		at = 0;
		if (size == 0 || size == 0177777)
			return size = 0, -1;
	}
	place++;
	return block[at++];
}

/* Whether the rest of a line, after its colon, is the label; the line is read to its end. */
static int is_label(const char *label)
{
	int c;

	do
		c = next();
	while (c == ' ' || c == '\t');
	for (; *label && c == *label; label++)
		c = next();
	if (*label || c != ' ' && c != '\n' && c != -1 && c != '\t') {
		while (c != '\n' && c != -1)
			c = next();
		return 0;
	}
	while (c != '\n' && c != -1)
		c = next();
	return 1;
}

int main(int argc, char **argv)
{
	int c, modes[3];

	if (argc != 2 || gtty(0, modes) == 0)
		return complain("goto", "error");
	if (seek(0, 0, 0) < 0)
		return complain("goto", "error");
	while ((c = next()) != -1) {
		if (c == ':') {
			if (is_label(argv[1])) {
				seek(0, place, 0);
				return 0;
			}
		} else
			while (c != '\n' && c != -1)
				c = next();
	}
	seek(0, 0, 2);
	return complain(argv[1], "label not found");
}
