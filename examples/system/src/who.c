/* who [file] [am i]: the users that are logged in. */
#include "say.h"
#include "dates.h"
#include "lines.h"

static void show(struct login *entry)
{
	char text[64], date[32];

	memset(text, ' ', sizeof text);
	memcpy(text, entry->name, strlen(entry->name) < 8 ? strlen(entry->name) : 8);
	memcpy(text + 8, "ttyX ", 5);
	text[11] = entry->line;
	memcpy(text + 13, date_text(date, entry->time) + 4, 12);
	text[25] = '\n';
	write(1, text, 26);
}

/* Whether a user and a terminal stand there; a file of another kind has bytes that aren't printed. */
static int is_login(struct login *entry)
{
	int at, c;

	for (at = 0; at < sizeof entry->name && (c = entry->name[at]); at++)
		if (c <= ' ' || c == 0177)
			return 0;
	return at > 0 && entry->line > ' ';
}

int main(int argc, char **argv)
{
	const char *name = "/etc/utmp";
	struct login entry;
	int file, line = 0;

	if (argc == 2)
		name = argv[1];
	else if (argc == 3) {
		line = line_of(0);
		if (line == 0)
			return complain("who", "not a terminal");
	}
	file = open(name, 0);
	if (file < 0)
		return complain("who", "cannot open utmp");
	while (read(file, &entry, 16) == 16)
		if (is_login(&entry) && (line == 0 || entry.line == line))
			show(&entry);
	return 0;
}
