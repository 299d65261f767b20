/* pr [-N] [+N] [-h header] [-wN] [-lN] [-t] [-sC] [-m] [file ..]: files in pages with a header, in columns. */
#include <stdio.h>
#include <stdlib.h>
#include <string.h>
#include <unix.h>
#include "text.h"
#include "written.h"

#define FILES 10

static FILE *files[FILES];
static char line[MOST];
static const char *header;
static int columns = 1, first_page = 1, width = 72, length = 66, bare, merged, separator, page_number;
static char **column_lines;	/* the lines of a page of several columns */
static const char *const months[] = {
	"Jan", "Feb", "Mar", "Apr", "May", "Jun", "Jul", "Aug", "Sep", "Oct", "Nov", "Dec"
};

/* A time in seconds since the beginning of 1970, as a date of Greenwich. */
static void show_time(long when)
{
	static const char days[] = { 31, 28, 31, 30, 31, 30, 31, 31, 30, 31, 30, 31 };
	unsigned day = (unsigned long)when / 86400, year = 1970, month, size;
	unsigned minute = (unsigned long)when % 86400 / 60;

	for (; size = year % 4 ? 365 : 366, day >= size; year++)
		day -= size;
	for (month = 0; size = days[month] + (month == 1 && year % 4 == 0), day >= size; month++)
		day -= size;
	printf("%s %2d %02d:%02d %d", months[month], day + 1, minute / 60, minute % 60, year);
}

static void newlines(int count)
{
	while (count-- > 0)
		putchar('\n');
}

static void show_header(const char *name, long when)
{
	newlines(2);
	show_time(when);
	printf("  %s Page %d", header ? header : name, page_number);
	newlines(3);
}

/* A text in a column: cut to its width, and filled up with blanks or ended by the separator where another column follows. */
static void cell(const char *text, int more)
{
	int size = 0, most = columns == 1 ? MOST : width / columns - (separator ? 0 : 1);

	for (; *text && (separator || size < most); text++) {
		if (*text == '\t' && columns > 1 && !separator) {
			do
				putchar(' ');
			while (++size % 8 && size < most);
			continue;
		}
		putchar(*text);
		size++;
	}
	if (!more)
		return;
	if (separator)
		putchar(separator);
	else
		for (; size < width / columns; size++)
			putchar(' ');
}

static void keep(int at)
{
	free(column_lines[at]);
	column_lines[at] = malloc(strlen(line) + 1);
	if (column_lines[at] == NULL) {
		fprintf(stderr, "pr: no room\n");
		exit(1);
	}
	strcpy(column_lines[at], line);
}

/* Reads the lines of a page: down the columns, or with -m one of each file. It gives how many places are taken. */
static int read_page(int rows)
{
	int at, row, some = 0, size = 0;

	for (at = 0; at < rows * columns; at++) {
		free(column_lines[at]);
		column_lines[at] = NULL;
	}
	if (!merged) {
		while (size < rows * columns && read_line(files[0], line))
			keep(size++);
		return size;
	}
	for (row = 0; row < rows; row++)
		for (at = 0; at < columns; at++)
			if (files[at] && read_line(files[at], line)) {
				keep(at * rows + row);
				some = rows * columns;
			}
	return some;
}

static void show_page(int rows)
{
	int row, at, last;

	for (row = 0; row < rows; row++) {
		for (last = columns - 1; last > 0 && column_lines[last * rows + row] == NULL; last--)
			;
		if (column_lines[last * rows + row] == NULL) {
			if (bare)
				break;
			putchar('\n');
			continue;
		}
		for (at = 0; at <= last; at++)
			cell(column_lines[at * rows + row] ? column_lines[at * rows + row] : "", at < last);
		putchar('\n');
	}
}

/* Shows the file or the files that are open. */
static void pages(const char *name, long when)
{
	int rows = bare ? length : length - 10, size;

	column_lines = calloc(rows * columns, sizeof *column_lines);
	if (column_lines == NULL) {
		fprintf(stderr, "pr: no room\n");
		exit(1);
	}
	page_number = 0;
	while ((size = read_page(rows)) > 0) {
		if (++page_number < first_page)
			continue;
		if (!bare)
			show_header(name, when);
		show_page(rows);
		if (!bare)
			newlines(5);
	}
	for (size = 0; size < rows * columns; size++)
		free(column_lines[size]);
	free(column_lines);
}

static int options(int argc, char **argv)
{
	int at;

	for (at = 1; at < argc && (argv[at][0] == '-' || argv[at][0] == '+') && argv[at][1]; at++) {
		if (argv[at][0] == '+') {
			first_page = atoi(argv[at] + 1);
			continue;
		}
		switch (argv[at][1]) {
		case 'h': if (at + 1 < argc) header = argv[++at]; break;
		case 'w': width = atoi(argv[at] + 2); break;
		case 'l': length = atoi(argv[at] + 2); break;
		case 't': bare = 1; break;
		case 'm': merged = 1; break;
		case 's': separator = argv[at][2] ? argv[at][2] : '\t'; break;
		default: columns = atoi(argv[at] + 1);
		}
	}
	if (columns < 1 || columns > width / 2 || length < 1 || length > 200) {
		fprintf(stderr, "pr: bad argument\n");
		exit(1);
	}
	if (length <= 10)
		bare = 1;
	return at;
}

static FILE *opened(const char *name, long *when)
{
	FILE *file = strcmp(name, "-") ? open_file("pr", name) : stdin;
	struct stat status;

	if (file && file != stdin && stat(name, &status) == 0)
		*when = status.changed;
	return file;
}

int main(int argc, char **argv)
{
	int at = options(argc, argv), failed = 0;
	long when = time();

	if (merged) {
		for (columns = 0; at < argc && columns < FILES; at++)
			if ((files[columns] = opened(argv[at], &when)) != NULL)
				columns++;
			else
				failed = 1;
		when = time();
		if (columns > 0)
			pages("", when);
		return written("pr", stdout, failed, 1);
	}
	if (at == argc) {
		files[0] = stdin;
		pages("", when);
	}
	for (; at < argc; at++) {
		files[0] = opened(argv[at], &when);
		if (files[0] == NULL) {
			failed = 1;
			continue;
		}
		pages(strcmp(argv[at], "-") ? argv[at] : "", when);
		if (files[0] != stdin)
			fclose(files[0]);
	}
	return written("pr", stdout, failed, 1);
}
