/* cal [month] year: a calendar. September 1752 has the days that it had in Britain. */
#include <stdio.h>
#include <string.h>
#include "written.h"

static const char *const names[] = {
	"January", "February", "March", "April", "May", "June", "July", "August", "September", "October", "November", "December"
};
static const char days[] = { 31, 28, 31, 30, 31, 30, 31, 31, 30, 31, 30, 31 };
static char page[8][81];

static int leap(int year)
{
	if (year <= 1752)
		return year % 4 == 0;
	return year % 4 == 0 && (year % 100 != 0 || year % 400 == 0);
}

/* The day of the week of 1 January; 0 is Sunday. The year 1 began on a Saturday. */
static int first_day(int year)
{
	int day = 6, at, past = year - 1;

	day = (day + past + past / 4) % 7;
	if (year > 1752) {
		day += 7 - 11 % 7;
		for (at = 1800; at < year; at += 100)
			if (at % 400 != 0)
				day += 6;
	}
	return day % 7;
}

/* Whether a day of a month was there. */
static int there(int year, int month, int day)
{
	return !(year == 1752 && month == 8 && day > 2 && day < 14);
}

/* Writes a month into the page, from a column on. */
static void write_month(int year, int month, int column, int with_year)
{
	int at, day, weekday = first_day(year), row = 2, last;
	char title[32], *to;

	for (at = 0; at < month; at++)
		weekday += days[at] + (at == 1 && leap(year)) - (year == 1752 && at == 8 ? 11 : 0);
	weekday %= 7;
	if (with_year)
		sprintf(title, "%s %d", names[month], year);
	else
		strcpy(title, names[month]);
	memcpy(page[0] + column + (20 - (int)strlen(title)) / 2, title, strlen(title));
	memcpy(page[1] + column, " S  M Tu  W Th  F  S", 20);
	last = days[month] + (month == 1 && leap(year));
	for (day = 1; day <= last; day++) {
		if (!there(year, month, day))
			continue;
		to = page[row] + column + weekday * 3;
		if (day > 9)
			to[0] = day / 10 + '0';
		to[1] = day % 10 + '0';
		if (++weekday == 7) {
			weekday = 0;
			row++;
		}
	}
}

static void show_page(void)
{
	int row, size;

	for (row = 0; row < 8; row++) {
		for (size = 80; size > 0 && page[row][size - 1] == ' '; size--)
			;
		page[row][size] = 0;
		puts(page[row]);
	}
}

/* A number of the arguments; -1 where it is none, or more than 9999. */
static int number(const char *text)
{
	int value = 0;

	if (*text == 0)
		return -1;
	for (; *text; text++) {
		if (*text < '0' || *text > '9' || value > 999)
			return -1;
		value = value * 10 + *text - '0';
	}
	return value;
}

int main(int argc, char **argv)
{
	int year, month = 0, at;

	if (argc < 2 || argc > 3) {
		fprintf(stderr, "usage: cal [month] year\n");
		return 1;
	}
	year = number(argv[argc - 1]);
	if (argc == 3)
		month = number(argv[1]);
	if (year < 1 || year > 9999 || (argc == 3 && (month < 1 || month > 12))) {
		fprintf(stderr, "Bad argument\n");
		return 1;
	}
	memset(page, ' ', sizeof page);
	if (argc == 3) {
		write_month(year, month - 1, 0, 1);
		show_page();
		return written("cal", stdout, 0, 1);
	}
	printf("\n\n\n%34d\n\n", year);
	for (month = 0; month < 12; month += 3) {
		memset(page, ' ', sizeof page);
		for (at = 0; at < 3; at++)
			write_month(year, month + at, at * 23, 0);
		show_page();
	}
	return written("cal", stdout, 0, 1);
}
