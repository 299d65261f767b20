/* date [mmddhhmm[yy]]: the day and the time, in Greenwich; user 0 may set them. */
#include "say.h"
#include "dates.h"

static char text[32];

/* Two digits of a date within these bounds; -1 where they aren't. */
static int pair(const char *digits, int least, int most)
{
	int value;

	if (digits[0] < '0' || digits[0] > '9' || digits[1] < '0' || digits[1] > '9')
		return -1;
	value = (digits[0] - '0') * 10 + digits[1] - '0';
	return value < least || value > most ? -1 : value;
}

/* The year of a time. */
static int year_of(long time)
{
	long days = time / DAY;
	int year = 1970;

	for (; days >= 365 + leap(year); year++)
		days -= 365 + leap(year);
	return year;
}

/* The seconds since 1970 of digits; -1 where they are no date. */
static long time_of(const char *digits)
{
	int size = strlen(digits), year, month, day, hour, minute, at;
	long days = 0;

	if (size != 8 && size != 10)
		return -1;
	year = year_of(time());
	if (size == 10) {
		year = pair(digits + 8, 0, 99);
		if (year < 0)
			return -1;
		year += year < 70 ? 2000 : 1900;
	}
	month = pair(digits, 1, 12) - 1;
	hour = pair(digits + 4, 0, 23);
	minute = pair(digits + 6, 0, 59);
	if (month < 0 || hour < 0 || minute < 0 || year > 2037)
		return -1;
	day = pair(digits + 2, 1, days_of_month(month, year));
	if (day < 0)
		return -1;
	for (at = 1970; at < year; at++)
		days += 365 + leap(at);
	for (at = 0; at < month; at++)
		days += days_of_month(at, year);
	return (days + day - 1) * DAY + hour * 3600L + minute * 60;
}

int main(int argc, char **argv)
{
	long new;

	if (argc > 1) {
		new = time_of(argv[1]);
		if (new < 0) {
			say("bad conversion\n");
			return 1;
		}
		if (stime(new) < 0) {
			say("No permission\n");
			return 1;
		}
	}
	date_text(text, time());
	memcpy(text + 24, text + 20, 4);
	memcpy(text + 20, "GMT ", 4);
	text[28] = '\n';
	write(1, text, 29);
	return 0;
}
