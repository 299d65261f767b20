/* Days and times, as they are in Greenwich. */
#define DAY 86400L

static const char month_days[] = { 31, 28, 31, 30, 31, 30, 31, 31, 30, 31, 30, 31 };

static int leap(int year)
{
	return year % 4 == 0 && (year % 100 != 0 || year % 400 == 0);
}

static int days_of_month(int month, int year)
{
	return month_days[month] + (month == 1 && leap(year));
}

/* Two digits, the first one a blank where it is 0 and `zero` isn't set. */
static void two(char *to, int value, int zero)
{
	to[0] = value >= 10 || zero ? '0' + value / 10 % 10 : ' ';
	to[1] = '0' + value % 10;
}

/* `Thu May  1 19:28:24 1975` of seconds since 1970 began: 24 bytes and a NUL. */
static char *date_text(char *to, long time)
{
	int day = time / DAY, year = 1970, month = 0, week = (day + 4) % 7;
	long rest = time % DAY;
	int minutes = rest / 60, seconds = rest % 60;

	for (; day >= 365 + leap(year); year++)
		day -= 365 + leap(year);
	for (; day >= days_of_month(month, year); month++)
		day -= days_of_month(month, year);
	memcpy(to, "Sun Mon Tue Wed Thu Fri Sat " + week * 4, 4);
	memcpy(to + 4, "Jan Feb Mar Apr May Jun Jul Aug Sep Oct Nov Dec " + month * 4, 4);
	two(to + 8, day + 1, 0);
	to[10] = ' ';
	two(to + 11, minutes / 60, 1);
	to[13] = ':';
	two(to + 14, minutes % 60, 1);
	to[16] = ':';
	two(to + 17, seconds, 1);
	to[19] = ' ';
	two(to + 20, year / 100, 1);
	two(to + 22, year % 100, 1);
	to[24] = 0;
	return to;
}
