/* A number of digits to this base, and nothing else; -1 where the text is none, or it is above 32767. */
static int number(const char *text, int base)
{
	long value = 0;

	if (*text == 0)
		return -1;
	for (; *text; text++) {
		if (*text < '0' || *text >= '0' + base)
			return -1;
		value = value * base + (*text - '0');
		if (value > 32767)
			return -1;
	}
	return value;
}
