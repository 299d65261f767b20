/* Numbers of texts, and others. */
#include <stdlib.h>
#include <ctype.h>

static unsigned long seed = 1;

long atol(const char *text)
{
	long number = 0;
	int minus = 0;

	while (isspace(*text))
		text++;
	if (*text == '-' || *text == '+')
		minus = *text++ == '-';
	while (isdigit(*text))
		number = number * 10 + (*text++ - '0');
	return minus ? -number : number;
}

int atoi(const char *text)
{
	return atol(text);
}

int abs(int number)
{
	return number < 0 ? -number : number;
}

void srand(unsigned number)
{
	seed = number;
}

int rand(void)
{
	seed = seed * 1103515245L + 12345;
	return (int)(seed >> 16) & 32767;
}
