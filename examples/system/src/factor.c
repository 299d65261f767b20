/* factor [number]: the prime factors of a number up to 4294967295, or of each number that is read. */
#include <stdio.h>

static void factors(unsigned long number)
{
	unsigned long by = 2;

	while (by <= 65535 && by * by <= number)
		if (number % by == 0) {
			printf("     %lu\n", by);
			number /= by;
		} else
			by += by == 2 ? 1 : 2;
	if (number > 1)
		printf("     %lu\n", number);
}

/* A number; 0 where the text is none. */
static unsigned long number_of(const char *text)
{
	unsigned long value = 0;

	while (*text == ' ' || *text == '\t')
		text++;
	for (; *text >= '0' && *text <= '9'; text++) {
		if (value > 429496729 || (value == 429496729 && *text > '5'))
			return 0;
		value = value * 10 + *text - '0';
	}
	return *text == 0 || *text == '\n' ? value : 0;
}

int main(int argc, char **argv)
{
	char line[80];
	unsigned long number;

	if (argc > 1) {
		number = number_of(argv[1]);
		if (number == 0) {
			printf("Ouch.\n");
			return 1;
		}
		factors(number);
		return 0;
	}
	while (fgets(line, sizeof line, stdin)) {
		if (line[0] == '\n')
			continue;
		number = number_of(line);
		if (number == 0) {
			printf("Ouch.\n");
			return 1;
		}
		printf("%lu\n", number);
		factors(number);
	}
	return 0;
}
