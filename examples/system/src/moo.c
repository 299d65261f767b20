/* moo [number]: bulls and cows, a game of guessing a number of four digits that are all different. */
#include <stdio.h>
#include <string.h>
#include <unix.h>

static char secret[5], guess[80];
static long seed;

static int chance(int most)
{
	seed = seed * 1103515245 + 12345;
	return (seed >> 16 & 32767) % most;
}

static void choose(void)
{
	int at, digit;

	for (at = 0; at < 4; ) {
		secret[at] = 0;
		digit = '0' + chance(10);
		if (strchr(secret, digit) == NULL)
			secret[at++] = digit;
	}
}

/* Whether a text is four digits that are all different. */
static int is_number(const char *text)
{
	int at;

	for (at = 0; at < 4; at++)
		if (text[at] < '0' || text[at] > '9' || strchr(text + at + 1, text[at]))
			return 0;
	return text[4] == 0;
}

static int ask(void)
{
	int size;

	printf("Your guess? ");
	fflush(stdout);
	if (fgets(guess, sizeof guess, stdin) == NULL)
		return 0;
	size = strlen(guess);
	if (size && guess[size - 1] == '\n')
		guess[size - 1] = 0;
	return guess[0] != 'q';
}

/* One game; whether there may be another. */
static int play(void)
{
	int tries = 0, bulls, cows, at;

	while (ask()) {
		if (!is_number(guess)) {
			printf("Four different digits, please.\n");
			continue;
		}
		tries++;
		bulls = cows = 0;
		for (at = 0; at < 4; at++)
			if (guess[at] == secret[at])
				bulls++;
			else if (strchr(secret, guess[at]))
				cows++;
		if (bulls == 4) {
			printf("Right, in %d!\n\n", tries);
			return 1;
		}
		printf("Bulls: %d, cows: %d\n", bulls, cows);
	}
	printf("It was %s.\n", secret);
	return 0;
}

int main(int argc, char **argv)
{
	if (argc > 1) {
		if (!is_number(argv[1])) {
			fprintf(stderr, "moo: four different digits, please\n");
			return 1;
		}
		strcpy(secret, argv[1]);
		play();
		return 0;
	}
	seed = time() * 31 + getpid();
	do {
		printf("A new number.\n");
		choose();
	} while (play());
	return 0;
}
