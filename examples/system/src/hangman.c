/* hangman [word]: a game of guessing a word by its letters; seven wrong ones lose it. */
#include <ctype.h>
#include <stdio.h>
#include <string.h>
#include <unix.h>

#define WRONG 7

static const char *const words[] = {
	"address", "anchor", "archive", "backspace", "barometer", "bicycle", "blanket", "bridge", "buffer",
	"calendar", "candle",
	"capital", "carriage", "chimney", "circuit", "clock", "compass", "console", "copper", "core", "cylinder",
	"delta", "device",
	"diamond", "directory", "drawing", "dungeon", "editor", "elephant", "engine", "entry", "factory", "feather",
	"ferry",
	"fiddle", "flint", "garden", "ghost", "glacier", "hammer", "harbour", "hedgehog", "horizon", "inode",
	"island", "jacket",
	"journey", "kernel", "kettle", "keyboard", "ladder", "lantern", "library", "lighthouse", "machine", "magnet",
	"manual",
	"marble", "memory", "mirror", "monkey", "mountain", "needle", "nephew", "octopus", "orbit", "orchard",
	"paper", "parent",
	"pebble", "pencil", "pipe", "pocket", "process", "puzzle", "quarter", "quilt", "railway", "rhythm", "river",
	"rocket",
	"saddle", "sailor", "scissors", "shadow", "shell", "signal", "sleep", "spider", "stamp", "storm", "swap", "table",
	"teacher", "telegram", "terminal", "thunder", "ticket", "timber", "tunnel", "umbrella", "user", "valley", "violin",
	"volcano", "wagon", "weather", "whistle", "window", "wizard", "yacht", "zebra"
};
static char word[32], shown[32], tried[28], line[80];
static long seed;

static void choose(void)
{
	seed = seed * 1103515245 + 12345;
	strcpy(word, words[(seed >> 16 & 32767) % (sizeof words / sizeof words[0])]);
}

/* A letter that hasn't been tried; 0 where there are no more. */
static int ask(void)
{
	for (;;) {
		printf("Word: %s  Wrong: %s\nGuess: ", shown, tried);
		fflush(stdout);
		if (fgets(line, sizeof line, stdin) == NULL)
			return 0;
		line[0] = tolower(line[0]);
		if (islower(line[0]) && line[1] == '\n')
			return line[0];
		printf("One letter, please.\n");
	}
}

/* One game; whether there may be another. */
static int play(void)
{
	static char seen[27];
	int wrong = 0, at, c, left = strlen(word), some;

	memset(seen, 0, sizeof seen);
	memset(tried, 0, sizeof tried);
	memset(shown, 0, sizeof shown);
	memset(shown, '-', left);
	while (wrong < WRONG && left > 0) {
		c = ask();
		if (c == 0)
			break;
		if (seen[c - 'a']) {
			printf("You have tried that.\n");
			continue;
		}
		seen[c - 'a'] = 1;
		some = 0;
		for (at = 0; word[at]; at++)
			if (word[at] == c) {
				shown[at] = c;
				some++;
			}
		left -= some;
		if (some == 0)
			tried[wrong++] = c;
	}
	if (left == 0)
		printf("You have it: %s.\n\n", word);
	else
		printf("The word was %s.\n\n", word);
	return left == 0 || wrong == WRONG;
}

int main(int argc, char **argv)
{
	int at;

	if (argc > 1) {
		for (at = 0; islower(argv[1][at]); at++)
			;
		if (argv[1][at] || at == 0 || at > 30) {
			fprintf(stderr, "hangman: a word of small letters, please\n");
			return 1;
		}
		strcpy(word, argv[1]);
		play();
		return 0;
	}
	seed = time() * 31 + getpid();
	do
		choose();
	while (play());
	return 0;
}
