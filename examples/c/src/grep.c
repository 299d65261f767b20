/* grep [-v] [-n] [-c] pattern [file ..]: the lines in which the pattern is found. Of ed(I)'s patterns: ^ $ . * [abc] [^a-z] \x */
#include <stdio.h>
#include <string.h>

#define MOST 512

static int inverted, numbered, counted;

static int found_here(const char *pattern, const char *text);

/* Whether a character is in the set after a `[`. The end of the set goes to `end`. */
static int in_set(const char *set, int c, const char **end)
{
	int not = 0, found = 0;

	if (*set == '^') {
		not = 1;
		set++;
	}
	do {
		if (set[1] == '-' && set[2] != ']' && set[2]) {
			if (c >= set[0] && c <= set[2])
				found = 1;
			set += 3;
		} else if (*set++ == c)
			found = 1;
	} while (*set && *set != ']');
	*end = *set ? set + 1 : set;
	return c != 0 && found != not;
}

/* Whether one character of a pattern fits; the rest of the pattern goes to `rest`. */
static int fits(const char *pattern, int c, const char **rest)
{
	if (*pattern == '[')
		return in_set(pattern + 1, c, rest);
	if (*pattern == '\\' && pattern[1])
		pattern++;
	else if (*pattern == '.') {
		*rest = pattern + 1;
		return c != 0;
	}
	*rest = pattern + 1;
	return c != 0 && *pattern == c;
}

/* As many characters as fit, and fewer and fewer, until the rest is found. */
static int repeated(const char *pattern, const char *rest, const char *text)
{
	const char *at = text, *unused;

	while (fits(pattern, *at, &unused))
		at++;
	do
		if (found_here(rest, at))
			return 1;
	while (at-- > text);
	return 0;
}

static int found_here(const char *pattern, const char *text)
{
	const char *rest;
	int first;

	for (; *pattern; pattern = rest, text++) {
		if (*pattern == '$' && pattern[1] == 0)
			return *text == 0;
		first = fits(pattern, *text, &rest);
		if (*rest == '*')
			return repeated(pattern, rest + 1, text);
		if (!first)
			return 0;
	}
	return 1;
}

static int found(const char *pattern, const char *text)
{
	if (*pattern == '^')
		return found_here(pattern + 1, text);
	do
		if (found_here(pattern, text))
			return 1;
	while (*text++);
	return 0;
}

static int search(const char *pattern, FILE *file, const char *name)
{
	char line[MOST];
	int number = 0, count = 0, size;

	while (fgets(line, MOST, file) != NULL) {
		number++;
		size = strlen(line);
		if (size && line[size - 1] == '\n')
			line[size - 1] = 0;
		if (found(pattern, line) == inverted)
			continue;
		count++;
		if (counted)
			continue;
		if (name)
			printf("%s:", name);
		if (numbered)
			printf("%d:", number);
		puts(line);
	}
	if (counted) {
		if (name)
			printf("%s:", name);
		printf("%d\n", count);
	}
	return count;
}

int main(int argc, char **argv)
{
	FILE *file;
	const char *pattern;
	int at, several, count = 0, status = 0;

	for (at = 1; at < argc && argv[at][0] == '-'; at++) {
		if (strcmp(argv[at], "-v") == 0)
			inverted = 1;
		else if (strcmp(argv[at], "-n") == 0)
			numbered = 1;
		else if (strcmp(argv[at], "-c") == 0)
			counted = 1;
		else
			at = argc;
	}
	if (at >= argc) {
		fprintf(stderr, "grep: usage: grep [-v] [-n] [-c] pattern [file ..]\n");
		return 2;
	}
	pattern = argv[at++];
	several = argc - at > 1;
	if (at == argc)
		count = search(pattern, stdin, NULL);
	for (; at < argc; at++) {
		file = fopen(argv[at], "r");
		if (file == NULL) {
			fprintf(stderr, "grep: can't open %s\n", argv[at]);
			status = 2;
			continue;
		}
		count += search(pattern, file, several ? argv[at] : NULL);
		fclose(file);
	}
	return status ? status : count == 0;
}
