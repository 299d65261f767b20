/* tr [-cds] [string1 [string2]]: copies its input, with other characters in the place of those of string1. */
#include <stdio.h>
#include "fast.h"
#include "written.h"

static int others, deleted, squeezed;
static unsigned char first[256], second[256];	/* the characters of the strings */
static int first_size, second_size;
static int to[256];			/* what takes a character's place; -1 for nothing */
static char once[256];			/* of which one stays of several */

/* One character of a string, which may be \ooo or \x. */
static int one(char **text)
{
	char *at = *text;
	int c = *at++ & 0377, digits;

	if (c == '\\' && *at >= '0' && *at <= '7') {
		c = 0;
		for (digits = 0; digits < 3 && *at >= '0' && *at <= '7'; digits++)
			c = c * 8 + *at++ - '0';
	} else if (c == '\\' && *at)
		c = *at++;
	*text = at;
	return c & 0377;
}

static int number(char **text)
{
	int base = **text == '0' ? 8 : 10, value = 0;

	for (; **text >= '0' && **text <= '9'; (*text)++)
		value = value * base + **text - '0';
	return value;
}

/* The characters of a string, in which [a-z] and [a*n] may stand; `most` of them, for a repetition without a number. */
static int expand(char *text, unsigned char *chars, int most)
{
	int size = 0, c, high, count;
	char *at;

	while (*text && size < 256) {
		if (*text == '[' && text[1]) {
			at = text + 1;
			c = one(&at);
			if (*at == '-' && at[1]) {
				at++;
				high = one(&at);
				if (*at == ']') {
					for (; c <= high && size < 256; c++)
						chars[size++] = c;
					text = at + 1;
					continue;
				}
			} else if (*at == '*') {
				at++;
				count = number(&at);
				if (*at == ']') {
					for (count = count ? count : most - size; count > 0 && size < 256; count--)
						chars[size++] = c;
					text = at + 1;
					continue;
				}
			}
		}
		chars[size++] = one(&text);
	}
	return size;
}

/* The characters that aren't in string1, in their order. */
static void complement(void)
{
	char there[256];
	int c;

	for (c = 0; c < 256; c++)
		there[c] = 0;
	for (c = 0; c < first_size; c++)
		there[first[c]] = 1;
	first_size = 0;
	for (c = 1; c < 256; c++)
		if (!there[c])
			first[first_size++] = c;
}

int main(int argc, char **argv)
{
	int at = 1, c, last = -1;
	char *option;

	if (argc > 1 && argv[1][0] == '-' && argv[1][1]) {
		for (option = argv[1] + 1; *option; option++)
			switch (*option) {
			case 'c': others = 1; break;
			case 'd': deleted = 1; break;
			case 's': squeezed = 1; break;
			}
		at++;
	}
	if (at < argc)
		first_size = expand(argv[at++], first, 0);
	if (others)
		complement();
	if (at < argc)
		second_size = expand(argv[at], second, first_size);
	for (c = 0; c < 256; c++)
		to[c] = c;
	for (c = first_size - 1; c >= 0; c--)
		if (deleted)
			to[first[c]] = -1;
		else if (second_size > 0 && (c < second_size || others))
			to[first[c]] = second[c < second_size ? c : second_size - 1];
	if (squeezed)
		for (c = 0; c < second_size; c++)
			once[second[c]] = 1;
	while ((c = fast_getc(stdin)) != EOF) {
		c = c ? to[c & 0377] : -1;
		if (c < 0 || (c == last && once[c]))
			continue;
		fast_putc(c, stdout);
		last = c;
	}
	return written("tr", stdout, 0, 1);
}
