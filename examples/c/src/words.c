/*
 * How many lines the standard input has, and how many words of each length. It is wrong on purpose: docs/tools/c.md finds out where.
 */
#include <stdio.h>

int lengths[10];	/* how many words there were of each length */
int lines;

void count(int length)
{
	lengths[length]++;
}

int main(void)
{
	int c, length = 0;

	while ((c = getchar()) != EOF) {
		if (c != ' ' && c != '\n') {
			length++;
			continue;
		}
		if (length > 0)
			count(length);
		length = 0;
		if (c == '\n')
			lines++;
	}
	printf("%d lines\n", lines);
	for (length = 1; length < 10; length++)
		if (lengths[length] > 0)
			printf("%d words of %d letters\n", lengths[length], length);
	return 0;
}
