/* Characters and lines of files. */
#include <stdio.h>

int getchar(void)
{
	return getc(stdin);
}

int putchar(int c)
{
	return putc(c, stdout);
}

/* A line with its end, or as much of it as there is room for; NULL at the end of the file, and the room stays as it was. */
char *fgets(char *to, int most, FILE *file)
{
	char *at = to;
	int c;

	while (--most > 0 && (c = getc(file)) != EOF) {
		*at++ = c;
		if (c == '\n')
			break;
	}
	if (at == to && most > 0)
		return NULL;
	*at = 0;
	return to;
}

int fputs(const char *text, FILE *file)
{
	while (*text)
		if (putc(*text++, file) == EOF)
			return EOF;
	return 0;
}

int puts(const char *text)
{
	return fputs(text, stdout) == EOF ? EOF : putc('\n', stdout);
}
