/* Texts that are shown in lines, and words that are read. */
#define WIDTH 72

/* Shows a text in lines of at most WIDTH characters. */
static void say(const char *text)
{
	int column = 0, size;

	while (*text) {
		for (size = 0; text[size] && text[size] != ' '; size++)
			;
		if (column && column + 1 + size > WIDTH) {
			putchar('\n');
			column = 0;
		}
		if (column) {
			putchar(' ');
			column++;
		}
		for (; size > 0; size--, column++)
			putchar(*text++);
		while (*text == ' ')
			text++;
	}
	putchar('\n');
}

/* The next word of the text, in small letters; NULL at its end. */
static char *next_word(char **text)
{
	char *at = *text, *start;

	while (*at == ' ' || *at == '\t')
		at++;
	if (*at == 0)
		return NULL;
	for (start = at; *at && *at != ' ' && *at != '\t'; at++)
		*at = tolower(*at);
	if (*at)
		*at++ = 0;
	*text = at;
	return start;
}
