/* Texts, with a NUL at their end. */
#include <string.h>

size_t strlen(const char *text)
{
	const char *at = text;

	while (*at)
		at++;
	return at - text;
}

char *strcpy(char *to, const char *from)
{
	char *at = to;

	while ((*at++ = *from++) != 0)
		;
	return to;
}

char *strncpy(char *to, const char *from, size_t most)
{
	char *at = to;

	for (; most > 0; most--)
		if ((*at++ = *from) != 0)
			from++;
	return to;
}

char *strcat(char *to, const char *from)
{
	strcpy(to + strlen(to), from);
	return to;
}

int strcmp(const char *one, const char *other)
{
	for (; *one == *other; one++, other++)
		if (*one == 0)
			return 0;
	return (*one & 0377) - (*other & 0377);
}

int strncmp(const char *one, const char *other, size_t most)
{
	for (; most > 0; most--, one++, other++) {
		if (*one != *other)
			return (*one & 0377) - (*other & 0377);
		if (*one == 0)
			break;
	}
	return 0;
}

char *strchr(const char *text, int c)
{
	for (; *text != (char)c; text++)
		if (*text == 0)
			return NULL;
	return (char *)text;
}

char *strrchr(const char *text, int c)
{
	const char *found = NULL;

	do
		if (*text == (char)c)
			found = text;
	while (*text++);
	return (char *)found;
}

char *strstr(const char *text, const char *part)
{
	size_t size = strlen(part);

	for (; strncmp(text, part, size) != 0; text++)
		if (*text == 0)
			return NULL;
	return (char *)text;
}
