/* Bytes of memory. */
#include <string.h>

void *memcpy(void *to, const void *from, size_t count)
{
	char *at = to;
	const char *source = from;

	for (; count > 0; count--)
		*at++ = *source++;
	return to;
}

void *memmove(void *to, const void *from, size_t count)
{
	char *at = to;
	const char *source = from;

	if (at <= source)
		return memcpy(to, from, count);
	for (at += count, source += count; count > 0; count--)
		*--at = *--source;
	return to;
}

void *memset(void *to, int c, size_t count)
{
	char *at = to;

	for (; count > 0; count--)
		*at++ = c;
	return to;
}

int memcmp(const void *one, const void *other, size_t count)
{
	const char *left = one, *right = other;

	for (; count > 0; count--, left++, right++)
		if (*left != *right)
			return (*left & 0377) - (*right & 0377);
	return 0;
}
