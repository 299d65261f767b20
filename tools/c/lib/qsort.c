/* Sorting: a heap, so that it takes no room, and never long. */
#include <stdlib.h>

static void swap(char *one, char *other, size_t size)
{
	char byte;

	for (; size > 0; size--) {
		byte = *one;
		*one++ = *other;
		*other++ = byte;
	}
}

void qsort(void *base, size_t count, size_t size, int (*compare)(const void *, const void *))
{
	char *start = base;
	size_t top = count / 2, at, child;

	while (count > 1) {
		if (top > 0)
			top--;
		else if (--count > 0)
			swap(start, start + count * size, size);
		for (at = top; (child = 2 * at + 1) < count; at = child) {
			if (child + 1 < count && compare(start + child * size, start + (child + 1) * size) < 0)
				child++;
			if (compare(start + at * size, start + child * size) >= 0)
				break;
			swap(start + at * size, start + child * size, size);
		}
	}
}
