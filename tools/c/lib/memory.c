/* Room for data: each piece has its size before it, in bytes, and the free ones stand in a list by their addresses. */
#include <stdlib.h>
#include <string.h>
#include <unix.h>

#define STEP 1024		/* bytes that break(II) is asked for, at least */

struct piece {
	unsigned size;		/* with these words */
	struct piece *next;	/* where it is free */
};
static struct piece *first;

void *malloc(size_t size)
{
	struct piece **at, *piece, *rest;
	unsigned wanted = size < 2 ? sizeof(struct piece) : (size + 3) & ~1, more;

	if (size > 65000)
		return NULL;
	for (;;) {
		for (at = &first; (piece = *at) != NULL; at = &piece->next)
			if (piece->size >= wanted) {
				if (piece->size < wanted + 8)
					*at = piece->next;
				else {
					rest = (struct piece *)((char *)piece + wanted);
					rest->size = piece->size - wanted;
					rest->next = piece->next;
					piece->size = wanted;
					*at = rest;
				}
				return (char *)piece + sizeof(unsigned);
			}
		more = wanted > STEP ? wanted : STEP;
		piece = sbrk(more);
		if (piece == (struct piece *)-1)
			return NULL;
		piece->size = more;
		free((char *)piece + sizeof(unsigned));
	}
}

void free(void *old)
{
	struct piece *piece, *at, *before = NULL;

	if (old == NULL)
		return;
	piece = (struct piece *)((char *)old - sizeof(unsigned));
	for (at = first; at != NULL && at < piece; at = at->next)
		before = at;
	piece->next = at;
	if (before == NULL)
		first = piece;
	else
		before->next = piece;
	if (at != NULL && (char *)piece + piece->size == (char *)at) {
		piece->size += at->size;
		piece->next = at->next;
	}
	if (before != NULL && (char *)before + before->size == (char *)piece) {
		before->size += piece->size;
		before->next = piece->next;
	}
}

void *calloc(size_t count, size_t size)
{
	void *room;

	if (size != 0 && count > 65535u / size)	/* the product is more than a size can be */
		return NULL;
	room = malloc(count * size);
	if (room != NULL)
		memset(room, 0, count * size);
	return room;
}

void *realloc(void *old, size_t size)
{
	void *room = malloc(size);
	unsigned before;

	if (room == NULL || old == NULL)
		return room;
	before = ((struct piece *)((char *)old - sizeof(unsigned)))->size - sizeof(unsigned);
	memcpy(room, old, before < size ? before : size);
	free(old);
	return room;
}
