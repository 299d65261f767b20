/* Files with a buffer of 512 bytes: getc(III), putc(III), and what stands on them. */
#include <stdio.h>
#include <stdlib.h>
#include <unix.h>

#define MOST 15

extern void (*_flush)(void);
static unsigned char input[BUFSIZ], output[BUFSIZ];
FILE _files[MOST] = {
	{ 0, input, input, 0, 'r' },
	{ BUFSIZ, output, output, 1, 'w' },
	{ 0, 0, 0, 2, 'w' },
};

static void flush_all(void)
{
	FILE *file;

	for (file = _files; file < _files + MOST; file++)
		if (file->mode == 'w')
			fflush(file);
}

/* Writes out what is in the buffer. */
int fflush(FILE *file)
{
	int size, done;
	unsigned char *at;

	if (file->mode != 'w' || file->buffer == 0)
		return 0;
	at = file->buffer;
	size = file->next - at;
	while (size > 0 && !file->failed) {
		done = write(file->number, at, size);
		if (done <= 0)
			file->failed = 1;
		at += done;
		size -= done;
	}
	file->next = file->buffer;
	file->count = BUFSIZ;
	return file->failed ? EOF : 0;
}

int putc(int c, FILE *file)
{
	char byte;

	if (file->mode != 'w')
		return EOF;
	_flush = flush_all;
	if (file->buffer == 0) {	/* the diagnostic output */
		byte = c;
		return write(file->number, &byte, 1) == 1 ? c & 0377 : EOF;
	}
	*file->next++ = c;
	if (--file->count == 0 && fflush(file) == EOF)
		return EOF;
	return c & 0377;
}

/* Before a terminal is read, what was written to it is shown. */
int getc(FILE *file)
{
	if (--file->count < 0) {
		file->count = 0;
		if (file->mode != 'r' || file->failed)
			return EOF;
		if (file == stdin)
			fflush(stdout);
		file->next = file->buffer;
		file->count = read(file->number, file->buffer, BUFSIZ);
		if (file->count <= 0) {
			*(file->count ? &file->failed : &file->ended) = 1;
			file->count = 0;
			return EOF;
		}
		file->count--;
	}
	return *file->next++;
}

int ungetc(int c, FILE *file)
{
	if (c == EOF || file->next == file->buffer)
		return EOF;
	file->count++;
	*--file->next = c;
	return c & 0377;
}

/* The mode is "r", "w", which makes the file or empties it, or "a", which goes on at its end. */
FILE *fopen(const char *name, const char *mode)
{
	FILE *file;
	int number, at;
	struct stat status;

	for (file = _files; file->mode; file++)
		if (file == _files + MOST - 1)
			return NULL;
	number = -1;
	if (*mode == 'a')
		number = open(name, 1);
	else if (*mode == 'r')
		number = open(name, 0);
	if (number < 0 && *mode != 'r')
		number = creat(name, 0666);
	if (number < 0)
		return NULL;
	if (*mode == 'a' && fstat(number, &status) == 0) {
		at = status.size_low >> 9 | status.size_high << 7;
		seek(number, at, 3);
		seek(number, status.size_low & 0777, 1);
	}
	file->buffer = malloc(BUFSIZ);
	if (file->buffer == NULL) {
		close(number);
		return NULL;
	}
	file->next = file->buffer;
	file->number = number;
	file->mode = *mode == 'r' ? 'r' : 'w';
	file->count = *mode == 'r' ? 0 : BUFSIZ;
	file->ended = file->failed = 0;
	return file;
}

int fclose(FILE *file)
{
	int status = fflush(file);

	if (file->mode == 0 || close(file->number) < 0)
		status = EOF;
	if (file->buffer != input && file->buffer != output)
		free(file->buffer);
	file->buffer = 0;
	file->mode = 0;
	file->count = 0;
	return status;
}
