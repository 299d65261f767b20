/* printf(III) and the like: %d, %i, %u, %o, %x, %c, %s and %%; `l` before a number for a long; a width, `-`, `0`, `+` and a blank
 * before it, and `.N`, the most characters of a text and the fewest digits of a number. */
#include <stdio.h>
#include <string.h>

/* The digits of a number, from the end of a buffer back. */
static char *digits(unsigned long number, int base, char *end)
{
	unsigned low;

	*end = 0;
	while (number > 65535) {
		*--end = "0123456789abcdef"[(int)(number % base)];
		number /= base;
	}
	low = number;
	do {
		*--end = "0123456789abcdef"[low % base];
		low /= base;
	} while (low);
	return end;
}

static int many(FILE *file, int c, int size)
{
	int count;

	for (count = 0; count < size; count++)
		putc(c, file);
	return count;
}

/* A text after its sign and so many zeros, in a field of this width. */
static int padded(FILE *file, int sign, int zeros, const char *text, int size, int width, int left)
{
	int count;

	if (zeros < 0)
		zeros = 0;
	width -= size + zeros + (sign != 0);
	count = left ? 0 : many(file, ' ', width);
	if (sign)
		count += many(file, sign, 1);
	count += many(file, '0', zeros) + size;
	while (size-- > 0)
		putc(*text++, file);
	return left ? count + many(file, ' ', width) : count;
}

int vfprintf(FILE *file, const char *form, va_list list)
{
	char buffer[14], *text;
	int count = 0, width, most, left, zeros, wide, size, sign, plus;
	unsigned long number;

	for (; *form; form++) {
		if (*form != '%') {
			putc(*form, file);
			count++;
			continue;
		}
		left = zeros = wide = width = sign = plus = 0;
		most = -1;
		for (form++; *form == '-' || *form == '0' || *form == '+' || *form == ' '; form++)
			if (*form == '-')
				left = 1;
			else if (*form == '0')
				zeros = 1;
			else if (plus != '+')
				plus = *form;
		for (; *form >= '0' && *form <= '9'; form++)
			width = width * 10 + *form - '0';
		if (*form == '.')
			for (most = 0, form++; *form >= '0' && *form <= '9'; form++)
				most = most * 10 + *form - '0';
		if (*form == 'l') {
			wide = 1;
			form++;
		}
		text = buffer;
		size = 1;
		switch (*form) {
		case 0:
			return count;
		case 'c':
			buffer[0] = va_arg(list, int);
			break;
		case 's':
			text = va_arg(list, char *);
			for (size = 0; size != most && text[size]; size++)
				;
			break;
		case 'd':
		case 'i':
			number = wide ? va_arg(list, long) : va_arg(list, int);
			sign = plus;
			if ((long)number < 0) {
				number = -(long)number;
				sign = '-';
			}
			text = digits(number, 10, buffer + 13);
			size = -1;
			break;
		case 'u':
		case 'o':
		case 'x':
			number = wide ? va_arg(list, unsigned long) : va_arg(list, unsigned);
			text = digits(number, *form == 'o' ? 8 : *form == 'x' ? 16 : 10, buffer + 13);
			size = -1;
			break;
		default:
			buffer[0] = *form;
		}
		if (size < 0) {		/* a number */
			size = buffer + 13 - text;
			if (most == 0 && number == 0)
				size = 0;
			if (most < 0 && zeros && !left)
				most = width - (sign != 0);
			most -= size;
		} else
			most = 0;
		count += padded(file, sign, most, text, size, width, left);
	}
	return count;
}

int printf(const char *form, ...)
{
	va_list list;

	va_start(list, form);
	return vfprintf(stdout, form, list);
}

int fprintf(FILE *file, const char *form, ...)
{
	va_list list;

	va_start(list, form);
	return vfprintf(file, form, list);
}

int sprintf(char *to, const char *form, ...)
{
	FILE text;
	va_list list;
	int count;

	text.next = text.buffer = (unsigned char *)to;
	text.count = 32767;
	text.mode = 'w';
	text.failed = 0;
	va_start(list, form);
	count = vfprintf(&text, form, list);
	to[count] = 0;
	return count;
}
