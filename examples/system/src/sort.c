/*
 * sort [-bdfmnrtx] [+pos1 [-pos2]] .. [-o output] [file ..]: the lines in order, by all of them or by keys. All of them must
 * have room in memory.
 */
#include <ctype.h>
#include <stdio.h>
#include <stdlib.h>
#include <string.h>
#include "text.h"
#include "written.h"

#define LINES 3000
#define KEYS 10

struct key {
	int from_field, from_char, to_field, to_char;	/* to_field is -1 at the end of the line */
	int blanks, letters, folded, numbers, backwards, own;
};

static char *lines[LINES];
static struct key keys[KEYS + 1];	/* the first holds the options of all */
static int count, last_key, once, merged, tab;
static const char *output;

static void stop(const char *why, const char *name)
{
	fprintf(stderr, "sort: %s%s\n", why, name);
	exit(1);
}

/* Where a field begins, so many fields after the start of a line. */
static const char *field(const char *text, int fields)
{
	while (fields-- > 0)
		if (tab) {
			while (*text && *text != tab)
				text++;
			if (*text)
				text++;
		} else {
			while (*text == ' ' || *text == '\t')
				text++;
			while (*text && *text != ' ' && *text != '\t')
				text++;
		}
	return text;
}

static const char *place(const char *text, int fields, int chars, int blanks)
{
	text = field(text, fields);
	if (blanks)
		while (*text == ' ' || *text == '\t')
			text++;
	while (chars-- > 0 && *text)
		text++;
	return text;
}

/* A number of a key: its sign, its digits before the point without zeros in front, and those after it. */
struct number {
	int sign, size, more;
	const char *digits, *rest;
};

static void find_number(struct number *to, const char *at, const char *end)
{
	to->sign = 1;
	while (at < end && (*at == ' ' || *at == '\t'))
		at++;
	if (at < end && *at == '-') {
		to->sign = -1;
		at++;
	}
	while (at < end && *at == '0')
		at++;
	for (to->digits = at; at < end && isdigit(*at); at++)
		;
	to->size = at - to->digits;
	to->more = 0;
	if (at < end && *at == '.')
		for (to->rest = ++at; at < end && isdigit(*at); at++)
			to->more++;
	while (to->more > 0 && to->rest[to->more - 1] == '0')
		to->more--;
	if (to->size == 0 && to->more == 0)
		to->sign = 0;
}

/* The order of two numbers, of any length. */
static int by_number(const struct number *one, const struct number *other)
{
	int at, order = 0;

	if (one->sign != other->sign)
		return one->sign - other->sign;
	if (one->size != other->size)
		order = one->size < other->size ? -1 : 1;
	for (at = 0; order == 0 && at < one->size; at++)
		order = one->digits[at] - other->digits[at];
	for (at = 0; order == 0 && (at < one->more || at < other->more); at++)
		order = (at < one->more ? one->rest[at] : 0) - (at < other->more ? other->rest[at] : 0);
	return order * one->sign;
}

static int counts(int c)
{
	return isalnum(c) || c == ' ' || c == '\t';
}

static int by_key(const struct key *key, const char *one, const char *other)
{
	const char *one_end = one + strlen(one), *other_end = other + strlen(other), *end;
	struct number left, right;
	int x, y;

	if (key->to_field >= 0) {
		end = place(one, key->to_field, key->to_char, key->blanks && key->to_char);
		one_end = end < one_end ? end : one_end;
		end = place(other, key->to_field, key->to_char, key->blanks && key->to_char);
		other_end = end < other_end ? end : other_end;
	}
	one = place(one, key->from_field, key->from_char, key->blanks);
	other = place(other, key->from_field, key->from_char, key->blanks);
	if (key->numbers) {
		find_number(&left, one, one_end);
		find_number(&right, other, other_end);
		return by_number(&left, &right);
	}
	for (;;) {
		while (key->letters && one < one_end && !counts(*one))
			one++;
		while (key->letters && other < other_end && !counts(*other))
			other++;
		x = one < one_end ? *one++ & 0177 : 0;
		y = other < other_end ? *other++ & 0177 : 0;
		if (key->folded) {
			x = tolower(x);
			y = tolower(y);
		}
		if (x != y || x == 0)
			return x - y;
	}
}

static int compare(const void *left, const void *right)
{
	const char *one = *(char **)left, *other = *(char **)right;
	int at, order;

	for (at = last_key ? 1 : 0; at <= last_key; at++) {
		order = by_key(&keys[at], one, other);
		if (order)
			return keys[at].backwards ? -order : order;
	}
	if (once)
		return 0;
	order = strcmp(one, other);
	return keys[0].backwards ? -order : order;
}

static void take(FILE *file)
{
	static char line[MOST];
	char *kept;

	while (read_line(file, line)) {
		kept = count < LINES ? malloc(strlen(line) + 1) : NULL;
		if (kept == NULL)
			stop("too many lines", "");
		strcpy(kept, line);
		lines[count++] = kept;
	}
}

/* The options of all keys go to those that have none of their own. */
static void share(void)
{
	int at;

	for (at = 1; at <= last_key; at++)
		if (!keys[at].own) {
			keys[at].blanks = keys[0].blanks;
			keys[at].letters = keys[0].letters;
			keys[at].folded = keys[0].folded;
			keys[at].numbers = keys[0].numbers;
			keys[at].backwards = keys[0].backwards;
		}
}

static void letter(struct key *key, int c, const char *all)
{
	switch (c) {
	case 'b': key->blanks = 1; break;
	case 'd': key->letters = 1; break;
	case 'f': key->folded = 1; break;
	case 'n': key->numbers = key->blanks = 1; break;
	case 'r': key->backwards = 1; break;
	default: stop("unknown option ", all);
	}
	key->own = 1;
}

/* A place, +m.n or -m.n, and the letters after it. */
static void take_place(const char *text)
{
	struct key *key;
	int fields = 0, chars = 0;
	const char *at = text + 1;

	for (; isdigit(*at); at++)
		fields = fields * 10 + *at - '0';
	if (*at == '.')
		for (at++; isdigit(*at); at++)
			chars = chars * 10 + *at - '0';
	if (*text == '+') {
		if (last_key == KEYS)
			stop("too many keys", "");
		key = &keys[++last_key];
		key->from_field = fields;
		key->from_char = chars;
		key->to_field = -1;
	} else {
		key = &keys[last_key];
		key->to_field = fields;
		key->to_char = chars;
	}
	for (; *at; at++)
		letter(key, *at, text);
}

static void take_options(const char *text)
{
	const char *at;

	for (at = text + 1; *at; at++)
		switch (*at) {
		case 'u': once = 1; break;
		case 'm': merged = 1; break;
		case 't':
			if (at[1])
				tab = *++at;
			break;
		default: letter(&keys[0], *at, text);
		}
}

int main(int argc, char **argv)
{
	FILE *file;
	int at, files = 0;

	keys[0].to_field = -1;
	for (at = 1; at < argc; at++)
		if (argv[at][0] == '+' || (argv[at][0] == '-' && isdigit(argv[at][1]) && last_key))
			take_place(argv[at]);
		else if (strcmp(argv[at], "-o") == 0) {
			if (++at == argc)
				stop("-o without a name", "");
			output = argv[at];
		} else if (argv[at][0] == '-' && argv[at][1])
			take_options(argv[at]);
		else
			argv[files++] = argv[at];
	share();
	if (files == 0)
		take(stdin);
	for (at = 0; at < files; at++) {
		if (strcmp(argv[at], "-") == 0) {
			take(stdin);
			continue;
		}
		file = fopen(argv[at], "r");
		if (file == NULL)
			stop("can't open ", argv[at]);
		take(file);
		fclose(file);
	}
	qsort(lines, count, sizeof(char *), compare);
	file = output ? fopen(output, "w") : stdout;
	if (file == NULL)
		stop("can't create ", output);
	for (at = 0; at < count; at++)
		if (!once || at == 0 || compare(&lines[at - 1], &lines[at]))
			put_line(file, lines[at]);
	return written("sort", file, 0, 1);
}
