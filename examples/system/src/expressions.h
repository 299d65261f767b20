/*
 * The patterns of ed(I), for ed and grep: ^ $ . * [abc] [^a-z] \( \) \x. A pattern becomes a row of codes; what it fits is
 * found by trying the longest repetition first.
 */
#define CODES 256
#define PARTS 9

enum { P_END, P_CHAR, P_ANY, P_SET, P_OPEN, P_CLOSE, P_EDGE, P_REPEAT = 8 };

static unsigned char codes[CODES];	/* the first is 1 where the pattern begins with ^ */
static char *matched, *after;		/* what it fitted, and what comes after that */
static char *part_at[PARTS], *part_end[PARTS];
static int parts;			/* how many \( it has */

/* The set after a `[`, as 16 bytes of a bit for each character; 0 where it has no end. */
static char *read_set(char *text, unsigned char *set)
{
	int c, high, not = 0, at;

	for (at = 0; at < 16; at++)
		set[at] = 0;
	if (*text == '^') {
		not = 0377;
		text++;
	}
	do {
		c = *text++ & 0177;
		if (c == 0 || c == '\n')
			return 0;
		high = c;
		if (*text == '-' && text[1] != ']' && text[1] && text[1] != '\n') {
			high = text[1] & 0177;
			text += 2;
		}
		for (; c <= high; c++)
			set[c >> 3] |= 1 << (c & 7);
	} while (*text != ']');
	for (at = 0; at < 16; at++)
		set[at] ^= not;
	set[0] &= ~1;
	return text + 1;
}

/* Whether a pattern's star at `text` stands for itself: nothing that can be repeated is before it. */
static int can_repeat(unsigned char *last)
{
	return last != 0 && (*last == P_CHAR || *last == P_ANY || *last == P_SET);
}

/* A pattern up to the byte `end`, its codes into `codes`. It gives what comes after it; 0 where it is none. */
static char *read_pattern(char *text, int end)
{
	unsigned char *at = codes, *last = 0;
	int c, open[PARTS], depth = 0;

	parts = 0;
	*at = *text == '^';
	text += *at++;
	while ((c = *text) != end && c != 0 && c != '\n') {
		text++;
		if (at > codes + CODES - 20)
			return 0;
		if (c == '*' && can_repeat(last)) {
			*last |= P_REPEAT;
			last = 0;
			continue;
		}
		last = at;
		if (c == '$' && (*text == end || *text == 0 || *text == '\n'))
			*at++ = P_EDGE;
		else if (c == '.')
			*at++ = P_ANY;
		else if (c == '[') {
			*at++ = P_SET;
			text = read_set(text, at);
			if (text == 0)
				return 0;
			at += 16;
		} else if (c == '\\' && *text == '(') {
			if (parts == PARTS)
				return 0;
			open[depth++] = parts;
			*at++ = P_OPEN;
			*at++ = parts++;
			text++;
		} else if (c == '\\' && *text == ')') {
			if (depth == 0)
				return 0;
			*at++ = P_CLOSE;
			*at++ = open[--depth];
			text++;
		} else {
			if (c == '\\') {
				c = *text++;
				if (c == 0 || c == '\n')
					return 0;
			}
			*at++ = P_CHAR;
			*at++ = c;
		}
	}
	*at = P_END;
	if (depth != 0)
		return 0;
	return c == end && end != 0 ? text + 1 : text;
}

/* Whether the one character at `text` fits the code at `at`. */
static int one_fits(unsigned char *at, char *text)
{
	int c = *text & 0177;

	if (c == 0)
		return 0;
	switch (*at & ~P_REPEAT) {
	case P_CHAR:
		return at[1] == c;
	case P_ANY:
		return 1;
	default:
		return at[1 + (c >> 3)] >> (c & 7) & 1;
	}
}

static int code_size(int code)
{
	code &= ~P_REPEAT;
	return code == P_SET ? 17 : code == P_ANY || code == P_EDGE ? 1 : 2;
}

/* Whether the codes from `at` on fit the text from here on. */
static int fits_here(unsigned char *at, char *text)
{
	char *start;

	for (;; at += code_size(*at)) {
		if (*at & P_REPEAT) {
			for (start = text; one_fits(at, text); text++)
				;
			do
				if (fits_here(at + code_size(*at), text))
					return 1;
			while (text-- > start);
			return 0;
		}
		switch (*at) {
		case P_END:
			after = text;
			return 1;
		case P_OPEN:
			part_at[at[1]] = text;
			break;
		case P_CLOSE:
			part_end[at[1]] = text;
			break;
		case P_EDGE:
			if (*text)
				return 0;
			break;
		default:
			if (!one_fits(at, text))
				return 0;
			text++;
		}
	}
}

/* Whether the pattern is found in a line at `text` or later; a line that goes on from before doesn't begin there. */
static int found(char *text, int goes_on)
{
	if (*codes) {
		matched = text;
		return !goes_on && fits_here(codes + 1, text);
	}
	for (matched = text; ; matched++) {
		if (fits_here(codes + 1, matched))
			return 1;
		if (*matched == 0)
			return 0;
	}
}
