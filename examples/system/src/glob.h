/* The patterns of sh(I): * is any text, ? any character, [..] one of these, with - between two for all from the one to the
 * other. */
static int matches(const char *pattern, const char *text)
{
	int found, c;

	for (; *pattern; pattern++, text++) {
		if (*pattern == '*') {
			for (;; text++)
				if (matches(pattern + 1, text))
					return 1;
				else if (*text == 0)
					return 0;
		}
		c = *text;
		if (c == 0)
			return 0;
		if (*pattern == '[') {
			for (found = 0, pattern++; *pattern && *pattern != ']'; pattern++)
				if (pattern[1] == '-' && pattern[2] && pattern[2] != ']') {
					found |= pattern[0] <= c && c <= pattern[2];
					pattern += 2;
				} else
					found |= *pattern == c;
			if (!found || *pattern == 0)
				return 0;
		} else if (*pattern != '?' && *pattern != c)
			return 0;
	}
	return *text == 0;
}
