/* Lines of the copy with texts in the place of what a pattern fits. */
static char out_line[LINE], replacement[LINE];

/* Adds some bytes to the line that is made. */
static int add(int size, const char *from, int count)
{
	if (size + count > LINE - 2)
		return fail();
	memcpy(out_line + size, from, count);
	return size + count;
}

/* Adds the replacement of what was found. A new line in it is kept as one. */
static int add_replacement(int size)
{
	char *at;
	int part;

	for (at = replacement; *at && !failed; at++)
		if (*at == '&')
			size = add(size, matched, after - matched);
		else if (*at == '\\') {
			at++;
			part = *at - '1';
			if (part >= 0 && part < PARTS) {
				if (part >= parts)
					return fail();
				size = add(size, part_at[part], part_end[part] - part_at[part]);
			} else
				size = add(size, at, 1);
		} else
			size = add(size, at, 1);
	return size;
}

/* Line `at` with its replacements, in out_line; whether there was one. */
static int replaced(int at, int all)
{
	char *text = get_line(at), *ended = 0;
	int size = 0, some = 0;

	while (!failed && found(text, some)) {
		some = 1;
		size = add(size, text, matched - text);
		if (after != matched || after != ended)
			size = add_replacement(size);
		text = ended = after;
		if (after == matched) {
			if (*text == 0)
				break;
			size = add(size, text++, 1);
		}
		if (!all)
			break;
	}
	if (some && !failed) {
		size = add(size, text, strlen(text));
		out_line[size] = 0;
	}
	return some && !failed;
}
