/* The names of files that words with *, ? and [..] stand for. */
#define POOL 1024

static const char *names_fault;
static char pool[POOL], *pool_end = pool, name_path[256];
static char *found_words[WORDS + 2];
static int found_count, match_count;

static void keep(const char *word)
{
	int size = strlen(word) + 1;

	if (pool_end + size > pool + POOL || found_count == WORDS) {
		names_fault = "Arg list too long";
		return;
	}
	found_words[1 + found_count++] = strcpy(pool_end, word);
	pool_end += size;
}

/* Whether a character is one of a class; where that ends, or NULL. */
static const char *in_class(int c, const char *at)
{
	int found = 0, low;

	while (*at != ']') {
		if (*at == 0 || *at == '/')
			return NULL;
		low = *at++ & 0177;
		if (*at == '-' && at[1] && at[1] != ']') {
			found |= c >= low && c <= (at[1] & 0177);
			at += 2;
		} else
			found |= c == low;
	}
	return found ? at : NULL;
}

/* Whether a name is what a pattern says up to its next slash. */
static int matches(const char *name, const char *pattern)
{
	for (;; name++, pattern++) {
		if (*pattern == 0 || *pattern == '/')
			return *name == 0;
		if (*pattern == '*') {
			while (!matches(name, pattern + 1))
				if (*name++ == 0)
					return 0;
			return 1;
		}
		if (*pattern == '[') {
			pattern = in_class(*name, pattern + 1);
			if (pattern == NULL)
				return 0;
		} else if (*pattern == '?' ? *name == 0 : (*pattern & 0177) != *name)
			return 0;
	}
}

static int is_pattern(const char *word)
{
	for (; *word; word++)
		if (*word == '*' || *word == '?' || *word == '[')
			return 1;
	return 0;
}

static void expand(const char *pattern, int size);

/* The rest of a pattern, after a component that is there. */
static void further(const char *rest, int size)
{
	struct stat found;

	name_path[size] = 0;
	if (*rest) {
		name_path[size] = '/';
		expand(rest + 1, size + 1);
	} else if (stat(name_path, &found) >= 0) {
		keep(name_path);
		match_count++;
	}
}

/* The names that a pattern stands for, below what name_path begins with. */
static void expand(const char *pattern, int size)
{
	struct { int inode; char name[14]; char end; } entry;
	const char *rest = pattern;
	int file, magic = 0;

	for (; *rest && *rest != '/'; rest++)
		magic |= *rest == '*' || *rest == '?' || *rest == '[';
	if (size + (rest - pattern) > 200)
		return;
	if (!magic) {
		for (; pattern < rest; pattern++)
			name_path[size++] = *pattern & 0177;
		further(rest, size);
		return;
	}
	name_path[size] = 0;
	file = open(size ? name_path : ".", 0);
	if (file < 0)
		return;
	entry.end = 0;
	while (read(file, &entry, 16) == 16)
		if (entry.inode && (entry.name[0] != '.' || *pattern == '.') && matches(entry.name, pattern)) {
			strcpy(name_path + size, entry.name);
			further(rest, size + strlen(entry.name));
		}
	close(file);
}

/* The words of these places in their order. */
static void order(int from, int to)
{
	char *one;
	int at;

	for (; from < to; from++)
		for (at = from + 1; at < to; at++)
			if (strcmp(found_words[at], found_words[from]) < 0) {
				one = found_words[at];
				found_words[at] = found_words[from];
				found_words[from] = one;
			}
}

/* The words of a command with names in the place of patterns; NULL where that can't be. The place before the first is free. */
static char **with_names(char **list)
{
	char **at;
	int any = 0, before;

	for (at = list; *at; at++)
		any |= is_pattern(*at);
	if (!any) {
		all_plain(list);
		return list;
	}
	for (at = list; *at && names_fault == NULL; at++)
		if (is_pattern(*at)) {
			before = found_count;
			expand(*at, 0);
			order(before + 1, found_count + 1);
		} else
			keep(plain(*at));
	if (names_fault == NULL && match_count == 0)
		names_fault = "No match";
	found_words[1 + found_count] = NULL;
	return names_fault ? NULL : found_words + 1;
}
