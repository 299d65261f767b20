/* The files below a directory. */
static char path[PATH];		/* the name of the one that is looked at */

static int start_path(const char *name)
{
	int size = strlen(name);

	if (size >= PATH) {
		complain(name, "name too long");
		return -1;
	}
	strcpy(path, name);
	return size;
}

/* Calls a function for each entry of the directory that path is, with the length of its name, which path has meanwhile. The
 * directory isn't open then, so the depth isn't bounded by descriptors. 1 where it can't be read. */
static int each_entry(int length, void (*visit)(int length))
{
	struct entry entries[32], *entry;
	int file, size, block, end = length;

	if (length == 0 || path[length - 1] != '/')
		end++;
	for (block = 0;; block++) {
		file = open(path, 0);
		if (file < 0)
			return complain(path, "cannot open");
		seek(file, block, 3);
		size = read(file, entries, sizeof entries);
		close(file);
		for (entry = entries; entry < entries + size / 16; entry++) {
			if (entry->inode == 0 || strncmp(entry->name, ".", 14) == 0 || strncmp(entry->name, "..", 14) == 0)
				continue;
			if (end + 15 > PATH)
				return complain(path, "name too long");
			path[end - 1] = '/';
			memcpy(path + end, entry->name, 14);
			path[end + 14] = 0;
			visit(strlen(path));
			path[length] = 0;
		}
		if (size < (int)sizeof entries)
			return size < 0 ? complain(path, "read error") : 0;
	}
}
