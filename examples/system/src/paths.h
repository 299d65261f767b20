/* Names of files and what stat(II) tells of them. */
#define PATH 256		/* bytes of a name, with its NUL */
#define KIND 060000
#define DIRECTORY 040000
#define CHARACTER 020000
#define BLOCK 060000
#define is_directory(status) (((status)->mode & KIND) == DIRECTORY)

struct entry {			/* of a directory */
	unsigned inode;
	char name[14];
};

/* The last part of a name. */
static const char *last_part(const char *path)
{
	const char *at;

	for (at = path; *at; at++)
		if (*at == '/' && at[1])
			path = at + 1;
	return path;
}

/* DIRECTORY/NAME with at most so many bytes of the name; 0 where that has too many bytes. */
static int join(char *to, const char *directory, const char *name, int most)
{
	char *end = to + PATH - 1;

	while (*directory && to < end)
		*to++ = *directory++;
	if (to < end)
		*to++ = '/';
	while (*name && most-- > 0 && to < end)
		*to++ = *name++;
	*to = 0;
	return to < end;
}
