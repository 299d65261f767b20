/* Whether the real user may do something with a file: 4 read, 2 write, 1 execute or search. */
static int may(struct stat *status, int bit)
{
	int user = getuid() & 0377;

	if (user == 0)
		return 1;
	if (user == status->owner)
		bit <<= 6;
	else if ((getgid() & 0377) == status->group)
		bit <<= 3;
	return (status->mode & bit) != 0;
}

/* A name without slashes at its end. */
static char *trimmed(char *name)
{
	int size = strlen(name);

	while (size > 1 && name[size - 1] == '/')
		name[--size] = 0;
	return name;
}

/* The directory of a name: its part before the last one. */
static const char *directory_of(char *to, const char *path)
{
	const char *last = last_part(path);
	int size = last - path;

	if (size == 0)
		return ".";
	if (size >= PATH)
		size = PATH - 1;
	memcpy(to, path, size);
	to[size] = 0;
	return to;
}

/* Whether the real user may search the way to a directory, and make entries there: a child of that user looks. For commands
 * that have the set-uid bit. */
static int may_enter(const char *directory)
{
	struct stat there;
	int child, done, status;

	if ((getuid() & 0377) == 0)
		return 1;
	child = fork();
	if (child < 0)
		return 0;
	if (child == 0) {
		setuid(getuid() & 0377);
		exit(chdir(directory) < 0 || stat(".", &there) < 0 || !may(&there, 2));
	}
	while ((done = wait(&status)) != child && done >= 0)
		;
	return done == child && status == 0;
}
