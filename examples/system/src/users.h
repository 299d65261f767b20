/* The file of passwords: NAME:PASSWORD:NUMBER:GROUP:.. in each line. */
#include <stdio.h>
#include <stdlib.h>

static char user_line[512];

/* The next line's name, with its number; 0 at the end. */
static char *next_user(FILE *file, int *found)
{
	char *number;

	while (fgets(user_line, sizeof user_line, file)) {
		number = strchr(user_line, ':');
		if (number == NULL)
			continue;
		*number++ = 0;
		number = strchr(number, ':');
		if (number == NULL)
			continue;
		*found = atoi(number + 1);
		return user_line;
	}
	return NULL;
}

/* The number of a user; -1 where there is none of this name. */
static int user_number(const char *name)
{
	FILE *file = fopen("/etc/passwd", "r");
	char *next;
	int found;

	if (file == NULL)
		return -1;
	while ((next = next_user(file, &found)) && strcmp(next, name) != 0)
		;
	fclose(file);
	return next ? found : -1;
}
