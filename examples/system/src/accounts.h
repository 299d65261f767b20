/* The users of /etc/passwd: NAME:PASSWORD:USER:GROUP:a field that isn't used:DIRECTORY:SHELL in each line. */
#include <stdlib.h>
#include <string.h>
#include <unix.h>

static struct {
	char *name, *password, *directory, *shell;
	int user, group;
} account;
static char account_line[512], account_block[512];
static int account_size, account_at;

static int account_byte(int file)
{
	if (account_at == account_size) {
		account_size = read(file, account_block, sizeof account_block);
		account_at = 0;
		if (account_size <= 0)
			return account_size = 0, -1;
	}
	return account_block[account_at++] & 0177;
}

/* The next line, without what has no room; whether there is one. */
static int account_read(int file)
{
	int c, size = 0;

	while ((c = account_byte(file)) != '\n' && c != -1)
		if (size < sizeof account_line - 1)
			account_line[size++] = c;
	account_line[size] = 0;
	return c != -1 || size > 0;
}

/* Parts the line; a field that isn't there is empty. */
static void account_part(void)
{
	char *field[7], *at = account_line;
	int number;

	for (number = 0; number < 7; number++) {
		field[number] = at;
		while (*at && *at != ':')
			at++;
		if (*at)
			*at++ = 0;
	}
	account.name = field[0];
	account.password = field[1];
	account.user = atoi(field[2]);
	account.group = atoi(field[3]);
	account.directory = field[5];
	account.shell = field[6];
}

/* Finds the account of a name, or of a number where the name is NULL; whether there is one. */
static int find_account(const char *name, int user)
{
	int file = open("/etc/passwd", 0), found = 0;

	if (file < 0)
		return 0;
	account_size = account_at = 0;
	while (!found && account_read(file)) {
		account_part();
		found = *account.name && (name ? strcmp(account.name, name) == 0 : account.user == user);
	}
	close(file);
	return found;
}
