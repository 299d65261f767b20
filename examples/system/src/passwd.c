/* passwd name password: the password of a user is another from now on. */
#include <signal.h>
#include "say.h"
#include "accounts.h"
#include "secret.h"

#define FILE_NAME "/etc/passwd"
#define COPY "/etc/ptmp"

static char out[512];
static int out_file, out_size, failed;

static void flush(void)
{
	if (write(out_file, out, out_size) != out_size)
		failed = 1;
	out_size = 0;
}

static void put(int c)
{
	if (out_size == sizeof out)
		flush();
	out[out_size++] = c;
}

/* Copies the file; the password of the user is left out, and the new one stands in its place. */
static void copy(const char *from, const char *name, const char *secret)
{
	int file = open(from, 0), c, here = 1, at = 0;

	account_size = account_at = 0;
	while ((c = account_byte(file)) != -1) {
		put(c);
		if (c == '\n') {
			here = 1;
			at = 0;
			continue;
		}
		if (c == ':' && here && name && name[at] == 0) {
			while (*secret)
				put(*secret++);
			while ((c = account_byte(file)) != ':' && c != '\n' && c != -1)
				;
			if (c != -1)
				put(c);
			name = NULL;
		}
		here = here && name && c == name[at++];
	}
	flush();
	close(file);
}

/* Whether a file could be written whole. */
static int written(const char *to, const char *from, const char *name, const char *secret)
{
	out_file = creat(to, 0600);
	if (out_file < 0)
		return 0;
	copy(from, name, secret);
	close(out_file);
	return !failed;
}

int main(int argc, char **argv)
{
	struct stat found;
	int user = getuid() & 0377, signal_number;

	if (argc != 3)
		return complain("usage", "passwd name password");
	if (!find_account(argv[1], 0)) {
		say("User not found.\n");
		return 1;
	}
	if (user != 0 && user != account.user) {
		say("Permission denied.\n");
		return 1;
	}
	if (stat(COPY, &found) == 0) {
		say("Temporary file busy -- try again\n");
		return 1;
	}
	for (signal_number = SIGHUP; signal_number <= SIGQUIT; signal_number++)
		signal(signal_number, SIG_IGN);
	if (!written(COPY, FILE_NAME, argv[1], *argv[2] ? secret_of(argv[2]) : "")) {
		unlink(COPY);
		return complain("passwd", "no room; nothing has changed");
	}
	if (!written(FILE_NAME, COPY, NULL, NULL))
		return complain("passwd", "no room; the file is " COPY);
	unlink(COPY);
	return 0;
}
