/* login [name]: asks for the password of a user, and becomes his shell in his directory. */
#include <signal.h>
#include "say.h"
#include "accounts.h"
#include "secret.h"
#include "lines.h"
#include "ask.h"

static char name[32], typed[64], path[300];

/* Whether the user of the name is let in. The password is asked for also where there is no such user. */
static int is_right(void)
{
	int known = find_account(name, 0);

	if (known && *account.password == 0)
		return 1;
	if (!ask_password(typed, sizeof typed))
		exit(1);
	return known && strcmp(secret_of(typed), account.password) == 0;
}

/* The user has the line, and is in /etc/utmp. */
static void enter(void)
{
	static char terminal[] = "/dev/ttyX";
	struct login entry;
	int file, line = line_of(0);

	if (line == 0)
		return;
	terminal[8] = line;
	chown(terminal, account.user);
	file = open("/etc/utmp", 1);
	if (file < 0)
		return;
	memset(&entry, 0, sizeof entry);
	strncpy(entry.name, account.name, sizeof entry.name);
	entry.line = line;
	entry.time = time();
	seek(file, (line - '0') * 16, 0);
	write(file, &entry, 16);
	close(file);
}

static void show_message(void)
{
	char buffer[128];
	int file = open("/etc/motd", 0), size;

	while (file >= 0 && (size = read(file, buffer, sizeof buffer)) > 0)
		write(1, buffer, size);
	close(file);
}

/* Whether the user has mail. */
static int has_mail(void)
{
	struct stat box;

	if (strlen(account.directory) > 256)
		return 0;
	strcat(strcpy(path, account.directory), "/.mail");
	return stat(path, &box) == 0 && (box.size_low || box.size_high);
}

int main(int argc, char **argv)
{
	signal(SIGINT, SIG_IGN);
	signal(SIGQUIT, SIG_IGN);
	if (argc > 1)
		strncpy(name, argv[1], sizeof name - 1);
	for (;;) {
		while (*name == 0) {
			say("Name: ");
			if (!answer(name, sizeof name))
				return 1;
		}
		if (is_right())
			break;
		say("Login incorrect.\n");
		*name = 0;
	}
	if (chdir(account.directory) < 0) {
		say("No directory\n");
		return 1;
	}
	enter();
	show_message();
	if (has_mail())
		say("You have mail.\n");
	setgid(account.group);
	setuid(account.user);
	signal(SIGINT, SIG_DFL);
	signal(SIGQUIT, SIG_DFL);
	execl(*account.shell ? account.shell : "/bin/sh", "-", NULL);
	say("No shell\n");
	return 1;
}
