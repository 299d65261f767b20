/* mail [-y] [-n] [person ..]: shows the mail that has come, or sends what the standard input says. */
#include "say.h"
#include "dates.h"
#include "accounts.h"

#define BOX "/.mail"

static char path[300], sender[16], buffer[512];

/* The name of the box of the account that was found; 0 where it is too long. */
static int name_box(void)
{
	if (strlen(account.directory) > 280)
		return 0;
	strcat(strcpy(path, account.directory), BOX);
	return 1;
}

/* Copies what is left of a file; whether all could be written. */
static int copied(int from, int to)
{
	int size;

	while ((size = read(from, buffer, sizeof buffer)) > 0)
		if (write(to, buffer, size) != size)
			return 0;
	return 1;
}

/* A file without a name that holds the line of the sender, the letter and an empty line. */
static int letter(void)
{
	static char name[] = "/tmp/mail00000";
	char date[32];
	unsigned number = getpid();
	int file, at;

	for (at = 13; at > 8; at--, number /= 10)
		name[at] = number % 10 + '0';
	close(creat(name, 0600));
	file = open(name, 2);
	unlink(name);
	if (file < 0)
		return file;
	strcat(strcat(strcpy(buffer, "From "), sender), " ");
	strcat(strcat(buffer, date_text(date, time())), "\n");
	write(file, buffer, strlen(buffer));
	if (!copied(0, file) || write(file, "\n", 1) != 1)
		return -1;
	return file;
}

/* The box of the account, open for writing; it is that user's, has one name, and is made where it isn't there. */
static int open_box(void)
{
	struct stat found;
	int box;

	if (!name_box())
		return -1;
	if (stat(path, &found) < 0) {
		box = creat(path, 0600);
		chown(path, account.group << 8 | account.user);
		return box;
	}
	if ((found.mode & 060000) || found.links != 1 || found.owner != account.user)
		return -1;
	box = open(path, 1);
	if (box >= 0)
		seek(box, 0, 2);
	return box;
}

static int send(char **persons)
{
	int file = letter(), box, status = 0;

	if (file < 0)
		return complain("mail", "no room for the letter");
	for (; *persons; persons++) {
		if (!find_account(*persons, 0)) {
			status = complain(*persons, "no such user");
			continue;
		}
		box = open_box();
		seek(file, 0, 0);
		if (box < 0 || !copied(file, box))
			status = complain(*persons, "cannot send");
		close(box);
	}
	return status;
}

/* A question at the terminal: the first letter of the answer, or 0. */
static int ask(const char *question)
{
	char first = 0, c = 0;

	say(question);
	while (read(0, &c, 1) == 1 && c != '\n')
		if (first == 0)
			first = c;
	return c == '\n' ? first : 0;
}

/* Adds the letters to mbox, as the user may; whether that is done. */
static int saved(int box)
{
	int child, file, ended, status;

	child = fork();
	if (child == 0) {
		setuid(getuid() & 0377);
		file = open("mbox", 1);
		if (file < 0)
			file = creat("mbox", 0600);
		else
			seek(file, 0, 2);
		seek(box, 0, 0);
		exit(file < 0 || !copied(box, file));
	}
	while ((ended = wait(&status)) != child && ended != -1)
		;
	return ended == child && status == 0;
}

static int show(int what)
{
	struct stat before, now;
	int box = -1;

	if (name_box())
		box = open(path, 0);
	if (box < 0 || fstat(box, &before) < 0 || before.size_low == 0 && before.size_high == 0) {
		write(1, "No mail.\n", 9);
		return 0;
	}
	copied(box, 1);
	if (what == 0)
		what = ask("Save?");
	if (what != 'y' && what != 'n')
		return 0;
	if (fstat(box, &now) < 0 || now.size_low != before.size_low || now.size_high != before.size_high)
		return complain("mail", "more has come; all stays");
	if (what == 'y' && !saved(box))
		return complain("mail", "cannot save in mbox");
	close(creat(path, 0600));
	return 0;
}

int main(int argc, char **argv)
{
	int what = 0;

	argv[argc] = NULL;
	for (argv++; *argv && **argv == '-'; argv++) {
		if (argv[0][1] != 'y' && argv[0][1] != 'n' || argv[0][2])
			return complain("usage", "mail [-y] [-n] [person ...]");
		what = argv[0][1];
	}
	if (!find_account(NULL, getuid() & 0377))
		return complain("mail", "who are you?");
	strncpy(sender, account.name, sizeof sender - 1);
	return *argv ? send(argv) : show(what);
}
