/* The lines of terminals, and /etc/utmp: sixteen bytes for each line, at sixteen times the digit of its name. */
#include <string.h>
#include <unix.h>

struct login {
	char name[8];			/* with NULs after a shorter one; nobody is there where it is empty */
	char line, unused;
	long time;
	int more;
};

/* The letter X of /dev/ttyX, which an open file is; 0 where it is no terminal. */
static int line_of(int file)
{
	struct { int inode; char name[14]; } entry;
	struct stat here;
	int devices, found = 0;

	if (fstat(file, &here) < 0 || (here.mode & 060000) != 020000 || (devices = open("/dev", 0)) < 0)
		return 0;
	while (!found && read(devices, &entry, 16) == 16)
		if (entry.inode == here.inode && memcmp(entry.name, "tty", 3) == 0 && entry.name[3] && entry.name[4] == 0)
			found = entry.name[3];
	close(devices);
	return found;
}
