/* mesg [n] [y]: whether other users may write to the terminal. */
#include "say.h"
#include "lines.h"

int main(int argc, char **argv)
{
	static char name[] = "/dev/ttyX";
	struct stat found;
	int line = line_of(0), open_now;

	if (argc > 2 || argc == 2 && (*argv[1] != 'n' && *argv[1] != 'y' || argv[1][1]))
		return complain("usage", "mesg [n] [y]");
	name[8] = line;
	if (line == 0 || stat(name, &found) < 0)
		return complain("mesg", "not a tty");
	open_now = found.mode & 02;
	if (argc == 2 && chmod(name, *argv[1] == 'y' ? 0622 : 0600) < 0)
		return complain("mesg", "not your terminal");
	say(argc == 2 ? "was " : "is ");
	say(open_now ? "y\n" : "n\n");
	return !open_now;
}
