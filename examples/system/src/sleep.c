/* sleep time: nothing, for so many seconds. */
#include "say.h"
#include "number.h"

int main(int argc, char **argv)
{
	int seconds;

	if (argc != 2) {
		say("arg count\n");
		return 1;
	}
	seconds = number(argv[1], 10);
	if (seconds < 0) {
		say("bad character\n");
		return 1;
	}
	sleep(seconds);
	return 0;
}
