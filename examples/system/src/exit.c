/* exit: the file of commands that is the standard input is at its end. */
#include <unix.h>

int main(void)
{
	seek(0, 0, 2);
	return 0;
}
