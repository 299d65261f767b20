/* update: has the disks brought up to date every half minute, for as long as the machine runs. */
#include <signal.h>
#include <unix.h>

int main(void)
{
	int file;

	if (fork())
		return 0;
	for (file = 0; file < 15; file++)
		close(file);
	signal(SIGHUP, SIG_IGN);
	signal(SIGINT, SIG_IGN);
	signal(SIGQUIT, SIG_IGN);
	for (;;) {
		sync();
		sleep(30);
	}
}
