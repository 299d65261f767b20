/* A child is sent signals, and tells of each through a pipe: pipe(II), signal(II), kill(II). */
#include <signal.h>
#include <stdio.h>
#include <unix.h>

static int ends[2];

static void tell(int number)
{
	char byte = number;

	signal(number, tell);		/* a function is called once */
	write(ends[1], &byte, 1);
}

int main(void)
{
	static const int sent[] = { SIGINT, SIGQUIT, SIGINT, 14, SIGKILL };
	int child, status, at;
	char byte;

	if (pipe(ends) < 0 || (child = fork()) < 0)
		return 1;
	if (child == 0) {
		for (at = SIGHUP; at < 20; at++)
			signal(at, tell);
		write(ends[1], "", 1);
		for (;;)
			sleep(60);	/* each signal ends a sleep */
	}
	close(ends[1]);
	for (at = 0; read(ends[0], &byte, 1) == 1; at++) {
		printf(byte ? "the child tells of signal %d\n" : "the child is there\n", byte);
		kill(child, sent[at]);
	}
	wait(&status);
	printf("it ended by signal %d\n", status & 0177);
	return 0;
}
