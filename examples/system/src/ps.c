/* ps: the processes. There is no call that tells of others, nor a device that shows the memory of the kernel: so it is the
 * number and the user of the process itself, and its words. */
#include <stdio.h>
#include <unix.h>

int main(int argc, char **argv)
{
	int at;

	puts("  pid  uid command");
	printf("%5d%5d", getpid(), getuid() & 0377);
	for (at = 0; at < argc; at++)
		printf(" %s", argv[at]);
	putchar('\n');
	return 0;
}
