/* tee [-a] [-i] [file ..]: copies its input to the standard output and into files. */
#include <signal.h>
#include <unix.h>

#define FILES 10

static char buffer[512];

static void complain(const char *name)
{
	int size = 0;

	while (name[size])
		size++;
	write(2, "tee: can't open ", 16);
	write(2, name, size);
	write(2, "\n", 1);
}

static int opened(const char *name, int more)
{
	struct stat status;
	int file = more ? open(name, 1) : -1;

	if (file < 0)
		return creat(name, 0666);
	if (fstat(file, &status) == 0) {
		seek(file, status.size_low >> 9 | status.size_high << 7, 3);
		seek(file, status.size_low & 0777, 1);
	}
	return file;
}

int main(int argc, char **argv)
{
	int files[FILES], count = 1, at, size, status = 0, more = 0, failed = 0;

	files[0] = 1;
	for (at = 1; at < argc && argv[at][0] == '-' && argv[at][1]; at++)
		if (argv[at][1] == 'a')
			more = 1;
		else if (argv[at][1] == 'i')
			signal(SIGINT, SIG_IGN);
	for (; at < argc && count < FILES; at++)
		if ((files[count] = opened(argv[at], more)) >= 0)
			count++;
		else {
			complain(argv[at]);
			status = 1;
		}
	while ((size = read(0, buffer, sizeof buffer)) > 0)
		for (at = 0; at < count; at++)
			if (write(files[at], buffer, size) != size)
				failed = 1;
	if (failed)
		write(2, "tee: write error\n", 17);
	return status | failed;
}
