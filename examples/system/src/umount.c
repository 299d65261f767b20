/* umount special: the disk of the special file is mounted no more. */
#include <errno.h>
#include "say.h"
#include "mtab.h"

int main(int argc, char **argv)
{
	if (argc != 2) {
		say("arg count\n");
		return 1;
	}
	sync();
	if (umount(argv[1]) < 0)
		return complain("umount", mount_error());
	creat(MTAB, 0644);
	return 0;
}
