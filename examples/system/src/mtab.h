/* /etc/mtab: what is mounted, 64 bytes: the name of the directory, and the last part of the special file's. */
#define MTAB "/etc/mtab"

struct mounted {
	char directory[32], special[32];
};

static const char *mount_error(void)
{
	switch (errno) {
	case ENOENT:
		return "No such file or directory";
	case EACCES:
		return "Permission denied";
	case ENXIO:
		return "No such device";
	case ENOTBLK:
		return "Block device required";
	case EBUSY:
		return "Mount device busy";
	case ENOTDIR:
		return "Not a directory";
	case EINVAL:
		return "Not mounted";
	}
	return "Error";
}
