#ifndef _UNIX
#define _UNIX
#include <signal.h>
/* The calls of section II. What can be refused gives -1 then, and sets errno. */
struct stat {			/* of stat(II) */
	int dev, inode;
	unsigned mode;
	unsigned char links, owner, group, size_high;
	unsigned size_low;
	unsigned blocks[8];
	long accessed, changed;
};
int read(int file, void *buffer, unsigned count);
int write(int file, const void *buffer, unsigned count);
int open(const char *name, int mode);
int close(int file);
int creat(const char *name, int mode);
int link(const char *name, const char *other);
int unlink(const char *name);
int execv(const char *name, char **arguments);
int execl(const char *name, ...);
int chdir(const char *name);
long time(void);
int mknod(const char *name, int mode, int device);
int chmod(const char *name, int mode);
int chown(const char *name, int owner);
int brk(void *end);
void *sbrk(unsigned more);
int stat(const char *name, struct stat *buffer);
int seek(int file, int offset, int from);
int getpid(void);
int fork(void);
int wait(int *status);
int setuid(int user);
int getuid(void);
int setgid(int group);
int getgid(void);
int stime(long time);
int fstat(int file, struct stat *buffer);
int stty(int file, int *modes);
int gtty(int file, int *modes);
void nice(int niceness);
void sleep(int seconds);
void sync(void);
int mount(const char *special, const char *directory, int protected);
int umount(const char *special);
int csw(void);
int dup(int file);
int pipe(int *ends);		/* the first is for reading, the second for writing */
int times(void *buffer);
void exit(int status);
#endif
