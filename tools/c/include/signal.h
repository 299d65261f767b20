#ifndef _SIGNAL
#define _SIGNAL
/* signal(II): what a signal shall do, by default, nothing, or a function that is called once; it gives what was done before. */
#define SIG_DFL ((void (*)(int))0)
#define SIG_IGN ((void (*)(int))1)
#define SIG_ERR ((void (*)(int))-1)
#define SIGHUP 1
#define SIGINT 2
#define SIGQUIT 3
#define SIGILL 4
#define SIGTRAP 5
#define SIGIOT 6
#define SIGEMT 7
#define SIGFPE 8
#define SIGKILL 9
#define SIGBUS 10
#define SIGSEGV 11
#define SIGSYS 12
#define SIGPIPE 13
void (*signal(int number, void (*action)(int)))(int);
int kill(int process, int number);
#endif
