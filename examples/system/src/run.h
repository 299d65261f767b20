/* A program by its name: the file of this name, that in /bin, or that in /usr/bin. It comes back where there is none. */
static void run(char **arguments)
{
	char path[PATH];

	execv(arguments[0], arguments);
	join(path, "/bin", arguments[0], PATH);
	execv(path, arguments);
	join(path, "/usr/bin", arguments[0], PATH);
	execv(path, arguments);
}
