/* What a command has written is on its way: the status that it ends with, or `failed` and a line where it isn't. */
static int written(const char *command, FILE *file, int status, int failed)
{
	if (fflush(file) != EOF && !ferror(file))
		return status;
	fprintf(stderr, "%s: write error\n", command);
	return failed;
}
