/* The bytes of a file, and its blocks with those that hold the numbers of others: file system(V). */
static long bytes_of(struct stat *status)
{
	return (long)status->size_high << 16 | status->size_low;
}

static int blocks_of(struct stat *status)
{
	int blocks, indirect;

	if (status->mode & CHARACTER)
		return 0;
	blocks = (bytes_of(status) + 511) / 512;
	if (blocks <= 8)
		return blocks;
	indirect = (blocks + 255) / 256;
	return blocks + indirect + (indirect > 7);
}
