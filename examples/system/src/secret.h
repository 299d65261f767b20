/* Eight characters that are kept in the place of a password. They are worked out of it, and not back. */
static char *secret_of(const char *password)
{
	static char made[9];
	unsigned long sum = 1975;
	const char *at;
	int place, c;

	for (place = 0; place < 8; place++) {
		for (at = password; *at; at++)
			sum = (sum ^ *at) * 16777619 + 12345;
		sum = sum * 1103515245 + place;
		c = sum >> 20 & 63;
		made[place] = c < 10 ? '0' + c : c < 36 ? 'A' + c - 10 : c < 62 ? 'a' + c - 36 : c == 62 ? '.' : '/';
	}
	return made;
}
