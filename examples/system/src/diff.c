/* diff [-] name1 name2: which lines of the first file become others, so that it is as the second; with - as commands for
 * ed(I). */
#include <stdio.h>
#include <stdlib.h>
#include "say.h"
#include "paths.h"

struct side {
	char name[PATH];
	FILE *file;
	int count, at;			/* lines, and the line that is read next, from 1 on */
	unsigned long *sums;		/* of line 1 the first one */
};

/* A pair of lines that are the same, and the last pair of those before it in a longest sequence: an index, or -1. */
struct pair {
	int one, two, before;
};

static struct side left, right;
static int *order;			/* lines of the second file by their sums, of one sum the last line first */
static int *becomes;			/* of a line of the first file the line of the second that it is; 0 where it is none */
static int *ends;			/* of each length the pair with which a sequence of this length ends */
static struct pair *pairs;
static int pair_count, pair_room, script, differ;

static void fail(const char *name, const char *text)
{
	complain(name, text);
	exit(2);
}

static void *room_for(void *old, unsigned count, unsigned size)
{
	void *room = count > 65535U / size ? NULL : realloc(old, count * size);

	if (room == NULL)
		fail("diff", "out of space");
	return room;
}

static void open_side(struct side *side)
{
	if (side->file)
		fclose(side->file);
	side->file = fopen(side->name, "r");
	if (side->file == NULL)
		fail(side->name, "cannot open");
	side->at = 1;
}

/* The sum of each line. */
static void read_side(struct side *side)
{
	unsigned long sum;
	int c, room = 0;

	open_side(side);
	while ((c = getc(side->file)) != EOF) {
		for (sum = 0; c != '\n' && c != EOF; c = getc(side->file))
			sum = (sum << 5 | sum >> 27) ^ (unsigned long)c * 40503UL;
		if (side->count == room)
			side->sums = room_for(side->sums, room += 64, sizeof *side->sums);
		side->sums[side->count++] = sum;
	}
}

static int compare(const void *one, const void *two)
{
	int a = *(const int *)one, b = *(const int *)two;
	unsigned long sum = right.sums[a - 1], other = right.sums[b - 1];

	if (sum != other)
		return sum < other ? -1 : 1;
	return b - a;
}

/* The first place in `order` whose line doesn't have a sum below this one. */
static int find_sum(unsigned long sum, int count)
{
	int low = 0, high = count, middle;

	while (low < high) {
		middle = (low + high) / 2;
		if (right.sums[order[middle] - 1] < sum)
			low = middle + 1;
		else
			high = middle;
	}
	return low;
}

/* The pairs grow at the end of the data, where nothing else is taken meanwhile. */
static void more_pairs(void)
{
	void *more = sbrk(64 * sizeof *pairs);

	if (more == (void *)-1)
		fail("diff", "out of space");
	if (pairs == NULL)
		pairs = more;
	pair_room += 64;
}

/* A line of each file is the same: the sequence that ends so is kept where no other of its length ends as early. */
static int extend(int one, int two, int length)
{
	int low = 1, high = length + 1, middle;

	while (low < high) {
		middle = (low + high) / 2;
		if (pairs[ends[middle]].two < two)
			low = middle + 1;
		else
			high = middle;
	}
	if (low <= length && pairs[ends[low]].two == two)
		return length;
	if (pair_count == pair_room)
		more_pairs();
	pairs[pair_count].one = one;
	pairs[pair_count].two = two;
	pairs[pair_count].before = low > 1 ? ends[low - 1] : -1;
	ends[low] = pair_count++;
	return low > length ? low : length;
}

/* The longest sequence of lines that both files have; lines that are the same at both ends of the files are in it. */
static void match(void)
{
	int first = 1, last = left.count, other = right.count, count = 0, length = 0, line, at;

	becomes = room_for(NULL, left.count + 2, sizeof *becomes);
	memset(becomes, 0, (left.count + 2) * sizeof *becomes);
	for (; first <= last && first <= other && left.sums[first - 1] == right.sums[first - 1]; first++)
		becomes[first] = first;
	for (; last >= first && other >= first && left.sums[last - 1] == right.sums[other - 1]; last--, other--)
		becomes[last] = other;
	order = room_for(NULL, other + 1, sizeof *order);
	ends = room_for(NULL, other + 2, sizeof *ends);
	for (line = first; line <= other; line++)
		order[count++] = line;
	qsort(order, count, sizeof *order, compare);
	for (line = first; line <= last; line++)
		for (at = find_sum(left.sums[line - 1], count);
		     at < count && right.sums[order[at] - 1] == left.sums[line - 1]; at++)
			length = extend(line, order[at], length);
	for (at = length ? ends[length] : -1; at >= 0; at = pairs[at].before)
		becomes[pairs[at].one] = pairs[at].two;
	becomes[left.count + 1] = right.count + 1;
}

/* A side is read up to the beginning of a line. */
static void go_to(struct side *side, int line)
{
	int c;

	if (side->at > line)
		open_side(side);
	while (side->at < line && (c = getc(side->file)) != EOF)
		side->at += c == '\n';
}

/* Lines of the same sum that differ all the same are no pair. */
static void check(void)
{
	int line, c, d;

	open_side(&left);
	open_side(&right);
	for (line = 1; line <= left.count; line++) {
		if (becomes[line] == 0)
			continue;
		go_to(&left, line);
		go_to(&right, becomes[line]);
		do {
			c = getc(left.file);
			d = getc(right.file);
		} while (c == d && c != '\n' && c != EOF);
		left.at += c == '\n';
		right.at += d == '\n';
		if (c != d && (c != EOF || d != '\n') && (c != '\n' || d != EOF))
			becomes[line] = 0;
	}
}

static void show_lines(struct side *side, int from, int to, const char *mark)
{
	int c = '\n';

	if (from > to)
		return;
	go_to(side, from);
	for (; side->at <= to; side->at++) {
		fputs(mark, stdout);
		while ((c = getc(side->file)) != EOF && c != '\n')
			putchar(c);
		putchar('\n');
	}
}

static void show_range(int from, int to)
{
	if (from > to)
		printf("%d", to);
	else if (from == to)
		printf("%d", from);
	else
		printf("%d,%d", from, to);
}

/* The lines a to b of the first file become the lines c to d of the second. */
static void change(int a, int b, int c, int d)
{
	if (a > b && c > d)
		return;
	differ = 1;
	show_range(a, b);
	putchar(a > b ? 'a' : c > d ? 'd' : 'c');
	if (!script)
		show_range(c, d);
	putchar('\n');
	if (!script) {
		show_lines(&left, a, b, "* ");
		if (a <= b && c <= d)
			puts("---");
	}
	show_lines(&right, c, d, script ? "" : ". ");
	if (script && c <= d)
		puts(".");
}

/* Each change: from the first line on, or, as commands, from the last one back, since those before it keep their numbers. */
static void show_changes(void)
{
	int a, b, last = left.count;

	if (script)
		for (b = last; b >= 0; b = a - 2) {
			for (a = b + 1; a > 1 && becomes[a - 1] == 0; a--)
				;
			change(a, b, becomes[a - 1] + 1, becomes[b + 1] - 1);
		}
	else
		for (a = 1; a <= last + 1; a = b + 2) {
			for (b = a - 1; b < last && becomes[b + 1] == 0; b++)
				;
			change(a, b, becomes[a - 1] + 1, becomes[b + 1] - 1);
		}
}

/* Of a directory the file in it that has the other one's name. */
static void name_side(struct side *side, const char *name, const char *other)
{
	struct stat status;

	if (strlen(name) >= PATH)
		fail(name, "name too long");
	strcpy(side->name, name);
	if (stat(name, &status) == 0 && is_directory(&status) && !join(side->name, name, last_part(other), 14))
		fail(name, "name too long");
}

int main(int argc, char **argv)
{
	if (argc > 1 && strcmp(argv[1], "-") == 0) {
		script = 1;
		argc--;
		argv++;
	}
	if (argc != 3) {
		say("arg count\n");
		return 2;
	}
	name_side(&left, argv[1], argv[2]);
	name_side(&right, argv[2], argv[1]);
	read_side(&left);
	read_side(&right);
	match();
	check();
	show_changes();
	return differ;
}
