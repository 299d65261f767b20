/*
 * ed [-] [file]: the editor of text. The lines stand in a file of /tmp without a name, so nothing is left of it where ed is
 * killed; the file that is edited changes by `w` alone.
 */
#include <signal.h>
#include <string.h>
#include <unix.h>
#include "copy.h"
#include "expressions.h"
#include "replace.h"

#define LIST 256		/* of the commands of a g */
#define NAME 64

static int addr1, addr2, given;	/* the addresses of a command, and how many were given */
static unsigned names[26];	/* the lines that k has marked */
static char saved[NAME], name[NAME], list[LIST];
static char *global;		/* the rest of the commands of a g; or 0 */
static int inside, peeked = -1, latest, print_after, list_after, quiet, any_pattern, heeds, ended;
static volatile int interrupted;
static int column, listing;

static void at_interrupt(int number)
{
	signal(number, at_interrupt);
	interrupted = 1;
}

/* The next character of the commands; -1 at their end. */
static int next(void)
{
	char c;
	int was = peeked;

	peeked = -1;
	if (was >= 0)
		return was;
	if (global)
		return latest = *global ? *global++ & 0177 : -1;
	flush();
	do {
		if (interrupted || ended)
			return latest = -1;
		if (read(0, &c, 1) != 1) {
			ended = !interrupted;
			return latest = -1;
		}
	} while ((c & 0177) == 0);
	return latest = c & 0177;
}

/* A line of text of the commands to `line`: 1, or 0 at the `.` or where they end. */
static int text_line(void)
{
	int c, at = 0;

	while ((c = next()) != '\n') {
		if (c < 0) {
			if (at == 0 || interrupted)
				return 0;
			break;
		}
		if (at >= LINE - 2)
			return fail();
		line[at++] = c;
	}
	line[at] = 0;
	return !(at == 1 && *line == '.');
}

static void append(int at)
{
	dot = at;
	while (text_line() && !failed)
		insert(dot, line);
}

/* The pattern of the commands up to `end`; without one, the last. In a set `end` is a character like others. */
static void take_pattern(int end)
{
	char text[LIST];
	int c, at = 0, set = 0;

	while ((c = next()) != end || set) {
		if (c < 0 || c == '\n' || at >= LIST - 4) {
			fail();
			return;
		}
		text[at++] = c;
		if (set == 0 && c == '\\' && (c = next()) >= 0)
			text[at++] = c;
		else if (set == 0 && c == '[') {
			if ((c = next()) == '^')
				text[at++] = c;
			else
				peeked = c;
			set = at;
		} else if (c == ']' && at > set + 1)
			set = 0;
	}
	text[at] = 0;
	if (at > 0)
		any_pattern = read_pattern(text, 0) != 0;
	if (!any_pattern)
		fail();
}

/* The line with the pattern that comes first after the current one, or before it, and round. */
static int search(int end)
{
	int at = dot;

	take_pattern(end);
	while (!failed) {
		at += end == '/' ? 1 : -1;
		if (at > last)
			at = 0;
		if (at < 0)
			at = last;
		if (at > 0 && found(get_line(at), 0))
			return at;
		if (at == dot || interrupted)
			return fail();
	}
	return 0;
}

static int marked_line(void)
{
	int c = next(), at;

	if (c < 'a' || c > 'z')
		return fail();
	for (at = 1; at <= last; at++)
		if (names[c - 'a'] && names[c - 'a'] == (lines[at] & ~MARK) + 1)
			return at;
	return fail();
}

static int number(int c)
{
	int value = 0;

	for (; c >= '0' && c <= '9'; c = next())
		value = value > 3275 ? 32767 : value * 10 + c - '0';
	peeked = c;
	return value;
}

/* An address; -1 where there is none. */
static int address(void)
{
	int at = dot, some = 0, sign = 0, c, value;

	while (!failed) {
		c = next();
		if (c >= '0' && c <= '9') {
			value = number(c);
			if (!some)
				at = 0;
			at += sign < 0 ? -value : value;
			sign = 0;
		} else if (c == '+' || c == '-' || c == '^') {
			at += sign;
			sign = c == '+' ? 1 : -1;
		} else if (c == '.' || c == '$' || c == '/' || c == '?' || c == '\'') {
			if (some)
				return fail();
			at = c == '.' ? dot : c == '$' ? last : c == '\'' ? marked_line() : search(c);
		} else if (c != ' ' && c != '\t') {
			peeked = c;
			at += sign;
			return !some ? -1 : at < 0 || at > last ? fail() : at;
		} else
			continue;
		some = 1;
	}
	return 0;
}

/* The addresses before a command; it gives the command. */
static int addresses(void)
{
	int at, c;

	for (given = 0; ; given++) {
		at = address();
		if (failed)
			return 0;
		c = next();
		if (at < 0)
			return c;
		addr1 = given ? addr2 : at;
		addr2 = at;
		if (c == ';')
			dot = at;
		else if (c != ',') {
			given++;
			return c;
		}
	}
}

/* What a command takes where no address was given: lines `from` to `to`. */
static void or_else(int from, int to)
{
	if (given == 0) {
		addr1 = from;
		addr2 = to;
	}
	if (addr1 > addr2)
		fail();
}

/* As or_else, and the lines must be there. */
static void some_lines(int from, int to)
{
	or_else(from, to);
	if (addr1 < 1 || addr2 > last)
		fail();
}

/* The end of a command, after which p or l may stand. */
static void end_of_command(void)
{
	int c = next();

	if (c == 'p' || c == 'l') {
		print_after = 1;
		list_after = c == 'l';
		c = next();
	}
	if (c != '\n' && c >= 0)
		fail();
}

static void list_put(int c)
{
	if (column >= 71) {
		put('\\');
		put('\n');
		column = 0;
	}
	column++;
	if (c == '\t' || c == '\b') {
		put('-');
		put('\b');
		put(c == '\t' ? '>' : '<');
	} else if (c < ' ' || c == 0177) {
		put('\\');
		if (c == 0177)
			put('1');
		put((c >> 3 & 7) + '0');
		put((c & 7) + '0');
		column += 2;
	} else
		put(c);
}

static void print_line(int at)
{
	char *text = get_line(at);

	column = 0;
	for (; *text; text++)
		if (listing)
			list_put(*text);
		else
			put(*text);
	put('\n');
}

static void print(int as_list)
{
	int at;

	some_lines(dot, dot);
	listing = as_list;
	for (at = addr1; !failed && at <= addr2 && !interrupted; at++) {
		print_line(at);
		dot = at;
	}
	listing = 0;
	flush();
}

/* The file's name after a command; without one, that which was kept. */
static void file_name(int keep)
{
	int c = next(), at = 0;

	if (c == '\n' || c < 0) {
		if (*saved == 0)
			fail();
		strcpy(name, saved);
		return;
	}
	if (c != ' ') {
		fail();
		return;
	}
	while ((c = next()) == ' ')
		;
	for (; c != '\n' && c >= 0; c = next()) {
		if (at == NAME - 1 || c == ' ') {
			fail();
			return;
		}
		name[at++] = c;
	}
	name[at] = 0;
	if (at == 0)
		fail();
	else if (keep || *saved == 0)
		strcpy(saved, name);
}

static void tell(long count)
{
	if (quiet)
		return;
	put_number(count);
	say("\n");
}

/* The file's bytes as lines after line `at`. A NUL isn't taken, and a byte loses its high bit. */
static void read_file(int at)
{
	char buffer[512];
	int file = open(name, 0), count, from, c, size = 0;
	long bytes = 0;

	if (file < 0) {
		fail();
		return;
	}
	dot = at;
	while (!failed && !interrupted && (count = read(file, buffer, 512)) > 0)
		for (from = 0; from < count && !failed; from++) {
			bytes++;
			c = buffer[from] & 0177;
			if (c == '\n') {
				line[size] = 0;
				insert(dot, line);
				size = 0;
			} else if (c != 0 && size >= LINE - 2)
				fail();
			else if (c != 0)
				line[size++] = c;
		}
	if (size > 0 && !failed) {
		line[size] = 0;
		insert(dot, line);
	}
	close(file);
	if (count < 0 && !interrupted)
		fail();
	if (!failed)
		tell(bytes);
}

static void write_file(void)
{
	int file = creat(name, 0666), at;
	char *text;
	long bytes = 0;

	if (file < 0) {
		fail();
		return;
	}
	flush();
	for (at = addr1; at > 0 && at <= addr2 && !failed; at++) {
		text = get_line(at);
		do {
			if (shown_count == sizeof shown) {
				if (write(file, shown, sizeof shown) != sizeof shown)
					fail();
				shown_count = 0;
			}
			shown[shown_count++] = *text ? *text : '\n';
			bytes++;
		} while (*text++);
	}
	if (shown_count && write(file, shown, shown_count) != shown_count)
		fail();
	shown_count = 0;
	if (close(file) < 0)
		fail();
	if (!failed)
		tell(bytes);
}

/* The text that takes the place of what is found, up to `end`. */
static void take_replacement(int end)
{
	int c, at = 0;

	while ((c = next()) != end) {
		if (c < 0 || c == '\n' || at >= LINE - 3) {
			fail();
			return;
		}
		replacement[at++] = c;
		if (c == '\\' && (c = next()) >= 0)
			replacement[at++] = c;
	}
	replacement[at] = 0;
}

/* Puts out_line, which may be several lines, in the place of line `at`; it gives the last of them. */
static int put_lines(int at)
{
	char *from = out_line, *end;
	unsigned old = lines[at] & ~MARK, mark = lines[at] & MARK;
	int mark_at;

	end = strchr(from, '\n');
	if (end)
		*end = 0;
	lines[at] = keep_line(from) | mark;
	for (mark_at = 0; mark_at < 26; mark_at++)
		if (names[mark_at] == old + 1)
			names[mark_at] = (lines[at] & ~MARK) + 1;
	while (end && !failed) {
		from = end + 1;
		end = strchr(from, '\n');
		if (end)
			*end = 0;
		insert(at++, from);
	}
	return at;
}

static void substitute(void)
{
	int end = next(), c, all = 0, at, some = 0, put;

	if (end <= ' ') {
		fail();
		return;
	}
	take_pattern(end);
	if (!failed)
		take_replacement(end);
	c = failed ? '\n' : next();
	if (c == 'g')
		all = 1;
	else
		peeked = c;
	if (!failed)
		end_of_command();
	for (at = addr1; at <= addr2 && !failed && !interrupted; at++)
		if (replaced(at, all)) {
			some = 1;
			put = put_lines(at);
			addr2 += put - at;
			dot = at = put;
		}
	if (!some && !inside)
		fail();
}

/* The lines of the addresses after the line of another address. */
static void move(int copy)
{
	unsigned *moved, kept;
	int to = address(), at, count = addr2 - addr1 + 1;

	if (to < 0)
		fail();
	if (!failed)
		end_of_command();
	if (failed)
		return;
	if (copy) {
		for (at = 0; at < count && !failed && !interrupted; at++)
			insert(to + at, get_line(addr1 + at + (addr1 + at > to ? at : 0)));
		return;
	}
	if (to >= addr1 && to < addr2) {
		fail();
		return;
	}
	/* each of them goes by itself past those between */
	for (at = 0; at < count; at++)
		if (to < addr1) {
			moved = lines + addr1 + at;
			kept = *moved;
			memmove(lines + to + at + 2, lines + to + at + 1, (addr1 - to - 1) * sizeof kept);
			lines[to + at + 1] = kept;
		} else {
			kept = lines[addr1];
			memmove(lines + addr1, lines + addr1 + 1, (to - addr1) * sizeof kept);
			lines[to] = kept;
		}
	dot = to < addr1 ? to + count : to;
}

static void mark(void)
{
	int c = next();

	if (c < 'a' || c > 'z')
		fail();
	else {
		end_of_command();
		if (!failed)
			names[c - 'a'] = (lines[addr2] & ~MARK) + 1;
	}
}

/* A command for the shell, up to the end of the line. */
static void shell(void)
{
	char text[LIST];
	int c, at = 0, child, ended, status;
	void (*was)(int);

	while ((c = next()) != '\n' && c >= 0)
		if (at < LIST - 1)
			text[at++] = c;
	text[at] = 0;
	flush();
	child = fork();
	if (child < 0) {
		fail();
		return;
	}
	if (child == 0) {
		if (heeds) {
			signal(SIGINT, SIG_DFL);
			signal(SIGQUIT, SIG_DFL);
		}
		execl("/bin/sh", "sh", "-c", text, (char *)0);
		write(1, "no shell\n", 9);
		exit(1);
	}
	was = signal(SIGINT, SIG_IGN);
	do
		ended = wait(&status);
	while (ended != child && ended >= 0);
	signal(SIGINT, was);
	say("!\n");
}

static void commands(void);

/* The commands of a g up to the end of the line; a backslash before that goes on with the next one. */
static void take_list(void)
{
	int c, at = 0;

	while ((c = next()) != '\n' && c >= 0) {
		if (at >= LIST - 3) {
			fail();
			return;
		}
		if (c == '\\') {
			c = next();
			if (c != '\n')
				list[at++] = '\\';
		}
		list[at++] = c;
	}
	if (at == 0)
		list[at++] = 'p';
	list[at++] = '\n';
	list[at] = 0;
}

/* The commands of a list for each line with a pattern, or without it. */
static void globally(int with)
{
	int end, at;

	if (inside) {
		fail();
		return;
	}
	some_lines(1, last);
	end = next();
	if (failed || end <= ' ') {
		fail();
		return;
	}
	take_pattern(end);
	if (!failed)
		take_list();
	for (at = 1; at <= last && !failed; at++)
		if (at >= addr1 && at <= addr2 && (found(get_line(at), 0) != 0) == with)
			lines[at] |= MARK;
	inside = 1;
	for (at = 1; at <= last && !failed && !interrupted; at++)
		if (lines[at] & MARK) {
			lines[at] &= ~MARK;
			dot = at;
			global = list;
			commands();
			at = 0;		/* lines may have come or gone */
		}
	inside = 0;
	global = 0;
	latest = '\n';
	peeked = -1;
	for (at = 1; at <= last; at++)
		lines[at] &= ~MARK;
}

static void edit(void)
{
	file_name(1);
	if (failed)
		return;
	last = dot = out_count = out_block = 0;
	in_block = -1;
	memset(names, 0, sizeof names);
	read_file(0);
}

/* The commands on text: some lines, the end of the command, and what it does. */
static void edit_lines(int c)
{
	if (c == 'a')
		or_else(dot, dot);
	else
		some_lines(dot, dot);
	end_of_command();
	if (failed)
		return;
	if (c == 'c' || c == 'd')
		delete(addr1, addr2);
	if (c != 'd')
		append(c == 'a' ? addr2 : c == 'i' ? addr2 - 1 : addr1 - 1);
}

static void tell_name(void)
{
	peeked = next();
	if (peeked != '\n' && peeked >= 0)
		file_name(1);
	else
		next();
	if (failed)
		return;
	say(saved);
	say("\n");
}

static void write_lines(void)
{
	if (last > 0)
		some_lines(1, last);
	else
		or_else(0, 0);
	file_name(0);
	if (!failed)
		write_file();
}

static void tell_number(void)
{
	or_else(last, last);
	end_of_command();
	if (failed)
		return;
	put_number(addr2);
	say("\n");
}

/* An empty line: the next line, or the last of those that were given. */
static void show_next(void)
{
	addr1 = addr2 = given ? addr2 : dot + 1;
	given = 1;
	print(0);
}

static void do_command(int c)
{
	switch (c) {
	case 'a': case 'c': case 'd': case 'i': edit_lines(c); break;
	case 'e': if (given) fail(); else edit(); break;
	case 'f': if (given) fail(); else tell_name(); break;
	case 'g': case 'v': globally(c == 'g'); break;
	case 'k': some_lines(dot, dot); if (!failed) mark(); break;
	case 'l': case 'p': end_of_command(); if (!failed) print(c == 'l'); break;
	case 'm': case 't': some_lines(dot, dot); if (!failed) move(c == 't'); break;
	case 'r': or_else(last, last); file_name(0); if (!failed) read_file(addr2); break;
	case 's': some_lines(dot, dot); if (!failed) substitute(); break;
	case 'w': write_lines(); break;
	case '=': tell_number(); break;
	case '!': if (given) fail(); else shell(); break;
	case '\n': case -1: show_next(); break;
	default: fail();
	}
}

/* What is left of a line in which a command failed isn't looked at. */
static void recover(void)
{
	int c;

	shown_count = 0;
	if (interrupted)
		say("\n");
	else
		for (c = latest; c != '\n' && c >= 0; )
			c = next();
	interrupted = 0;
	failed = 0;
	listing = 0;
	peeked = -1;
	say("?\n");
}

/* Commands up to their end; in a list of g the first that fails ends them. */
static void commands(void)
{
	int c, was;

	for (;;) {
		print_after = list_after = 0;
		c = addresses();
		if (c < 0 && !failed && !interrupted && given == 0)
			return;
		if (!failed && !interrupted) {
			if (c == 'q' && given == 0 && !inside) {
				end_of_command();
				if (!failed)
					exit(0);
			} else
				do_command(c);
		}
		if (print_after && !failed && !interrupted) {
			was = list_after;
			given = 1;
			addr1 = addr2 = dot;
			print(was);
		}
		if (failed || interrupted) {
			if (inside)
				return;
			recover();
		}
	}
}

static void begin(void)
{
	char temp[16];
	int at, process = getpid();

	strcpy(temp, "/tmp/e00000");
	for (at = 10; at > 5; at--) {
		temp[at] = process % 10 + '0';
		process /= 10;
	}
	close(creat(temp, 0600));
	temporary = open(temp, 2);
	if (temporary < 0) {
		say("no room in /tmp\n");
		exit(1);
	}
	unlink(temp);
	heeds = signal(SIGINT, SIG_IGN) != SIG_IGN;
	if (heeds)
		signal(SIGINT, at_interrupt);
	signal(SIGQUIT, SIG_IGN);
	lines = sbrk(0);
	lines = (unsigned *)((char *)lines + ((size_t)lines & 1));
	sbrk(STEP * sizeof *lines + 2);
	room = STEP;
}

int main(int argc, char **argv)
{
	if (argc > 1 && strcmp(argv[1], "-") == 0) {
		quiet = 1;
		argc--;
		argv++;
	}
	begin();
	if (argc > 1) {
		if (strlen(argv[1]) >= NAME)
			failed = 1;
		else {
			strcpy(saved, argv[1]);
			strcpy(name, saved);
			read_file(0);
		}
		if (failed) {
			failed = 0;
			say("?\n");
		}
	}
	commands();
	return 0;
}
