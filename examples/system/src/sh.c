/* sh [-t] [-c line] [file [argument ..]]: reads lines of commands, and has them done. */
#include <errno.h>
#include <signal.h>
#include "say.h"
#include "shell.h"
#include "names.h"

static const char *prompt, *text;	/* text is what -c gives */
static int one_line, ignores, status, ahead;
static char **arguments, *dollar;
static int argument_count;
static char own_number[6];

static char line[LINE], *line_end;
static char *tokens[WORDS + 1];
static int token_count, overflow;

static const char *causes[] = {
	0, "Hangup", "", "Quit", "Illegal instruction", "Trace/BPT trap", "IOT trap", "EMT trap", "Floating exception", "Killed",
	"Bus error", "Memory fault", "Bad system call", 0, "Sig 14", "Sig 15"
};

/* What is wrong with a line; a file of commands ends with it. */
static void error(const char *what)
{
	say(what);
	say("\n");
	if (prompt == NULL) {
		seek(0, 0, 2);
		exit(1);
	}
}

static void say_number(unsigned number)
{
	char digits[6], *at = digits + 5;

	*at = 0;
	do
		*--at = number % 10 + '0';
	while (number /= 10);
	say(at);
}

/* The next character, as it stands there. */
static int read_char(void)
{
	char c;

	if (text) {
		if (*text)
			return *text++ & 0177;
		text = NULL;
		one_line = 2;
		return '\n';
	}
	if (one_line == 2 || read(0, &c, 1) != 1)
		exit(status);
	if (c == '\n' && one_line)
		one_line = 2;
	return c & 0177;
}

/* The next character, with what $ stands for; after a backslash it is marked. */
static int next_char(void)
{
	int c = ahead;

	ahead = 0;
	if (c)
		return c;
	for (;;) {
		if (dollar && *dollar)
			return *dollar++ & 0177;
		dollar = NULL;
		c = read_char();
		if (c == '\\') {
			c = read_char();
			return c == '\n' ? ' ' : c | QUOTED;
		}
		if (c != '$')
			return c;
		c = read_char();
		if (c == '$')
			dollar = own_number;
		else if (c < '0' || c > '9')
			return c;
		else if (c - '0' < argument_count)
			dollar = arguments[c - '0'];
	}
}

static void put(int c)
{
	if (line_end < line + LINE)
		*line_end++ = c;
	else
		overflow = 1;
}

/* Reads a word, or a sign; whether its quotes are closed. */
static int read_token(void)
{
	int c, quote, closed = 1;

	do
		c = next_char();
	while (c == ' ' || c == '\t');
	if (is_sign(c)) {
		put(c);
		put(0);
		return 1;
	}
	for (; !is_sign(c) && c != ' ' && c != '\t'; c = next_char()) {
		if (c != '\'' && c != '"') {
			put(c);
			continue;
		}
		for (quote = c; (c = read_char()) != quote && c != '\n';)
			put(c | QUOTED);
		if (c == '\n') {
			closed = 0;
			ahead = c;
		}
	}
	ahead = c;
	put(0);
	return closed;
}

/* Reads a line, and says what is wrong with it; whether it can be done. */
static int read_tokens(void)
{
	int closed = 1, many = 0;
	char *start;

	line_end = line;
	token_count = overflow = 0;
	do {
		start = line_end;
		closed &= read_token();
		if (token_count < WORDS)
			tokens[token_count++] = start;
		else
			many = 1;
	} while (*start != '\n' && !overflow);
	if (overflow)
		while (next_char() != '\n')
			;
	if (overflow || many)
		error(overflow ? "Too many characters" : "Too many args");
	else if (!closed)
		error("syntax error");
	return closed && !overflow && !many;
}

/* Waits for a process, or for all where it is -1. Of those that end by a signal it tells. */
static void await(int process)
{
	int ended, how, signal;

	while ((ended = wait(&how)) != -1) {
		signal = how & 0177;
		if (ended == process)
			status = signal ? signal | 0200 : how >> 8 & 0377;
		if (signal && signal < 16 && causes[signal]) {
			if (ended != process && *causes[signal]) {
				say_number(ended);
				say(": ");
			}
			say(causes[signal]);
			error(how & 0200 ? " -- Core dumped" : "");
		}
		if (ended == process)
			break;
	}
}

/* Whether a word is this one, quoted or not. */
static int is(const char *word, const char *name)
{
	while (*name && (*word & 0177) == *name) {
		word++;
		name++;
	}
	return *word == *name;
}

/* What the shell does itself; whether this is such a command. */
static int is_own(char **words)
{
	char *name = words[0];

	if (is(name, ":"))
		return 1;
	if (is(name, "chdir")) {
		if (words[1] == NULL || words[2])
			error("chdir: arg count");
		else if (chdir(plain(words[1])) < 0)
			error("chdir: bad directory");
	} else if (is(name, "shift")) {
		if (argument_count < 2)
			error("shift: no args");
		else {
			arguments[1] = arguments[0];
			arguments++;
			argument_count--;
		}
	} else if (is(name, "wait"))
		await(-1);
	else if (is(name, "login")) {
		if (prompt) {
			all_plain(words);
			execv("/bin/login", words);
		}
		error("login: cannot execute");
	} else
		return 0;
	return 1;
}

/* The program of a file, or a shell that reads the file; it comes back where there is neither. */
static void try(char *file, char **words)
{
	execv(file, words);
	if (errno == ENOEXEC) {
		words[0] = file;
		words[-1] = "sh";
		execv("/bin/sh", words - 1);
	}
	if (errno != ENOMEM && errno != E2BIG)
		return;
	say(words[0]);
	error(errno == ENOMEM ? ": too large" : ": Arg list too long");
	exit(1);
}

/* What a child executes. */
static void launch(char **words)
{
	static char path[LINE + 10] = "/usr/bin/";

	words = with_names(words);
	if (words == NULL) {
		error(names_fault);
		exit(1);
	}
	strcpy(path + 9, words[0]);
	try(words[0], words);
	try(path + 4, words);
	try(path, words);
	say(words[0]);
	error(": not found");
	exit(1);
}

/* An open file gets this number. */
static void become(int file, int number)
{
	close(number);
	dup(file);
	close(file);
}

static void fail(const char *name, const char *what)
{
	say(name);
	error(what);
	exit(1);
}

/* The files of a child: those that its command names. */
static void redirect(struct node *node)
{
	int file = -1;

	if (node->input) {
		close(0);
		if (open(plain(node->input), 0) < 0)
			fail(node->input, ": cannot open");
	}
	if (node->output == NULL)
		return;
	plain(node->output);
	if (node->appends && (file = open(node->output, 1)) >= 0)
		seek(file, 0, 2);
	if (file < 0 && (file = creat(node->output, 0666)) < 0)
		fail(node->output, ": cannot create");
	become(file, 1);
}

static void perform(struct node *node);

/* A child for a command, which reads and writes these ends of pipes; -1 is none. Its number, or -1. */
static int start(struct node *node, int from, int to, int other, int alone)
{
	int child = fork();

	if (child) {
		if (child < 0)
			error("try again");
		else if (alone) {
			say_number(child);
			say("\n");
		}
		return child;
	}
	if (other >= 0)
		close(other);
	if (from >= 0)
		become(from, 0);
	if (to >= 0)
		become(to, 1);
	if (alone && from < 0 && node->input == NULL) {
		close(0);
		open("/dev/null", 0);
	}
	redirect(node);
	if (!alone && ignores) {
		signal(SIGINT, SIG_DFL);
		signal(SIGQUIT, SIG_DFL);
	}
	ignores = 0;
	if (node->kind == COMMAND)
		launch(node->words);
	perform(node->left);
	exit(status);
}

/* A pipeline; the shell waits for its last process, unless & stands after it. */
static void pipeline(struct node *node, int alone)
{
	int ends[2], from = -1, child;

	if (node->kind == COMMAND && is_own(node->words))
		return;
	for (; node->kind == PIPELINE; node = node->right) {
		if (pipe(ends) < 0) {
			error("try again");
			break;
		}
		child = start(node->left, from, ends[1], ends[0], alone);
		if (from >= 0)
			close(from);
		close(ends[1]);
		from = ends[0];
		if (child < 0)
			break;
	}
	child = node->kind == PIPELINE ? -1 : start(node, from, -1, -1, alone);
	if (from >= 0)
		close(from);
	if (child > 0 && !alone)
		await(child);
}

/* The commands of a list, one after the other. */
static void perform(struct node *node)
{
	for (; node; node = node->right)
		pipeline(node->left, node->alone);
}

/* What the words of the command line say. */
static void begin(int argc, char **argv)
{
	struct stat found;
	unsigned number = getpid(), at;

	for (at = 5; at-- > 0; number /= 10)
		own_number[at] = number % 10 + '0';
	if (fstat(2, &found) < 0)
		dup(1);
	arguments = argv + 1;
	argument_count = argc - 1;
	ignores = argv[0][0] == '-';
	prompt = (getuid() & 0377) ? "% " : "# ";
	if (argc > 1) {
		prompt = NULL;
		if (strcmp(argv[1], "-t") == 0)
			one_line = 1;
		else if (strcmp(argv[1], "-c") == 0 && argc > 2)
			text = argv[2];
		else {
			close(0);
			if (open(argv[1], 0) < 0)
				fail(argv[1], ": cannot open");
		}
	}
	if (ignores) {
		signal(SIGINT, SIG_IGN);
		signal(SIGQUIT, SIG_IGN);
	}
}

int main(int argc, char **argv)
{
	struct node *node;

	begin(argc, argv);
	for (;;) {
		if (prompt)
			say(prompt);
		if (!read_tokens())
			continue;
		if (parse(tokens, &node))
			perform(node);
		else
			error("syntax error");
	}
}
