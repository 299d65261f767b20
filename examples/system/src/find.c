/* find name .. expression: the files below these names for which the expression is true. */
#include <errno.h>
#include <stdio.h>
#include <stdlib.h>
#include "say.h"
#include "paths.h"
#include "users.h"
#include "sizes.h"
#include "glob.h"
#include "run.h"
#include "walk.h"

#define NODES 100
#define LONGEST 60		/* arguments of a command */

enum { AND, OR, NOT, NAME, PERM, TYPE, LINKS, USER, GROUP, SIZE, ATIME, MTIME, EXEC, OK, PRINT };

static const char *const primaries[] = { "-name", "-perm", "-type", "-links", "-user", "-group", "-size", "-atime", "-mtime",
	"-exec", "-ok", "-print" };

struct node {
	char what, sign;		/* the sign of a number: + for more, - for less, 0 for as many */
	int number;
	struct node *left, *right;
	char **words;			/* the argument, or those of a command, with `;` at the end */
};

static struct node nodes[NODES];
static int node_count, failed;
static char **word, **last;		/* the next argument, and the end of them */
static struct node *expression;
static struct stat status;
static long now;

static void stop(const char *text)
{
	say("find: ");
	say(text);
	say("\n");
	exit(1);
}

static struct node *new_node(int what, struct node *left, struct node *right)
{
	struct node *node = &nodes[node_count++];

	if (node_count > NODES)
		stop("expression too long");
	node->what = what;
	node->left = left;
	node->right = right;
	return node;
}

static int is_next(const char *text)
{
	if (word == last || strcmp(*word, text) != 0)
		return 0;
	word++;
	return 1;
}

/* A number of an argument, with a sign before it. */
static void take_number(struct node *node, const char *text)
{
	if (*text == '+' || *text == '-')
		node->sign = *text++;
	if (*text < '0' || *text > '9')
		stop("bad number");
	node->number = atoi(text);
}

static void take_octal(struct node *node, const char *text)
{
	if (*text == '-')
		node->sign = *text++;
	for (; *text >= '0' && *text <= '7'; text++)
		node->number = node->number << 3 | *text - '0';
	if (*text)
		stop("bad mode");
}

static void take_argument(struct node *node)
{
	const char *text = *node->words;

	switch (node->what) {
	case PERM:
		take_octal(node, text);
		break;
	case USER:
		node->number = user_number(text);
		if (node->number < 0)
			take_number(node, text);
		break;
	case GROUP:
	case LINKS:
	case SIZE:
	case ATIME:
	case MTIME:
		take_number(node, text);
		break;
	case TYPE:
		if (strlen(text) != 1 || strchr("bcdf", *text) == NULL)
			stop("bad type");
	}
}

static struct node *alternatives(void);

static struct node *primary(void)
{
	struct node *node;
	int what;

	if (is_next("(")) {
		node = alternatives();
		if (!is_next(")"))
			stop("missing )");
		return node;
	}
	if (is_next("!"))
		return new_node(NOT, primary(), NULL);
	if (word == last)
		stop("incomplete expression");
	for (what = NAME; what <= PRINT && strcmp(*word, primaries[what - NAME]) != 0; what++)
		;
	if (what > PRINT)
		stop("bad option");
	node = new_node(what, NULL, NULL);
	word++;
	if (what == PRINT)
		return node;
	if (word == last)
		stop("incomplete expression");
	node->words = word;
	if (what == EXEC || what == OK) {
		while (!is_next(";"))
			if (word++ == last)
				stop("missing ;");
		return node;
	}
	take_argument(node);
	word++;
	return node;
}

static struct node *both(void)
{
	struct node *node = primary();

	while (word < last && (is_next("-a") || strcmp(*word, "-o") != 0 && strcmp(*word, ")") != 0))
		node = new_node(AND, node, primary());
	return node;
}

static struct node *alternatives(void)
{
	struct node *node = both();

	while (is_next("-o"))
		node = new_node(OR, node, both());
	return node;
}

/* A command, with the name for {}; whether its status is 0. */
static int runs(struct node *node)
{
	static char *words[LONGEST + 1];
	int count, child, done, ended;

	for (count = 0; count < LONGEST && strcmp(node->words[count], ";") != 0; count++)
		words[count] = strcmp(node->words[count], "{}") == 0 ? path : node->words[count];
	words[count] = NULL;
	fflush(stdout);
	if (count == 0)
		return 0;
	child = fork();
	if (child < 0)
		stop("try again");
	if (child == 0) {
		run(words);
		complain(words[0], "not found");
		exit(1);
	}
	while ((done = wait(&ended)) != child)
		if (done < 0 && errno != EINTR)
			return 0;
	return ended == 0;
}

static int asked(struct node *node)
{
	char c, first = 0;
	int at;

	say("< ");
	say(node->words[0]);
	say(" ... ");
	say(path);
	say(" > ? ");
	for (at = 0; read(0, &c, 1) == 1 && c != '\n'; at++)
		if (at == 0)
			first = c;
	return first == 'y' && runs(node);
}

static int fits(struct node *node, int value)
{
	return node->sign == '+' ? value > node->number : node->sign == '-' ? value < node->number : value == node->number;
}

static int days_since(long time)
{
	return (now - time) / 86400L;
}

static int is_type(int type)
{
	int kind = status.mode & KIND;

	return kind == (type == 'd' ? DIRECTORY : type == 'c' ? CHARACTER : type == 'b' ? BLOCK : 0);
}

static int is_true(struct node *node)
{
	switch (node->what) {
	case AND:
		return is_true(node->left) && is_true(node->right);
	case OR:
		return is_true(node->left) || is_true(node->right);
	case NOT:
		return !is_true(node->left);
	case NAME:
		return matches(*node->words, last_part(path));
	case PERM:
		return node->sign ? (status.mode & node->number) == node->number : (status.mode & 0777) == node->number;
	case TYPE:
		return is_type(**node->words);
	case LINKS:
		return fits(node, status.links);
	case USER:
		return fits(node, status.owner);
	case GROUP:
		return fits(node, status.group);
	case SIZE:
		return fits(node, (int)((bytes_of(&status) + 511) / 512));
	case ATIME:
		return fits(node, days_since(status.accessed));
	case MTIME:
		return fits(node, days_since(status.changed));
	case EXEC:
		return runs(node);
	case OK:
		return asked(node);
	}
	puts(path);
	return 1;
}

static void visit(int length)
{
	int directory;

	if (stat(path, &status) < 0) {
		failed = complain(path, "bad status");
		return;
	}
	directory = is_directory(&status);
	is_true(expression);
	if (directory)
		failed |= each_entry(length, visit);
}

int main(int argc, char **argv)
{
	char **names = argv + 1;
	int size;

	last = argv + argc;
	for (word = names; word < last && **word != '-' && strcmp(*word, "(") != 0 && strcmp(*word, "!") != 0; word++)
		;
	argv = word;
	if (names == word || word == last)
		stop("insufficient number of arguments");
	expression = alternatives();
	if (word < last)
		stop("bad expression");
	now = time();
	for (; names < argv; names++) {
		size = start_path(*names);
		if (size < 0)
			failed = 1;
		else
			visit(size);
	}
	return failed;
}
