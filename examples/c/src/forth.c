/* forth: a small Forth, of cells of sixteen bits. It reads the standard input; `words` prints what it knows, `bye` ends it. */
#include <ctype.h>
#include <stdio.h>
#include <stdlib.h>
#include <string.h>

#define CELLS 6000		/* of the dictionary */
#define DEPTH 64		/* of each stack */
#define WORDS 300
#define LINE 256

enum {				/* what a cell of a definition does; a word's own begins at its cell */
	DO_END, DO_NUMBER, DO_JUMP, DO_JUMP_ZERO, DO_CALL, DO_TEXT, DO_ENTER, DO_LOOP, DO_LITERALS,
	ADD, SUB, MUL, DIV, MOD, NEGATE, AND, OR, XOR, INVERT, EQUAL, LESS, GREATER, ZERO, DUP, DROP, SWAP, OVER, ROT, TO_R, FROM_R,
	INDEX, OUTER, FETCH, STORE, ADD_STORE, DOT, STACK, CR, EMIT, SPACE, HERE, ALLOT, COMMA, KNOWN, BYE,
	AT_ONCE, IF, ELSE, THEN, BEGIN, UNTIL, WHILE, REPEAT, DO, LOOP, QUOTE, SEMICOLON, COLON, VARIABLE, CONSTANT, COMMENT, REST,
	RECURSE
};

static const char *const names[] = {
	"+", "-", "*", "/", "mod", "negate", "and", "or", "xor", "invert", "=", "<", ">", "0=", "dup", "drop", "swap", "over", "rot",
	">r", "r>", "i", "j", "@", "!", "+!", ".", ".s", "cr", "emit", "space", "here", "allot", ",", "words", "bye",
	"", "if", "else", "then", "begin", "until", "while", "repeat", "do", "loop", ".\"", ";", ":", "variable", "constant", "(",
	"\\", "recurse", 0
};

struct word {
	char *name;
	int kind, at;		/* DO_CALL and its cell, DO_NUMBER and the number */
};

static int cells[CELLS], stack[DEPTH], returns[DEPTH];
static struct word words[WORDS];
static int here, count, depth, level, compiling, failed;
static char line[LINE], *next = line;

static void fail(const char *why, const char *what)
{
	if (!failed)
		printf("%s%s?\n", what, why);
	failed = 1;
}

static void push(int value)
{
	if (depth == DEPTH)
		fail("", "stack full");
	else
		stack[depth++] = value;
}

static int pop(void)
{
	if (depth == 0) {
		fail("", "stack empty");
		return 0;
	}
	return stack[--depth];
}

static void put(int value)
{
	if (here == CELLS)
		fail("", "dictionary full");
	else
		cells[here++] = value;
}

static void to_return(int value)
{
	if (level == DEPTH)
		fail("", "return stack full");
	else
		returns[level++] = value;
}

static int from_return(void)
{
	if (level == 0) {
		fail("", "return stack empty");
		return 0;
	}
	return returns[--level];
}

/* An address of the dictionary. */
static int *cell(int at)
{
	if (at < 0 || at >= CELLS) {
		fail("", "address");
		at = 0;
	}
	return &cells[at];
}

/* The next word of the line; NULL at its end. */
static char *word(void)
{
	char *start;

	while (isspace(*next))
		next++;
	if (*next == 0)
		return NULL;
	for (start = next; *next && !isspace(*next); next++)
		;
	if (*next)
		*next++ = 0;
	return start;
}

static void arithmetic(int kind)
{
	int right = pop(), left = pop();

	switch (kind) {
	case ADD: left += right; break;
	case SUB: left -= right; break;
	case MUL: left *= right; break;
	case AND: left &= right; break;
	case OR: left |= right; break;
	case XOR: left ^= right; break;
	case EQUAL: left = -(left == right); break;
	case LESS: left = -(left < right); break;
	case GREATER: left = -(left > right); break;
	default:
		if (right == 0)
			fail("", "division by zero");
		else if (kind == DIV)
			left /= right;
		else
			left %= right;
	}
	push(left);
}

static void known(void)
{
	int at;

	for (at = count - 1; at >= 0; at--)
		printf("%s ", words[at].name);
	for (at = 0; names[at]; at++)
		if (names[at][0])
			printf("%s ", names[at]);
	putchar('\n');
}

static void simple(int kind)
{
	int a, b, c;

	switch (kind) {
	case NEGATE: push(-pop()); break;
	case INVERT: push(~pop()); break;
	case ZERO: push(-(pop() == 0)); break;
	case DUP: a = pop(); push(a); push(a); break;
	case DROP: pop(); break;
	case SWAP: a = pop(); b = pop(); push(a); push(b); break;
	case OVER: a = pop(); b = pop(); push(b); push(a); push(b); break;
	case ROT: a = pop(); b = pop(); c = pop(); push(b); push(a); push(c); break;
	case TO_R: to_return(pop()); break;
	case FROM_R: push(from_return()); break;
	case INDEX: push(level > 0 ? returns[level - 1] : 0); break;
	case OUTER: push(level > 2 ? returns[level - 3] : 0); break;
	case FETCH: push(*cell(pop())); break;
	case STORE: a = pop(); *cell(a) = pop(); break;
	case ADD_STORE: a = pop(); *cell(a) += pop(); break;
	case DOT: printf("%d ", pop()); break;
	case STACK: for (a = 0; a < depth; a++) printf("%d ", stack[a]); break;
	case CR: putchar('\n'); break;
	case EMIT: putchar(pop()); break;
	case SPACE: putchar(' '); break;
	case HERE: push(here); break;
	case ALLOT: a = pop(); if (here + a < 0 || here + a > CELLS) fail("", "dictionary full"); else here += a; break;
	case COMMA: put(pop()); break;
	case KNOWN: known(); break;
	case BYE: exit(0);
	default: arithmetic(kind);
	}
}

/* Runs the definition at a cell, and what it calls. */
static void run(int at)
{
	int base = level, kind, limit;

	to_return(-1);
	while (!failed) {
		kind = cells[at++];
		switch (kind) {
		case DO_END:
			at = from_return();
			if (at < 0 && level == base)
				return;
			break;
		case DO_NUMBER:
			push(cells[at++]);
			break;
		case DO_JUMP:
			at = cells[at];
			break;
		case DO_JUMP_ZERO:
			at = pop() == 0 ? cells[at] : at + 1;
			break;
		case DO_CALL:
			to_return(at + 1);
			at = cells[at];
			break;
		case DO_TEXT:
			while (cells[at])
				putchar(cells[at++]);
			at++;
			break;
		case DO_ENTER:		/* the limit, and the index above it */
			kind = pop();
			to_return(pop());
			to_return(kind);
			break;
		case DO_LOOP:
			kind = from_return() + 1;
			limit = from_return();
			if (kind < limit) {
				to_return(limit);
				to_return(kind);
				at = cells[at];
			} else
				at++;
			break;
		default:
			simple(kind);
		}
	}
}

static void define(int kind, int at)
{
	char *name = word();

	if (name == NULL)
		fail("", "a name");
	else if (count == WORDS || (words[count].name = malloc(strlen(name) + 1)) == NULL)
		fail("", "dictionary full");
	else {
		strcpy(words[count].name, name);
		words[count].kind = kind;
		words[count++].at = at;
	}
}

/* A jump whose place comes later: its cell goes to the stack. */
static void forward(int kind)
{
	put(kind);
	push(here);
	put(0);
}

static void here_comes(int at)
{
	*cell(at) = here;
}

/* Words that do something while a definition is read. */
static void at_once(int kind)
{
	int a, b;

	if (!compiling && kind < COLON && kind != QUOTE) {
		fail(": only in a definition", names[kind - ADD]);
		return;
	}
	switch (kind) {
	case IF: forward(DO_JUMP_ZERO); break;
	case ELSE: a = pop(); forward(DO_JUMP); here_comes(a); break;
	case THEN: here_comes(pop()); break;
	case BEGIN: push(here); break;
	case UNTIL: put(DO_JUMP_ZERO); put(pop()); break;
	case WHILE: forward(DO_JUMP_ZERO); break;
	case REPEAT: a = pop(); b = pop(); put(DO_JUMP); put(b); here_comes(a); break;
	case DO: put(DO_ENTER); push(here); break;
	case LOOP: put(DO_LOOP); put(pop()); break;
	case SEMICOLON: put(DO_END); compiling = 0; break;
	case RECURSE: put(DO_CALL); put(words[count - 1].at); break;
	case COLON: define(DO_CALL, here); compiling = 1; break;
	case VARIABLE: define(DO_NUMBER, here); put(0); break;
	case CONSTANT: define(DO_NUMBER, pop()); break;
	case REST: *next = 0; break;
	case COMMENT:
		while (*next && *next++ != ')')
			;
		break;
	case QUOTE:
		if (compiling)
			put(DO_TEXT);
		for (; *next && *next != '"'; next++)
			if (compiling)
				put(*next);
			else
				putchar(*next);
		if (*next)
			next++;
		if (compiling)
			put(0);
	}
}

static void interpret(const char *text)
{
	int at;
	const char *digit = text + (*text == '-');

	for (at = count - 1; at >= 0; at--)
		if (strcmp(words[at].name, text) == 0) {
			if (compiling) {
				put(words[at].kind);
				put(words[at].at);
			} else if (words[at].kind == DO_CALL)
				run(words[at].at);
			else
				push(words[at].at);
			return;
		}
	for (at = 0; names[at]; at++)
		if (strcmp(names[at], text) == 0) {
			if (at + ADD > AT_ONCE)
				at_once(at + ADD);
			else if (compiling)
				put(at + ADD);
			else
				simple(at + ADD);
			return;
		}
	while (isdigit(*digit))
		digit++;
	if (*digit || !isdigit(digit[-1]))
		fail("", text);
	else if (compiling) {
		put(DO_NUMBER);
		put(atoi(text));
	} else
		push(atoi(text));
}

int main(void)
{
	char *text;

	while (fgets(line, LINE, stdin) != NULL) {
		next = line;
		while (!failed && (text = word()) != NULL)
			interpret(text);
		if (failed)
			depth = level = compiling = failed = 0;
		else
			puts(compiling ? "" : " ok");
	}
	return 0;
}
