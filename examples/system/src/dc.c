/* dc [file]: the desk calculator, with whole numbers of any length: sign and digits to the base 100, the lowest first. */
#include <ctype.h>
#include <stdio.h>
#include <stdlib.h>
#include <string.h>
#include <unix.h>

#define DEPTH 100		/* of the stack, and of each register's together */
#define NESTED 20		/* strings that are executed in each other */
#define LINE 200

struct value {
	int sign, size;		/* -1, 0 or 1; 2 for a string, which ends with a NUL */
	unsigned char digits[2];
};

struct kept {			/* what a register holds, and held before */
	struct value *value;
	struct kept *older;
};

static struct value *stack[DEPTH];
static struct kept *registers[128];
static char *texts[NESTED], *starts[NESTED];
static FILE *in;
static int depth, nested, failed, in_base = 10, out_base = 10, column;

static void complain(const char *what)
{
	if (!failed)
		printf("%s\n", what);
	failed = 1;
}

static struct value *make(int sign, int size)
{
	struct value *made = malloc(sizeof *made + size);

	if (made == NULL) {
		printf("Out of space.\n");
		exit(1);
	}
	made->sign = sign;
	made->size = size;
	memset(made->digits, 0, size);
	return made;
}

/* Without zeros in front. */
static struct value *trim(struct value *of)
{
	while (of->size > 0 && of->digits[of->size - 1] == 0)
		of->size--;
	if (of->size == 0)
		of->sign = 0;
	return of;
}

static struct value *copy(const struct value *of)
{
	struct value *made = make(of->sign, of->size + 1);

	memcpy(made->digits, of->digits, of->size);
	made->size = of->size;
	return made;
}

static struct value *small(int number)
{
	struct value *made = make(number < 0 ? -1 : 1, 3);
	unsigned rest = number < 0 ? -number : number;

	made->digits[0] = rest % 100;
	made->digits[1] = rest / 100 % 100;
	made->digits[2] = rest / 10000;
	return trim(made);
}

static void push(struct value *value)
{
	if (depth == DEPTH) {
		complain("stack full");
		free(value);
	} else
		stack[depth++] = value;
}

static struct value *pop(void)
{
	if (depth == 0) {
		complain("stack empty");
		return small(0);
	}
	return stack[--depth];
}

/* A number from the stack. */
static struct value *pop_number(void)
{
	struct value *value = pop();

	if (value->sign != 2)
		return value;
	complain("a string where a number is wanted");
	free(value);
	return small(0);
}

/* The order of two numbers without their signs. */
static int order(const struct value *one, const struct value *other)
{
	int at;

	if (one->size != other->size)
		return one->size < other->size ? -1 : 1;
	for (at = one->size - 1; at >= 0; at--)
		if (one->digits[at] != other->digits[at])
			return one->digits[at] < other->digits[at] ? -1 : 1;
	return 0;
}

/* Sum, or difference where the second's sign is turned. */
static struct value *sum(const struct value *one, const struct value *other, int other_sign)
{
	const struct value *kept;
	struct value *made;
	int at, carry = 0, sign = one->sign, size;

	if (one->sign == 0 || other_sign == 0) {
		made = copy(one->sign ? one : other);
		made->sign = one->sign ? one->sign : other_sign;
		return made;
	}
	if (order(one, other) < 0) {
		kept = one;
		one = other;
		other = kept;
		at = sign;
		sign = other_sign;
		other_sign = at;
	}
	size = one->size;
	made = make(sign, size + 1);
	for (at = 0; at < size; at++) {
		carry += one->digits[at];
		if (at < other->size)
			carry += sign == other_sign ? other->digits[at] : -other->digits[at];
		made->digits[at] = carry < 0 ? carry + 100 : carry % 100;
		carry = carry < 0 ? -1 : carry / 100;
	}
	made->digits[size] = carry;
	return trim(made);
}

static struct value *product(const struct value *one, const struct value *other)
{
	struct value *made = make(one->sign * other->sign, one->size + other->size);
	int at, by, carry;

	for (at = 0; at < one->size; at++) {
		carry = 0;
		for (by = 0; by < other->size; by++) {
			carry += made->digits[at + by] + one->digits[at] * other->digits[by];
			made->digits[at + by] = carry % 100;
			carry /= 100;
		}
		made->digits[at + by] = carry;
	}
	return trim(made);
}

/* Takes the divisor, moved up, away from the rest as often as it goes, and gives how often. */
static int take_away(struct value *rest, const struct value *by, int up)
{
	int times = 0, at, borrow;

	for (;; times++) {
		for (at = by->size - 1; at >= 0 && rest->digits[at + up] == by->digits[at]; at--)
			;
		if (rest->digits[by->size + up] == 0 && at >= 0 && rest->digits[at + up] < by->digits[at])
			return times;
		borrow = 0;
		for (at = 0; at < by->size; at++) {
			borrow += rest->digits[at + up] - by->digits[at];
			rest->digits[at + up] = borrow < 0 ? borrow + 100 : borrow;
			borrow = borrow < 0 ? -1 : 0;
		}
		rest->digits[at + up] += borrow;
	}
}

/* Quotient and rest; the quotient is cut towards zero, and the rest has the dividend's sign. */
static struct value *divide(const struct value *one, const struct value *by, struct value **rest)
{
	struct value *made, *left;
	int at;

	if (by->sign == 0) {
		complain("divide by 0");
		*rest = small(0);
		return small(0);
	}
	left = make(one->sign, one->size + 1);
	memcpy(left->digits, one->digits, one->size);
	made = make(one->sign * by->sign, one->size < by->size ? 0 : one->size - by->size + 1);
	for (at = made->size - 1; at >= 0; at--)
		made->digits[at] = take_away(left, by, at);
	*rest = trim(left);
	return trim(made);
}

/* A number as an int; what is larger is 32767. */
static int as_int(const struct value *of)
{
	int at, number = 0;

	if (of->size > 3 || (of->size == 3 && of->digits[2] > 2))
		return of->sign < 0 ? -32767 : 32767;
	for (at = of->size - 1; at >= 0; at--)
		number = number * 100 + of->digits[at];
	return of->sign < 0 ? -number : number;
}

/* The power, by squares: the bits of the exponent from the highest on. */
static struct value *power(const struct value *one, const struct value *exponent)
{
	struct value *made = small(1), *next;
	int count = as_int(exponent), bit;

	if (count < 0 || count == 32767) {
		complain("bad exponent");
		return made;
	}
	for (bit = 1 << 14; bit > 0; bit >>= 1) {
		next = product(made, made);
		free(made);
		made = next;
		if (count & bit) {
			next = product(made, one);
			free(made);
			made = next;
		}
	}
	return made;
}

/* The root, by Newton's steps from above. */
static struct value *root(const struct value *of)
{
	struct value *now, *next, *sum_of, *rest, *two = small(2);

	if (of->sign <= 0) {
		if (of->sign < 0)
			complain("sqrt of neg number");
		free(two);
		return small(0);
	}
	now = make(1, of->size / 2 + 2);
	now->digits[of->size / 2 + 1] = 1;
	for (;;) {
		next = divide(of, now, &rest);
		free(rest);
		sum_of = sum(now, next, next->sign);
		free(next);
		next = divide(sum_of, two, &rest);
		free(sum_of);
		free(rest);
		if (order(next, now) >= 0)
			break;
		free(now);
		now = next;
	}
	free(next);
	free(two);
	return now;
}

/* value * by + plus, in its place. */
static struct value *step(struct value *value, int by, int plus)
{
	struct value *made = make(1, value->size + 1);
	int at, carry = plus;

	for (at = 0; at < value->size; at++) {
		carry += value->digits[at] * by;
		made->digits[at] = carry % 100;
		carry /= 100;
	}
	made->digits[at] = carry;
	free(value);
	return trim(made);
}

static void show_char(int c)
{
	if (column == 69 && c != '\n') {
		printf("\\\n");
		column = 0;
	}
	putchar(c);
	column = c == '\n' ? 0 : column + 1;
}

/* Shows the digits to the output's base; a base of more than 16 has them as decimal numbers after blanks. */
static void show(struct value *value)
{
	struct value *rest;
	unsigned char *digits;
	int at, carry, size = 0;

	if (value->sign == 2) {
		printf("%s", (char *)value->digits);
		return;
	}
	if (value->sign < 0)
		show_char('-');
	if (value->sign == 0)
		show_char('0');
	rest = copy(value);
	digits = (unsigned char *)malloc(value->size * 7 + 1);
	while (digits && rest->size > 0) {
		for (carry = 0, at = rest->size - 1; at >= 0; at--) {
			carry = carry * 100 + rest->digits[at];
			rest->digits[at] = carry / out_base;
			carry %= out_base;
		}
		digits[size++] = carry;
		trim(rest);
	}
	while (size-- > 0)
		if (out_base <= 16)
			show_char("0123456789ABCDEF"[digits[size]]);
		else {
			show_char(' ');
			show_char(digits[size] / 10 + '0');
			show_char(digits[size] % 10 + '0');
		}
	free(digits);
	free(rest);
}

static void show_line(struct value *value)
{
	show(value);
	putchar('\n');
	column = 0;
}

/* The next character of what is executed; EOF at the end of the input. */
static int next(void)
{
	int c;

	while (nested > 0) {
		c = *texts[nested - 1];
		if (c) {
			texts[nested - 1]++;
			return c;
		}
		free(starts[--nested]);
	}
	c = getc(in);
	if (c == EOF && in != stdin) {
		fclose(in);
		in = stdin;
		c = getc(in);
	}
	return c;
}

/* The character was read one too far. */
static void back(int c)
{
	if (nested > 0 && texts[nested - 1] > starts[nested - 1])
		texts[nested - 1]--;
	else if (c != EOF)
		ungetc(c, in);
}

static void read_number(int c)
{
	struct value *value = small(0);
	int negative = 0;

	if (c == '_') {
		negative = 1;
		c = next();
	}
	for (; isdigit(c) || (c >= 'A' && c <= 'F'); c = next()) {
		value = step(value, in_base, isdigit(c) ? c - '0' : c - 'A' + 10);
		if (nested > 0 && *texts[nested - 1] == 0) {
			c = 0;
			break;
		}
	}
	if (c)
		back(c);
	if (negative)
		value->sign = -value->sign;
	push(value);
}

static void read_string(void)
{
	struct value *made = make(2, LINE), *more;
	int c, open = 1, size = 0;

	while ((c = next()) != EOF) {
		if (c == '[')
			open++;
		else if (c == ']' && --open == 0)
			break;
		if (size + 1 >= made->size) {
			more = make(2, made->size + LINE);
			memcpy(more->digits, made->digits, size);
			free(made);
			made = more;
		}
		made->digits[size++] = c;
	}
	made->digits[size] = 0;
	made->size = size + 1;
	push(made);
}

/* Executes a string; a number is put back. */
static void execute(struct value *value)
{
	if (value->sign != 2) {
		push(value);
		return;
	}
	/* a string whose last command this is has ended */
	while (nested > 0 && *texts[nested - 1] == 0)
		free(starts[--nested]);
	if (nested == NESTED)
		complain("Nesting Depth.");
	else {
		starts[nested] = malloc(value->size + 1);
		if (starts[nested] == NULL)
			complain("Out of space.");
		else {
			strcpy(starts[nested], (char *)value->digits);
			texts[nested] = starts[nested];
			nested++;
		}
	}
	free(value);
}

static int register_name(void)
{
	int c = next();

	return c == EOF ? 0 : c & 0177;
}

static void store(int name, int keep_old)
{
	struct kept *made;
	struct value *value = pop();

	if (failed)
		return;
	if (registers[name] && !keep_old) {
		free(registers[name]->value);
		registers[name]->value = value;
		return;
	}
	made = malloc(sizeof *made);
	if (made == NULL) {
		complain("Out of space.");
		return;
	}
	made->value = value;
	made->older = registers[name];
	registers[name] = made;
}

static void load(int name, int take)
{
	struct kept *kept = registers[name];

	if (kept == NULL) {
		if (take)
			complain("stack empty");
		else
			push(small(0));
		return;
	}
	push(copy(kept->value));
	if (take) {
		registers[name] = kept->older;
		free(kept->value);
		free(kept);
	}
}

static void arithmetic(int c)
{
	struct value *right = pop_number(), *left, *made, *rest = NULL;

	left = failed ? small(0) : pop_number();
	if (failed) {
		free(left);
		free(right);
		return;
	}
	switch (c) {
	case '+': made = sum(left, right, right->sign); break;
	case '-': made = sum(left, right, -right->sign); break;
	case '*': made = product(left, right); break;
	case '^': made = power(left, right); break;
	default:
		made = divide(left, right, &rest);
		if (c == '%') {
			free(made);
			made = rest;
		} else
			free(rest);
	}
	free(left);
	free(right);
	push(made);
}

/* The register's string is executed where the top is less than, more than or equal to what is under it. */
static void compared(int c, int not)
{
	struct value *top = pop_number(), *under = pop_number();
	int by, holds, name = register_name();

	by = top->sign != under->sign ? top->sign - under->sign : order(top, under) * (top->sign < 0 ? -1 : 1);
	holds = c == '<' ? by < 0 : c == '>' ? by > 0 : by == 0;
	free(top);
	free(under);
	if (failed || holds == not)
		return;
	if (registers[name] == NULL)
		complain("stack empty");
	else
		execute(copy(registers[name]->value));
}

static void command(void)
{
	char line[LINE];
	int c, size = 0, child, status;

	while ((c = next()) != '\n' && c != EOF)
		if (size < LINE - 1)
			line[size++] = c;
	line[size] = 0;
	fflush(stdout);
	child = fork();
	if (child == 0) {
		execl("/bin/sh", "sh", "-c", line, (char *)0);
		exit(1);
	}
	while (child > 0 && (size = wait(&status)) != child && size > 0)
		;
	printf("!\n");
}

/* After a `!`: a test that is turned, or a command. */
static void turned_or_command(void)
{
	int c = next();

	if (c == '<' || c == '>' || c == '=') {
		compared(c, 1);
		return;
	}
	back(c);
	command();
}

static void base(int *which, int most)
{
	struct value *value = pop_number();
	int number = as_int(value);

	free(value);
	if (failed)
		return;
	if (number < 2 || number > most)
		complain("base out of range");
	else
		*which = number;
}

/* The strings that are executed end: `count` of them. */
static void leave(int count)
{
	if (count > nested)
		exit(0);
	while (count-- > 0)
		free(starts[--nested]);
}

static void question(void)
{
	struct value *made = make(2, LINE);
	int c, size = 0;

	fflush(stdout);
	while ((c = getc(stdin)) != '\n' && c != EOF)
		if (size < LINE - 1)
			made->digits[size++] = c;
	made->digits[size] = 0;
	execute(made);
}

static void do_command(int c)
{
	struct value *value;
	int at;

	if (isdigit(c) || c == '_' || (c >= 'A' && c <= 'F')) {
		read_number(c);
		return;
	}
	switch (c) {
	case ' ': case '\t': case '\n': break;
	case '+': case '-': case '*': case '/': case '%': case '^': arithmetic(c); break;
	case '[': read_string(); break;
	case 's': case 'S': store(register_name(), c == 'S'); break;
	case 'l': case 'L': load(register_name(), c == 'L'); break;
	case 'd': value = pop(); if (!failed) { push(copy(value)); push(value); } break;
	case 'p': value = pop(); if (!failed) { show_line(value); push(value); } break;
	case 'f': for (at = depth - 1; at >= 0; at--) show_line(stack[at]); break;
	case 'x': value = pop(); if (!failed) execute(value); break;
	case 'v': value = pop_number(); if (!failed) push(root(value)); free(value); break;
	case 'c': while (depth > 0) free(stack[--depth]); break;
	case 'z': push(small(depth)); break;
	case 'i': base(&in_base, 16); break;
	case 'o': base(&out_base, 99); break;
	case '<': case '>': case '=': compared(c, 0); break;
	case '?': question(); break;
	case 'q': leave(2); break;
	case 'Q': value = pop_number(); if (!failed) leave(as_int(value)); free(value); break;
	case '!': turned_or_command(); break;
	default:
		printf("%o is unimplemented\n", c & 0177);
	}
}

int main(int argc, char **argv)
{
	int c;

	in = stdin;
	if (argc > 1 && (in = fopen(argv[1], "r")) == NULL) {
		fprintf(stderr, "dc: can't open %s\n", argv[1]);
		return 1;
	}
	while ((c = next()) != EOF) {
		do_command(c);
		if (failed) {
			while (nested > 0)
				free(starts[--nested]);
			failed = 0;
		}
	}
	return 0;
}
