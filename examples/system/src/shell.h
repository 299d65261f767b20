/* How a line of the shell is made up: commands with | between them, and such pipelines with ; and & between them. */
#define QUOTED 0200	/* of a character that means nothing but itself */
#define LINE 1000
#define WORDS 200
#define NODES 150

enum { COMMAND, GROUP, PIPELINE, LIST };
struct node {
	int kind;
	int alone;			/* of a list: & stands after its first pipeline */
	struct node *left, *right;
	char **words;
	char *input, *output;
	int appends;
};

static struct node nodes[NODES];
static char *words[2 * WORDS + NODES];	/* a word before each command is for the shell that may read its file */
static char **next_token;
static int node_count, word_count, wrong;

static int is_sign(int c)
{
	return c == '\n' || c == ';' || c == '&' || c == '<' || c == '>' || c == '(' || c == ')' || c == '|' || c == '^';
}

/* The character without its mark; a whole word, in its place. */
static char *plain(char *word)
{
	char *at;

	for (at = word; *at; at++)
		*at &= 0177;
	return word;
}

static void all_plain(char **list)
{
	while (*list)
		plain(*list++);
}

static struct node *new_node(int kind, struct node *left, struct node *right)
{
	struct node *made = nodes + node_count;

	if (node_count == NODES - 1)
		wrong = 1;
	else
		node_count++;
	memset(made, 0, sizeof *made);
	made->kind = kind;
	made->left = left;
	made->right = right;
	return made;
}

/* The name of a file after < or >, which comes once. */
static void file_name(char **name)
{
	if (*name || is_sign(**next_token))
		wrong = 1;
	else
		*name = *next_token++;
}

static struct node *list(int end);

/* ( list ) */
static void group(struct node *made, int any)
{
	if (any || made->kind == GROUP) {
		wrong = 1;
		return;
	}
	next_token++;
	made->kind = GROUP;
	made->left = list(')');
	if (made->left == NULL)
		wrong = 1;
	if (!wrong)
		next_token++;
}

/* A command with its files, or a group; piped where a | stands before it. */
static struct node *command(int piped)
{
	struct node *made = new_node(COMMAND, NULL, NULL);
	int any = 0, c;

	made->words = words + ++word_count;
	while (!wrong) {
		c = **next_token;
		if (!is_sign(c)) {
			if (made->kind == GROUP)
				wrong = 1;
			words[word_count++] = *next_token++;
			any++;
		} else if (c == '(')
			group(made, any);
		else if (c == '<') {
			next_token++;
			wrong |= piped;
			file_name(&made->input);
		} else if (c == '>') {
			made->appends = *next_token[1] == '>';
			next_token += 1 + made->appends;
			file_name(&made->output);
		} else
			break;
	}
	words[word_count++] = NULL;
	if (made->kind == COMMAND && !any)
		wrong = 1;
	return made;
}

static struct node *commands(int piped)
{
	struct node *first = command(piped);

	if (wrong || **next_token != '|' && **next_token != '^')
		return first;
	if (first->output)
		wrong = 1;
	next_token++;
	return new_node(PIPELINE, first, commands(1));
}

/* What stands before the end, which is a new line or a parenthesis. */
static struct node *list(int end)
{
	struct node *made = NULL, **place = &made, *found;

	while (!wrong) {
		while (**next_token == ';')
			next_token++;
		if (**next_token == end)
			break;
		found = new_node(LIST, commands(0), NULL);
		*place = found;
		place = &found->right;
		found->alone = **next_token == '&';
		if (found->alone || **next_token == ';')
			next_token++;
		else if (**next_token != end)
			wrong = 1;
	}
	return made;
}

/* The list of a line's tokens; whether there is nothing wrong. A group keeps its words in their places, since `words` isn't
   used anew before the next line. */
static int parse(char **tokens, struct node **to)
{
	node_count = word_count = wrong = 0;
	next_token = tokens;
	*to = list('\n');
	return !wrong;
}
