/*
 * Reading declarations back through the C export: each text with the words of
 * its chain, texts that are refused, and the bound of 512 entries; then texts made
 * by chance, some of them altered, against a direct computation, which starts from
 * the place of the name and goes right and left. declarations [TEXTS]
 */
#include <stdio.h>
#include <stdlib.h>
#include <string.h>
#include "btfdump.h"

#define MOST 12
struct sample {
	const char *text;
	size_t entries;
	uint64_t words[MOST][3];
};

#define BASE(at, len) {1, at, len}
#define MORE(at, len) {6, at, len}
#define POINTER {2, 0, 0}
#define ARRAY(n) {3, n, 0}
#define PROTO(any) {4, any, 0}
#define QUAL(q) {5, q, 0}

static const struct sample samples[] = {
	{"int *a[3]", 3, {ARRAY(3), POINTER, BASE(0, 3)}},
	{"int (*p)[3]", 3, {POINTER, ARRAY(3), BASE(0, 3)}},
	{"void (*f)(int)", 4, {POINTER, PROTO(1), BASE(10, 3), BASE(0, 4)}},
	{"int f(void)", 2, {PROTO(0), BASE(0, 3)}},
	{"int f()", 2, {PROTO(0), BASE(0, 3)}},
	{"int f(int, ...)", 4, {PROTO(1), MORE(6, 3), BASE(0, 0), BASE(0, 3)}},
	{" const  struct s * const volatile*x ", 6, {POINTER, QUAL(1), QUAL(2), POINTER, QUAL(1), BASE(8, 8)}},
	{"int f(int (*)(void), const int *[2])", 9, {PROTO(1), POINTER, PROTO(0), MORE(6, 3), ARRAY(2), POINTER, QUAL(1), BASE(27, 3), BASE(0, 3)}},
	{"int f(int x)", 3, {PROTO(1), BASE(6, 5), BASE(0, 3)}},
	{"unsigned long m[2][4294967295]", 3, {ARRAY(2), ARRAY(4294967295u), BASE(0, 13)}},
};

static const char *const refused[] = {
	"int a[4294967296]", "int a[03]", "int a[]", "int (a)", "int", "", "struct s", "struct *p", "const const int x",
	"int const x", "int f(...)", "int f(int, void)", "int f(int *x)", "int f(struct s x)", "int x;", "int x,", "int\tx",
};

static uint64_t chain[BTFDUMP_CHAIN_WORDS + 3];

static void fail(const char *what)
{
	fprintf(stderr, "declarations: %s\n", what);
	exit(1);
}

static btfdump_answer read_text(const char *text, size_t len, size_t words)
{
	memset(chain, 0xa5, sizeof chain);
	return btfdump_read_declaration((const uint8_t *)text, len, chain, words);
}

static void check_refused(const char *text, size_t len)
{
	btfdump_answer a = read_text(text, len, BTFDUMP_CHAIN_WORDS);
	if (btfdump_number(a) != BTFDUMP_NO_DECLARATION || btfdump_value(a) != 0)
		fail(text);
	for (size_t i = 0; i < BTFDUMP_CHAIN_WORDS; i++)
		if (chain[i])
			fail("a refused chain is not zero");
}

/* ---- the direct computation */

#define TOKENS 4096
enum { END, WORD, TAG_WORD, QUALIFIER, NUMBER, DOTS, MARK };

struct token {
	int kind;
	uint64_t value; /* of a number, a qualifier (1 const, 2 volatile, 3 restrict) or a mark */
	size_t start, len;
};

static struct token tokens[TOKENS];
static size_t closing[TOKENS]; /* of an opening parenthesis, the token that closes it */
static uint64_t made[BTFDUMP_CHAIN_WORDS + 3];
static size_t entries;
static const char *text_read;

static int is_text(const struct token *t, const char *word)
{
	return t->len == strlen(word) && !memcmp(text_read + t->start, word, t->len);
}

static int run_kind(struct token *t)
{
	const char *p = text_read + t->start;
	int digits = 1, letters = !(p[0] >= '0' && p[0] <= '9');

	for (size_t i = 0; i < t->len; i++) {
		digits &= p[i] >= '0' && p[i] <= '9';
		letters &= p[i] != '.';
	}
	if (is_text(t, "..."))
		return DOTS;
	if (digits && t->len <= 10 && (t->len == 1 || p[0] != '0')) {
		t->value = strtoull(p, NULL, 10);
		return t->value >> 32 ? END : NUMBER;
	}
	if (!letters)
		return END;
	t->value = is_text(t, "const") ? 1 : is_text(t, "volatile") ? 2 : is_text(t, "restrict") ? 3 : 0;
	if (t->value)
		return QUALIFIER;
	return is_text(t, "struct") || is_text(t, "union") || is_text(t, "enum") ? TAG_WORD : WORD;
}

/* How many tokens, and where each parenthesis is closed; 0 where there is something else, or one is not closed. */
static size_t split(const char *text, size_t len)
{
	size_t n = 0, open[TOKENS], opened = 0;

	text_read = text;
	for (size_t i = 0; i < len;) {
		struct token *t = &tokens[n];
		size_t end = i;

		while (end < len && (strchr("._", text[end]) || (text[end] >= '0' && text[end] <= '9') || (text[end] >= 'a' && text[end] <= 'z') ||
				     (text[end] >= 'A' && text[end] <= 'Z')) && text[end])
			end++;
		if (text[i] == ' ') {
			i++;
			continue;
		}
		*t = (struct token){MARK, (uint8_t)text[i], i, end > i ? end - i : 1};
		if (end > i && (t->kind = run_kind(t)) == END)
			return 0;
		if (t->kind == MARK && t->value == '(')
			open[opened++] = n;
		if (t->kind == MARK && t->value == ')') {
			if (!opened)
				return 0;
			closing[open[--opened]] = n;
		}
		i += t->len, n++;
	}
	tokens[n].kind = END;
	return opened ? 0 : n;
}

static int is_mark(size_t i, char c)
{
	return tokens[i].kind == MARK && tokens[i].value == (uint64_t)c;
}

static int is_word(size_t i)
{
	return tokens[i].kind == WORD || tokens[i].kind == TAG_WORD;
}

static void entry(uint64_t what, uint64_t a, uint64_t b)
{
	if (entries < 512)
		made[3 * entries] = what, made[3 * entries + 1] = a, made[3 * entries + 2] = b;
	entries++;
}

/* The qualifiers from token i to before token end, in the text's order; 0 where one stands twice. */
static int qualifiers(size_t i, size_t end)
{
	unsigned seen = 0;

	for (; i < end; i++) {
		if (seen >> tokens[i].value & 1)
			return 0;
		seen |= 1u << tokens[i].value;
		entry(5, tokens[i].value, 0);
	}
	return 1;
}

static int chain_of(size_t from, size_t end, int named, uint64_t base_kind);

/* The parameters between two parentheses. */
static int parameters(size_t from, size_t end)
{
	int alone = 1;

	if (from == end || (from + 1 == end && tokens[from].kind == WORD && is_text(&tokens[from], "void"))) {
		entry(4, 0, 0);
		return 1;
	}
	entry(4, 1, 0);
	for (;; from++, alone = 0) {
		size_t comma = from;

		while (comma < end && !is_mark(comma, ','))
			comma = is_mark(comma, '(') ? closing[comma] + 1 : comma + 1;
		if (tokens[from].kind == DOTS && comma == from + 1) {
			entry(1, 0, 0);
			return comma == end && !alone;
		}
		if (comma == from + 1 && is_text(&tokens[from], "void"))
			return 0;
		if (!chain_of(from, comma, 0, comma == end ? 1 : 6))
			return 0;
		from = comma;
		if (comma == end)
			return 1;
	}
}

/* The chain of the tokens from one to before another: from the name, or the place of one, to the right and then to the left, and so
   on outside of each pair of parentheses. */
static int chain_of(size_t from, size_t end, int named, uint64_t base_kind)
{
	size_t base = from, behind, name, right, left;

	while (base < end && tokens[base].kind == QUALIFIER)
		base++;
	for (behind = base; behind < end && is_word(behind); behind++)
		;
	/* the last word is the name where no star follows it, alone or in parentheses */
	if (named && behind > base && !(behind < end && (is_mark(behind, '*') || (is_mark(behind, '(') && is_mark(behind + 1, '*')))))
		behind--;
	if (behind == base || (tokens[base].kind == TAG_WORD && behind != base + 2))
		return 0;
	for (size_t i = base; i < behind; i++)
		if (tokens[i].kind == TAG_WORD && tokens[base].kind != TAG_WORD)
			return 0;
	for (name = behind; name < end;)
		if (is_mark(name, '*'))
			for (name++; name < end && tokens[name].kind == QUALIFIER; name++)
				;
		else if (is_mark(name, '(') && is_mark(name + 1, '*'))
			name++;
		else
			break;
	if (named && !(name < end && is_word(name)))
		return 0;
	left = name, right = name + (size_t)named;
	for (;;) {
		while (right < end && (is_mark(right, '[') || is_mark(right, '('))) {
			if (is_mark(right, '(')) {
				if (closing[right] >= end || !parameters(right + 1, closing[right]))
					return 0;
				right = closing[right] + 1;
				continue;
			}
			if (right + 2 >= end || tokens[right + 1].kind != NUMBER || !is_mark(right + 2, ']'))
				return 0;
			entry(3, tokens[right + 1].value, 0);
			right += 3;
		}
		while (left > behind && !is_mark(left - 1, '(')) {
			size_t star = left - 1;

			while (!is_mark(star, '*'))
				star--;
			if (!qualifiers(star + 1, left))
				return 0;
			entry(2, 0, 0);
			left = star;
		}
		if (left == behind)
			break;
		if (closing[left - 1] != right)
			return 0;
		left--, right++;
	}
	if (right != end || !qualifiers(from, base))
		return 0;
	entry(base_kind, tokens[base].start, tokens[behind - 1].start + tokens[behind - 1].len - tokens[base].start);
	return 1;
}

/* ---- texts by chance */

static uint64_t state = 1;
static char draft[8 * TOKENS];
static size_t draft_len;

static uint32_t below(uint32_t n)
{
	state = state * 6364136223846793005u + 1442695040888963407u;
	return (uint32_t)(state >> 33) % n;
}

static int is_run(char c)
{
	return strchr("._", c) || (c >= '0' && c <= '9') || (c >= 'a' && c <= 'z');
}

static void put(const char *token)
{
	int between = draft_len && is_run(draft[draft_len - 1]) && is_run(token[0]);

	for (uint32_t i = (uint32_t)between + (below(4) ? 0 : below(3)); i; i--)
		draft[draft_len++] = ' ';
	strcpy(draft + draft_len, token);
	draft_len += strlen(token);
}

static void put_qualifiers(void)
{
	static const char *const words[] = {"const", "volatile", "restrict"};
	uint32_t first = below(3);

	for (uint32_t i = below(3) ? 0 : below(4); i; i--)
		put(words[first++ % 3]);
}

static void put_base(void)
{
	static const char *const tags[] = {"struct", "union", "enum"}, *const words[] = {"int", "unsigned", "long", "void", "x", "_a1", "voidx"};

	put_qualifiers();
	if (below(3)) {
		for (uint32_t i = 1 + (below(3) ? 0 : below(3)); i; i--)
			put(words[below(7)]);
	} else {
		put(tags[below(3)]);
		put(words[below(7)]);
	}
}

static void put_declarator(int named, uint32_t room)
{
	static const char *const counts[] = {"0", "1", "7", "10", "4294967295", "512"}, *const names[] = {"x", "y", "f", "int", "struct", "void"};
	uint32_t way = below(10);

	if (room && way < 4) {
		put("*");
		put_qualifiers();
		put_declarator(named, room - 1);
		return;
	}
	if (room && way < 6) {
		put("("), put("*");
		put_qualifiers();
		put_declarator(named, room - 1);
		put(")");
	} else if (named)
		put(names[below(below(8) ? 3 : 6)]);
	for (uint32_t i = room ? below(3) : 0; i; i--)
		if (below(2)) {
			put("["), put(counts[below(6)]), put("]");
		} else {
			uint32_t n = below(4);

			put("(");
			for (uint32_t k = 0; k < n; k++) {
				if (k)
					put(",");
				put_base();
				put_declarator(0, room / 2);
			}
			if (n && !below(4))
				put(","), put("...");
			if (!n && below(2))
				put("void");
			put(")");
		}
}

/* A piece is taken out, put in twice, or another one is put in its place. */
static void alter(void)
{
	static const char *const pieces[] = {"(", ")", "*", "[", "]", ",", "...", "void", "const", "struct", "x", " ", "0", "00", "4294967296", "[3]",
					     "(*", "(void)", ";", "int", "volatile", ".", "..", "9x", "\t", "\0"};
	uint32_t which = below(26);
	const char *piece = pieces[which];
	size_t at = below((uint32_t)draft_len + 1), len = which == 25 ? 1 : strlen(piece);
	size_t out = below(2) ? below(3) : 0;

	out = out > draft_len - at ? draft_len - at : out;
	if (!below(3))
		len = 0;
	memmove(draft + at + len, draft + at + out, draft_len - at - out);
	memcpy(draft + at, piece, len);
	draft_len += len - out;
}

static unsigned long accepted, declined;

static void by_chance(void)
{
	size_t n, want;
	int good;
	btfdump_answer a;

	draft_len = 0;
	put_base();
	put_declarator(1, below(12));
	for (uint32_t i = below(2) ? 0 : 1 + below(3); i; i--)
		alter();
	memset(made, 0, sizeof made);
	entries = 0;
	n = split(draft, draft_len);
	good = n && chain_of(0, n, 1, 1) && entries <= 512;
	want = good ? entries : 0;
	a = read_text(draft, draft_len, BTFDUMP_CHAIN_WORDS);
	good ? accepted++ : declined++;
	if (!good)
		memset(made, 0, sizeof made);
	else
		memset(made + 3 * want, 0xa5, sizeof made - 24 * want);
	if (btfdump_number(a) != (good ? BTFDUMP_OK : BTFDUMP_NO_DECLARATION) || btfdump_value(a) != want ||
	    memcmp(made, chain, BTFDUMP_CHAIN_WORDS * sizeof *chain)) {
		fprintf(stderr, "declarations: not as computed (%zu entries), but %u %u: '%.*s'\n", want, btfdump_number(a), btfdump_value(a), (int)draft_len, draft);
		exit(1);
	}
}

int main(int argc, char **argv)
{
	unsigned long texts = argc > 1 ? strtoul(argv[1], NULL, 10) : 100000;
	size_t count = sizeof samples / sizeof *samples;
	for (size_t i = 0; i < count; i++) {
		const struct sample *s = &samples[i];
		size_t n = s->entries;
		btfdump_answer a = read_text(s->text, strlen(s->text), BTFDUMP_CHAIN_WORDS);
		if (btfdump_number(a) != BTFDUMP_OK || btfdump_value(a) != n || memcmp(chain, s->words, n * sizeof *s->words))
			fail(s->text);
		if (chain[3 * n] != 0xa5a5a5a5a5a5a5a5u)
			fail("words behind the chain changed");
	}
	size_t bad = sizeof refused / sizeof *refused;
	for (size_t i = 0; i < bad; i++)
		check_refused(refused[i], strlen(refused[i]));
	/* 511 stars and a base pass, 512 do not */
	char stars[600] = "int ";
	for (int k = 511; k <= 512; k++) {
		memset(stars + 4, '*', k);
		strcpy(stars + 4 + k, "p");
		if (k == 512)
			check_refused(stars, 4 + k + 1);
		else if (read_text(stars, 4 + k + 1, BTFDUMP_CHAIN_WORDS) != 512)
			fail("512 entries");
	}
	/* a hostile text is refused without a deep stack; too few words */
	size_t many = 1 << 20;
	char *deep = malloc(many);
	if (!deep)
		return 1;
	memset(deep, '*', many);
	memcpy(deep, "int ", 4);
	check_refused(deep, many);
	for (size_t i = 4; i + 1 < many; i += 2)
		memcpy(deep + i, "(*", 2);
	check_refused(deep, many);
	free(deep);
	btfdump_answer a = read_text("int x", 5, BTFDUMP_CHAIN_WORDS - 1);
	if (btfdump_number(a) != 255 || chain[0] != 0xa5a5a5a5a5a5a5a5u)
		fail("too few words");
	for (unsigned long i = 0; i < texts; i++)
		by_chance();
	printf("declarations: %zu texts, the bound of 512 entries; %lu texts by chance as computed directly, %lu read and %lu refused\n", count + bad,
	       texts, accepted, declined);
	return 0;
}
