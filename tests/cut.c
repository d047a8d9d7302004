/*
 * A section cut down: cut [-a] CASEFILE ..
 *
 * First a table of calls; then, on every section of the case files that opening
 * accepts, every second one in the other order of bytes, lists of ids are cut
 * out. The new section is compared with a direct computation, opened afresh, and
 * asked for every kept id beside the old one. After every call the whole lent
 * memory is compared. With -a every id is cut out by itself, and not three of a
 * table; and every section in both orders.
 */
#include "casefile.h"
#include "table.h"

#define W(x) (x) & 255, (x) >> 8 & 255, (x) >> 16 & 255, (x) >> 24 & 255
#define HEADER(types, strings) 0x9f, 0xeb, 1, 7, W(24), W(0), W(types), W(types), W(strings)
#define INFO(kind, entries) W((uint32_t)(kind) << 24 | (entries))
#define GUARD 64
#define TEXT 65536

static int failed, all;
static unsigned long calls, cuts, requests, seen[32];

/* ---- the direct computation */

enum { OTHER, NAME, FOLLOWED, STORED };

/* what word j of a record is */
static int what_is(uint32_t kind, uint32_t j)
{
	if (j == 0)
		return NAME;
	if (j == 1)
		return OTHER;
	if (j == 2) {
		if (kind == 2 || (kind >= 8 && kind <= 11) || kind == 13 || kind == 18)
			return FOLLOWED;
		return kind == 12 || kind == 14 || kind == 17 ? STORED : OTHER;
	}
	switch (kind) {
	case 3:
		return j == 3 ? FOLLOWED : j == 4 ? STORED : OTHER;
	case 4: case 5:
		return j % 3 == 0 ? NAME : j % 3 == 1 ? FOLLOWED : OTHER;
	case 6:
		return j % 2 ? NAME : OTHER;
	case 13:
		return j % 2 ? NAME : FOLLOWED;
	case 15:
		return j % 3 == 0 ? STORED : OTHER;
	case 19:
		return j % 3 == 0 ? NAME : OTHER;
	}
	return OTHER;
}

struct bytes {
	uint8_t *p;
	size_t n, room;
};

static void add(struct bytes *b, const void *p, size_t n)
{
	if (b->n + n > b->room)
		b->p = need(realloc(b->p, b->room = 2 * (b->n + n)));
	memcpy(b->p + b->n, p, n);
	b->n += n;
}

static void add_word(struct bytes *b, int big, uint32_t v)
{
	uint8_t word[4] = {W(v)};

	if (big)
		turn_word(word);
	add(b, word, 4);
}

static void mark(const struct table *t, uint32_t *numbers, uint32_t id)
{
	uint32_t *stack = need(malloc((t->types + 1) * sizeof *stack)), top = 0;

	if (id && !numbers[id])
		numbers[id] = 1, stack[top++] = id;
	while (top) {
		uint32_t x = stack[--top], kind = kind_of(t, x), n = words_of(at(t, t->places[x] + 4));

		for (uint32_t j = 2; j < n; j++) {
			uint32_t y = at(t, t->places[x] + 4 * j);

			if (what_is(kind, j) == FOLLOWED && y && !numbers[y])
				numbers[y] = 1, stack[top++] = y;
		}
	}
	free(stack);
}

/* where a name stands in the strings, which get it if they have it not */
static uint32_t place(struct bytes *strings, const char *name)
{
	size_t p = 0;

	while (p < strings->n) {
		if (!strcmp((char *)strings->p + p, name))
			return (uint32_t)p;
		p += strlen((char *)strings->p + p) + 1;
	}
	add(strings, name, strlen(name) + 1);
	return (uint32_t)p;
}

/* The new section; in numbers the new number of each id. */
static struct bytes expect(const struct table *t, const uint32_t *ids, uint32_t n, uint32_t *numbers)
{
	struct bytes out = {NULL, 0, 0}, types = out, strings = out;
	uint32_t count = 0, names = at(t, 4) + at(t, 16);
	int big = t->section[0] == 0xeb;

	memset(numbers, 0, t->types * sizeof *numbers);
	for (uint32_t i = 0; i < n; i++)
		mark(t, numbers, ids[i]);
	for (uint32_t x = 1; x < t->types; x++) {
		uint32_t on = kind_of(t, x) == 17 ? at(t, t->places[x] + 8) : 0;

		if (on && on < t->types && numbers[on] == 1 && kind_of(t, on) != 17 && !numbers[x])
			numbers[x] = 2;
	}
	for (uint32_t x = 1; x < t->types; x++)
		if (numbers[x])
			numbers[x] = ++count;
	add(&strings, "", 1);
	for (uint32_t x = 1; x < t->types; x++) {
		uint32_t kind = kind_of(t, x), words = words_of(at(t, t->places[x] + 4));

		for (uint32_t j = 0; numbers[x] && j < words; j++) {
			uint32_t v = at(t, t->places[x] + 4 * j);
			int what = what_is(kind, j);

			if (what == NAME)
				v = place(&strings, (const char *)t->section + names + v);
			else if (what != OTHER)
				v = v < t->types ? numbers[v] : 0;
			add_word(&types, big, v);
		}
	}
	add(&out, big ? "\xeb\x9f\1" : "\x9f\xeb\1", 3);
	add(&out, t->section + 3, 1);
	add_word(&out, big, 24);
	add_word(&out, big, 0);
	add_word(&out, big, (uint32_t)types.n);
	add_word(&out, big, (uint32_t)types.n);
	add_word(&out, big, (uint32_t)strings.n);
	if (types.n)
		add(&out, types.p, types.n);
	add(&out, strings.p, strings.n);
	free(types.p);
	free(strings.p);
	return out;
}

/* ---- sessions */

struct session {
	const uint8_t *section;
	size_t length, work_len;
	uint8_t record[BTFDUMP_RECORD_SIZE], *work, *text;
};

static uint32_t open_on(struct session *s, const struct table *t, uint32_t pointer, uint32_t modes)
{
	memset(s->record, 0, sizeof s->record);
	s->section = t->section;
	s->length = t->length;
	s->work_len = BTFDUMP_WORK_SIZE(t->types, t->enumerators);
	s->work = need(malloc(s->work_len));
	s->text = need(malloc(TEXT));
	return btfdump_number(btfdump_open(s->record, sizeof s->record, s->section, s->length, pointer, modes, s->work, s->work_len, s->text, TEXT));
}

static void close_session(struct session *s)
{
	free(s->work);
	free(s->text);
}

static void fail(const char *where, const char *what, uint64_t n)
{
	if (failed++ < 20)
		printf("cut: %s: %s: %llu\n", where, what, (unsigned long long)n);
}

static uint8_t *id_bytes(const uint32_t *ids, uint32_t n)
{
	uint8_t *list = need(malloc(4 * (size_t)n + 4));

	for (uint32_t i = 0; i < n; i++)
		for (int j = 0; j < 4; j++)
			list[4 * i + (unsigned)j] = (uint8_t)(ids[i] >> 8 * j);
	return list;
}

/* One call; the answer and all memory against the number and the bytes expected. */
static void ask(const char *where, const struct session *s, size_t record_len, size_t section_len, const uint32_t *ids, uint32_t n, size_t room,
		uint32_t number, const uint8_t *bytes, size_t length)
{
	uint8_t *block = need(malloc(room + 2 * GUARD)), *before = need(malloc(room + 2 * GUARD));
	uint8_t record[BTFDUMP_RECORD_SIZE], *work = need(malloc(s->work_len)), *text = need(malloc(TEXT)), *list = id_bytes(ids, n);
	btfdump_answer a;

	for (size_t i = 0; i < room + 2 * GUARD; i++)
		block[i] = before[i] = (uint8_t)(0xa5 + i * 7);
	memcpy(record, s->record, sizeof record);
	memcpy(work, s->work, s->work_len);
	memcpy(text, s->text, TEXT);
	a = btfdump_cut(s->record, record_len, s->section, section_len, n ? list : NULL, 4 * (size_t)n, room ? block + GUARD : NULL, room);
	calls++;
	seen[btfdump_number(a) & 31]++;
	if (a != ((uint64_t)number << 32 | length))
		fail(where, "answer", a);
	if (length)
		memcpy(before + GUARD, bytes, length);
	if (memcmp(before, block, room + 2 * GUARD))
		fail(where, "output", number);
	if (memcmp(record, s->record, sizeof record) || memcmp(work, s->work, s->work_len) || memcmp(text, s->text, TEXT))
		fail(where, "session", number);
	free(block);
	free(before);
	free(work);
	free(text);
	free(list);
}

/* Every kept id, asked of the section and of the new one. */
static void alike(const char *where, const struct table *t, const struct bytes *new, const uint32_t *numbers, uint32_t pointer, uint32_t modes)
{
	struct session old, cut;
	struct table u;
	uint32_t no;

	if (!index_of(&u, new->p, new->n))
		fail(where, "records of the new section", u.types);
	no = open_on(&old, t, pointer, modes);
	if (no)
		fail(where, "opening the section again", no);
	no = open_on(&cut, &u, pointer, modes);
	if (no)
		fail(where, "opening the new section", no);
	for (uint32_t x = 0; x < t->types; x++) {
		btfdump_answer a, b;

		if (x && !numbers[x])
			continue;
		a = btfdump_dump_type(old.record, sizeof old.record, old.section, old.length, old.work, old.work_len, old.text, TEXT, x);
		b = btfdump_dump_type(cut.record, sizeof cut.record, cut.section, cut.length, cut.work, cut.work_len, cut.text, TEXT, numbers[x]);
		requests++;
		if (a != b)
			fail(where, "answer of a request", x);
		if (memcmp(old.text, cut.text, TEXT))
			fail(where, "text", x);
		if (btfdump_number(a))
			break;
	}
	close_session(&old);
	close_session(&cut);
	free(u.places);
}

static void cut_out(const char *where, const struct table *t, const struct session *s, const uint32_t *ids, uint32_t n, uint32_t pointer, uint32_t modes)
{
	uint32_t *numbers = need(malloc((t->types + 1) * sizeof *numbers));
	struct bytes new = expect(t, ids, n, numbers);

	cuts++;
	ask(where, s, sizeof s->record, s->length, ids, n, new.n + (n == 1 ? 3 : 0), 0, new.p, new.n);
	if (all || n > 1)
		ask(where, s, sizeof s->record, s->length, ids, n, new.n - 1, 23, NULL, 0);
	alike(where, t, &new, numbers, pointer, modes);
	free(new.p);
	free(numbers);
}

static void whole_table(const char *where, const uint8_t *section, size_t length, uint32_t pointer, uint32_t modes)
{
	struct table t;
	struct session s;

	if (index_of(&t, section, length)) {
		if (!open_on(&s, &t, pointer, modes)) {
			uint32_t *ids = need(calloc(t.types + 1, sizeof *ids)), step = all ? 1 : t.types / 3 + 1;

			for (uint32_t x = 0; x < t.types; x += step)
				cut_out(where, &t, &s, &x, 1, pointer, modes);
			for (uint32_t x = 0; x < t.types; x++)
				ids[x] = t.types - 1 - x;
			if (all)
				cut_out(where, &t, &s, ids, 0, pointer, modes);
			cut_out(where, &t, &s, ids, t.types, pointer, modes);
			for (uint32_t x = 0; x < t.types / 3; x++)
				ids[x] = 3 * x + 1;
			cut_out(where, &t, &s, ids, t.types / 3, pointer, modes);
			ids[t.types / 3] = t.types;
			ask(where, &s, sizeof s.record, s.length, ids, t.types / 3 + 1, 0, 10, NULL, 0);
		}
		close_session(&s);
	}
	free(t.places);
}

/* ---- the order of the refusals, and altered memory */

static const uint8_t small[] = {
	HEADER(92, 18),
	W(1), INFO(1, 0), W(4), W(32), /* 1 int */
	W(5), INFO(4, 2), W(16), W(10), W(3), W(0), W(15), W(1), W(64), /* 2 struct node { struct node *next; int v; } */
	W(0), INFO(2, 0), W(2), /* 3 node * */
	W(5), INFO(1, 0), W(1), W(8), /* 4 node, a number */
	W(15), INFO(8, 0), W(4), /* 5 typedef node v */
	0, 'i', 'n', 't', 0, 'n', 'o', 'd', 'e', 0, 'n', 'e', 'x', 't', 0, 'v', 0, 0
};

static void some_calls(void)
{
	struct table t;
	struct session s;
	size_t r = BTFDUMP_RECORD_SIZE, n = sizeof small;
	uint8_t *copy = need(malloc(n));
	uint32_t no;

	if (!index_of(&t, small, n))
		fail("small", "records", t.types);
	no = open_on(&s, &t, 8, 0);
	if (no)
		fail("small", "opening", no);
	ask("other section length", &s, r, n - 1, (uint32_t[]){2}, 1, 200, 11, NULL, 0);
	ask("11 before 10 and 23", &s, r, n - 1, (uint32_t[]){6}, 1, 0, 11, NULL, 0);
	ask("a short record", &s, r - 1, n, (uint32_t[]){2}, 1, 200, 11, NULL, 0);
	ask("no such id", &s, r, n, (uint32_t[]){2, 6}, 2, 200, 10, NULL, 0);
	ask("no such id by far", &s, r, n, (uint32_t[]){4294967295u, 2}, 2, 200, 10, NULL, 0);
	ask("10 before 23", &s, r, n, (uint32_t[]){6}, 1, 0, 10, NULL, 0);
	ask("no room", &s, r, n, (uint32_t[]){2}, 1, 0, 23, NULL, 0);
	s.record[0] = 0;
	ask("a closed session", &s, r, n, (uint32_t[]){2}, 1, 200, 11, NULL, 0);
	s.record[0] = 1;
	/* a section altered since opening: each byte by itself, turned over; then it is as refused as opening would refuse it */
	s.section = copy;
	for (size_t i = 0; i < n; i++) {
		uint8_t *block = need(malloc(4096));
		struct session again;
		btfdump_answer a;

		memcpy(copy, small, n);
		copy[i] ^= 0xff;
		t.section = copy;
		no = open_on(&again, &t, 8, 0);
		close_session(&again);
		a = btfdump_cut(s.record, r, copy, n, (const uint8_t *)"\2\0\0\0", 4, block, 4096);
		calls++;
		seen[btfdump_number(a) & 31]++;
		if ((btfdump_number(a) == 11) != (no >= 2 && no <= 6))
			fail("altered", "answer", a);
		free(block);
	}
	close_session(&s);
	free(t.places);
	free(copy);
}

/* 16 names that are tails of one long string: the section is short, its cut is not */
static void tails(void)
{
	const uint32_t names = 16, long_name = 1200000;
	uint8_t head[] = {HEADER(12 + 12 * 16, 0)};
	struct bytes b = {NULL, 0, 0};
	struct table t;
	struct session s;
	uint32_t no;

	add(&b, head, 20);
	add_word(&b, 0, long_name + 2);
	add_word(&b, 0, 1);
	add_word(&b, 0, 5u << 24 | names);
	add_word(&b, 0, 4);
	for (uint32_t i = 0; i < names; i++) {
		add_word(&b, 0, 1 + i);
		add_word(&b, 0, 1);
		add_word(&b, 0, 0);
	}
	add(&b, "", 1);
	for (uint32_t i = 0; i < long_name; i++)
		add(&b, &"abcdefghijklmnopqrstuvwxyz"[i * 7 % 26], 1);
	add(&b, "", 1);
	if (!index_of(&t, b.p, b.n))
		fail("tails", "records", t.types);
	no = open_on(&s, &t, 8, 0);
	if (no)
		fail("tails", "opening", no);
	ask("a section over 16,777,216 bytes", &s, sizeof s.record, s.length, (uint32_t[]){1}, 1, 20000000, 23, NULL, 0);
	close_session(&s);
	free(t.places);
	free(b.p);
}

static void *test(void *argument)
{
	char **file = argument;

	some_calls();
	whole_table("small", small, sizeof small, 8, 0);
	tails();
	for (; *file; file++) {
		struct cases f = open_cases(*file);
		struct one_case c;
		int other = 0;

		while (next_case(&f, &c, *file)) {
			char where[256];
			uint8_t *turned = need(malloc(c.section_len + 1));

			snprintf(where, sizeof where, "%s %.*s", *file, (int)c.name_len, (const char *)c.name);
			other = !other;
			if (all || other)
				whole_table(where, c.section, c.section_len, 8, 0);
			memcpy(turned, c.section, c.section_len);
			if ((all || !other) && turn(turned, c.section_len))
				whole_table(where, turned, c.section_len, 4, BTFDUMP_UNION_AS_STRUCT | BTFDUMP_PLACING);
			free(turned);
		}
		free(f.bytes);
	}
	return failed ? argument : NULL;
}

int main(int argc, char **argv)
{
	int status;

	all = argc > 1 && !strcmp(argv[1], "-a");
	status = on_documented_stack(test, argv + (argc ? 1 : 0) + all);
	printf("cut: %lu calls, %lu sections cut out as a direct computation does, %lu requests alike; accepted %lu, 10 %lu, 11 %lu, 23 %lu%s\n", calls, cuts, requests, seen[0], seen[10], seen[11], seen[23], failed ? "; FAILED" : "");
	return status;
}
