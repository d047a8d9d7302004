/*
 * Requests that are lent a list against the plain ones, on the tables of case
 * files: causes FILE .. With a list that is long enough, and with one of exactly
 * the entries that are made, number, value and every byte of record, work and text
 * are those of the plain call; the entries are of ids of the table, in whole
 * entries from the list's start, and the rest is zero. One entry less is 17: the
 * session is closed and the work zero. All entries are compared with a direct
 * computation; on a small table they are known.
 */
#include "casefile.h"
#include "session.h"
#include "table.h"

#define RECORD BTFDUMP_RECORD_SIZE
#define ALL 0u /* what is asked for: an id, all ids, or the list */
#define LIST UINT32_MAX
#define IDS 7
#define FULL 17

struct memory {
	uint8_t record[RECORD], *work, *text;
};

struct sizes {
	const uint8_t *section;
	size_t section_len, work_len, text_len;
};

static uint32_t calls, refused, differ;
static uint64_t lines, computed[4];
static uint8_t ids[4 * IDS];

/* every third id, from the last down; with another turn the last ones are past the table */
static void fill_list(uint32_t types, uint32_t turn)
{
	for (uint32_t i = 0; i < IDS; i++) {
		uint32_t id = turn ? i * 3 * turn : types - 1 - i * 3 % types;

		for (int j = 0; j < 4; j++)
			ids[4 * i + j] = (uint8_t)(id >> 8 * j);
	}
}

static struct memory same_as(const struct memory *from, const struct sizes *z)
{
	struct memory m;

	memcpy(m.record, from->record, RECORD);
	m.work = need(malloc(z->work_len + 1));
	m.text = need(malloc(z->text_len + 1));
	memcpy(m.work, from->work, z->work_len);
	memcpy(m.text, from->text, z->text_len);
	return m;
}

static void drop(struct memory *m)
{
	free(m->work);
	free(m->text);
}

static btfdump_answer plain(struct memory *m, const struct sizes *z, uint32_t id)
{
	if (id == LIST)
		return btfdump_dump_list(m->record, RECORD, z->section, z->section_len, m->work, z->work_len, m->text, z->text_len,
					 ids, sizeof ids);
	if (id == ALL)
		return btfdump_dump_types(m->record, RECORD, z->section, z->section_len, m->work, z->work_len, m->text, z->text_len);
	return btfdump_dump_type(m->record, RECORD, z->section, z->section_len, m->work, z->work_len, m->text, z->text_len, id);
}

static btfdump_answer noted(struct memory *m, const struct sizes *z, uint32_t id, uint8_t *list, size_t list_len, uint64_t *count)
{
	*count = UINT64_MAX / 3;
	memset(list, OLD_BYTE, list_len);
	if (id == LIST)
		return btfdump_dump_list_causes(m->record, RECORD, z->section, z->section_len, m->work, z->work_len, m->text,
						z->text_len, ids, sizeof ids, list, list_len, count);
	if (id == ALL)
		return btfdump_dump_types_causes(m->record, RECORD, z->section, z->section_len, m->work, z->work_len, m->text,
						 z->text_len, list, list_len, count);
	return btfdump_dump_type_causes(m->record, RECORD, z->section, z->section_len, m->work, z->work_len, m->text, z->text_len,
					id, list, list_len, count);
}

static int equal(const struct memory *a, const struct memory *b, const struct sizes *z)
{
	return !memcmp(a->record, b->record, RECORD) && !memcmp(a->work, b->work, z->work_len) &&
	       !memcmp(a->text, b->text, z->text_len);
}

static int all_are(const uint8_t *p, size_t n, uint8_t byte)
{
	for (size_t i = 0; i < n; i++)
		if (p[i] != byte)
			return 0;
	return 1;
}

/* Whole entries of ids of the table from the start, and then zeros; 10 and 11 of the first id leave the list. */
static int is_list(const uint8_t *list, size_t len, uint64_t count, uint32_t types, int left)
{
	if (left)
		return count == 0 && all_are(list, len, OLD_BYTE);
	for (uint64_t i = 0; i < count; i++) {
		const uint8_t *e = list + 12 * i;
		uint32_t id = u32_at(e), cause = u32_at(e + 4), leader = u32_at(e + 8);

		if (!id || id >= types || cause > 3 || !leader || leader >= types || (cause == 0 && leader != id))
			return 0;
	}
	return 12 * count <= len && all_are(list + 12 * count, len - 12 * count, 0);
}

/* ---- the direct computation: the rules of ordering and emission, with an entry for each line */

enum { REQUESTED, NEEDED, FORWARD, EARLY };
enum { NEW, OPEN, DONE };

struct direct {
	struct table t;
	int strong_arrays, stopped; /* stopped: a cycle, or a nameless definition */
	uint8_t *ordered, *emitted, *forward;
	uint32_t *listed, *leader, listed_len;
	uint32_t *path, depth, path_room; /* the composites and typedefs being ordered, a typedef more than once */
	uint32_t request, *entries, entries_len, entries_room;
	uint32_t *ends, ends_len; /* entries after each id that was requested */
};

static int begin(struct direct *d, const uint8_t *section, size_t length, uint32_t modes)
{
	size_t n;

	*d = (struct direct){.strong_arrays = modes >> 1 & 1};
	if (!index_of(&d->t, section, length))
		return 0;
	n = d->t.types;
	d->ordered = need(calloc(3, n));
	d->emitted = d->ordered + n;
	d->forward = d->emitted + n;
	d->listed = need(calloc(3, n * sizeof *d->listed));
	d->leader = d->listed + n;
	d->ends = d->leader + n;
	return 1;
}

static void forget(struct direct *d)
{
	free(d->t.places), free(d->ordered), free(d->listed), free(d->path), free(d->entries);
}

static uint32_t word(const struct direct *d, uint32_t id, uint32_t i)
{
	return at(&d->t, d->t.places[id] + 4 * (size_t)i);
}

static const char *name_of(const struct direct *d, uint32_t id)
{
	return (const char *)d->t.section + at(&d->t, 4) + at(&d->t, 16) + word(d, id, 0);
}

static int is_composite(const struct direct *d, uint32_t id)
{
	return kind_of(&d->t, id) == 4 || kind_of(&d->t, id) == 5;
}

static uint32_t count_of(const struct direct *d, uint32_t id)
{
	return word(d, id, 1) & 0xffff;
}

static void list_it(struct direct *d, uint32_t id)
{
	uint32_t i = d->depth, leader = d->request;

	for (uint32_t j = 0; j < d->listed_len; j++)
		if (d->listed[j] == id)
			return; /* a typedef that is listed twice */
	while (i > 0 && d->path[i - 1] == id)
		i--;
	if (i > 0)
		leader = d->path[i - 1];
	d->leader[id] = leader;
	d->listed[d->listed_len++] = id;
}

static void enter(struct direct *d, uint32_t id)
{
	if (d->depth == d->path_room)
		d->path = need(realloc(d->path, (d->path_room = 2 * d->depth + 64) * sizeof *d->path));
	d->path[d->depth++] = id;
}

/* Whether the link is strong. */
static int order(struct direct *d, uint32_t id, int weak)
{
	uint32_t kind = kind_of(&d->t, id);
	int named, strong = 0;

	if (d->stopped || d->ordered[id] == DONE)
		return !d->stopped;
	named = id && *name_of(d, id);
	if (d->ordered[id] == OPEN) {
		d->stopped = !(is_composite(d, id) && weak && named);
		return 0;
	}
	switch (kind) {
	case 0: case 1: case 16:
		d->ordered[id] = DONE;
		return 0;
	case 2:
		strong = order(d, word(d, id, 2), 1);
		d->ordered[id] = DONE;
		return strong;
	case 3:
		return order(d, word(d, id, 3), weak && !d->strong_arrays);
	case 9: case 10: case 11: case 18:
		return order(d, word(d, id, 2), weak);
	case 13:
		strong = order(d, word(d, id, 2), weak);
		for (uint32_t i = 0; i < count_of(d, id); i++)
			strong |= order(d, word(d, id, 4 + 2 * i), weak);
		return strong;
	case 4: case 5:
		if (weak && named)
			return 0;
		d->ordered[id] = OPEN;
		enter(d, id);
		for (uint32_t i = 0; i < count_of(d, id); i++)
			order(d, word(d, id, 4 + 3 * i), 0);
		d->depth--;
		break;
	case 8:
		enter(d, id);
		strong = order(d, word(d, id, 2), weak);
		d->depth--;
		if (weak && !strong)
			return 0;
		break;
	case 6: case 7: case 19:
		break;
	default:
		return 0;
	}
	if (d->stopped)
		return 0;
	if (named || kind == 8)
		list_it(d, id);
	d->ordered[id] = DONE;
	return 1;
}

static void line(struct direct *d, uint32_t id, uint32_t cause, uint32_t leader)
{
	if (3 * d->entries_len + 3 > d->entries_room)
		d->entries = need(realloc(d->entries, (d->entries_room = 6 * d->entries_len + 192) * sizeof *d->entries));
	d->entries[3 * d->entries_len] = id;
	d->entries[3 * d->entries_len + 1] = cause;
	d->entries[3 * d->entries_len + 2] = leader;
	d->entries_len++;
}

/* the line of an id that is listed, or of one that is printed inside the container */
static void line_of(struct direct *d, uint32_t id, uint32_t container, uint32_t cause)
{
	if (container)
		line(d, id, cause, container);
	else if (id == d->request)
		line(d, id, REQUESTED, id);
	else
		line(d, id, NEEDED, d->leader[id]);
}

/* a forward line or an early typedef; the compiler's own type has none */
static void ahead(struct direct *d, uint32_t id, uint32_t container, uint32_t cause)
{
	if (!strstr(name_of(d, id), "__builtin_va_list"))
		line_of(d, id, container, cause);
	d->forward[id] = 1;
}

static void emit(struct direct *d, uint32_t id, uint32_t container)
{
	uint32_t kind = kind_of(&d->t, id);
	int named = id && *name_of(d, id);

	if (d->stopped || d->emitted[id] == DONE)
		return;
	if (d->emitted[id] == OPEN) {
		if (d->forward[id] || (kind != 8 && id == container))
			return;
		if (kind != 8 && !named)
			d->stopped = 1;
		else
			ahead(d, id, container, kind == 8 ? EARLY : FORWARD);
		return;
	}
	if (!container && !named) {
		d->stopped = 1;
		return;
	}
	switch (kind) {
	case 2: case 9: case 10: case 11: case 18:
		emit(d, word(d, id, 2), container);
		break;
	case 3:
		emit(d, word(d, id, 3), container);
		break;
	case 13:
		emit(d, word(d, id, 2), container);
		for (uint32_t i = 0; i < count_of(d, id); i++)
			emit(d, word(d, id, 4 + 2 * i), container);
		break;
	case 4: case 5:
		d->emitted[id] = OPEN;
		if (!container || !named)
			for (uint32_t i = 0; i < count_of(d, id); i++)
				emit(d, word(d, id, 4 + 3 * i), named ? id : container);
		else if (!d->forward[id] && id != container)
			ahead(d, id, container, FORWARD);
		if (!container && !d->stopped)
			line_of(d, id, 0, NEEDED);
		d->emitted[id] = container ? NEW : DONE;
		break;
	case 6: case 19:
		if (!container)
			line_of(d, id, 0, NEEDED);
		d->emitted[id] = DONE;
		break;
	case 7:
		line_of(d, id, container, FORWARD);
		d->emitted[id] = DONE;
		break;
	case 8:
		d->emitted[id] = OPEN;
		emit(d, word(d, id, 2), id);
		if (!d->forward[id] && !d->stopped)
			ahead(d, id, container, EARLY);
		d->emitted[id] = DONE;
		break;
	default:
		break;
	}
}

static void request(struct direct *d, uint32_t id)
{
	d->request = id;
	d->listed_len = d->depth = 0;
	order(d, id, 0);
	for (uint32_t i = 0; i < d->listed_len; i++)
		emit(d, d->listed[i], 0);
	if (!d->stopped && d->ends_len < d->t.types)
		d->ends[d->ends_len++] = d->entries_len;
}

/* The entries of a call are those of its ids, or where it was refused those of the ids before that. */
static int as_computed(struct direct *d, uint32_t id, uint32_t number, const uint8_t *list, uint64_t count)
{
	int is_end = count == 0;

	d->entries_len = d->ends_len = 0;
	if (id == LIST)
		for (uint32_t i = 0; i < IDS && u32_at(ids + 4 * i) < d->t.types; i++)
			request(d, u32_at(ids + 4 * i));
	else if (id == ALL)
		for (uint32_t i = 1; i < d->t.types; i++)
			request(d, i);
	else if (id < d->t.types)
		request(d, id);
	for (uint32_t i = 0; i < d->ends_len; i++)
		is_end |= d->ends[i] == count;
	if (number == 0 ? d->stopped || count != d->entries_len : number == 10 ? count != d->entries_len : !is_end)
		return 0;
	for (uint64_t i = 0; i < 3 * count; i++)
		if (u32_at(list + 4 * i) != d->entries[i])
			return 0;
	for (uint64_t i = 0; i < count; i++)
		computed[d->entries[3 * i + 1]]++;
	return 1;
}

static const char *one_request(struct memory *m, const struct sizes *z, uint32_t id, uint32_t types, struct direct *d)
{
	struct memory a = same_as(m, z), b = same_as(m, z), c = same_as(m, z);
	size_t len = 4 * z->text_len + 13; /* a line has three bytes at least */
	uint8_t *list = need(malloc(len)), *other = need(malloc(len));
	uint64_t count, again, less;
	const char *wrong = NULL;
	btfdump_answer first = plain(m, z, id), long_enough = noted(&a, z, id, list, len, &count);
	uint32_t number = btfdump_number(first);
	int left = (number == 10 || number == 11) && (id != LIST || btfdump_value(first) == 0);

	calls++;
	lines += count;
	if (long_enough != first || !equal(&a, m, z) || !is_list(list, len, count, types, left))
		wrong = "a list that is long enough";
	else if (number != 11 && !as_computed(d, id, number, list, count))
		wrong = "not the entries of the direct computation";
	else if (number == 0) {
		if (noted(&b, z, id, other, 12 * count + 11, &again) != first || again != count || !equal(&b, m, z) ||
		    memcmp(list, other, 12 * count) || !all_are(other + 12 * count, 11, 0))
			wrong = "a list of the entries made";
		if (!wrong && count) {
			btfdump_answer full = noted(&c, z, id, other, 12 * count - 1, &less);

			refused++;
			if (btfdump_number(full) != FULL || get_word(c.record, 0) != 0 || !all_are(c.work, z->work_len, 0) ||
			    less >= count || !is_list(other, 12 * count - 1, less, types, 0) || memcmp(list, other, 12 * less))
				wrong = "a list of one entry less";
		}
	}
	free(list), free(other);
	drop(&a), drop(&b), drop(&c);
	return wrong;
}

static void one_session(const char *path, const struct one_case *c, const uint8_t *opening, int by_id)
{
	struct sizes z = {c->section, u32_at(opening + 12), u32_at(opening + 16), 2 * (size_t)c->text_len + 4096};
	struct memory m = {{0}, need(malloc(z.work_len + 1)), need(malloc(z.text_len + 1))};
	btfdump_answer opened = btfdump_open(m.record, RECORD, z.section, z.section_len, u32_at(opening + 4), u32_at(opening + 8),
					     m.work, z.work_len, m.text, z.text_len);
	const char *wrong = btfdump_number(opened) ? "opening" : NULL;
	uint32_t types = btfdump_value(opened);
	struct direct d;

	if (!begin(&d, z.section, z.section_len, u32_at(opening + 8)))
		wrong = "records";

	if (by_id == 1)
		for (uint32_t id = types; id > 0 && !wrong; id--)
			wrong = one_request(&m, &z, id, types, &d);
	for (uint32_t turn = 0; by_id == 2 && turn < 3 && !wrong; turn++) {
		fill_list(types, turn);
		wrong = one_request(&m, &z, LIST, types, &d);
	}
	for (int i = 0; i < 2 && !wrong; i++)
		wrong = one_request(&m, &z, ALL, types, &d);
	if (wrong) {
		differ++;
		printf("%s: case '%.*s': %s\n", path, (int)c->name_len, (const char *)c->name, wrong);
	}
	forget(&d);
	drop(&m);
}

static void one_file(const char *path)
{
	struct cases f = open_cases(path);
	struct one_case c;

	while (next_case(&f, &c, path))
		for (uint32_t i = 0; i < c.calls_len; i++) {
			const uint8_t *p = c.calls + 32 * (size_t)i;

			if (u32_at(p) == OPENING && u32_at(p + 24) == 0) {
				for (int how = 0; how < 3; how++)
					one_session(path, &c, p, how);
				break;
			}
		}
	free(f.bytes);
}

/* 1 struct a of a pointer to b, 2 struct b of an int, 3 that pointer, 4 int, 5 struct c of a b, 6 a typedef of a pointer to it, 7 that pointer. */
static void known_causes(void)
{
	static const uint8_t strings[] = "\0a\0b\0c\0d\0x\0int";
	static const uint32_t types[] = {1, 4u << 24 | 1, 8, 9, 3, 0, 3, 4u << 24 | 1, 4, 9, 4, 0, 0, 2u << 24, 2, 11, 1u << 24, 4, 32,
					 5, 4u << 24 | 1, 4, 9, 2, 0, 7, 8u << 24, 7, 0, 2u << 24, 5};
	/* struct a by itself: b is mentioned first; c needs b; the typedef mentions c, which is defined by then */
	static const uint32_t one[] = {2, 2, 1, 1, 0, 1}, needs[] = {2, 1, 5, 5, 0, 5}, alias[] = {6, 0, 6};
	static const struct {
		uint32_t id, count;
		const uint32_t *entries;
	} known[] = {{1, 2, one}, {5, 2, needs}, {6, 1, alias}};
	uint8_t section[24 + sizeof types + sizeof strings] = {0x9f, 0xeb, 1, 0, 24};
	struct sizes z = {section, sizeof section, BTFDUMP_WORK_SIZE(8, 0), 4096};
	struct memory m = {{0}, need(malloc(z.work_len)), need(malloc(z.text_len))};
	uint8_t list[48];
	uint64_t count;

	for (size_t i = 0; i < sizeof types; i++)
		section[24 + i] = (uint8_t)(types[i / 4] >> i % 4 * 8);
	memcpy(section + 24 + sizeof types, strings, sizeof strings);
	section[12] = section[16] = sizeof types;
	section[20] = sizeof strings;
	if (btfdump_open(m.record, RECORD, section, z.section_len, 8, 0, m.work, z.work_len, m.text, z.text_len) != 8)
		differ++, puts("causes: the small table is not opened");
	for (size_t i = 0; i < sizeof known / sizeof *known; i++) {
		btfdump_answer a = noted(&m, &z, known[i].id, list, sizeof list, &count);
		int same = btfdump_number(a) == 0 && count == known[i].count;

		for (uint32_t j = 0; same && j < 3 * known[i].count; j++)
			same = u32_at(list + 4 * j) == known[i].entries[j];
		if (!same)
			differ++, printf("causes: other entries for id %u\n", (unsigned)known[i].id);
	}
	drop(&m);
}

static void *run(void *argument)
{
	for (char **path = argument; *path; path++)
		one_file(*path);
	known_causes();
	printf("causes: %u requests, %llu lines, %u refused by 17 at one entry less; computed directly: %llu requested, %llu needed, %llu forward, "
	       "%llu early; %u differ\n", (unsigned)calls, (unsigned long long)lines, (unsigned)refused, (unsigned long long)computed[REQUESTED],
	       (unsigned long long)computed[NEEDED], (unsigned long long)computed[FORWARD], (unsigned long long)computed[EARLY],
	       (unsigned)differ);
	return differ || !calls ? argument : NULL;
}

int main(int argc, char **argv)
{
	if (argc < 2) {
		fputs("usage: causes FILE ..\n", stderr);
		return 2;
	}
	return on_documented_stack(run, argv + 1);
}
