/*
 * Requests under a ceiling against the plain ones, on the tables of case files:
 * ceilings FILE .. Under a ceiling that is not reached, and under one of exactly
 * the calls that are made, number, value and every byte of record, work and text
 * are those of the plain call. One call less is 22: the session is closed, the
 * work zero, and the text as it was. On a small table the counts are known, and a
 * table whose ordering doubles at each of 40 levels ends at its ceiling.
 */
#include "casefile.h"
#include "session.h"

#define MOST UINT64_MAX
#define RECORD BTFDUMP_RECORD_SIZE
#define PASSED 22
#define ALL 0u          /* what is asked for: an id, all ids, or the list */
#define LIST UINT32_MAX
#define IDS 7

struct memory {
	uint8_t record[RECORD], *work, *text;
};

struct sizes {
	const uint8_t *section;
	size_t section_len, work_len, text_len;
};

static uint32_t calls, refused, differ;
static uint64_t counted;
static uint8_t ids[4 * IDS];

/* every third id, from the last down; with another turn the last ones are past the table */
static void fill_list(uint32_t types, uint32_t turn)
{
	for (uint32_t i = 0; i < IDS; i++) {
		uint32_t id = turn ? i * 3 * turn : types - 1 - i * 3 % types;

		for (int j = 0; j < 4; j++)
			ids[4 * i + j] = (uint8_t)(id >> 8 * j);
	}
}

static struct memory same_as(const struct memory *from, const struct sizes *z)
{
	struct memory m;

	memcpy(m.record, from->record, RECORD);
	m.work = need(malloc(z->work_len + 1));
	m.text = need(malloc(z->text_len + 1));
	memcpy(m.work, from->work, z->work_len);
	memcpy(m.text, from->text, z->text_len);
	return m;
}

static void drop(struct memory *m)
{
	free(m->work);
	free(m->text);
}

static btfdump_answer plain(struct memory *m, const struct sizes *z, uint32_t id)
{
	if (id == LIST)
		return btfdump_dump_list(m->record, RECORD, z->section, z->section_len, m->work, z->work_len, m->text, z->text_len,
					 ids, sizeof ids);
	if (id == ALL)
		return btfdump_dump_types(m->record, RECORD, z->section, z->section_len, m->work, z->work_len, m->text, z->text_len);
	return btfdump_dump_type(m->record, RECORD, z->section, z->section_len, m->work, z->work_len, m->text, z->text_len, id);
}

static btfdump_answer under(struct memory *m, const struct sizes *z, uint32_t id, uint64_t ceiling, uint64_t *made)
{
	*made = MOST / 3;
	if (id == LIST)
		return btfdump_dump_list_within(m->record, RECORD, z->section, z->section_len, m->work, z->work_len, m->text,
						z->text_len, ids, sizeof ids, ceiling, made);
	if (id == ALL)
		return btfdump_dump_types_within(m->record, RECORD, z->section, z->section_len, m->work, z->work_len, m->text,
						 z->text_len, ceiling, made);
	return btfdump_dump_type_within(m->record, RECORD, z->section, z->section_len, m->work, z->work_len, m->text, z->text_len,
					id, ceiling, made);
}

static int equal(const struct memory *a, const struct memory *b, const struct sizes *z)
{
	return !memcmp(a->record, b->record, RECORD) && !memcmp(a->work, b->work, z->work_len) &&
	       !memcmp(a->text, b->text, z->text_len);
}

static int all_zero(const uint8_t *p, size_t n)
{
	for (size_t i = 0; i < n; i++)
		if (p[i])
			return 0;
	return 1;
}

/* After 22: what came before it stays. */
static int closed_by_22(const struct memory *m, const struct memory *full, const struct sizes *z, uint32_t id, btfdump_answer a)
{
	uint32_t len = (uint32_t)get_word(m->record, 5);

	return btfdump_number(a) == PASSED && get_word(m->record, 0) == 0 && (id == LIST || btfdump_value(a) == len) &&
	       all_zero(m->work, z->work_len) && !memcmp(m->text, full->text, len) && all_zero(m->text + len, z->text_len - len);
}

static const char *one_request(struct memory *m, const struct sizes *z, uint32_t id)
{
	struct memory a = same_as(m, z), b = same_as(m, z), c = same_as(m, z);
	uint64_t made, again, less;
	const char *wrong = NULL;
	btfdump_answer first = plain(m, z, id), largest = under(&a, z, id, MOST, &made), exact = under(&b, z, id, made, &again);

	calls++;
	counted += made;
	if (largest != first || !equal(&a, m, z))
		wrong = "the largest ceiling";
	else if (exact != first || again != made || !equal(&b, m, z))
		wrong = "a ceiling of the calls made";
	else if (made) {
		btfdump_answer over = under(&c, z, id, made - 1, &less);

		refused++;
		if (less != made - 1 || !closed_by_22(&c, btfdump_number(first) ? &c : m, z, id, over))
			wrong = "a ceiling of one less";
	} else if (btfdump_number(first) != 11 && btfdump_number(first) != 10 && id != ALL)
		wrong = "a request without a call";
	drop(&a), drop(&b), drop(&c);
	return wrong;
}

static void one_session(const char *path, const struct one_case *c, const uint8_t *opening, int by_id)
{
	struct sizes z = {c->section, u32_at(opening + 12), u32_at(opening + 16), 2 * (size_t)c->text_len + 4096};
	struct memory m = {{0}, need(malloc(z.work_len + 1)), need(malloc(z.text_len + 1))};
	btfdump_answer opened = btfdump_open(m.record, RECORD, z.section, z.section_len, u32_at(opening + 4), u32_at(opening + 8),
					     m.work, z.work_len, m.text, z.text_len);
	const char *wrong = btfdump_number(opened) ? "opening" : NULL;
	uint32_t types = btfdump_value(opened);

	if (by_id == 1)
		for (uint32_t id = types; id > 0 && !wrong; id--)
			wrong = one_request(&m, &z, id);
	for (uint32_t turn = 0; by_id == 2 && turn < 3 && !wrong; turn++) {
		fill_list(types, turn);
		wrong = one_request(&m, &z, LIST);
	}
	for (int i = 0; i < 2 && !wrong; i++)
		wrong = one_request(&m, &z, ALL);
	if (wrong) {
		differ++;
		printf("%s: case '%.*s': %s\n", path, (int)c->name_len, (const char *)c->name, wrong);
	}
	drop(&m);
}

static void one_file(const char *path)
{
	struct cases f = open_cases(path);
	struct one_case c;

	while (next_case(&f, &c, path))
		for (uint32_t i = 0; i < c.calls_len; i++) {
			const uint8_t *p = c.calls + 32 * (size_t)i;

			if (u32_at(p) == OPENING && u32_at(p + 24) == 0) {
				for (int how = 0; how < 3; how++)
					one_session(path, &c, p, how);
				break;
			}
		}
	free(f.bytes);
}

/* 1 int, 2 struct node of a pointer to itself and an int, 3 that pointer: 1, 4 and 1 calls in this order. */
static void known_counts(void)
{
	static const uint8_t strings[] = "\0int\0node\0next\0v";
	static const uint32_t types[] = {1, 1u << 24, 4, 32, 5, 4u << 24 | 2, 16, 10, 3, 0, 15, 1, 64, 0, 2u << 24, 2};
	uint8_t section[24 + sizeof types + sizeof strings] = {0x9f, 0xeb, 1, 0, 24};
	struct sizes z = {section, sizeof section, BTFDUMP_WORK_SIZE(4, 0), 4096};
	struct memory m = {{0}, need(malloc(z.work_len)), need(malloc(z.text_len))};
	uint64_t made;

	for (size_t i = 0; i < sizeof types; i++)
		section[24 + i] = (uint8_t)(types[i / 4] >> i % 4 * 8);
	memcpy(section + 24 + sizeof types, strings, sizeof strings);
	section[12] = section[16] = sizeof types;
	section[20] = sizeof strings;
	if (btfdump_open(m.record, RECORD, section, z.section_len, 8, 0, m.work, z.work_len, m.text, z.text_len) != 4)
		differ++, puts("ceilings: the small table is not opened");
	under(&m, &z, 2, MOST, &made);
	if (made != 4)
		differ++, printf("ceilings: %llu calls for the struct, not 4\n", (unsigned long long)made);
	under(&m, &z, ALL, MOST, &made);
	if (made != 3)
		differ++, printf("ceilings: %llu calls for all that is ordered, not 3\n", (unsigned long long)made);
	under(&m, &z, 4, MOST, &made);
	if (made != 0)
		differ++, puts("ceilings: calls for an id past the table");
	drop(&m);
}

/* 40 prototypes, each with the next one as result and as parameter, and then an int. */
static void doubling(void)
{
	enum { LEVELS = 40, BYTES = LEVELS * 20 + 16 };
	uint8_t section[24 + BYTES + 1] = {0x9f, 0xeb, 1, 0, 24};
	struct sizes z = {section, sizeof section, BTFDUMP_WORK_SIZE(LEVELS + 2, 0), 64};
	struct memory m = {{0}, need(malloc(z.work_len)), need(malloc(z.text_len))};
	uint32_t words[BYTES / 4] = {0};
	uint64_t made;
	btfdump_answer a;

	for (uint32_t i = 0; i < LEVELS; i++) {
		words[5 * i + 1] = 13u << 24 | 1;
		words[5 * i + 2] = words[5 * i + 4] = i + 2;
	}
	words[5 * LEVELS + 1] = 1u << 24, words[5 * LEVELS + 2] = 4, words[5 * LEVELS + 3] = 32;
	for (size_t i = 0; i < BYTES; i++)
		section[24 + i] = (uint8_t)(words[i / 4] >> i % 4 * 8);
	put_word(section + 8, 0, (uint64_t)BYTES << 32);
	section[16] = (uint8_t)BYTES, section[17] = BYTES >> 8, section[20] = 1;
	if (btfdump_open(m.record, RECORD, section, z.section_len, 8, 0, m.work, z.work_len, m.text, z.text_len) != LEVELS + 2)
		differ++, puts("ceilings: the doubling table is not opened");
	a = under(&m, &z, 1, 1000000, &made);
	if (btfdump_number(a) != PASSED || made != 1000000)
		differ++, puts("ceilings: the doubling table passes its ceiling");
	drop(&m);
}

static void *run(void *argument)
{
	for (char **path = argument; *path; path++)
		one_file(*path);
	known_counts();
	doubling();
	printf("ceilings: %u requests, %llu calls, %u refused by 22 at one less, %u differ\n", (unsigned)calls,
	       (unsigned long long)counted, (unsigned)refused, (unsigned)differ);
	return differ || !calls ? argument : NULL;
}

int main(int argc, char **argv)
{
	if (argc < 2) {
		fputs("usage: ceilings FILE ..\n", stderr);
		return 2;
	}
	return on_documented_stack(run, argv + 1);
}
