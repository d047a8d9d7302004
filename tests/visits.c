/*
 * The visits in the record, on the tables of case files: visits FILE ..
 * Single requests for all ids of a table in an order made by chance, beside a count of the test's own (session.h): after each
 * that is accepted the record has that count, and a refusal leaves it. Then all ids by one call, and by a list, on a text that
 * is long enough or not: the record has what the single requests leave. visits -k COUNT ID SECTION: one request, a known count.
 */
#include "casefile.h"
#include "session.h"

struct memory {
	uint8_t record[BTFDUMP_RECORD_SIZE], *work, *text;
};

static uint64_t state = 1;
static uint32_t sessions, requests, refused, differ;

static uint32_t random_below(uint32_t n)
{
	state = state * 6364136223846793005u + 1442695040888963407u;
	return (uint32_t)(state >> 33) % n;
}

static btfdump_answer begin(struct memory *m, const uint8_t *section, const struct call *k)
{
	memset(m->record, OLD_BYTE, sizeof m->record);
	m->work = need(malloc(k->work_len + 1));
	m->text = need(malloc(k->text_len + 1));
	return btfdump_open(m->record, sizeof m->record, section, k->section_len, k->a, k->b, m->work, k->work_len, m->text,
			    k->text_len);
}

static void end(struct memory *m)
{
	free(m->work);
	free(m->text);
}

static btfdump_answer one(struct memory *m, const uint8_t *section, const struct call *k, uint32_t id)
{
	return btfdump_dump_type(m->record, sizeof m->record, section, k->section_len, m->work, k->work_len, m->text,
				 k->text_len, id);
}

/* Ids made by chance, one after another, to the first refusal that closes the session. */
static const char *by_chance(const uint8_t *section, const struct call *k, uint32_t types)
{
	struct memory m;
	const char *wrong = NULL;

	if (btfdump_number(begin(&m, section, k)) || btfdump_visits(m.record))
		wrong = "opening";
	for (uint32_t i = 0; i < 2 * types && i < 400 && !wrong; i++) {
		uint32_t before = btfdump_visits(m.record);
		uint32_t number = btfdump_number(one(&m, section, k, random_below(types + 1)));
		uint64_t members;

		requests++;
		refused += number != 0;
		if (number && btfdump_visits(m.record) != before)
			wrong = "a refusal";
		if (number > 11)
			break;
		if (btfdump_visits(m.record) != count_visits(section, m.work, types, &members))
			wrong = "count";
		else if (btfdump_visits(m.record) > types + members)
			wrong = "more than types and members";
	}
	end(&m);
	return wrong;
}

/* The single requests from 1 upward, and what one call for all ids and one with a list leave. */
static const char *in_order(const uint8_t *section, const struct call *k, uint32_t types)
{
	struct memory m, all, list;
	uint8_t *ids = need(malloc(4 * (size_t)types));
	const char *wrong = NULL;

	begin(&m, section, k);
	begin(&all, section, k);
	begin(&list, section, k);
	for (uint32_t id = 1; id < types; id++) {
		for (int j = 0; j < 4; j++)
			ids[4 * (id - 1) + j] = (uint8_t)(id >> 8 * j);
	}
	for (uint32_t id = 1; id < types && !btfdump_number(one(&m, section, k, id)); id++)
		;
	btfdump_dump_types(all.record, sizeof all.record, section, k->section_len, all.work, k->work_len, all.text, k->text_len);
	btfdump_dump_list(list.record, sizeof list.record, section, k->section_len, list.work, k->work_len, list.text, k->text_len,
			  ids, 4 * (size_t)(types - 1));
	if (btfdump_visits(m.record) != btfdump_visits(all.record))
		wrong = "all ids";
	else if (btfdump_visits(m.record) != btfdump_visits(list.record))
		wrong = "a list";
	end(&m);
	end(&all);
	end(&list);
	free(ids);
	return wrong;
}

static int accepted_opening(const struct one_case *c, struct call *k)
{
	for (uint32_t i = 0; i < c->calls_len; i++) {
		const uint8_t *p = c->calls + 32 * (size_t)i;

		if (u32_at(p) == OPENING && u32_at(p + 24) == 0) {
			*k = (struct call){OPENING, u32_at(p + 4), u32_at(p + 8), BTFDUMP_RECORD_SIZE, u32_at(p + 12),
					   u32_at(p + 16), 0, 0, u32_at(p + 28)};
			return 1;
		}
	}
	return 0;
}

static void *run(void *argument)
{
	for (char **path = argument; *path; path++) {
		struct cases f = open_cases(*path);
		struct one_case c;
		struct call k;

		while (next_case(&f, &c, *path))
			for (uint32_t i = 0; i < 3 && accepted_opening(&c, &k); i++) {
				const char *wrong;

				k.text_len = i == 2 ? c.text_len / 2 : 2 * (size_t)c.text_len + 4096;
				wrong = by_chance(c.section, &k, k.value);
				if (!wrong)
					wrong = in_order(c.section, &k, k.value);
				sessions++;
				if (wrong) {
					differ++;
					printf("%s: case '%.*s': %s\n", *path, (int)c.name_len, (const char *)c.name, wrong);
				}
			}
		free(f.bytes);
	}
	printf("visits: %u tables and texts, %u single requests, %u refused, %u differ\n", (unsigned)sessions, (unsigned)requests,
	       (unsigned)refused, (unsigned)differ);
	return differ || !sessions ? argument : NULL;
}

static void *known(void *argument)
{
	char **words = argument;
	static uint8_t section[1 << 20];
	FILE *f = fopen(words[2], "rb");
	struct call k = {OPENING, 8, 0, BTFDUMP_RECORD_SIZE, 0, 0, 1 << 20, 0, 0};
	uint32_t types, enumerators, visits;
	struct memory m;
	int wrong;

	if (!f)
		return argument;
	k.section_len = fread(section, 1, sizeof section, f);
	fclose(f);
	count_types(section, &types, &enumerators);
	k.work_len = BTFDUMP_WORK_SIZE(types, enumerators);
	wrong = btfdump_number(begin(&m, section, &k)) || btfdump_number(one(&m, section, &k, (uint32_t)atoi(words[1])));
	visits = btfdump_visits(m.record);
	end(&m);
	printf("visits: %s: %u, expected %s\n", words[2], (unsigned)visits, words[0]);
	return wrong || visits != (uint32_t)atoi(words[0]) ? argument : NULL;
}

int main(int argc, char **argv)
{
	if (argc < 2) {
		fputs("usage: visits FILE .. | visits -k COUNT ID SECTION\n", stderr);
		return 2;
	}
	return argc == 5 && !strcmp(argv[1], "-k") ? on_documented_stack(known, argv + 2) : on_documented_stack(run, argv + 1);
}
