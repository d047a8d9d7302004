/*
 * A list of ids against the single requests that it stands for, on the tables
 * of case files: lists FILE .. Number, count of accepted ids, and every byte of
 * record, work and text must agree, also after refusals, on a closed session,
 * on a record that is too short and on bytes that are no whole id.
 */
#include "casefile.h"
#include "session.h"

#define RECORD (BTFDUMP_RECORD_SIZE + 8)
#define IDS 9

struct memory {
	uint8_t record[RECORD], *work, *text;
};

static uint64_t state = 1;
static uint32_t lists, ids_given, differ;

static uint32_t random_below(uint32_t n)
{
	state = state * 6364136223846793005u + 1442695040888963407u;
	return (uint32_t)(state >> 33) % n;
}

/* The first opening of the case that is accepted, or 0. */
static int accepted_opening(const struct one_case *c, struct call *k)
{
	for (uint32_t i = 0; i < c->calls_len; i++) {
		const uint8_t *p = c->calls + 32 * (size_t)i;

		if (u32_at(p) == OPENING && u32_at(p + 24) == 0) {
			*k = (struct call){OPENING, u32_at(p + 4), u32_at(p + 8), BTFDUMP_RECORD_SIZE, u32_at(p + 12),
					   u32_at(p + 16), 0, 0, u32_at(p + 28)};
			return 1;
		}
	}
	return 0;
}

/* One id after another: the answer that the list must have. */
static btfdump_answer by_singles(struct memory *m, size_t record_len, const uint8_t *section, const struct call *k,
				 const uint8_t *ids, size_t n)
{
	for (size_t i = 0; i < n; i++) {
		btfdump_answer a = btfdump_dump_type(m->record, record_len, section, k->section_len, m->work, k->work_len,
						     m->text, k->text_len, u32_at(ids + 4 * i));

		if (btfdump_number(a))
			return (uint64_t)btfdump_number(a) << 32 | (uint32_t)i;
	}
	return n;
}

static const char *one_list(struct memory *a, struct memory *b, const uint8_t *section, const struct call *k,
			    uint32_t types, size_t record_len)
{
	uint8_t ids[4 * IDS + 3];
	uint32_t n = random_below(IDS + 1);
	size_t length = 4 * (size_t)n + random_below(4), held = get_word(a->record, 5);
	btfdump_answer list, singles;

	for (size_t i = 0; i < sizeof ids; i++)
		ids[i] = (uint8_t)random_below(256);
	for (uint32_t i = 0; i < n; i++) {
		uint32_t id = i && !random_below(3) ? u32_at(ids + 4 * random_below(i)) : random_below(types + (random_below(8) == 0));

		for (int j = 0; j < 4; j++)
			ids[4 * i + j] = (uint8_t)(id >> 8 * j);
	}
	if (held < k->text_len) {
		memset(a->text + held, OLD_BYTE, k->text_len - held);
		memset(b->text + held, OLD_BYTE, k->text_len - held);
	}
	list = btfdump_dump_list(a->record, record_len, section, k->section_len, a->work, k->work_len, a->text, k->text_len,
				 length ? ids : NULL, length);
	singles = by_singles(b, record_len, section, k, ids, n);
	lists++;
	ids_given += n;
	if (list != singles)
		return "answer";
	if (memcmp(a->record, b->record, RECORD))
		return "record";
	if (memcmp(a->work, b->work, k->work_len))
		return "work";
	if (memcmp(a->text, b->text, k->text_len))
		return "text";
	return NULL;
}

static void one_session(const char *path, const struct one_case *c, struct call k)
{
	struct memory a, b;
	const char *wrong = NULL;
	btfdump_answer opened;

	memset(a.record, OLD_BYTE, RECORD);
	a.work = need(malloc(k.work_len + 1));
	b.work = need(malloc(k.work_len + 1));
	a.text = need(malloc(k.text_len + 1));
	b.text = need(malloc(k.text_len + 1));
	opened = btfdump_open(a.record, RECORD, c->section, k.section_len, k.a, k.b, a.work, k.work_len, a.text, k.text_len);
	memcpy(b.record, a.record, RECORD);
	memcpy(b.work, a.work, k.work_len);
	memcpy(b.text, a.text, k.text_len);
	if (btfdump_number(opened))
		wrong = "opening";
	for (int i = 0; i < 6 && !wrong; i++)
		wrong = one_list(&a, &b, c->section, &k, btfdump_value(opened), i == 3 ? BTFDUMP_RECORD_SIZE - 1 : RECORD);
	if (wrong) {
		differ++;
		printf("%s: case '%.*s': %s\n", path, (int)c->name_len, (const char *)c->name, wrong);
	}
	free(a.work);
	free(b.work);
	free(a.text);
	free(b.text);
}

static void *run(void *argument)
{
	for (char **path = argument; *path; path++) {
		struct cases f = open_cases(*path);
		struct one_case c;
		struct call k;

		while (next_case(&f, &c, *path))
			if (accepted_opening(&c, &k))
				for (uint32_t i = 0; i < 4; i++) {
					k.text_len = i == 3 ? 0 : i == 2 ? c.text_len / 2 : 2 * (size_t)c.text_len + 4096;
					one_session(*path, &c, k);
				}
		free(f.bytes);
	}
	printf("lists: %u lists, %u ids, %u differ\n", (unsigned)lists, (unsigned)ids_given, (unsigned)differ);
	return differ || !lists ? argument : NULL;
}

int main(int argc, char **argv)
{
	if (argc < 2) {
		fputs("usage: lists FILE ..\n", stderr);
		return 2;
	}
	return on_documented_stack(run, argv + 1);
}
