/*
 * Which field covers a bit: field CASEFILE ..
 *
 * First a table of calls; then, on every section of the case files that opening
 * accepts, ids and many bits of each are compared with a direct computation (of
 * a long table every 23rd id).
 * After every call the whole lent memory is compared.
 */
#include "casefile.h"

#define W(x) (x) & 255, (x) >> 8 & 255, (x) >> 16 & 255, (x) >> 24 & 255
#define HEADER(types, strings) 0x9f, 0xeb, 1, 0, W(24), W(0), W(types), W(types), W(strings)
#define INFO(kind, entries) W((uint32_t)(kind) << 24 | (entries))
#define FLAG(kind, entries) W(0x80000000u | (uint32_t)(kind) << 24 | (entries))
#define MEMBER(type, bit) W(0), W(type), W(bit)
#define FIELD(type, bit, width) W(0), W(type), W((uint32_t)(width) << 24 | (bit))
#define MOST 512
#define GUARD 64

static const uint8_t table[] = {
	HEADER(380, 1),
	W(0), INFO(1, 0), W(4), W(32), /* 1 int */
	W(0), INFO(1, 0), W(1), W(8),  /* 2 char */
	W(0), INFO(4, 2), W(8), MEMBER(2, 0), MEMBER(1, 32), /* 3 struct in { char c; int v; } */
	W(0), INFO(3, 0), W(0), W(3), W(1), W(2), /* 4 in[2] */
	W(0), INFO(3, 0), W(0), W(4), W(1), W(3), /* 5 in[3][2] */
	W(0), INFO(8, 0), W(5), /* 6 typedef in t[3][2] */
	W(0), INFO(10, 0), W(6), /* 7 const t */
	W(0), INFO(5, 2), W(8), MEMBER(1, 0), MEMBER(3, 0), /* 8 union u { int i; struct in s; } */
	W(0), FLAG(4, 5), W(80), /* 9 struct { int a: 3, b: 5; const t arr; union u u; int last; } */
	FIELD(1, 0, 3), FIELD(1, 3, 5), MEMBER(7, 32), MEMBER(8, 416), MEMBER(1, 480),
	W(0), INFO(4, 1), W(4), MEMBER(10, 0), /* 10 a struct holding itself */
	W(0), INFO(3, 0), W(0), W(2), W(1), W(0x20000000), /* 11 char[536870912] */
	W(0), INFO(4, 1), W(4), MEMBER(11, 0), /* 12 struct { char big[536870912]; } */
	W(0), INFO(4, 2), W(4), MEMBER(1, 0), MEMBER(11, 32), /* 13 struct { int x; char big[536870912]; } */
	W(0), INFO(4, 1), W(4), MEMBER(2, 0xfffffff8), /* 14 struct { char c; } at bit 4294967288 */
	0
};

static const struct row {
	const char *what;
	uint32_t id, bit;
	size_t room; /* bytes lent */
	uint32_t number, length, path[4];
} rows[] = {
	{"a bit field, first bit", 9, 0, 64, 0, 1, {0}},
	{"its last", 9, 2, 64, 0, 1, {0}},
	{"the next bit field", 9, 3, 64, 0, 1, {1}},
	{"its last", 9, 7, 64, 0, 1, {1}},
	{"a gap", 9, 8, 64, 21, 0, {0}},
	{"its end", 9, 31, 64, 21, 0, {0}},
	{"an array of arrays of structs", 9, 32, 64, 0, 4, {2, 0, 0, 0}},
	{"a gap of the struct inside", 9, 40, 64, 0, 3, {2, 0, 0}},
	{"its second member", 9, 64, 64, 0, 4, {2, 0, 0, 1}},
	{"the next place", 9, 96, 64, 0, 4, {2, 0, 1, 0}},
	{"the next place of the outer array", 9, 160, 64, 0, 4, {2, 1, 0, 0}},
	{"the last bit of the array", 9, 415, 64, 0, 4, {2, 2, 1, 1}},
	{"a union, the first member", 9, 416, 64, 0, 2, {3, 0}},
	{"no later one is tried", 9, 424, 64, 0, 2, {3, 0}},
	{"where only the second covers", 9, 448, 64, 0, 3, {3, 1, 1}},
	{"the last member", 9, 511, 64, 0, 1, {4}},
	{"past it", 9, 512, 64, 21, 0, {0}},
	{"far past it", 9, 4294967295u, 64, 21, 0, {0}},
	{"void", 0, 0, 64, 21, 0, {0}},
	{"a number", 1, 0, 64, 21, 0, {0}},
	{"an array", 5, 0, 64, 21, 0, {0}},
	{"a qualified typedef", 7, 0, 64, 21, 0, {0}},
	{"no such id", 15, 0, 64, 10, 0, {0}},
	{"a struct holding itself", 10, 31, 4096, 12, 0, {0}},
	{"past it", 10, 32, 4096, 21, 0, {0}},
	{"a size over 32 bits of bits", 12, 0, 64, 16, 0, {0}},
	{"the member before it", 13, 0, 64, 0, 1, {0}},
	{"that size, where no member before it covers", 13, 32, 64, 16, 0, {0}},
	{"an end over 32 bits, wherever the bit is", 14, 0, 64, 16, 0, {0}},
	{"a path exactly long enough", 9, 32, 16, 0, 4, {2, 0, 0, 0}},
	{"three bytes more", 9, 32, 19, 0, 4, {2, 0, 0, 0}},
	{"one byte short", 9, 32, 15, 17, 0, {0}},
	{"no path", 9, 0, 0, 17, 0, {0}},
	{"no member, no path", 9, 8, 0, 21, 0, {0}},
	{"too deep, no path", 10, 0, 0, 12, 0, {0}},
	{"over 32 bits, no path", 12, 0, 0, 16, 0, {0}},
	{"no such id, no path", 15, 0, 0, 10, 0, {0}},
};

static int failed;
static unsigned long calls, compared, seen[32];

struct open_session {
	const uint8_t *section;
	size_t section_len, work_len;
	uint8_t record[BTFDUMP_RECORD_SIZE], *work;
	uint32_t types;
};

static void fail(const char *where, const char *what, uint32_t id, uint32_t bit, btfdump_answer a)
{
	if (failed++ < 20)
		printf("field: %s: %s: id %u bit %u: %u %u\n", where, what, id, bit, btfdump_number(a), btfdump_value(a));
}

/* One call; the answer and all memory against the number and the path expected. */
static void ask(const char *where, const struct open_session *s, size_t record_len, size_t section_len, size_t work_len,
		uint32_t id, uint32_t bit, size_t room, uint32_t number, const uint32_t *path, uint32_t length)
{
	static uint8_t block[4096 + 2 * GUARD], before[sizeof block];
	uint8_t record[BTFDUMP_RECORD_SIZE];
	btfdump_answer a;

	for (size_t i = 0; i < sizeof block; i++)
		block[i] = (uint8_t)(0xa5 + i * 7);
	memcpy(before, block, sizeof block);
	memcpy(record, s->record, sizeof record);
	a = btfdump_field(s->record, record_len, s->section, section_len, s->work, work_len,
			  room ? block + GUARD : NULL, room, id, bit);
	calls++;
	seen[btfdump_number(a) & 31]++;
	if (a != ((uint64_t)number << 32 | length))
		fail(where, "answer", id, bit, a);
	for (uint32_t i = 0; i < length; i++)
		for (int j = 0; j < 4; j++)
			before[GUARD + 4 * i + (unsigned)j] = (uint8_t)(path[i] >> 8 * j);
	if (memcmp(before, block, sizeof block))
		fail(where, "path", id, bit, a);
	if (memcmp(record, s->record, sizeof record))
		fail(where, "record", id, bit, a);
}

static uint32_t open_on(struct open_session *s, const uint8_t *section, size_t length, uint32_t pointer, uint32_t types, uint32_t enumerators)
{
	btfdump_answer a;

	memset(s->record, 0, sizeof s->record);
	s->section = section;
	s->section_len = length;
	s->work_len = BTFDUMP_WORK_SIZE(types, enumerators);
	s->work = need(malloc(s->work_len));
	a = btfdump_open(s->record, sizeof s->record, section, length, pointer, 0, s->work, s->work_len, NULL, 0);
	s->types = btfdump_value(a);
	return btfdump_number(a);
}

/* ---- the direct computation */

static uint32_t *places; /* of the records, by id */
static uint32_t pointer_size;

static uint32_t field_at(const struct open_session *s, uint32_t id, uint32_t offset)
{
	return u32_at(s->section + places[id] + offset);
}

static uint32_t kind_at(const struct open_session *s, uint32_t id)
{
	return id ? field_at(s, id, 4) >> 24 & 31 : 0;
}

/* get_size_of; a refusal, or 0 */
static uint32_t size_at(const struct open_session *s, uint32_t id, unsigned open, uint64_t *size)
{
	uint32_t refusal;

	*size = 0;
	if (open == 512)
		return 12;
	switch (kind_at(s, id)) {
	case 1:
		*size = ((field_at(s, id, 12) & 255) + 7) / 8;
		return 0;
	case 2:
		*size = pointer_size;
		return 0;
	case 3:
		refusal = size_at(s, field_at(s, id, 12), open + 1, size);
		*size *= field_at(s, id, 20);
		return refusal ? refusal : *size >> 32 ? 16 : 0;
	case 4: case 5: case 6: case 16: case 19:
		*size = field_at(s, id, 8);
		return 0;
	case 8: case 9: case 10: case 11: case 18:
		return size_at(s, field_at(s, id, 8), open + 1, size);
	default:
		return 0;
	}
}

/* Adds the entries inside a type to the path; a refusal, or 0. */
static uint32_t inside(const struct open_session *s, uint32_t id, uint64_t bit, uint32_t *path, uint32_t *length)
{
	uint32_t kind = kind_at(s, id), info = id ? field_at(s, id, 4) : 0, refusal;
	uint64_t size;

	if ((kind >= 8 && kind <= 11) || kind == 18)
		return inside(s, field_at(s, id, 8), bit, path, length);
	if (kind == 3) {
		if (size_at(s, field_at(s, id, 12), 0, &size) || !size)
			return 99; /* never, inside a member that covers the bit */
		if (*length == MOST)
			return 12;
		path[(*length)++] = (uint32_t)(bit / (8 * size));
		return inside(s, field_at(s, id, 12), bit % (8 * size), path, length);
	}
	if (kind != 4 && kind != 5)
		return 0;
	for (uint32_t k = 0; k < (info & 0xffff); k++) {
		uint32_t type = field_at(s, id, 12 + 12 * k + 4), word = field_at(s, id, 12 + 12 * k + 8);
		uint32_t width = info >> 31 ? word >> 24 : 0;
		uint64_t start = info >> 31 ? word & 0xffffff : word, end = start + width;

		if (!width) {
			refusal = size_at(s, type, 0, &size);
			if (refusal)
				return refusal;
			end = start + 8 * size;
		}
		if (end >> 32)
			return 16;
		if (bit < start || bit >= end)
			continue;
		if (*length == MOST)
			return 12;
		path[(*length)++] = k;
		return width ? 0 : inside(s, type, bit - start, path, length);
	}
	return 0;
}

static void compare(const char *where, const struct open_session *s, uint32_t id, uint32_t bit)
{
	static uint32_t path[MOST];
	uint32_t kind = kind_at(s, id), length = 0, number = 21;

	if (kind == 4 || kind == 5) {
		number = inside(s, id, bit, path, &length);
		if (!number && !length)
			number = 21;
	}
	if (number)
		length = 0;
	compared++;
	ask(where, s, sizeof s->record, s->section_len, s->work_len, id, bit, 4 * MOST, number, path, length);
	if (!number) { /* as long as needed, and a byte less */
		ask(where, s, sizeof s->record, s->section_len, s->work_len, id, bit, 4 * length, 0, path, length);
		ask(where, s, sizeof s->record, s->section_len, s->work_len, id, bit, 4 * length - 1, 17, path, 0);
	}
}

/* Types and enumerators of a section that opening may accept, and the places of the records. */
static uint32_t index_types(const uint8_t *section, size_t length, uint32_t *enumerators)
{
	uint32_t types = 1, header, start, end, at;

	*enumerators = 0;
	if (length < 24)
		return 1;
	header = u32_at(section + 4);
	start = header + u32_at(section + 8);
	end = start + u32_at(section + 12);
	if (start < header || end < start || end > length)
		return 1;
	places = need(realloc(places, (length / 12 + 2) * sizeof *places));
	for (at = start; end - at >= 12; types++) {
		uint32_t info = u32_at(section + at + 4), kind = info >> 24 & 31, entries = info & 0xffff, more = 0;

		if (kind == 6 || kind == 19)
			*enumerators += entries;
		if (kind == 1 || kind == 14 || kind == 17)
			more = 4;
		else if (kind == 3)
			more = 12;
		else if (kind == 4 || kind == 5 || kind == 15 || kind == 19)
			more = 12 * entries;
		else if (kind == 6 || kind == 13)
			more = 8 * entries;
		places[types] = at;
		if (end - at - 12 < more)
			return 1;
		at += 12 + more;
	}
	return types;
}

static void whole_table(const char *where, const uint8_t *section, size_t length, uint32_t pointer)
{
	struct open_session s;
	uint32_t enumerators, types = index_types(section, length, &enumerators);

	pointer_size = pointer;
	if (!open_on(&s, section, length, pointer, types, enumerators)) {
		for (uint32_t id = 0; id < s.types; id += s.types > 100 ? 23 : 1) {
			uint32_t kind = kind_at(&s, id), bits = 1;

			if (kind == 4 || kind == 5) {
				bits = field_at(&s, id, 8);
				bits = bits < 24 ? 8 * bits + 8 : 200;
			}
			for (uint32_t bit = 0; bit < bits; bit++)
				compare(where, &s, id, bit);
			for (uint32_t bit = 1u << 30; bit > bits; bit /= 4)
				compare(where, &s, id, bit - 1 + (id & 1));
			compare(where, &s, id, 4294967295u);
		}
	}
	free(s.work);
}

/* ---- the calls of the table, and the limits */

static void some_rows(void)
{
	struct open_session s;
	size_t r = BTFDUMP_RECORD_SIZE;
	uint32_t no = open_on(&s, table, sizeof table, 8, 15, 0);

	if (no)
		fail("table", "opening", 0, 0, (uint64_t)no << 32);
	for (size_t i = 0; i < sizeof rows / sizeof *rows; i++)
		ask(rows[i].what, &s, r, s.section_len, s.work_len, rows[i].id, rows[i].bit, rows[i].room, rows[i].number, rows[i].path,
		    rows[i].length);
	ask("other section length", &s, r, s.section_len - 1, s.work_len, 9, 0, 64, 11, NULL, 0);
	ask("other work length", &s, r, s.section_len, s.work_len - 1, 9, 0, 64, 11, NULL, 0);
	ask("11 before 10", &s, r, s.section_len - 1, s.work_len, 15, 0, 0, 11, NULL, 0);
	ask("a short record", &s, r - 1, s.section_len, s.work_len, 9, 0, 64, 11, NULL, 0);
	s.record[0] = 0;
	ask("a closed session", &s, r, s.section_len, s.work_len, 9, 0, 64, 11, NULL, 0);
	s.record[0] = 1;
	s.record[40] = 200; /* a text of 200 bytes is held; none is lent */
	ask("with a text held", &s, r, s.section_len, s.work_len, 9, 0, 64, 0, (const uint32_t[]){0}, 1);
	free(s.work);
}

/* n structs, each the only member of the next; or n arrays of one element inside a struct */
static void nested(uint32_t n, int arrays, uint32_t expected)
{
	static uint32_t path[MOST];
	struct open_session s;
	size_t length = 24 + 16 + n * 24 + 24 + 1, at = 24;
	uint8_t *section = need(calloc(length, 1));
	const uint8_t head[] = {HEADER((uint32_t)(length - 25), 1), W(0), INFO(1, 0), W(4), W(32)};
	uint32_t no;

	memcpy(section, head, sizeof head);
	at += 16;
	for (uint32_t id = 2; id < n + 3; id++, at += 24) {
		const uint8_t one[] = {W(0), INFO(4, 1), W(4), MEMBER(id - 1, 0)};
		const uint8_t more[] = {W(0), INFO(3, 0), W(0), W(id - 1), W(1), W(1)};

		memcpy(section + at, arrays && id < n + 2 ? more : one, 24);
	}
	no = open_on(&s, section, length, 8, n + 3, 0);
	if (no)
		fail("nested", "opening", 0, 0, (uint64_t)no << 32);
	ask(arrays ? "nested arrays" : "nested structs", &s, BTFDUMP_RECORD_SIZE, length, s.work_len, n + 2, 31, 4 * MOST, expected, path,
	    expected ? 0 : n + 1);
	free(s.work);
	free(section);
}

static void *test(void *argument)
{
	char **file = argument;

	some_rows();
	nested(511, 0, 0);
	nested(512, 0, 12);
	nested(511, 1, 0);
	nested(512, 1, 12);
	for (; *file; file++) {
		struct cases f = open_cases(*file);
		struct one_case c;

		while (next_case(&f, &c, *file)) {
			char where[256];

			snprintf(where, sizeof where, "%s %.*s", *file, (int)c.name_len, (const char *)c.name);
			whole_table(where, c.section, c.section_len, 8);
			whole_table(where, c.section, c.section_len, 4);
		}
		free(f.bytes);
	}
	return failed ? argument : NULL;
}

int main(int argc, char **argv)
{
	int status = on_documented_stack(test, argv + (argc ? 1 : 0));

	printf("field: %lu calls, %lu of them compared with a direct computation; accepted %lu, 10 %lu, 11 %lu, 12 %lu, 16 %lu, 17 %lu, 21 %lu%s\n",
	       calls, compared, seen[0], seen[10], seen[11], seen[12], seen[16], seen[17], seen[21], failed ? "; FAILED" : "");
	return status;
}
