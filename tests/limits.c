/*
 * Limits and memory promises through the C exports, as tables of calls. After
 * every call the whole memory is compared (session.h).
 */
#include "session.h"

#define W(x) (x) & 255, (x) >> 8 & 255, (x) >> 16 & 255, (x) >> 24 & 255
#define HEADER(types, strings) 0x9f, 0xeb, 1, 0, W(24), W(0), W(types), W(types), W(strings)
#define INFO(kind, entries) W((uint32_t)(kind) << 24 | (entries))

/* 1 INT int, 2 STRUCT s {int a}, 3 STRUCT c {c c}: two structs, one accepted, one a cycle */
#define S_TEXT "struct s {\n\tint a;\n};\n\n"
static const uint8_t two[] = {
	HEADER(64, 11),
	W(1), INFO(1, 0), W(4), W(32),
	W(5), INFO(4, 1), W(4), W(7), W(1), W(0),
	W(9), INFO(4, 1), W(4), W(9), W(3), W(0),
	0, 'i', 'n', 't', 0, 's', 0, 'a', 0, 'c', 0,
	0x7f /* a byte after the areas, not part of the section as opened */
};
#define TWO (sizeof two - 1)
#define TWO_WORK BTFDUMP_WORK_SIZE(4, 0)
#define S_LEN (sizeof S_TEXT - 1)

/* 1 ENUM e {A = 0, B = 1}: work is counted by enumerators too */
#define E_TEXT "enum e {\n\tA = 0,\n\tB = 1,\n};\n\n"
static const uint8_t enums[] = {
	HEADER(28, 7), W(1), INFO(6, 2), W(4), W(3), W(0), W(5), W(1), 0, 'e', 0, 'A', 0, 'B', 0
};
#define E_WORK BTFDUMP_WORK_SIZE(2, 2)
#define E_LEN (sizeof E_TEXT - 1)

static const uint8_t no_types[] = {HEADER(0, 1), 0};
#define NONE_WORK BTFDUMP_WORK_SIZE(1, 0)
static const uint8_t no_magic[] = {0xeb, 0xeb, 1, 0, W(24), W(0), W(0), W(0), W(1), 0};
static const uint8_t other_order[] = {0xeb, 0x9f, 1, 0, W(24), W(0), W(0), W(0), W(1), 0};
#define V(x) (x) >> 24 & 255, (x) >> 16 & 255, (x) >> 8 & 255, (x) & 255
static const uint8_t no_types_big[] = {0xeb, 0x9f, 1, 0, V(24), V(0), V(0), V(0), V(1), 0};
static const uint8_t bad_strings[] = {HEADER(0, 2), 0, 'a'};
static const uint8_t bad_kind[] = {HEADER(12, 1), W(0), INFO(20, 0), W(0), 0};
static const uint8_t bad_reference[] = {HEADER(12, 1), W(0), INFO(2, 0), W(2), 0};
static const uint8_t bad_member[] = {
	HEADER(36, 1), W(0), INFO(13, 0), W(0), W(0), INFO(4, 1), W(0), W(0), W(1), W(0), 0
};
static const uint8_t loop[] = {HEADER(12, 1), W(0), INFO(2, 0), W(1), 0};
static uint8_t long_section[BTFDUMP_MAX_SECTION + 1]; /* no_types and bytes after the areas */

#define R BTFDUMP_RECORD_SIZE
#define O OPENING
#define I ONE_ID
#define A ALL_IDS
#define NEW 1 /* begins with a record that was never opened */

static const struct row {
	int fresh;
	const char *what;
	const uint8_t *section;
	struct call call;
	const char *text; /* expected after the call, if not the text held before */
} rows[] = {
	/* fresh, what, section, {call, pointer size or id, modes, lengths, number, value}, text */
	{NEW, "work one byte short", two, {O, 8, 0, R, TWO, TWO_WORK - 1, 64, 9, 0}, NULL},
	{0, "work exact", two, {O, 8, 0, R, TWO, TWO_WORK, 64, 0, 4}, NULL},
	{NEW, "work one byte short, enumerators", enums, {O, 8, 0, R, sizeof enums, E_WORK - 1, 64, 9, 0}, NULL},
	{0, "work exact, enumerators", enums, {O, 8, 0, R, sizeof enums, E_WORK, 64, 0, 2}, NULL},
	{0, "text exact, enumerators", enums, {I, 1, 0, R, sizeof enums, E_WORK, E_LEN, 0, E_LEN}, E_TEXT},
	{NEW, "work longer than needed, no whole word", two, {O, 4, 1, R, TWO, TWO_WORK + 99, 64, 0, 4}, NULL},
	{0, "and a request on it", two, {I, 2, 0, R, TWO, TWO_WORK + 99, 64, 0, S_LEN}, S_TEXT},
	{0, "closed by a cycle: all of the work is zero", two, {I, 3, 0, R, TWO, TWO_WORK + 99, 64, 13, S_LEN}, NULL},

	{NEW, "modes: unknown bits are ignored", two, {O, 8, 0xfffffffc, R, TWO, TWO_WORK, 0, 0, 4}, NULL},
	{0, "id 0 has no text", two, {I, 0, 0, R, TWO, TWO_WORK, 7, 0, 0}, NULL},
	{0, "id at the count", two, {I, 4, 0, R, TWO, TWO_WORK, 7, 10, 0}, NULL},
	{0, "the largest id", two, {I, 0xffffffff, 0, R, TWO, TWO_WORK, 7, 10, 0}, NULL},
	{0, "text exact", two, {I, 2, 0, R, TWO, TWO_WORK, S_LEN, 0, S_LEN}, S_TEXT},
	{0, "again, no new text, longer slice", two, {I, 2, 0, R, TWO, TWO_WORK, 99, 0, S_LEN}, NULL},
	{0, "text slice as long as the text held", two, {I, 1, 0, R, TWO, TWO_WORK, S_LEN, 0, S_LEN}, NULL},
	{0, "text slice shorter than the text held", two, {I, 1, 0, R, TWO, TWO_WORK, S_LEN - 1, 11, S_LEN}, NULL},
	{0, "no text slice", two, {A, 0, 0, R, TWO, TWO_WORK, 0, 11, S_LEN}, NULL},
	{0, "section shorter", two, {I, 1, 0, R, TWO - 1, TWO_WORK, 99, 11, S_LEN}, NULL},
	{0, "section longer", two, {I, 1, 0, R, TWO + 1, TWO_WORK, 99, 11, S_LEN}, NULL},
	{0, "no section", two, {A, 0, 0, R, 0, TWO_WORK, 99, 11, S_LEN}, NULL},
	{0, "work shorter", two, {I, 1, 0, R, TWO, TWO_WORK - 1, 99, 11, S_LEN}, NULL},
	{0, "work longer", two, {A, 0, 0, R, TWO, TWO_WORK + 1, 99, 11, S_LEN}, NULL},
	{0, "no work", two, {A, 0, 0, R, TWO, 0, 99, 11, S_LEN}, NULL},
	{0, "11 comes before 10", two, {I, 4, 0, R, TWO, TWO_WORK + 1, 99, 11, S_LEN}, NULL},
	{0, "10 and 11 did not close it", two, {I, 1, 0, R, TWO, TWO_WORK, 99, 0, S_LEN}, NULL},
	{0, "all ids refused midway, old text kept", two, {A, 0, 0, R, TWO, TWO_WORK, 99, 13, S_LEN}, NULL},
	{0, "one id after closing", two, {I, 0, 0, R, TWO, TWO_WORK, 99, 11, S_LEN}, NULL},
	{0, "id at the count after closing", two, {I, 4, 0, R, TWO, TWO_WORK, 99, 11, S_LEN}, NULL},
	{0, "all ids after closing", two, {A, 0, 0, R, TWO, TWO_WORK, 99, 11, S_LEN}, NULL},
	{0, "opened again", two, {O, 8, 0, R, TWO, TWO_WORK, 99, 0, 4}, NULL},
	{0, "all ids refused midway, new text kept", two, {A, 0, 0, R, TWO, TWO_WORK, 99, 13, S_LEN}, S_TEXT},

	{NEW, "text one byte short", two, {O, 8, 0, R, TWO, TWO_WORK, 0, 0, 4}, NULL},
	{0, "text one byte short, one id", two, {I, 2, 0, R, TWO, TWO_WORK, S_LEN - 1, 17, 0}, NULL},
	{0, "opened again", two, {O, 8, 0, R, TWO, TWO_WORK, 9, 0, 4}, NULL},
	{0, "text one byte short, all ids", two, {A, 0, 0, R, TWO, TWO_WORK, S_LEN - 1, 17, 0}, NULL},
	{0, "opened again over a text", two, {O, 8, 0, R, TWO, TWO_WORK, 9, 0, 4}, NULL},
	{0, "no text at all for a struct", two, {I, 2, 0, R, TWO, TWO_WORK, 0, 17, 0}, NULL},

	{NEW, "an open session", two, {O, 8, 0, R, TWO, TWO_WORK, 99, 0, 4}, NULL},
	{0, "with a text", two, {I, 2, 0, R, TWO, TWO_WORK, 99, 0, S_LEN}, S_TEXT},
	{0, "refused over it: pointer size 0", two, {O, 0, 0, R, TWO, TWO_WORK, 99, 1, 0}, NULL},
	{0, "refused over it: pointer size 16", long_section, {O, 16, 0, R, sizeof long_section, 0, 99, 1, 0}, NULL},
	{0, "refused over it: long section", long_section, {O, 8, 0, R, sizeof long_section, 0, 99, 2, 0}, NULL},
	{0, "refused over it: no section", two, {O, 8, 0, R, 0, TWO_WORK, 99, 3, 0}, NULL},
	{0, "refused over it: 23 bytes", two, {O, 8, 0, R, 23, TWO_WORK, 99, 3, 0}, NULL},
	{0, "refused over it: last byte cut", two, {O, 8, 0, R, TWO - 1, TWO_WORK, 99, 3, 0}, NULL},
	{0, "refused over it: magic", no_magic, {O, 8, 0, R, sizeof no_magic, TWO_WORK, 99, 3, 0}, NULL},
	{0, "refused over it: magic EB 9F, words as after 9F EB", other_order, {O, 8, 0, R, sizeof other_order, TWO_WORK, 99, 3, 0}, NULL},
	{0, "refused over it: strings", bad_strings, {O, 8, 0, R, sizeof bad_strings, TWO_WORK, 99, 4, 0}, NULL},
	{0, "refused over it: kind 20", bad_kind, {O, 8, 0, R, sizeof bad_kind, TWO_WORK, 99, 5, 0}, NULL},
	{0, "refused over it: id at the count", bad_reference, {O, 8, 0, R, sizeof bad_reference, TWO_WORK, 99, 6, 0}, NULL},
	{0, "refused over it: member of a prototype", bad_member, {O, 8, 0, R, sizeof bad_member, TWO_WORK, 99, 7, 0}, NULL},
	{0, "refused over it: loop, and no work", loop, {O, 8, 0, R, sizeof loop, 0, 0, 8, 0}, NULL},
	{0, "refused over it: no work", two, {O, 8, 0, R, TWO, 0, 99, 9, 0}, NULL},
	{0, "the old session is still open", two, {I, 2, 0, R, TWO, TWO_WORK, 99, 0, S_LEN}, NULL},
	{0, "another section opened over it", no_types, {O, 4, 0, R, sizeof no_types, NONE_WORK, 99, 0, 1}, NULL},
	{0, "the same, most significant byte first", no_types_big, {O, 4, 0, R, sizeof no_types_big, NONE_WORK, 99, 0, 1}, NULL},
	{0, "all ids over no types clears the rest", no_types, {A, 0, 0, R, sizeof no_types, NONE_WORK, 99, 0, 0}, NULL},
	{0, "id 0 over no types", no_types, {I, 0, 0, R, sizeof no_types, NONE_WORK, 99, 0, 0}, NULL},
	{0, "id 1 over no types", no_types, {I, 1, 0, R, sizeof no_types, NONE_WORK, 99, 10, 0}, NULL},
	{0, "no types, other work length", no_types, {A, 0, 0, R, sizeof no_types, NONE_WORK + 4, 99, 11, 0}, NULL},

	{NEW, "requests before any opening", two, {I, 2, 0, R, TWO, TWO_WORK, 99, 11, 0}, NULL},
	{0, "all ids before any opening", two, {A, 0, 0, R, TWO, TWO_WORK, 99, 11, 0}, NULL},
	{0, "requests on nothing at all", two, {A, 0, 0, 0, 0, 0, 0, 11, 0}, NULL},
	{0, "opening with no record", two, {O, 8, 0, 0, TWO, TWO_WORK, 99, 255, 0}, NULL},
	{0, "opening with nothing at all", two, {O, 0, 0, 0, 0, 0, 0, 255, 0}, NULL},
	{0, "opening with a record one byte short", two, {O, 8, 0, R - 1, TWO, TWO_WORK, 99, 255, 0}, NULL},
	{0, "opening with a long record", two, {O, 8, 0, R + 37, TWO, TWO_WORK, 99, 0, 4}, NULL},
	{0, "request with a long record", two, {I, 2, 0, R + 1, TWO, TWO_WORK, 99, 0, S_LEN}, S_TEXT},
	{0, "request with a record one byte short", two, {I, 2, 0, R - 1, TWO, TWO_WORK, 99, 11, 0}, NULL},
	{0, "all ids with a record one byte short", two, {A, 0, 0, R - 1, TWO, TWO_WORK, 99, 11, 0}, NULL},
	{0, "closing with a long record", two, {A, 0, 0, R + 300, TWO, TWO_WORK, 99, 13, S_LEN}, NULL},

	{NEW, "the longest section", long_section, {O, 8, 0, R, BTFDUMP_MAX_SECTION, NONE_WORK, 0, 0, 1}, NULL},
};

static int failed, made;

static void step(struct session *s, const char *what, const uint8_t *section, const struct call *c, const char *text)
{
	btfdump_answer answer;
	const char *wrong = make(s, c, section, (const uint8_t *)text, &answer);

	made++;
	if (!wrong)
		return;
	failed++;
	printf("limits: %s: %s; expected %u %u, got %u %u\n", what, wrong, (unsigned)c->number, (unsigned)c->value,
	       (unsigned)btfdump_number(answer), (unsigned)btfdump_value(answer));
}

/* The most records, and one more. */
static void most_types(struct session *s)
{
	size_t area = 12 * (size_t)(BTFDUMP_MAX_TYPES - 1), work = BTFDUMP_WORK_SIZE(BTFDUMP_MAX_TYPES, 0);
	uint8_t head[] = {HEADER((uint32_t)area, 1)}, more[] = {HEADER((uint32_t)area + 12, 1)};
	uint8_t *section = need(calloc(1, 24 + area + 12 + 1));

	for (size_t i = 0; i < area + 12; i += 12)
		section[24 + i + 7] = 2; /* PTR to void */
	memcpy(section, head, sizeof head);
	section[24 + area + 7] = 0; /* here the string area, for now */
	step(s, "262,144 records", section, &(struct call){O, 8, 0, R, 25 + area, work, 9, 0, BTFDUMP_MAX_TYPES}, NULL);
	step(s, "all of them", section, &(struct call){A, 0, 0, R, 25 + area, work, 9, 0, 0}, NULL);
	section[24 + area + 7] = 2;
	memcpy(section, more, sizeof more);
	step(s, "262,145 records", section, &(struct call){O, 8, 0, R, 37 + area, work + 64, 9, 5, 0}, NULL);
	free(section);
}

/* A bit offset over 24 bits, kind flag clear: 262,145 pads. */
static void many_pads(struct session *s)
{
	static const uint8_t section[] = {
		HEADER(40, 9), W(1), INFO(1, 0), W(4), W(32), W(5), INFO(4, 1), W(2097160), W(7), W(1), W(16777248),
		0, 'i', 'n', 't', 0, 'S', 0, 'b', 0
	};
	size_t lines = 16777248 / 64, room = 100 + lines * 11, work = BTFDUMP_WORK_SIZE(3, 0);
	char *text = need(malloc(room)), *p = text;
	uint32_t length;

	p += sprintf(p, "struct S {\n\tlong: 32;");
	for (size_t i = 0; i < lines; i++)
		p += sprintf(p, "\n\tlong: 64;");
	p += sprintf(p, "\n\tint b;\n};\n\n");
	length = (uint32_t)(p - text);
	step(s, "a far member", section, &(struct call){O, 8, 0, R, sizeof section, work, 9, 0, 3}, NULL);
	step(s, "262,145 pads", section, &(struct call){I, 2, 0, R, sizeof section, work, length, 0, length}, text);
	step(s, "a far member again", section, &(struct call){O, 8, 0, R, sizeof section, work, 9, 0, 3}, NULL);
	step(s, "pads in a text one byte short", section,
	     &(struct call){A, 0, 0, R, sizeof section, work, length - 1, 17, 0}, NULL);
	free(text);
}

static void *limits(void *argument)
{
	struct session s = {{0}, NULL, NULL, 0, 0};

	memcpy(long_section, no_types, sizeof no_types);
	for (size_t i = 0; i < sizeof rows / sizeof *rows; i++) {
		if (rows[i].fresh)
			end_session(&s);
		step(&s, rows[i].what, rows[i].section, &rows[i].call, rows[i].text);
	}
	end_session(&s);
	most_types(&s);
	end_session(&s);
	many_pads(&s);
	end_session(&s);
	printf("limits: %d calls, %d differ\n", made, failed);
	return failed ? argument : NULL;
}

int main(void)
{
	return on_documented_stack(limits, &failed);
}
