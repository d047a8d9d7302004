/*
 * One session on lent memory. Every call gets fresh copies of record, section,
 * work and text between guard bytes, and after it the whole memory is compared
 * with what the call's number allows to change.
 */
#ifndef SESSION_H
#define SESSION_H

#include "common.h"

enum { OPENING, ONE_ID, ALL_IDS };

struct call {
	uint32_t what, a, b; /* opening: pointer size and modes; one id: the id */
	size_t record_len, section_len, work_len, text_len;
	uint32_t number, value; /* expected */
};

/* What the calls so far left. */
struct session {
	uint8_t record[BTFDUMP_RECORD_SIZE];
	uint8_t *work, *text;
	size_t work_len;
	uint32_t text_len;
};

struct lent {
	uint8_t *block, *bytes;
	size_t length;
	uint8_t *before;
};

#define GUARD 64
#define GUARD_BYTE 0xA5
#define OLD_BYTE 0xC3 /* what a lent slice holds past the bytes that matter */

/* A slice of `length` bytes that begins with `known` given ones. */
static inline struct lent lend(const uint8_t *content, size_t known, size_t length)
{
	struct lent l = {need(malloc(length + 2 * GUARD)), NULL, length, need(malloc(length + 1))};

	if (known > length)
		known = length;
	memset(l.block, GUARD_BYTE, length + 2 * GUARD);
	l.bytes = l.block + GUARD;
	memset(l.bytes, OLD_BYTE, length);
	if (known)
		memcpy(l.bytes, content, known);
	memcpy(l.before, l.bytes, length);
	return l;
}

static inline void give_back(struct lent *l)
{
	free(l->block);
	free(l->before);
}

static inline int same(const struct lent *l, size_t from, size_t to)
{
	return from >= to || !memcmp(l->bytes + from, l->before + from, to - from);
}

static inline int zero(const struct lent *l, size_t from)
{
	for (size_t i = from; i < l->length; i++)
		if (l->bytes[i])
			return 0;
	return 1;
}

static inline int guarded(const struct lent *l)
{
	for (size_t i = 0; i < GUARD; i++)
		if (l->block[i] != GUARD_BYTE || l->block[GUARD + l->length + i] != GUARD_BYTE)
			return 0;
	return 1;
}

/* Counts types (void too) and enumerators of a section that opening accepts. */
static inline void count_types(const uint8_t *section, uint32_t *types, uint32_t *enumerators)
{
	const uint8_t *p = section + word_of(section, section + 4) + word_of(section, section + 8);
	const uint8_t *end = p + word_of(section, section + 12);

	*types = 1;
	*enumerators = 0;
	for (; p < end; ++*types) {
		uint32_t info = word_of(section, p + 4), kind = info >> 24 & 31, entries = info & 0xffff;

		if (kind == 6 || kind == 19)
			*enumerators += entries;
		p += 12;
		switch (kind) {
		case 1: case 14: case 17: p += 4; break;
		case 3: p += 12; break;
		case 4: case 5: case 15: case 19: p += 12 * (size_t)entries; break;
		case 6: case 13: p += 8 * (size_t)entries; break;
		default: break;
		}
	}
}

/*
 * The visits by a count of its own: the types whose alignment the work remembers (word 15), and their members as the
 * section has them. members: all those of the table.
 */
static inline uint64_t count_visits(const uint8_t *section, const uint8_t *work, uint32_t types, uint64_t *members)
{
	const uint8_t *p = section + word_of(section, section + 4) + word_of(section, section + 8);
	uint64_t visits = u32_at(work + 4 * 15) != 0;

	*members = 0;
	for (uint32_t id = 1; id < types; id++) {
		uint32_t info = word_of(section, p + 4), kind = info >> 24 & 31, entries = info & 0xffff;
		uint32_t has = kind == 4 || kind == 5 ? entries : 0;

		*members += has;
		if (u32_at(work + 4 * (16 * (size_t)id + 15)))
			visits += 1 + has;
		p += 12;
		switch (kind) {
		case 1: case 14: case 17: p += 4; break;
		case 3: p += 12; break;
		case 4: case 5: case 15: case 19: p += 12 * (size_t)entries; break;
		case 6: case 13: p += 8 * (size_t)entries; break;
		default: break;
		}
	}
	return visits;
}

/* What differs from the promises of the header, or NULL. */
static inline const char *differs(const struct call *c, btfdump_answer answer, uint32_t held,
				  const uint8_t *expected_text, const struct lent *record, const struct lent *section,
				  const struct lent *work, const struct lent *text)
{
	uint32_t number = c->number, value = c->value;
	uint8_t after[BTFDUMP_RECORD_SIZE];

	if (btfdump_number(answer) != number)
		return "number";
	if (btfdump_value(answer) != value)
		return "value";
	if (!guarded(record) || !guarded(section) || !guarded(work) || !guarded(text))
		return "bytes outside a lent slice";
	if (!same(section, 0, section->length))
		return "section changed";
	if (!same(record, BTFDUMP_RECORD_SIZE, record->length))
		return "bytes after the record";
	if (number && (c->what == OPENING || number < 12)) { /* nothing may change */
		if (!same(record, 0, record->length))
			return "record changed";
		if (!same(work, 0, work->length))
			return "work changed";
		if (!same(text, 0, text->length))
			return "text changed";
		return NULL;
	}
	memcpy(after, record->before, sizeof after);
	if (c->what == OPENING) {
		uint32_t types, enumerators;

		count_types(section->bytes, &types, &enumerators);
		memset(after, 0, sizeof after);
		put_word(after, 0, 1);
		put_word(after, 1, section->length);
		put_word(after, 2, work->length);
		put_word(after, 3, types);
		put_word(after, 4, enumerators);
		put_word(after, 6, c->a);
		put_word(after, 7, c->b & (BTFDUMP_UNION_AS_STRUCT | BTFDUMP_STRONG_ARRAYS | BTFDUMP_PLACING | BTFDUMP_NAMES_APART));
		value = 0; /* of the text */
		if (!zero(work, BTFDUMP_WORK_SIZE(types, enumerators)))
			return "work past what the table needs";
	} else {
		if (number)
			put_word(after, 0, 0);
		put_word(after, 5, value);
		if (!number) {
			uint64_t members, visits = count_visits(section->bytes, work->bytes, (uint32_t)get_word(after, 3), &members);

			if (visits > get_word(after, 3) + members)
				return "more visits than types and members";
			put_word(after, 8, visits);
		} else if (c->what == ALL_IDS) { /* those of the last id that was accepted: tests/visits.c */
			if (get_word(record->bytes, 8) < get_word(after, 8))
				return "fewer visits than before";
			put_word(after, 8, get_word(record->bytes, 8));
		}
		if (!zero(work, number ? 0 : BTFDUMP_WORK_SIZE(get_word(after, 3), get_word(after, 4))))
			return "work not zero";
		if (!same(text, 0, held))
			return "text before the request";
		if (expected_text && value > held && memcmp(text->bytes + held, expected_text + held, value - held))
			return "text";
	}
	if (memcmp(record->bytes, after, sizeof after))
		return "record";
	if (!zero(text, value))
		return "bytes past the text";
	return NULL;
}

/*
 * Makes the call and compares. The text is compared with expected_text, which
 * is at least as long as the value expected, unless that is NULL.
 * A slice of length 0 is lent as NULL.
 */
static inline const char *make(struct session *s, const struct call *c, const uint8_t *bytes,
			       const uint8_t *expected_text, btfdump_answer *answer)
{
	struct lent record = lend(s->record, sizeof s->record, c->record_len);
	struct lent section = lend(bytes, c->section_len, c->section_len);
	struct lent work = lend(s->work, s->work_len, c->work_len);
	struct lent text = lend(s->text, s->text_len, c->text_len);
	uint8_t *r = c->record_len ? record.bytes : NULL, *w = c->work_len ? work.bytes : NULL;
	uint8_t *t = c->text_len ? text.bytes : NULL;
	const uint8_t *b = c->section_len ? section.bytes : NULL;
	const char *wrong;

	if (c->what == OPENING)
		*answer = btfdump_open(r, record.length, b, section.length, c->a, c->b, w, work.length, t, text.length);
	else if (c->what == ONE_ID)
		*answer = btfdump_dump_type(r, record.length, b, section.length, w, work.length, t, text.length, c->a);
	else
		*answer = btfdump_dump_types(r, record.length, b, section.length, w, work.length, t, text.length);
	wrong = differs(c, *answer, s->text_len, expected_text, &record, &section, &work, &text);
	if (!wrong && (c->number == 0 || (c->what != OPENING && c->number >= 12))) {
		memcpy(s->record, record.bytes, sizeof s->record);
		s->text_len = (uint32_t)get_word(s->record, 5);
		s->work_len = work.length;
		s->work = need(realloc(s->work, work.length + 1));
		memcpy(s->work, work.bytes, work.length);
		s->text = need(realloc(s->text, (size_t)s->text_len + 1));
		memcpy(s->text, text.bytes, s->text_len);
	}
	give_back(&record);
	give_back(&section);
	give_back(&work);
	give_back(&text);
	return wrong;
}

static inline void end_session(struct session *s)
{
	free(s->work);
	free(s->text);
	memset(s, 0, sizeof *s);
}

#endif
