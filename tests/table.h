/* A section in either order of bytes, and where its records stand. */
#ifndef TABLE_H
#define TABLE_H

#include "common.h"

struct table {
	const uint8_t *section;
	size_t length;
	uint32_t types, enumerators, *places;
};

static inline uint32_t at(const struct table *t, size_t place)
{
	return word_of(t->section, t->section + place);
}

static inline uint32_t kind_of(const struct table *t, uint32_t id)
{
	return id ? at(t, t->places[id] + 4) >> 24 & 31 : 0;
}

/* words of a record */
static inline uint32_t words_of(uint32_t info)
{
	uint32_t kind = info >> 24 & 31, entries = info & 0xffff;

	if (kind == 1 || kind == 14 || kind == 17)
		return 4;
	if (kind == 3)
		return 6;
	if (kind == 4 || kind == 5 || kind == 15 || kind == 19)
		return 3 + 3 * entries;
	if (kind == 6 || kind == 13)
		return 3 + 2 * entries;
	return 3;
}

/* of a section that opening may accept; 0 where its records do not fit their area */
static inline int index_of(struct table *t, const uint8_t *section, size_t length)
{
	uint64_t start, end;

	*t = (struct table){section, length, 1, 0, NULL};
	if (length < 24)
		return 0;
	start = (uint64_t)at(t, 4) + at(t, 8);
	end = start + at(t, 12);
	if (end > length)
		return 0;
	t->places = need(malloc((length / 12 + 2) * sizeof *t->places));
	while (start < end) {
		uint32_t info;

		if (end - start < 12)
			return 0;
		info = at(t, start + 4);
		if ((info >> 24 & 31) == 6 || (info >> 24 & 31) == 19)
			t->enumerators += info & 0xffff;
		t->places[t->types++] = (uint32_t)start;
		start += 4 * words_of(info);
	}
	return start == end;
}

#endif
