/* Reads a case file (FORMAT.md). */
#ifndef CASEFILE_H
#define CASEFILE_H

#include "common.h"

struct cases {
	uint8_t *bytes;
	size_t length, at;
	uint32_t left; /* cases not read yet */
};

struct one_case {
	const uint8_t *name, *section, *calls, *text;
	uint32_t name_len, section_len, calls_len, text_len; /* calls_len: number of calls */
};

static inline void bad_file(const char *path)
{
	fprintf(stderr, "%s: not a case file\n", path);
	exit(2);
}

static inline uint32_t next_number(struct cases *f, const char *path)
{
	if (f->length - f->at < 4)
		bad_file(path);
	f->at += 4;
	return u32_at(f->bytes + f->at - 4);
}

/* A length and as many elements of the given size. */
static inline const uint8_t *next_bytes(struct cases *f, uint32_t *length, size_t size, const char *path)
{
	*length = next_number(f, path);
	if ((f->length - f->at) / size < *length)
		bad_file(path);
	f->at += *length * size;
	return f->bytes + f->at - *length * size;
}

static inline uint8_t *read_whole(const char *path, size_t *length)
{
	FILE *in = fopen(path, "rb");
	size_t room = 1 << 16, got;
	uint8_t *bytes = need(malloc(room));

	if (!in) {
		perror(path);
		exit(2);
	}
	*length = 0;
	while ((got = fread(bytes + *length, 1, room - *length, in)) > 0) {
		*length += got;
		if (*length == room)
			bytes = need(realloc(bytes, room *= 2));
	}
	fclose(in);
	return bytes;
}

static inline struct cases open_cases(const char *path)
{
	struct cases f = {NULL, 0, 8, 0};

	f.bytes = read_whole(path, &f.length);
	if (f.length < 12 || memcmp(f.bytes, "BTFCASE1", 8))
		bad_file(path);
	f.left = next_number(&f, path);
	return f;
}

static inline int next_case(struct cases *f, struct one_case *c, const char *path)
{
	if (f->left == 0) {
		if (f->at != f->length)
			bad_file(path);
		return 0;
	}
	f->left--;
	c->name = next_bytes(f, &c->name_len, 1, path);
	c->section = next_bytes(f, &c->section_len, 1, path);
	c->calls = next_bytes(f, &c->calls_len, 32, path);
	c->text = next_bytes(f, &c->text_len, 1, path);
	return 1;
}

#endif
