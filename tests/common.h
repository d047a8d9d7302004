/* What the C tests share: numbers in bytes, the other order of bytes, and the stack that a test runs on. */
#ifndef COMMON_H
#define COMMON_H

#include "btfdump.h"

#include <pthread.h>
#include <stdio.h>
#include <stdlib.h>
#include <string.h>

static inline void *need(void *p)
{
	if (!p) {
		fputs("out of memory\n", stderr);
		exit(2);
	}
	return p;
}

/* The record is sixteen words of 8 bytes. */
static inline void put_word(uint8_t *record, int word, uint64_t value)
{
	for (int i = 0; i < 8; i++)
		record[8 * word + i] = (uint8_t)(value >> 8 * i);
}

static inline uint64_t get_word(const uint8_t *record, int word)
{
	uint64_t value = 0;

	for (int i = 7; i >= 0; i--)
		value = value << 8 | record[8 * word + i];
	return value;
}

static inline uint32_t u32_at(const uint8_t *p)
{
	return p[0] | (uint32_t)p[1] << 8 | (uint32_t)p[2] << 16 | (uint32_t)p[3] << 24;
}

/* A word of a section, in the order that its magic tells. */
static inline uint32_t word_of(const uint8_t *section, const uint8_t *p)
{
	if (section[0] == 0xeb)
		return p[3] | (uint32_t)p[2] << 8 | (uint32_t)p[1] << 16 | (uint32_t)p[0] << 24;
	return u32_at(p);
}

static inline void turn_word(uint8_t *p)
{
	uint8_t a = p[0], b = p[1];

	p[0] = p[3], p[1] = p[2], p[2] = b, p[3] = a;
}

/* Turns the magic, the words of the header and those of the type area. 0 where these are not told apart from other bytes. */
static inline int turn(uint8_t *s, uint32_t length)
{
	uint64_t header, types, types_len, strings, strings_len, i;

	if (length < 24 || s[0] != 0x9f || s[1] != 0xeb)
		return 0;
	header = u32_at(s + 4), types = header + u32_at(s + 8), types_len = u32_at(s + 12);
	strings = header + u32_at(s + 16), strings_len = u32_at(s + 20);
	if (header < 24 || types_len % 4 || types + types_len > length ||
	    (strings < types + types_len && types < strings + strings_len))
		return 0;
	s[0] = 0xeb, s[1] = 0x9f;
	for (i = 4; i < 24; i += 4)
		turn_word(s + i);
	for (i = types; i < types + types_len; i += 4)
		turn_word(s + i);
	return 1;
}

/* Runs a test on the stack that the header asks for, not on more. */
static inline int on_documented_stack(void *(*test)(void *), void *argument)
{
	pthread_attr_t attributes;
	pthread_t thread;
	void *failed;

	if (pthread_attr_init(&attributes) || pthread_attr_setstacksize(&attributes, BTFDUMP_STACK_SIZE) ||
	    pthread_create(&thread, &attributes, test, argument) || pthread_join(thread, &failed)) {
		fputs("no thread\n", stderr);
		return 2;
	}
	return failed != NULL;
}

#endif
