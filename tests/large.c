/*
 * The longest text, by hand (1.1 GB of memory, some ten seconds): a text of
 * 1,073,741,824 bytes passes in a slice that is longer, one more byte is refused.
 *
 *   gcc -O2 -Iinclude tests/large.c crates/btfdump_c/out/libbtfdump_c.a -lpthread -o build/tests/large
 */
#define _GNU_SOURCE
#include "common.h"

#include <sys/mman.h>

#define W(x) (x) & 255, (x) >> 8 & 255, (x) >> 16 & 255, (x) >> 24 & 255
#define PADS 107374180u /* lines of ten bytes, "\n\tint: 32;" */
#define SLICE ((size_t)BTFDUMP_MAX_TEXT + 4096)

/* 1 INT int, 2 STRUCT {int b} with pads before b and the name SS or SSS, which makes the last byte */
static const uint8_t section[] = {
	0x9f, 0xeb, 1, 0, W(24), W(0), W(40), W(40), W(11),
	W(1), W(1u << 24), W(4), W(32),
	W(6), W(4u << 24 | 1), W(4), W(9), W(1), W(32 * PADS),
	0, 'i', 'n', 't', 0, 'S', 'S', 'S', 0, 'b', 0
};

static uint8_t *text;

static int request(uint32_t name, uint32_t number, uint32_t value)
{
	static uint8_t record[BTFDUMP_RECORD_SIZE], work[BTFDUMP_WORK_SIZE(3, 0)], s[sizeof section];
	btfdump_answer answer;
	size_t end = SLICE;

	memcpy(s, section, sizeof s);
	s[40] = (uint8_t)name;
	answer = btfdump_open(record, sizeof record, s, sizeof s, 4, 0, work, sizeof work, NULL, 0);
	if (btfdump_number(answer) == 0)
		answer = btfdump_dump_types(record, sizeof record, s, sizeof s, work, sizeof work, text, SLICE);
	while (end && !text[end - 1])
		end--;
	printf("large: number %u, length %u, text %zu\n", (unsigned)btfdump_number(answer),
	       (unsigned)btfdump_value(answer), end);
	return btfdump_number(answer) != number || btfdump_value(answer) != value || end != value;
}

static void *large(void *argument)
{
	int failed;

	text = mmap(NULL, SLICE, PROT_READ | PROT_WRITE, MAP_PRIVATE | MAP_ANONYMOUS, -1, 0);
	if (text == MAP_FAILED)
		return argument;
	failed = request(6, BTFDUMP_OK, BTFDUMP_MAX_TEXT);
	failed |= request(5, BTFDUMP_TEXT_FULL, 0);
	return failed ? argument : NULL;
}

int main(void)
{
	return on_documented_stack(large, &text);
}
