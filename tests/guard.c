/*
 * Bad input through the C exports: guard COUNT SEED CASEFILE ..
 *
 * Sections are taken from the case files and damaged, or made up; between the
 * calls record, work and section are altered. Every lent slice ends at an
 * unmapped page. Whatever the bytes are, a call must end, stay inside what it
 * was lent, answer a number of the header and change no more than that allows.
 * Case i of a run is the only case of the run with COUNT 1 and SEED + i.
 */
#define _GNU_SOURCE
#include "casefile.h"

#include <signal.h>
#include <sys/mman.h>
#include <unistd.h>

#define SECONDS 30 /* for one case */
#define MOST (4u << 20)

/* An area that ends at an unmapped page; a slice is its last bytes. */
struct area {
	uint8_t *end;
	uint8_t *bytes;
	size_t length;
};

static struct area record, section, work, text, output;
static uint8_t *copy_of_section, *copy_of_text;
static uint64_t random_state, seed;
static unsigned long seen[256], calls;
static const char *volatile doing = "start";

static struct stored {
	const uint8_t *bytes;
	uint32_t length;
} *store; /* the sections of the case files */
static size_t stored;

static uint64_t next_random(void) /* splitmix64 */
{
	uint64_t z = random_state += 0x9e3779b97f4a7c15u;

	z = (z ^ z >> 30) * 0xbf58476d1ce4e5b9u;
	z = (z ^ z >> 27) * 0x94d049bb133111ebu;
	return z ^ z >> 31;
}

static size_t below(size_t n)
{
	return n ? next_random() % n : 0;
}

static void died(int sig)
{
	char line[160];
	int n = snprintf(line, sizeof line, "guard: %s in case with seed %llu, %s\n",
			 sig == SIGALRM ? "no end" : "fault", (unsigned long long)seed, doing);

	if (write(1, line, (size_t)n) < 0)
		_exit(3);
	_exit(1);
}

static void wrong(const char *what, btfdump_answer answer)
{
	printf("guard: seed %llu, %s: %s, answer %u %u\n", (unsigned long long)seed, doing, what,
	       (unsigned)btfdump_number(answer), (unsigned)btfdump_value(answer));
	exit(1);
}

static void map(struct area *a)
{
	size_t page = (size_t)sysconf(_SC_PAGESIZE);
	uint8_t *p = mmap(NULL, MOST + page, PROT_READ | PROT_WRITE, MAP_PRIVATE | MAP_ANONYMOUS, -1, 0);

	if (p == MAP_FAILED || mprotect(p + MOST, page, PROT_NONE)) {
		perror("mmap");
		exit(2);
	}
	a->end = p + MOST;
}

/* Lends the last n bytes, moving what the slice held before. */
static void lend_last(struct area *a, size_t n)
{
	uint8_t *bytes = a->end - n;

	if (n > a->length)
		memset(bytes, (int)next_random(), n - a->length);
	if (a->length)
		memmove(bytes, a->bytes, n < a->length ? n : a->length);
	a->bytes = bytes;
	a->length = n;
}

static uint32_t odd_number(void)
{
	static const uint32_t odd[] = {0, 1, 2, 3, 7, 8, 12, 255, 256, 65535, 65536,
				       0x7fffffff, 0x80000000, 0xfffffffe, 0xffffffff};

	switch (below(4)) {
	case 0: return (uint32_t)next_random();
	case 1: return (uint32_t)below(64);
	case 2: return (uint32_t)below(section.length + 2);
	default: return odd[below(sizeof odd / sizeof *odd)];
	}
}

static void put32(uint8_t *p, uint32_t value)
{
	for (int i = 0; i < 4; i++)
		p[i] = (uint8_t)(value >> 8 * i);
}

/* Changes a few bits, bytes or words. */
static void damage(struct area *a, size_t times)
{
	while (times-- && a->length) {
		size_t at = below(a->length);

		if (below(2) || a->length < 4)
			a->bytes[at] ^= (uint8_t)(1u << below(8));
		else if (below(4))
			put32(a->bytes + (at & ~(size_t)3) - (a->length - (at & ~(size_t)3) < 4 ? 4 : 0), odd_number());
		else
			a->bytes[at] = (uint8_t)next_random();
	}
}

/* An id for a type of the given kind to refer to: mostly one that opening accepts, and mostly an earlier one. */
static uint32_t some_id(const uint8_t *kinds, uint32_t types, uint32_t self)
{
	uint32_t id = 0;

	for (int tries = 0; tries < 8; tries++) {
		id = (uint32_t)below(kinds[self] >= 4 && kinds[self] <= 5 && below(4) == 0 ? types + 1 : self);
		if (kinds[id] != 12 && kinds[id] != 14 && kinds[id] != 15 && kinds[id] != 17 &&
		    (kinds[id] != 13 || kinds[self] == 2 || kinds[self] == 13))
			break;
	}
	return below(80) ? id : (uint32_t)below(types + 2);
}

/* A section of up to 40 random records, mostly well formed. */
static void make_up_section(void)
{
	static const uint8_t words[20] = {0, 1, 0, 3, 3, 3, 2, 0, 0, 0, 0, 0, 0, 2, 1, 3, 0, 1, 0, 3};
	static const char strings[] = "\0int\0a\0b\0__builtin_va_list\0x\0yx";
	static uint8_t area[1 << 14];
	uint32_t types = (uint32_t)below(41), at = 0, bit = 0;
	uint8_t kinds[42] = {0};

	for (uint32_t i = 1; i <= types; i++)
		kinds[i] = (uint8_t)(below(4) ? 1 + below(6) : 1 + below(19));
	for (uint32_t i = 1; i <= types; i++, bit = 0) {
		uint32_t kind = kinds[i], one = kind == 1 || kind == 3 || kind == 14 || kind == 17;
		uint32_t entries = one ? 1 : (uint32_t)below(4), flag = below(3) == 0;
		int refers = kind == 2 || (kind >= 8 && kind <= 13) || kind == 18;

		put32(area + at, (uint32_t)below(sizeof strings));
		put32(area + at + 4, kind << 24 | entries | flag << 31);
		put32(area + at + 8, refers ? some_id(kinds, types, i) : (uint32_t)below(5) * 4);
		at += 12;
		for (uint32_t w = 0; w < words[kind] * entries; w++, at += 4) {
			uint32_t place = w % words[kind], value = (uint32_t)below(9);

			if (kind == 1)
				value = (uint32_t)below(below(20) ? 9 : 3) * 8;
			else if (kind == 3 ? place < 2 : (kind == 4 || kind == 5 || kind == 13) && place == 1)
				value = some_id(kinds, types, i);
			else if (place == 0 && kind >= 4 && kind != 15)
				value = (uint32_t)below(sizeof strings);
			else if (kind <= 5 && kind >= 4)
				value = (bit += (uint32_t)below(3) * 32) | (flag ? (uint32_t)below(3) << 24 : 0);
			put32(area + at, below(100) ? value : odd_number());
		}
	}
	lend_last(&section, 24 + at + sizeof strings);
	memcpy(section.bytes, "\x9f\xeb\x01", 4);
	put32(section.bytes + 4, 24);
	put32(section.bytes + 8, 0);
	put32(section.bytes + 12, at);
	put32(section.bytes + 16, at);
	put32(section.bytes + 20, sizeof strings);
	memcpy(section.bytes + 24, area, at);
	memcpy(section.bytes + 24 + at, strings, sizeof strings);
	if (below(4) == 0)
		turn(section.bytes, (uint32_t)section.length);
}

static void choose_section(void)
{
	const struct stored *s = &store[below(stored)];
	size_t kind = below(16);

	if (s->length > 4096 && below(16))
		s = &store[0];
	section.length = 0;
	if (kind == 0) { /* anything */
		lend_last(&section, below(100));
		damage(&section, section.length * below(9));
		return;
	}
	if (kind < 8) {
		lend_last(&section, s->length);
		memcpy(section.bytes, s->bytes, s->length);
	} else {
		make_up_section();
	}
	if (kind == 1)
		lend_last(&section, below(section.length + 1));
	else if (kind == 2 && section.length >= 24)
		put32(section.bytes + 4 * below(6), odd_number());
	else if (kind == 3 || kind == 4 || kind == 8)
		damage(&section, 1 + below(4));
}

static int all_zero(const struct area *a, size_t from)
{
	for (size_t i = from; i < a->length; i++)
		if (a->bytes[i])
			return 0;
	return 1;
}

static int opening(void)
{
	uint32_t pointer = below(20) ? below(2) ? 8 : 4 : (uint32_t)below(20);
	uint8_t before[BTFDUMP_RECORD_SIZE] = {0};
	btfdump_answer answer;
	uint32_t number;

	doing = "opening";
	memcpy(copy_of_section, section.bytes, section.length);
	memcpy(before, record.bytes, record.length < sizeof before ? record.length : sizeof before);
	answer = btfdump_open(record.bytes, record.length, section.bytes, section.length, pointer, (uint32_t)below(2),
			      work.bytes, work.length, text.bytes, text.length);
	number = btfdump_number(answer);
	calls++;
	seen[number < 256 ? number : 254]++;
	if (number > 9 && number != 255)
		wrong("no number of an opening", answer);
	if ((number == 255) != (record.length < BTFDUMP_RECORD_SIZE))
		wrong("255 and the record's length", answer);
	if (number && btfdump_value(answer))
		wrong("value of a refused opening", answer);
	if (number && memcmp(before, record.bytes, record.length < sizeof before ? record.length : sizeof before))
		wrong("record after a refused opening", answer);
	if (!number && !all_zero(&text, 0))
		wrong("text after an opening", answer);
	if (memcmp(copy_of_section, section.bytes, section.length))
		wrong("section changed", answer);
	return number == 0;
}

/* 11 or 10, as the record and the lengths decide; otherwise 0. */
static uint32_t refused_before(int all, uint32_t id)
{
	if (record.length < BTFDUMP_RECORD_SIZE || get_word(record.bytes, 0) != 1 ||
	    get_word(record.bytes, 1) != section.length || get_word(record.bytes, 2) != work.length ||
	    (uint32_t)get_word(record.bytes, 5) > text.length)
		return 11;
	return !all && id >= (uint32_t)get_word(record.bytes, 3) ? 10 : 0;
}

static void request(void)
{
	int all = below(2) == 0;
	uint32_t id = below(10) ? (uint32_t)below(section.length / 12 + 2) : odd_number();
	uint32_t early = refused_before(all, id), number, value, old = 0;
	uint8_t before[BTFDUMP_RECORD_SIZE] = {0};
	btfdump_answer answer;

	doing = all ? "all ids" : "one id";
	memcpy(copy_of_section, section.bytes, section.length);
	memcpy(copy_of_text, text.bytes, text.length);
	if (record.length >= sizeof before) {
		memcpy(before, record.bytes, sizeof before);
		old = (uint32_t)get_word(before, 5);
	}
	answer = all ? btfdump_dump_types(record.bytes, record.length, section.bytes, section.length,
					  work.bytes, work.length, text.bytes, text.length)
		     : btfdump_dump_type(record.bytes, record.length, section.bytes, section.length,
					 work.bytes, work.length, text.bytes, text.length, id);
	number = btfdump_number(answer);
	value = btfdump_value(answer);
	calls++;
	seen[number < 256 ? number : 254]++;
	if (memcmp(copy_of_section, section.bytes, section.length))
		wrong("section changed", answer);
	if (early) {
		if (number != early || value != old)
			wrong("10 or 11 by record and lengths", answer);
		if (memcmp(before, record.bytes, record.length < sizeof before ? 0 : sizeof before) ||
		    memcmp(copy_of_text, text.bytes, text.length))
			wrong("memory changed by 10 or 11", answer);
		return;
	}
	if (number && (number < 12 || number > (get_word(before, 7) & BTFDUMP_PLACING ? 18u : 17u)))
		wrong("no number of a request", answer);
	if (value < old || value > text.length || (number && !all && value != old))
		wrong("length of the text", answer);
	if (memcmp(copy_of_text, text.bytes, old) || !all_zero(&text, value))
		wrong("old text or bytes past the text", answer);
	if (number && !all_zero(&work, 0))
		wrong("work not zero", answer);
	put_word(before, 0, number ? 0 : 1);
	memcpy(before + 40, record.bytes + 40, 8);
	/* visits: the work's count, or as they were; of all ids the last accepted one's */
	if (!number)
		put_word(before, 8, work.length < 12 ? 0 : u32_at(work.bytes + 8));
	else if (all)
		memcpy(before + 64, record.bytes + 64, 4);
	memset(before + 68, 0, 4);
	if (memcmp(before, record.bytes, sizeof before) || (uint32_t)get_word(record.bytes, 5) != value)
		wrong("record", answer);
}

/* The call that only reads: the rest of the path stays, and so does everything where it is refused. */
static void which_field(void)
{
	static uint8_t path[2048 + 64], before[sizeof path];
	size_t room = below(2) ? 2048 : below(24), held = text.length;
	uint32_t id = below(10) ? (uint32_t)below(section.length / 12 + 2) : odd_number();
	uint32_t bit = below(2) ? (uint32_t)below(512) : odd_number(), early, number, value;
	btfdump_answer answer;

	doing = "field";
	text.length = (size_t)1 << 32; /* none is lent, so none is short */
	early = refused_before(0, id);
	text.length = held;
	memset(path, (int)next_random(), sizeof path);
	memcpy(before, path, sizeof path);
	answer = btfdump_field(record.bytes, record.length, section.bytes, section.length, work.bytes, work.length, path, room, id, bit);
	number = btfdump_number(answer);
	value = btfdump_value(answer);
	calls++;
	seen[number < 256 ? number : 254]++;
	if (early ? number != early : number && number != 12 && number != 16 && number != 17 && number != 21)
		wrong("no number of this call", answer);
	if (number ? value : value == 0 || value > 512 || 4 * value > room)
		wrong("length of the path", answer);
	if (memcmp(before + 4 * value, path + 4 * value, sizeof path - 4 * value))
		wrong("bytes past the path", answer);
}

/* A section cut down: reads record and section, and writes the output slice alone. */
static void cut_down(void)
{
	uint8_t ids[12];
	uint32_t number, value;
	btfdump_answer answer;

	doing = "cut";
	lend_last(&output, below(3) ? 2 * section.length : below(section.length + 1));
	memset(output.bytes, 0x5a, output.length);
	memcpy(copy_of_section, section.bytes, section.length);
	for (int i = 0; i < 3; i++)
		put32(ids + 4 * i, below(20) ? (uint32_t)below(section.length / 24 + 1) : odd_number());
	answer = btfdump_cut(record.bytes, record.length, section.bytes, section.length, ids, below(sizeof ids + 1), output.bytes, output.length);
	number = btfdump_number(answer);
	value = btfdump_value(answer);
	calls++;
	seen[number < 256 ? number : 254]++;
	if (number && number != 10 && number != 11 && number != 23)
		wrong("no number of this call", answer);
	if ((record.length < BTFDUMP_RECORD_SIZE || get_word(record.bytes, 0) != 1 || get_word(record.bytes, 1) != section.length) && number != 11)
		wrong("11 by record and length", answer);
	if (number ? value : value < 25 || value > output.length)
		wrong("length written", answer);
	for (size_t i = value; i < output.length; i++)
		if (output.bytes[i] != 0x5a)
			wrong("bytes past the new section", answer);
	if (memcmp(copy_of_section, section.bytes, section.length))
		wrong("section changed", answer);
}

/* What a host may do to lent memory between two calls. */
static void alter(void)
{
	size_t what = below(12);

	if (work.length)
		work.bytes[work.length - 1] = 1; /* far from what is used, but part of the work */
	if (what < 3) {
		damage(&work, 1 + below(60));
	} else if (what == 3) {
		damage(&section, 1 + below(8));
	} else if (what == 4 && record.length >= BTFDUMP_RECORD_SIZE) {
		put_word(record.bytes, 3 + (int)below(6), odd_number());
	} else if (what == 5) {
		damage(&record, 1 + below(8));
	} else if (what == 6) {
		lend_last(&text, below(3000));
	} else if (what == 7 && below(4) == 0) {
		lend_last(&section, below(section.length + 2));
	} else if (what == 8 && below(4) == 0) {
		lend_last(&work, below(work.length + 2));
	} else if (what == 9 && work.length >= 2048) {
		for (size_t i = below(64); i--;) /* the state of the types comes first */
			put32(work.bytes + 4 * below(512), odd_number());
	}
}

static void one_case_of(uint64_t number)
{
	size_t enough;

	random_state = seed = number;
	alarm(SECONDS);
	choose_section();
	enough = BTFDUMP_WORK_SIZE(section.length / 12 + 2, section.length / 8);
	record.length = work.length = text.length = 0;
	lend_last(&record, below(100) ? BTFDUMP_RECORD_SIZE + below(3) * 8 : below(BTFDUMP_RECORD_SIZE));
	lend_last(&work, below(20) ? enough + below(2) * below(100) : below(enough));
	lend_last(&text, below(8) ? 2000 + below(6000) : below(200));
	for (size_t n = opening() ? 1 + below(6) : below(2); n--;) {
		if (below(2))
			alter();
		which_field();
		if (below(8) == 0)
			cut_down();
		request();
		if (below(40) == 0)
			opening();
	}
}

static uint64_t first, count;

static void *run(void *argument)
{
	static uint8_t signal_stack[1 << 16];
	stack_t on = {.ss_sp = signal_stack, .ss_size = sizeof signal_stack};

	(void)argument;
	sigaltstack(&on, NULL); /* a fault may be a full stack */
	for (uint64_t i = 0; i < count; i++)
		one_case_of(first + i);
	alarm(0);
	printf("guard: %llu cases, %lu calls, no fault; numbers", (unsigned long long)count, calls);
	for (int i = 0; i < 256; i++)
		if (seen[i])
			printf(" %d:%lu", i, seen[i]);
	printf("\n");
	return NULL;
}

int main(int argc, char **argv)
{
	struct sigaction action = {.sa_handler = died, .sa_flags = SA_ONSTACK};

	if (argc < 4) {
		fputs("usage: guard COUNT SEED CASEFILE ..\n", stderr);
		return 2;
	}
	count = strtoull(argv[1], NULL, 10);
	first = strtoull(argv[2], NULL, 10);
	for (char **path = argv + 3; *path; path++) {
		struct cases f = open_cases(*path);
		struct one_case c;

		while (next_case(&f, &c, *path)) {
			if (c.section_len > MOST / 32)
				continue;
			store = need(realloc(store, (stored + 1) * sizeof *store));
			store[stored++] = (struct stored){c.section, c.section_len};
		}
	}
	map(&record);
	map(&section);
	map(&work);
	map(&text);
	map(&output);
	copy_of_section = need(malloc(MOST));
	copy_of_text = need(malloc(MOST));
	sigaction(SIGALRM, &action, NULL);
	sigaction(SIGSEGV, &action, NULL);
	sigaction(SIGBUS, &action, NULL);
	sigaction(SIGILL, &action, NULL);
	sigaction(SIGABRT, &action, NULL);
	return on_documented_stack(run, NULL);
}
