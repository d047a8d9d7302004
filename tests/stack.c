/*
 * The stack that the calls use, on the tables at the limits of depth: stack FILE ..
 * Each call runs on a thread whose stack was painted before, and the paint that is left is counted. The most of each kind of
 * call is printed; more than the README says, or than BTFDUMP_STACK_SIZE, is a failure.
 */
#define _DEFAULT_SOURCE
#include "casefile.h"
#include "session.h"

#include <sys/mman.h>

#define PAINT 0x5a

enum { OPEN, PLAIN, CAUSES, FIELD, CUT, DECLARATION, CALLS };

static const char *const names[CALLS] = {"opening", "all ids", "with causes", "field", "cut", "declaration"};
static const size_t said[CALLS] = {3174, 409, 2457, 409, 5222, 716}; /* KiB: 3.1, 0.4, 2.4, 0.4, 5.1 and 0.7 MiB */

struct job {
	int what;
	const struct one_case *c;
	const uint8_t *opening;
	uint8_t record[BTFDUMP_RECORD_SIZE], *work, *text, *list;
	size_t work_len, text_len, list_len;
};

static void *call(void *argument)
{
	struct job *j = argument;
	const struct one_case *c = j->c;
	static uint64_t chain[BTFDUMP_CHAIN_WORDS];
	uint32_t last = (uint32_t)get_word(j->record, 3) - 1;
	uint8_t id[4] = {(uint8_t)last, (uint8_t)(last >> 8)};
	uint64_t count;

	switch (j->what) {
	case OPEN:
		btfdump_open(j->record, sizeof j->record, c->section, c->section_len, u32_at(j->opening + 4), u32_at(j->opening + 8), j->work,
			     j->work_len, j->text, j->text_len);
		break;
	case PLAIN:
		btfdump_dump_types(j->record, sizeof j->record, c->section, c->section_len, j->work, j->work_len, j->text, j->text_len);
		break;
	case CAUSES:
		btfdump_dump_types_causes(j->record, sizeof j->record, c->section, c->section_len, j->work, j->work_len, j->text, j->text_len,
					  j->list, j->list_len, &count);
		break;
	case FIELD:
		btfdump_field(j->record, sizeof j->record, c->section, c->section_len, j->work, j->work_len, j->list, j->list_len,
			      last, 0);
		break;
	case CUT:
		btfdump_cut(j->record, sizeof j->record, c->section, c->section_len, id, sizeof id, j->text, j->text_len);
		break;
	default:
		memset(j->text, '(', j->text_len);
		for (size_t i = 4; i + 1 < j->text_len; i += 2)
			memcpy(j->text + i, "(*", 2);
		memcpy(j->text, "int ", 4);
		btfdump_read_declaration(j->text, j->text_len, chain, BTFDUMP_CHAIN_WORDS);
	}
	return NULL;
}

/* KiB of stack, the thread's own start counted */
static size_t used(struct job *j)
{
	size_t size = BTFDUMP_STACK_SIZE, left = 0;
	uint8_t *stack = mmap(NULL, size, PROT_READ | PROT_WRITE, MAP_PRIVATE | MAP_ANONYMOUS, -1, 0);
	pthread_attr_t attributes;
	pthread_t thread;

	if (stack == MAP_FAILED)
		need(NULL);
	memset(stack, PAINT, size);
	if (pthread_attr_init(&attributes) || pthread_attr_setstack(&attributes, stack, size) ||
	    pthread_create(&thread, &attributes, call, j) || pthread_join(thread, NULL)) {
		fputs("no thread\n", stderr);
		exit(2);
	}
	while (left < size && stack[left] == PAINT)
		left++;
	munmap(stack, size);
	return (size - left + 1023) / 1024;
}

int main(int argc, char **argv)
{
	size_t most[CALLS] = {0};
	int over = 0;

	for (int i = 1; i < argc; i++) {
		struct cases f = open_cases(argv[i]);
		struct one_case c;

		while (next_case(&f, &c, argv[i])) {
			struct job j = {0, &c, c.calls, {0}, NULL, NULL, NULL, u32_at(c.calls + 16), 1 << 20, 1 << 20};

			j.work = need(malloc(j.work_len)), j.text = need(malloc(j.text_len)), j.list = need(malloc(j.list_len));
			for (int what = OPEN; what < CALLS; what++) {
				size_t kib;

				call(&j); /* opened anew: the request before may have closed the session */
				j.what = what;
				kib = used(&j);
				most[what] = kib > most[what] ? kib : most[what];
				j.what = OPEN;
			}
			free(j.work), free(j.text), free(j.list);
		}
		free(f.bytes);
	}
	printf("stack:");
	for (int i = 0; i < CALLS; i++) {
		printf("%s %s %zu KiB", i ? "," : "", names[i], most[i]);
		over += most[i] > said[i] || !most[i];
	}
	printf("%s\n", over ? "; MORE THAN IS SAID" : "");
	return over != 0;
}
