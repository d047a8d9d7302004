/*
 * btfheader: prints the C header of a raw .BTF section.
 *
 *   cc -O2 -Iinclude tools/btfheader.c crates/btfdump_c/out/libbtfdump_c.a -lpthread -o btfheader
 *   ./btfheader /sys/kernel/btf/vmlinux > vmlinux.h
 */
#include "btfdump.h"

#include <errno.h>
#include <pthread.h>
#include <stdio.h>
#include <stdlib.h>
#include <string.h>

static const char help[] =
	"usage: btfheader [OPTION ..] [FILE [ID ..]]\n"
	"\n"
	"Prints the C header of a type table: of all types, or of the types with the\n"
	"ids given and what they need. FILE is a raw .BTF section of either byte order,\n"
	"such as /sys/kernel/btf/vmlinux; without it, or with -, standard input.\n"
	"\n"
	"  -p, --pointer-size 4|8   size of a pointer on the table's machine (8)\n"
	"  -u, --union-as-struct    a union's word is 'struct', with a comment\n"
	"      --strong-arrays      elements of an array come before a pointer to it\n"
	"  -P, --placing            pads that land where the table says, also after the last member\n"
	"      --names-apart        numbers after names never make a name of the table\n"
	"      --ceiling N          at most N calls of the ordering rule for a request, that is for\n"
	"                           all types or for an id; 22: it takes more, and is refused. Any\n"
	"                           other request prints what it prints without a ceiling\n"
	"  -h, --help               this text\n"
	"\n"
	"Exit status: 0 printed, 1 the table or a request was refused (the text of the\n"
	"requests before it is printed), 2 wrong use, no memory, or a failed read or write.\n";

/* What each number of btfdump.h means to the user. */
static const char *words_for(uint32_t number)
{
	switch (number) {
	case BTFDUMP_POINTER_SIZE: return "the pointer size must be 4 or 8";
	case BTFDUMP_SECTION_TOO_LONG: return "the section is longer than 16,777,216 bytes";
	case BTFDUMP_HEADER: return "this is no .BTF section of version 1, or it is cut short";
	case BTFDUMP_STRINGS: return "the string area is empty, does not start and end in 0, or is not ASCII";
	case BTFDUMP_RECORD: return "a type record is malformed, or there are more than 262,144";
	case BTFDUMP_REFERENCE: return "a type that is followed is past the table, or a function, variable, section or declaration tag";
	case BTFDUMP_FUNCTION_VALUE: return "a member or an array element is a function prototype";
	case BTFDUMP_LOOP: return "pointers, arrays, qualifiers, type tags, typedefs or prototypes lead in a circle";
	case BTFDUMP_NO_SUCH_ID: return "the table has no type with this id";
	case BTFDUMP_TOO_DEEP: return "types are nested more than 512 deep";
	case BTFDUMP_CYCLE: return "a struct or union needs itself to be complete";
	case BTFDUMP_NAMELESS: return "a typedef without a name would have to be defined";
	case BTFDUMP_ALIGN_ZERO: return "a struct has a member that has no alignment";
	case BTFDUMP_OVERFLOW: return "a size or an offset does not fit in 32 bits";
	case BTFDUMP_TEXT_FULL: return "the text is longer than 1,073,741,824 bytes";
	case BTFDUMP_MISPLACED: return "the printed lines of a struct or union would not lie where the table says";
	case BTFDUMP_CEILING: return "ordering the types takes more calls than --ceiling allows";
	default: return "unexpected answer";
	}
}

struct job {
	uint8_t *section;
	size_t length;
	uint32_t pointer_size, modes;
	const uint64_t *ceiling; /* none: no bound on ordering */
	uint32_t *ids; /* none: all */
	size_t ids_len;
	const uint32_t *at; /* the id of the last request */
	uint8_t *text;
	uint32_t text_len;
	int status;
};

static void *need(void *p)
{
	if (!p) {
		fputs("btfheader: out of memory\n", stderr);
		exit(2);
	}
	return p;
}

/* The whole input, but no more than one byte over what can be opened. */
static void read_section(struct job *job, const char *path)
{
	int standard = !strcmp(path, "-");
	FILE *in = standard ? stdin : fopen(path, "rb");
	size_t room = 1 << 16, got;

	if (!in) {
		fprintf(stderr, "btfheader: %s: %s\n", path, strerror(errno));
		exit(2);
	}
	job->section = need(malloc(room));
	while (job->length <= BTFDUMP_MAX_SECTION &&
	       (got = fread(job->section + job->length, 1, room - job->length, in)) > 0) {
		job->length += got;
		if (job->length == room)
			job->section = need(realloc(job->section, room *= 2));
	}
	if (ferror(in)) {
		fprintf(stderr, "btfheader: %s: %s\n", path, strerror(errno));
		exit(2);
	}
	if (!standard)
		fclose(in);
	if (job->length >= 4 && !memcmp(job->section, "\x7f" "ELF", 4)) {
		fprintf(stderr, "btfheader: %s is an ELF file; take its section out first:\n"
			"  objcopy --dump-section .BTF=table.btf FILE /dev/null\n", path);
		exit(1);
	}
}

static uint32_t u32_at(const uint8_t *p)
{
	return p[0] | (uint32_t)p[1] << 8 | (uint32_t)p[2] << 16 | (uint32_t)p[3] << 24;
}

/* Work for the table's types and enumerators; for a malformed one more than enough. */
static size_t work_size(const uint8_t *section, size_t length)
{
	size_t types = 1, enumerators = 0, at, end;

	if (length >= 24) {
		at = (size_t)u32_at(section + 4) + u32_at(section + 8);
		end = at + u32_at(section + 12);
		for (; end <= length && at < end && end - at >= 12; types++) {
			uint32_t info = u32_at(section + at + 4), kind = info >> 24 & 31;
			size_t entries = info & 0xffff;

			at += 12;
			if (kind == 6 || kind == 19)
				enumerators += entries;
			if (kind == 1 || kind == 14 || kind == 17)
				at += 4;
			else if (kind == 3)
				at += 12;
			else if (kind == 4 || kind == 5 || kind == 15 || kind == 19)
				at += 12 * entries;
			else if (kind == 6 || kind == 13)
				at += 8 * entries;
		}
		if (at == end)
			return BTFDUMP_WORK_SIZE(types, enumerators);
	}
	return BTFDUMP_WORK_SIZE(length / 12 + 1, length / 8);
}

/* A request for the id at `job->at`, or for all; under the ceiling, if there is one. */
static btfdump_answer request(const struct job *job, uint8_t *record, size_t record_len,
			      uint8_t *work, size_t work_len, size_t lent)
{
	uint64_t made;

	if (job->ceiling)
		return job->at ? btfdump_dump_type_within(record, record_len, job->section, job->length, work, work_len,
							  job->text, lent, *job->at, *job->ceiling, &made)
			       : btfdump_dump_types_within(record, record_len, job->section, job->length, work, work_len,
							   job->text, lent, *job->ceiling, &made);
	return job->at ? btfdump_dump_type(record, record_len, job->section, job->length, work, work_len,
					   job->text, lent, *job->at)
		       : btfdump_dump_types(record, record_len, job->section, job->length, work, work_len,
					    job->text, lent);
}

/*
 * One session; `room` is lent for each request beyond the text so far. Gives the
 * last answer, and in *lent how much text it was lent.
 */
static btfdump_answer session(struct job *job, uint8_t *work, size_t work_len, size_t room, size_t *lent)
{
	uint8_t record[BTFDUMP_RECORD_SIZE];
	btfdump_answer answer;
	size_t i = 0;

	job->text_len = 0;
	job->at = NULL;
	*lent = 0;
	answer = btfdump_open(record, sizeof record, job->section, job->length, job->pointer_size, job->modes,
			      work, work_len, NULL, 0);
	if (btfdump_number(answer) != BTFDUMP_OK)
		return answer;
	do {
		*lent = job->text_len + room < BTFDUMP_MAX_TEXT ? job->text_len + room : BTFDUMP_MAX_TEXT;
		job->text = need(realloc(job->text, *lent));
		job->at = job->ids_len ? &job->ids[i] : NULL;
		answer = request(job, record, sizeof record, work, work_len, *lent);
		job->text_len = btfdump_value(answer);
	} while (btfdump_number(answer) == BTFDUMP_OK && ++i < job->ids_len);
	return answer;
}

static void *run(void *argument)
{
	struct job *job = argument;
	size_t work_len = work_size(job->section, job->length), lent;
	/* A kernel's text is shorter than its section. The rest of the slice is cleared at each
	 * request, so a request for one type is lent less. */
	size_t room = job->ids_len ? 1 << 18 : 2 * job->length + (1 << 16);
	uint8_t *work = need(malloc(work_len));
	btfdump_answer answer;

	/* A text that is too short closes the session: begin again with twice the room. */
	while (btfdump_number(answer = session(job, work, work_len, room, &lent)) == BTFDUMP_TEXT_FULL &&
	       lent < BTFDUMP_MAX_TEXT)
		room *= 2;
	if (job->text_len && (fwrite(job->text, 1, job->text_len, stdout) != job->text_len || fflush(stdout))) {
		perror("btfheader: standard output");
		job->status = 2;
	} else if (btfdump_number(answer) != BTFDUMP_OK) {
		fputs("btfheader: ", stderr);
		if (job->at)
			fprintf(stderr, "type %lu: ", (unsigned long)*job->at);
		fprintf(stderr, "refused (%u): %s\n", (unsigned)btfdump_number(answer),
			words_for(btfdump_number(answer)));
		job->status = 1;
	}
	free(job->text);
	free(work);
	return NULL;
}

static _Noreturn void usage(const char *what, const char *argument)
{
	fprintf(stderr, "btfheader: %s%s\nTry btfheader --help.\n", what, argument);
	exit(2);
}

/* A decimal number of at most 64 bits. */
static int long_number(const char *s, uint64_t *value)
{
	uint64_t n = 0;

	for (const char *p = s; *p; p++) {
		uint64_t digit = (uint64_t)(*p - '0');

		if (*p < '0' || *p > '9' || n > (UINT64_MAX - digit) / 10)
			return 0;
		n = 10 * n + digit;
	}
	*value = n;
	return *s != 0;
}

/* A decimal number below 2^32. */
static int number(const char *s, uint32_t *value)
{
	uint64_t n;

	if (!long_number(s, &n) || n > UINT32_MAX)
		return 0;
	*value = (uint32_t)n;
	return 1;
}

int main(int argc, char **argv)
{
	struct job job = {.pointer_size = 8};
	const char *path;
	uint64_t ceiling;
	pthread_attr_t attributes;
	pthread_t thread;
	int i = 1;

	for (; i < argc && argv[i][0] == '-' && argv[i][1]; i++) {
		if (!strcmp(argv[i], "-h") || !strcmp(argv[i], "--help"))
			return fputs(help, stdout) < 0 || fflush(stdout) ? 2 : 0;
		else if (!strcmp(argv[i], "-u") || !strcmp(argv[i], "--union-as-struct"))
			job.modes |= BTFDUMP_UNION_AS_STRUCT;
		else if (!strcmp(argv[i], "--strong-arrays"))
			job.modes |= BTFDUMP_STRONG_ARRAYS;
		else if (!strcmp(argv[i], "-P") || !strcmp(argv[i], "--placing"))
			job.modes |= BTFDUMP_PLACING;
		else if (!strcmp(argv[i], "--names-apart"))
			job.modes |= BTFDUMP_NAMES_APART;
		else if (!strcmp(argv[i], "--ceiling")) {
			if (++i == argc || !long_number(argv[i], &ceiling))
				usage("--ceiling wants a number of 64 bits", "");
			job.ceiling = &ceiling;
		} else if (strcmp(argv[i], "-p") && strcmp(argv[i], "--pointer-size"))
			usage("unknown option ", argv[i]);
		else if (++i == argc || !number(argv[i], &job.pointer_size))
			usage("--pointer-size wants a number", "");
	}
	path = i < argc ? argv[i++] : "-";
	job.ids = need(malloc((size_t)argc * sizeof *job.ids));
	for (; i < argc; i++)
		if (!number(argv[i], &job.ids[job.ids_len++]))
			usage("no id: ", argv[i]);
	read_section(&job, path);
	/* the stack of the main thread is whatever the caller's limit is */
	if (pthread_attr_init(&attributes) || pthread_attr_setstacksize(&attributes, BTFDUMP_STACK_SIZE + (1u << 16)) ||
	    pthread_create(&thread, &attributes, run, &job) || pthread_join(thread, NULL)) {
		fputs("btfheader: no thread\n", stderr);
		return 2;
	}
	free(job.section);
	free(job.ids);
	return job.status;
}
