/*
 * The built program on stored sections: program PROGRAM FILE ..
 * FILE is NAME.btf, with what the program prints of it in NAME.out, or a case file. Each section goes to the program's
 * standard input by a pipe, in two pieces, the second when the first has been read. What it prints is compared with what is
 * stored for its settings (pointer size 8, no mode, all ids, 65,536 bytes each of section, work and text), and with what the
 * library gives for them. Among the sections must be one for each number that the program can print, one that is longer
 * than 65,536 bytes, and texts of exactly 65,536 bytes and of one more.
 */
#define _DEFAULT_SOURCE
#include "casefile.h"
#include "session.h"

#include <errno.h>
#include <signal.h>
#include <sys/ioctl.h>
#include <sys/wait.h>
#include <unistd.h>

#define MOST 65536u

struct printed {
	uint8_t bytes[MOST + 64];
	size_t length;
};

static const char *program;
static uint32_t runs, with_stored, differ, longer, full, over, refused[32];

static void print_refused(struct printed *p, uint32_t number)
{
	p->length = (size_t)snprintf((char *)p->bytes, sizeof p->bytes, "refused %u\n", (unsigned)number);
}

/* All ids of what the program reads, on its memory; text_len is more where the length of a longer text is asked for. */
static btfdump_answer by_library(const uint8_t *section, size_t length, size_t text_len, uint8_t *text)
{
	static uint8_t work[MOST];
	uint8_t record[BTFDUMP_RECORD_SIZE];
	btfdump_answer a;

	memset(work, OLD_BYTE, sizeof work);
	length = length < MOST ? length : MOST;
	a = btfdump_open(record, sizeof record, section, length, 8, 0, work, sizeof work, text, text_len);
	if (btfdump_number(a))
		return a;
	return btfdump_dump_types(record, sizeof record, section, length, work, sizeof work, text, text_len);
}

static void expect(struct printed *p, const uint8_t *section, size_t length)
{
	static uint8_t text[MOST + 1];
	btfdump_answer a = by_library(section, length, MOST, text);
	uint32_t number = btfdump_number(a);

	refused[number & 31]++;
	longer += length > MOST;
	if (number) {
		print_refused(p, number);
		over += number == BTFDUMP_TEXT_FULL && by_library(section, length, MOST + 1, text) == MOST + 1;
		return;
	}
	p->length = btfdump_value(a);
	memcpy(p->bytes, text, p->length);
	full += p->length == MOST;
}

static void *failed(const char *what)
{
	perror(what);
	exit(2);
}

/* Until the pipe is empty: what is written next comes by another read. A program that stopped reading empties it no more. */
static void wait_until_read(int to, pid_t child)
{
	siginfo_t ended = {0};
	int left = 1;

	while (!ioctl(to, FIONREAD, &left) && left && !waitid(P_PID, (id_t)child, &ended, WEXITED | WNOHANG | WNOWAIT) && !ended.si_pid)
		usleep(20);
}

static void give(int to, const uint8_t *bytes, size_t length)
{
	while (length) {
		ssize_t n = write(to, bytes, length);

		if (n < 0 && errno == EPIPE)
			return;
		if (n < 0)
			failed("write");
		bytes += n, length -= (size_t)n;
	}
}

/* What the program prints, and whether it ended with status 0. */
static int run_program(struct printed *p, const uint8_t *section, size_t length)
{
	size_t first = length ? 1 + runs * 37 % length : 0;
	int in[2], out[2], status;
	ssize_t n;
	pid_t child;

	if (pipe(in) || pipe(out))
		failed("pipe");
	child = fork();
	if (child < 0)
		failed("fork");
	if (!child) {
		signal(SIGPIPE, SIG_DFL);
		alarm(60);
		if (dup2(in[0], 0) < 0 || dup2(out[1], 1) < 0)
			_exit(127);
		close(in[0]), close(in[1]), close(out[0]), close(out[1]);
		execl(program, program, (char *)NULL);
		_exit(127);
	}
	close(in[0]), close(out[1]);
	give(in[1], section, first);
	if (first < length)
		wait_until_read(in[1], child);
	give(in[1], section + first, length - first);
	close(in[1]);
	for (p->length = 0; (n = read(out[0], p->bytes + p->length, sizeof p->bytes - p->length)) > 0;)
		p->length += (size_t)n;
	close(out[0]);
	return waitpid(child, &status, 0) == child && status == 0;
}

static int equal(const struct printed *a, const struct printed *b)
{
	return a->length == b->length && !memcmp(a->bytes, b->bytes, a->length);
}

static void one_section(const char *name, const uint8_t *section, size_t length, const struct printed *stored)
{
	static struct printed expected, got;
	const char *wrong = NULL;
	int ended;

	expect(&expected, section, length);
	ended = run_program(&got, section, length);
	runs++;
	with_stored += stored != NULL;
	if (stored && !equal(stored, &got))
		wrong = "not what is stored";
	else if (!equal(&expected, &got))
		wrong = "not what the library gives";
	else if (!ended)
		wrong = "its status";
	if (wrong && differ++ < 20)
		printf("%s: %s: %s: %u bytes\n", program, name, wrong, (unsigned)got.length);
}

/* What a case stores for the program's settings, if it does; its slices are of other lengths, on which 9 and 17 rest. */
static const struct printed *stored_of(const struct one_case *c)
{
	static struct printed p;
	const uint8_t *open = c->calls, *all = open + 32;
	uint32_t types, enumerators, number = u32_at(open + 24), value;

	if (u32_at(open) != OPENING || u32_at(open + 4) != 8 || u32_at(open + 8) || u32_at(open + 12) != c->section_len ||
	    c->section_len > MOST || number == BTFDUMP_WORK_TOO_SHORT)
		return NULL;
	if (number) {
		print_refused(&p, number);
		return &p;
	}
	count_types(c->section, &types, &enumerators);
	if (c->calls_len < 2 || u32_at(all) != ALL_IDS || u32_at(all + 12) != c->section_len || BTFDUMP_WORK_SIZE(types, enumerators) > MOST)
		return NULL;
	number = u32_at(all + 24), value = u32_at(all + 28);
	if (value > MOST || value > c->text_len || (number && number < 12) || number == BTFDUMP_TEXT_FULL)
		return NULL;
	if (number)
		print_refused(&p, number);
	else
		memcpy(p.bytes, c->text, p.length = value);
	return &p;
}

static void one_case_file(const char *path)
{
	struct cases f = open_cases(path);
	struct one_case c;

	while (next_case(&f, &c, path)) {
		char name[256];

		snprintf(name, sizeof name, "%s: '%.*s'", path, (int)c.name_len, (const char *)c.name);
		one_section(name, c.section, c.section_len, stored_of(&c));
	}
	free(f.bytes);
}

static void one_stored_section(char *path)
{
	static struct printed stored;
	size_t length, out_length;
	uint8_t *section = read_whole(path, &length), *out;

	memcpy(path + strlen(path) - 4, ".out", 4);
	out = read_whole(path, &out_length);
	if (out_length > MOST) {
		fprintf(stderr, "%s: longer than the program prints\n", path);
		exit(2);
	}
	memcpy(stored.bytes, out, stored.length = out_length);
	one_section(path, section, length, &stored);
	free(section);
	free(out);
}

/* 1, 2, 10, 11 and 18 on come to no such program. */
static int lacks(void)
{
	int none = 0;

	for (uint32_t number = BTFDUMP_HEADER; number <= BTFDUMP_TEXT_FULL; number++)
		if (!refused[number] && number != BTFDUMP_NO_SUCH_ID && number != BTFDUMP_NOT_OPEN)
			none++, printf("program: no section is refused by %u\n", (unsigned)number);
	if (!longer || !full || !over)
		none++, puts("program: no longer section, or no text of 65,536 bytes or of 65,537");
	return none;
}

static void *run(void *argument)
{
	for (char **path = argument; *path; path++) {
		size_t n = strlen(*path);

		if (n > 4 && !strcmp(*path + n - 4, ".btf"))
			one_stored_section(*path);
		else
			one_case_file(*path);
	}
	printf("%s: %u sections, %u of them with a stored answer, %u refused by 12 numbers; texts of 65,536 bytes %u, of 65,537 %u, longer sections %u; %u differ\n",
	       program, (unsigned)runs, (unsigned)with_stored, (unsigned)(runs - refused[0]), (unsigned)full, (unsigned)over, (unsigned)longer,
	       (unsigned)differ);
	return differ || lacks() ? argument : NULL;
}

int main(int argc, char **argv)
{
	if (argc < 3) {
		fputs("usage: program PROGRAM FILE ..\n", stderr);
		return 2;
	}
	program = argv[1];
	signal(SIGPIPE, SIG_IGN);
	return on_documented_stack(run, argv + 2);
}
