/* Replays case files through the C exports: replay [-b] FILE ..
   -b: the sections with the most significant byte of every word first, where the case tells where its words are. */
#include "casefile.h"
#include "session.h"

static uint32_t cases, calls, differ;
static int big_endian;

/* Call i of a case. */
static struct call case_call(const struct one_case *c, uint32_t i)
{
	const uint8_t *p = c->calls + 32 * (size_t)i;

	return (struct call){u32_at(p), u32_at(p + 4), u32_at(p + 8), BTFDUMP_RECORD_SIZE, u32_at(p + 12),
			     u32_at(p + 16), u32_at(p + 20), u32_at(p + 24), u32_at(p + 28)};
}

/* The calls after this one are on the session whose text the case stores. */
static uint32_t last_opening(const struct one_case *c)
{
	uint32_t last = c->calls_len;

	for (uint32_t i = 0; i < c->calls_len; i++) {
		struct call k = case_call(c, i);

		if (k.what == OPENING && k.number == 0)
			last = i;
	}
	return last;
}

static void replay(const char *path, const struct one_case *c)
{
	struct session s = {{0}, NULL, NULL, 0, 0};
	uint32_t last = last_opening(c), i;
	const char *wrong = NULL;
	btfdump_answer answer = 0;

	cases++;
	for (i = 0; i < c->calls_len && !wrong; i++, calls++) {
		struct call k = case_call(c, i);
		const uint8_t *text = i > last ? c->text : NULL;

		if (k.what > ALL_IDS || k.section_len > c->section_len || (text && k.value > c->text_len))
			bad_file(path);
		wrong = make(&s, &k, c->section, text, &answer);
	}
	if (!wrong && (s.text_len != c->text_len || (s.text && memcmp(s.text, c->text, s.text_len))))
		wrong = "text after the last call";
	if (wrong) {
		struct call k = case_call(c, i - 1);

		differ++;
		printf("%s: case '%.*s', call %u: %s; expected %u %u, got %u %u\n", path, (int)c->name_len,
		       (const char *)c->name, (unsigned)i, wrong, (unsigned)k.number, (unsigned)k.value,
		       (unsigned)btfdump_number(answer), (unsigned)btfdump_value(answer));
	}
	end_session(&s);
}

static void *replay_files(void *argument)
{
	for (char **path = argument; *path; path++) {
		struct cases f = open_cases(*path);
		struct one_case c;

		while (next_case(&f, &c, *path)) {
			uint8_t *section = NULL;

			if (big_endian) {
				section = need(malloc(c.section_len + 1));
				memcpy(section, c.section, c.section_len);
				c.section = section;
			}
			if (!big_endian || turn(section, c.section_len))
				replay(*path, &c);
			free(section);
		}
		free(f.bytes);
	}
	printf("%u cases, %u calls, %u differ\n", (unsigned)cases, (unsigned)calls, (unsigned)differ);
	return differ || !cases ? argument : NULL;
}

int main(int argc, char **argv)
{
	big_endian = argc > 1 && !strcmp(argv[1], "-b");
	if (argc < 2 + big_endian) {
		fputs("usage: replay [-b] FILE ..\n", stderr);
		return 2;
	}
	return on_documented_stack(replay_files, argv + 1 + big_endian);
}
