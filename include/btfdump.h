/*
 * btfdump: writes the C header of a type table (BTF).
 *
 * A session is opened on one section and then asked for types, one by one, by
 * a list or all at once; the text grows with each request. Nothing is allocated: the
 * caller lends four pieces of memory and keeps them between calls.
 *
 *   record    BTFDUMP_RECORD_SIZE bytes. Holds the session between calls.
 *             Opening writes it whole; its content before that does not matter.
 *   section   the raw .BTF section, only read. Every call of a session gets
 *             the same bytes as the opening. Its first bytes tell the order of
 *             its words: 9F EB least significant byte first, EB 9F most
 *             significant byte first.
 *   work      BTFDUMP_WORK_SIZE(types, enumerators) bytes or more. Every call
 *             gets the same bytes, with the same length, as the last one left.
 *   text      where the header is written. It may be longer or shorter at each
 *             call, or stand elsewhere, as long as it begins with the text so far.
 *
 * The four must not overlap, and must stay valid for the time of the call.
 * A pointer to no bytes may be NULL. Nothing else is read or written.
 *
 * Stack: opening keeps index and marks on the stack, see BTFDUMP_STACK_SIZE.
 * A thread with a smaller stack needs pthread_attr_setstacksize.
 *
 * The library keeps no state of its own: calls on different memory may run at
 * the same time.
 */
#ifndef BTFDUMP_H
#define BTFDUMP_H

#include <stddef.h>
#include <stdint.h>

#ifdef __cplusplus
extern "C" {
#endif

/* bytes of a session record */
#define BTFDUMP_RECORD_SIZE 128

/* bytes of work for a table of so many types, void counted, and enumerators */
#define BTFDUMP_WORK_SIZE(types, enumerators) \
	(4 * (16 * (size_t)(types) + 8 * (size_t)(enumerators) + 4096))

/* stack that any call may need, in bytes */
#define BTFDUMP_STACK_SIZE (8u << 20)

/* the longest section that opening takes, and the longest text */
#define BTFDUMP_MAX_SECTION 16777216u
#define BTFDUMP_MAX_TEXT 1073741824u
/* the most types of a table, void counted */
#define BTFDUMP_MAX_TYPES 262145u

/* modes, chosen at opening; other bits are ignored */
#define BTFDUMP_UNION_AS_STRUCT 1u /* a union's word is "struct" and a comment that says union */
/*
 * C wants the elements of an array to be complete, also behind a pointer. Without this bit
 * a struct that is met only behind a pointer may come later, as in the Rust; with it an array
 * forgets the pointers before it, so that its elements are defined first, and a struct with
 * a pointer to an array of itself is a cycle (13).
 */
#define BTFDUMP_STRONG_ARRAYS 2u
/*
 * Placing mode: each pad is the widest unit that starts on a multiple of its
 * width and fits the gap, and a tail pad fills a struct to its size. Laid out
 * by the x86-64 System V rules, with pointer size 8, unions under their own word
 * and, of each member's type and of the whole, the size and alignment that the
 * table gives it, every member is at its offset in the table, and the whole has
 * its size. What cannot be laid out so is refused by BTFDUMP_MISPLACED.
 *
 * The table's alignment of a type is the size of a number, a pointer or an enum,
 * 8 at most, and the largest of what a struct, a union or an array holds. A
 * compiler gives some another size or alignment, and then another place to what
 * holds them: four bytes to an enum of 1 or 2, or of 8 where its values need no
 * more than four; alignment 16 to a number of 16 bytes; alignment 1 to a struct
 * that is printed packed; no space to a member without a name that is not
 * printed inline. And a bit field without a name has no part in the alignment of
 * what holds it: `union U { long: 3; char c; }` with size 8 in the table has size
 * 1 in gcc and clang.
 */
#define BTFDUMP_PLACING 4u
/*
 * Names apart: a number that would make a name of the table's same space (tags;
 * typedefs and enumerators) is passed over and the next one taken. x, x and
 * x___2 are then printed as x, x___3 and x___2. Without this bit numbers are
 * those of the Rust, and two names can be printed alike.
 */
#define BTFDUMP_NAMES_APART 8u

/* What a call answers: a number and a value, in the upper and the lower half. */
typedef uint64_t btfdump_answer;

static inline uint32_t btfdump_number(btfdump_answer a) { return (uint32_t)(a >> 32); }
static inline uint32_t btfdump_value(btfdump_answer a) { return (uint32_t)a; }

/* The numbers. */
enum btfdump_number {
	BTFDUMP_OK = 0,
	/* opening; value 0, and all memory is as it was */
	BTFDUMP_POINTER_SIZE = 1,    /* the pointer size is neither 4 nor 8 */
	BTFDUMP_SECTION_TOO_LONG = 2, /* the section is over 16,777,216 bytes */
	BTFDUMP_HEADER = 3,          /* header short or wrong, or an area past the end */
	BTFDUMP_STRINGS = 4,         /* string area empty, not starting or ending in 0, or not ASCII */
	BTFDUMP_RECORD = 5,          /* a record malformed or past its area, a name outside, too many records */
	BTFDUMP_REFERENCE = 6,       /* an id that is followed is past the table, or a function, variable, section or declaration tag */
	BTFDUMP_FUNCTION_VALUE = 7,  /* a member or an array element is a function prototype */
	BTFDUMP_LOOP = 8,            /* pointers, arrays, qualifiers, type tags, typedefs, prototypes form a loop */
	BTFDUMP_WORK_TOO_SHORT = 9,  /* the work memory is too short */
	/*
	 * requests; value: the text length before the id that was refused, or, of a
	 * list, how many ids were accepted. 10 and 11 change nothing, but in a list 10
	 * leaves what the ids before it brought
	 */
	BTFDUMP_NO_SUCH_ID = 10,     /* the id is not below the count of types */
	BTFDUMP_NOT_OPEN = 11,       /* no open session, or other lengths than at opening, or the text is cut short */
	/* after these the session is closed, the work zero, the text as long as before the id that was refused and zero after that */
	BTFDUMP_TOO_DEEP = 12,       /* more than 512 nested calls, or entries of a declarator */
	BTFDUMP_CYCLE = 13,          /* a struct or union needs itself complete: it holds itself, or leads back to itself through a nameless one, also behind a pointer (with strong arrays: an array behind a pointer) */
	BTFDUMP_NAMELESS = 14,       /* a typedef with no name is to be defined */
	BTFDUMP_ALIGN_ZERO = 15,     /* the packed test meets a type with alignment 0 */
	BTFDUMP_OVERFLOW = 16,       /* a size or an offset does not fit 32 bits */
	BTFDUMP_TEXT_FULL = 17,      /* the text slice, or 1,073,741,824 bytes, is full */
	BTFDUMP_MISPLACED = 18,      /* placing mode: members overlap, lie off a byte or a unit, or do not fit the size */
	/* btfdump_read_declaration only; value 0, and the lent chain is zero */
	BTFDUMP_NO_DECLARATION = 19, /* the text is no declaration that is covered, or has over 512 entries */
	/* btfdump_field only; nothing is touched */
	BTFDUMP_NO_MEMBER = 21,      /* no member covers the bit, or the type is no struct or union */
	/* requests under a ceiling only; as after 12 */
	BTFDUMP_CEILING = 22,        /* one more call of the ordering rule would pass the ceiling */
	/* btfdump_cut only; value 0, and nothing is written */
	BTFDUMP_NO_ROOM = 23,        /* the output slice is too short, or the new section would pass 16,777,216 bytes */
	/* opening, and reading a declaration into too few words; nothing is touched */
	BTFDUMP_RECORD_TOO_SHORT = 255 /* record_len is under BTFDUMP_RECORD_SIZE (requests: BTFDUMP_NOT_OPEN) */
};

/*
 * Opens a session on a section. On success the value is the count of types,
 * void counted, and the whole text slice is zero. A refused opening leaves
 * everything as it was, an open session in the record too.
 */
btfdump_answer btfdump_open(uint8_t *record, size_t record_len,
			    const uint8_t *section, size_t section_len,
			    uint32_t pointer_size, uint32_t modes,
			    uint8_t *work, size_t work_len,
			    uint8_t *text, size_t text_len);

/*
 * Writes the definition of type `id` and of all that must stand before it,
 * as far as they are not written yet. On success the value is the new length
 * of the text; all bytes of the slice past it are zero.
 */
btfdump_answer btfdump_dump_type(uint8_t *record, size_t record_len,
				 const uint8_t *section, size_t section_len,
				 uint8_t *work, size_t work_len,
				 uint8_t *text, size_t text_len,
				 uint32_t id);

/*
 * The same for every id from 1 upward. Where one is refused, the text of those
 * before it stays, and the value is its length.
 */
btfdump_answer btfdump_dump_types(uint8_t *record, size_t record_len,
				  const uint8_t *section, size_t section_len,
				  uint8_t *work, size_t work_len,
				  uint8_t *text, size_t text_len);

/*
 * The single requests for the ids of a list, in that order, up to and including
 * the first that is refused: text, record and work are what those would leave.
 * The list is bytes, four an id, least significant first; ids_len / 4 of them,
 * 4,294,967,295 at most, and the rest is ignored. The value is how many were
 * accepted, the number that of the refusal, or 0; the length of the text stands
 * in the record (btfdump_text_len). An empty list tests and changes nothing. An
 * id that was accepted before adds no text. The list must not overlap the others.
 */
btfdump_answer btfdump_dump_list(uint8_t *record, size_t record_len,
				 const uint8_t *section, size_t section_len,
				 uint8_t *work, size_t work_len,
				 uint8_t *text, size_t text_len,
				 const uint8_t *ids, size_t ids_len);

/*
 * Requests under a ceiling. Ordering follows members, targets and parameters by
 * calls of one rule, and on a table made for it their number doubles at each
 * level. `ceiling` is how many calls this request may make, all its ids together;
 * one more is refused by 22, which closes the session as 12 does. How many were
 * made is stored in *made, after a refusal too: the ceiling after 22, 0 after
 * 11, and after 10 those of the ids before it in a list, else 0. Where 22 does
 * not come, everything else is as after the plain call,
 * and so it is, with the same count, under every larger ceiling. An id that is
 * ordered already makes one call. The ceiling bounds ordering alone: emission,
 * which follows it, is not counted, and on a table of nameless structs or unions
 * made for it its time doubles at each level too, even where the text has no room.
 */
btfdump_answer btfdump_dump_type_within(uint8_t *record, size_t record_len,
					const uint8_t *section, size_t section_len,
					uint8_t *work, size_t work_len,
					uint8_t *text, size_t text_len,
					uint32_t id, uint64_t ceiling, uint64_t *made);

btfdump_answer btfdump_dump_types_within(uint8_t *record, size_t record_len,
					 const uint8_t *section, size_t section_len,
					 uint8_t *work, size_t work_len,
					 uint8_t *text, size_t text_len,
					 uint64_t ceiling, uint64_t *made);

btfdump_answer btfdump_dump_list_within(uint8_t *record, size_t record_len,
					const uint8_t *section, size_t section_len,
					uint8_t *work, size_t work_len,
					uint8_t *text, size_t text_len,
					const uint8_t *ids, size_t ids_len,
					uint64_t ceiling, uint64_t *made);

/*
 * Why each line is there. The list is lent: for each line of the text that this
 * request adds, a definition being one, it gets three words of four bytes, least
 * significant first, from its start and in the text's order: the id, the cause,
 * and the id that led there. Cause 0: the requested id, which leads to itself.
 * 1: needed; the innermost other composite or typedef that was being ordered led
 * there, else the requested id. 2: a forward line, 3: a typedef printed early;
 * the composite or typedef being printed around it led there. *count gets the
 * number of entries; what follows them is zero. The entries of a refused request
 * are dropped; those of the ids before it stay. 10 and 11 leave the list as it
 * was, with *count 0, but in a list of ids 10 leaves the entries of the ids before
 * it; no ids at all leave the list too. A list too short for one more entry is
 * 17; one with an entry for every three bytes of text is long enough for every
 * call that the plain one accepts. Everything else is as after the plain call.
 * These calls take no ceiling. A list of ids is the single requests in their order, each
 * lent what follows the entries so far; the rest of the text slice is zeroed after each
 * id of the list, which takes the time of that slice's length. These requests keep 2 MiB
 * more on the stack, and clear them once a call.
 */
btfdump_answer btfdump_dump_type_causes(uint8_t *record, size_t record_len,
					const uint8_t *section, size_t section_len,
					uint8_t *work, size_t work_len,
					uint8_t *text, size_t text_len,
					uint32_t id, uint8_t *list, size_t list_len,
					uint64_t *count);

btfdump_answer btfdump_dump_types_causes(uint8_t *record, size_t record_len,
					 const uint8_t *section, size_t section_len,
					 uint8_t *work, size_t work_len,
					 uint8_t *text, size_t text_len,
					 uint8_t *list, size_t list_len,
					 uint64_t *count);

btfdump_answer btfdump_dump_list_causes(uint8_t *record, size_t record_len,
					const uint8_t *section, size_t section_len,
					uint8_t *work, size_t work_len,
					uint8_t *text, size_t text_len,
					const uint8_t *ids, size_t ids_len,
					uint8_t *list, size_t list_len,
					uint64_t *count);

/*
 * The visits so far, of a record that an opening wrote: one for each type or
 * member looked at to find an alignment, by the requests accepted so far (those of
 * a list or of all ids up to the first refused). An alignment is worked out once
 * in a session and then remembered, which counts none; so these are at most the
 * types, void counted, plus the members of the table. A refusal leaves them.
 */
static inline uint32_t btfdump_visits(const uint8_t *record)
{
	return record[64] | (uint32_t)record[65] << 8 | (uint32_t)record[66] << 16 | (uint32_t)record[67] << 24;
}

/* The length of the text so far, of a record that an opening wrote. */
static inline uint32_t btfdump_text_len(const uint8_t *record)
{
	return record[40] | (uint32_t)record[41] << 8 | (uint32_t)record[42] << 16 | (uint32_t)record[43] << 24;
}

/*
 * Which field is this bit? The path to the innermost member that covers bit
 * `bit` of the struct or union `id`, counted from its start: members by their
 * number and places of arrays by their index, each from 0, outermost first,
 * one word of four bytes an entry, least significant byte first. A bit field
 * is innermost. A bit in a gap of a struct inside belongs to the member of that
 * struct type: the path ends there. Members are tried in order, and the first
 * that covers the bit is taken; so of a union it is the first that is wide enough.
 *
 * The value is the number of entries, at most 512; the rest of the path slice
 * stays. 2,048 bytes are always enough. Record, section and work are only read,
 * and no text is lent.
 *
 * Refused with value 0, the path as it was, and the session still open:
 * 11 (here: no open session, or other lengths of section or work than at
 * opening), 10, 21, 12 (a path of over 512 entries, or a size over 512 calls
 * deep), 16 (a size, or the end of a member in bits, does not fit 32 bits), and
 * last 17 (the path slice is too short for the path).
 */
btfdump_answer btfdump_field(const uint8_t *record, size_t record_len,
			     const uint8_t *section, size_t section_len,
			     const uint8_t *work, size_t work_len,
			     uint8_t *path, size_t path_len,
			     uint32_t id, uint32_t bit);

/*
 * A section cut down to what is used: writes a new section that holds the types
 * reachable from the given ids, their declaration tags and their names. Types
 * keep their order and get the numbers 1, 2, ..; an id that is stored but not
 * followed, and whose type is left out, becomes 0. Order of bytes, version and
 * flags are the old. The list is bytes, four an id, least significant first;
 * the rest of it is ignored. Opened afresh with the same settings (without
 * BTFDUMP_NAMES_APART) and work long enough for it, the new section gives for
 * the new numbers the text and the refusals that the old one gives for the old.
 * The old section's work is always long enough.
 *
 * The value is the length written; the rest of the output slice stays. Record
 * and section are only read, and neither work nor text is lent. The output
 * slice must not overlap the others. The time is about proportional to the
 * section's length and to the lengths of all names mentioned, as long as the
 * distinct names are well below 262,144, for which the table of names has room.
 * As it fills, the search for each name grows; past it, each mention of a further
 * name takes a search through all the others. Names made to collide take time
 * with the square of their number, and with their lengths.
 *
 * Refused with value 0, nothing written, and the session still open: 11 (here:
 * no open session, another length of the section than at opening, or a section
 * that one of 2 to 6 would now refuse), 10 (one of the ids), 23.
 */
btfdump_answer btfdump_cut(const uint8_t *record, size_t record_len,
			   const uint8_t *section, size_t section_len,
			   const uint8_t *ids, size_t ids_len,
			   uint8_t *out, size_t out_len);

/* words that the chain of a declaration takes at most: three for each of 512 entries */
#define BTFDUMP_CHAIN_WORDS 1536

/*
 * Reads the text of one declaration, without its semicolon, into its chain, by
 * the C precedence of brackets, parentheses and stars alone. Covered are a
 * base (struct, union or enum and a tag, or other words, with its qualifiers
 * before it), pointers with their qualifiers, arrays with a decimal count, and
 * prototypes with unnamed parameters; the declared name is present, and
 * spaces may stand around tokens. On success the value is the number of
 * entries. An entry is three words of the chain; they go from the declared
 * name to the base:
 *
 *   1 start length    a base: where its words start in the text, and how many bytes they take
 *   2 0 0             a pointer to what follows
 *   3 count 0         an array of what follows
 *   4 any 0           a prototype; any is 1 where parameters follow, each a chain that ends in its base, and then what it returns
 *   5 which 0         a qualifier of what follows: 1 const, 2 volatile, 3 restrict; two on one spot stand as in the text
 *   6 start length    the base of a parameter behind which another one follows
 *
 * A parameter `...` is a base of start 0 and length 0. `(void)` and `()` have no parameters. Words behind the last entry stay as they
 * were. Refused, the value is 0 and every word is 0. With under BTFDUMP_CHAIN_WORDS words the number is 255 and nothing is touched.
 */
btfdump_answer btfdump_read_declaration(const uint8_t *text, size_t text_len,
					uint64_t *chain, size_t chain_len);

#ifdef __cplusplus
}
#endif

#endif
