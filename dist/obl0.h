/* Modules of Oberon-0 as objects that several processes share: what the program `obl0` answers, for C.

   Link libobl0.a or libobl0.so. The function obl0_answer answers all words of the program's command line but `serve`, of
   files that the caller has at hand; the others answer one command each, of texts.

     const char *module = "MODULE C; VAR x: INTEGER; PROCEDURE Inc*(VAR v: INTEGER); BEGIN x := x + 1; v := x END Inc; END C.";
     const char *script = "0 Inc\n1 Inc\n";
     uint8_t room[4096];
     size_t length;
     const uint32_t status = obl0_seq((const uint8_t *)module, strlen(module), (const uint8_t *)script, strlen(script), OBL0_TURNS,
                                      room, sizeof room, &length);
     if (length <= sizeof room) fwrite(room, 1, length, status == OBL0_DONE ? stdout : stderr);

   prints "E 0.1 done 1" and "E 1.1 done 2", a line each.

   Texts. A text is its bytes and how many there are; it needs no zero at its end. It lies in memory of the caller, which
   is only read, and may be let go as soon as the call returns. A text without bytes has any address but NULL. No address
   may be NULL: what a call does then is not said. All lengths are in bytes. A module has at most 65536, and a longer one the
   fault S5 for an answer; other texts are of any length.

   The answer. Its first bytes are put into `room`, as many as `room_length` says there is room for, without a zero behind
   them; what lies behind the answer stays as it was. `*length` is the length of the whole answer. Where that is more than
   `room_length`, call again with more room. `room` and the numbers that are written to may lie in no text.

   The status is that of the program:

     OBL0_DONE     0   the answer is what was asked for
     OBL0_FAULT    1   the answer is the line of a fault, as "L2 line 3\n" (docs/FAULTS.md); of obl0_explain, what is shown
     OBL0_WORDS    2   of obl0_answer: the answer says what is wrong with the words, which are no command
     OBL0_FILE     3   of obl0_answer: the answer says which file the words name and is not there
     OBL0_MEMORY   4   there is no memory: *length is 0, and the room stays as it was. The same call may have an answer later

   Numbers. `turns` is the budget of each call, of loops and of calls in the module's text: 0 to 1000000, and OBL0_TURNS
   where the program's words say nothing. `processes` is 1 to 16. `most` is how many configurations a search for an order
   looks at: OBL0_MOST where the program's words say nothing. Numbers outside these bounds have a fault for an answer
   (N1, N2), or none is found (X2).

   Nothing is kept from one call to the next, so any number of threads may call at once. A call takes at most 8 MiB of stack,
   and of most modules far less. It allocates by malloc, realloc and free, which have to be of one allocator and to align
   as the C library's do, and lets go of all before it returns; it may be called from no signal handler, and in the child of
   a fork only where no other thread ran. It reads no file, writes none, starts no thread, and asks the
   system for nothing but memory. A search for an order keeps what it has seen in tables whose keys are always the same, so
   of histories of people whom you do not trust give it a small `most`. */
#ifndef OBL0_H
#define OBL0_H
#include <stddef.h>
#include <stdint.h>
#ifdef __cplusplus
extern "C" {
#endif

#define OBL0_DONE 0
#define OBL0_FAULT 1
#define OBL0_WORDS 2
#define OBL0_FILE 3
#define OBL0_MEMORY 4

#define OBL0_TURNS 100000
#define OBL0_MOST 10000000

/* The answer to the words behind the program's name, in UTF-8, and to the files that they name. `words` has the bytes of the
   words, one behind the other, `word_lengths` the length of each, and `word_count` says how many there are. `files` has in the
   same way names and what the files hold, in turn, so `file_count` is twice the number of files. A name is taken as it stands:
   no file of the system is read, and `-` is a name like others. Lengths that are not those of the bytes have OBL0_WORDS for a
   status, and so has `serve`, which starts threads.

   The answer is what the program prints on standard output, `*output_length` bytes, and behind it what it prints on standard
   error: of `run --steps` there is both. */
uint32_t obl0_answer(const uint8_t *words, size_t words_length, const size_t *word_lengths, size_t word_count,
                     const uint8_t *files, size_t files_length, const size_t *file_lengths, size_t file_count,
                     uint8_t *room, size_t room_length, size_t *output_length, size_t *length);

/* `check MODULE`: "ok\n" of a module. */
uint32_t obl0_check(const uint8_t *module, size_t module_length, uint8_t *room, size_t room_length, size_t *length);

/* `seq MODULE SCRIPT -b TURNS`: the replies to the calls of a script, made one at a time, a line each. */
uint32_t obl0_seq(const uint8_t *module, size_t module_length, const uint8_t *script, size_t script_length, uint64_t turns,
                  uint8_t *room, size_t room_length, size_t *length);

/* `run MODULE SCRIPT SCHEDULE -n PROCESSES -b TURNS`: the record of the run. */
uint32_t obl0_run(const uint8_t *module, size_t module_length, const uint8_t *script, size_t script_length,
                  const uint8_t *schedule, size_t schedule_length, size_t processes, uint64_t turns,
                  uint8_t *room, size_t room_length, size_t *length);

/* `draw MODULE SCRIPT SCHEDULE -n PROCESSES -b TURNS`: the picture of the run, in SVG. */
uint32_t obl0_draw(const uint8_t *module, size_t module_length, const uint8_t *script, size_t script_length,
                   const uint8_t *schedule, size_t schedule_length, size_t processes, uint64_t turns,
                   uint8_t *room, size_t room_length, size_t *length);

/* `verify MODULE RECORD`: "ok\n" where the order of the record is a legal order of its calls. */
uint32_t obl0_verify(const uint8_t *module, size_t module_length, const uint8_t *record, size_t record_length,
                     uint8_t *room, size_t room_length, size_t *length);

/* `order MODULE HISTORY --most MOST`: the line of a legal order of the calls of a history, as "O 0.1 1.1\n". */
uint32_t obl0_order(const uint8_t *module, size_t module_length, const uint8_t *history, size_t history_length, uint32_t most,
                    uint8_t *room, size_t room_length, size_t *length);

/* `explain MODULE`: what is wrong with a module, shown to people; "ok\n" where nothing is. The module is named `module` there. */
uint32_t obl0_explain(const uint8_t *module, size_t module_length, uint8_t *room, size_t room_length, size_t *length);

#ifdef __cplusplus
}
#endif
#endif
