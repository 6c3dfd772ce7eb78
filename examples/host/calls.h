/* The calls of one table that a file keeps: each works on a copy, and a change is committed before it is answered. */
#ifndef HOST_CALLS_H
#define HOST_CALLS_H
#include "file.h"

typedef enum {
    CALL_ANSWERED, /* refusal has the library's answer, and a change that was answered 0 is on the disk */
    CALL_MISUSED,  /* there is no such file, or for call_new there is one */
    CALL_FAILED    /* not answered: the disk or the lock failed, as was said in words */
} call_outcome;
typedef struct {
    call_outcome outcome;
    uint8_t refusal;
} call_answer;

/* The key of a message. */
typedef struct {
    uint8_t owner, sin, group;
} call_key;

/* A message on its own, never a place inside a table. */
typedef struct {
    uint8_t bytes[TARNOKLEJ_MOST_BYTES + 1];
    size_t length;
} call_message;

/* Makes an empty table where there is no file; CALL_MISUSED where there is one. */
call_answer call_new(const kept_file *file);
call_answer call_store(const kept_file *file, uint8_t owner, const call_message *message);
call_answer call_remove(const kept_file *file, call_key key);

/* Writes the index anew. */
call_answer call_mend(const kept_file *file);

/* Gives the message of a key. */
call_answer call_find(const kept_file *file, call_key key, call_message *message);

/* Prints a line for each message of an owner. */
call_answer call_list(const kept_file *file, uint8_t owner);

/* Says whether the table is well formed and the index agrees, and changes nothing. */
call_answer call_check(const kept_file *file);
#endif
