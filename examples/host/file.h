/* The file that keeps a table and its index, shared by the processes of two owners.
 * It is never written in place: a change is a new file beside it, which takes its name once it is whole.
 * So whoever opens it reads one table with the index of that table, and needs no lock for reading.
 */
#ifndef HOST_FILE_H
#define HOST_FILE_H
#include "tarnoklej.h"

/* What the file holds, in this order. */
typedef struct {
    uint8_t table[TARNOKLEJ_TABLE_SIZE];
    uint8_t index[TARNOKLEJ_INDEX_SIZE];
} kept_copy;

/* The names that belong to one table. */
typedef struct {
    char *name;   /* the file of the table and its index */
    char *lock;   /* the file whose lock is held during a change; it stays, and holds nothing */
    char *fresh;  /* the next file, until it is renamed */
    char *folder; /* where all of them stand */
} kept_file;

/* What came of reading the file. */
typedef enum { KEPT_READ, KEPT_MISSING, KEPT_OTHER_SIZE, KEPT_UNREADABLE } kept_reading;

/* Makes the names of a file, links being followed, so that every name of one file leads to one lock. */
kept_file kept_names(const char *name);
void kept_free(kept_file *file);

/* Waits for the lock and gives what kept_unlock takes, or -1 where it could not be had within LOCK_SECONDS. */
enum { LOCK_SECONDS = 10 };
int kept_lock(const kept_file *file);
void kept_unlock(int lock);

/* Reads the whole file. Anything but KEPT_READ was said in words, and the copy is then not to be used. */
kept_reading kept_read(const kept_file *file, kept_copy *copy);

/* Puts the copy in the place of the file, and says whether it will be there after a power cut, too.
 * The lock must be held. Where it fails, words say why; the file is then the old one or, where only the folder could not
 * be written out, the new one.
 */
int kept_commit(const kept_file *file, const kept_copy *copy);

/* Says something in words on standard error. */
void say(const char *format, ...) __attribute__((format(printf, 1, 2)));
#endif
