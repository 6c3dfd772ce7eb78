#include "calls.h"
#include <stdio.h>
#include <string.h>
#include <unistd.h>

static call_answer answered(uint8_t refusal)
{
    return (call_answer){CALL_ANSWERED, refusal};
}

static call_answer not_answered(call_outcome outcome)
{
    return (call_answer){outcome, TARNOKLEJ_DONE};
}

/* Reads the file; a file of another size is a table of another size. */
static call_answer read_copy(const kept_file *file, kept_copy *copy)
{
    switch (kept_read(file, copy)) {
    case KEPT_READ:
        return answered(tarnoklej_index_agrees(copy->table, sizeof copy->table, copy->index, sizeof copy->index));
    case KEPT_OTHER_SIZE:
        return answered(TARNOKLEJ_TABLE);
    case KEPT_MISSING:
        return not_answered(CALL_MISUSED);
    default:
        return not_answered(CALL_FAILED);
    }
}

static uint8_t write_index(kept_copy *copy)
{
    return tarnoklej_index_write(copy->table, sizeof copy->table, copy->index, sizeof copy->index);
}

/* Reads the file, and writes the index of the copy anew where it does not agree with the table.
 * A table that is refused is an answer, and nothing replaces it.
 */
static call_answer read_agreeing(const kept_file *file, kept_copy *copy, int *mended)
{
    call_answer answer = read_copy(file, copy);
    *mended = answer.outcome == CALL_ANSWERED && answer.refusal == TARNOKLEJ_INDEX;
    if (*mended) {
        say("%s: the index did not agree with the table and is written anew", file->name);
        return answered(write_index(copy));
    }
    if (answer.outcome == CALL_ANSWERED && answer.refusal == TARNOKLEJ_TABLE)
        say("%s: the table is not well formed, so it is left as it is", file->name);
    return answer;
}

/* A change of a copy. */
typedef struct {
    uint8_t (*apply)(const void *call, kept_copy *copy);
    const void *call;
} change;

/* Commits a change under the lock. One that changes no byte is committed too: the process that wrote these bytes may
 * have been killed before they were on the disk.
 */
static call_answer change_file(const kept_file *file, change change)
{
    kept_copy copy;
    int mended, lock = kept_lock(file);
    if (lock < 0)
        return not_answered(CALL_FAILED);
    call_answer answer = read_agreeing(file, &copy, &mended);
    if (answer.outcome == CALL_ANSWERED && answer.refusal == TARNOKLEJ_DONE) {
        answer.refusal = change.apply(change.call, &copy);
        if ((answer.refusal == TARNOKLEJ_DONE || mended) && !kept_commit(file, &copy))
            answer = not_answered(CALL_FAILED);
    }
    kept_unlock(lock);
    return answer;
}

typedef struct {
    uint8_t owner;
    const call_message *message;
} storing;

static uint8_t apply_store(const void *call, kept_copy *copy)
{
    const storing *store = call;
    return tarnoklej_store(copy->table, sizeof copy->table, copy->index, sizeof copy->index, store->owner,
                           store->message->bytes, store->message->length);
}

call_answer call_store(const kept_file *file, uint8_t owner, const call_message *message)
{
    storing store = {owner, message};
    return change_file(file, (change){apply_store, &store});
}

static uint8_t apply_remove(const void *call, kept_copy *copy)
{
    const call_key *key = call;
    return tarnoklej_remove(copy->table, sizeof copy->table, copy->index, sizeof copy->index, key->owner, key->sin,
                            key->group);
}

call_answer call_remove(const kept_file *file, call_key key)
{
    return change_file(file, (change){apply_remove, &key});
}

static uint8_t apply_mend(const void *call, kept_copy *copy)
{
    (void)call;
    return write_index(copy);
}

call_answer call_mend(const kept_file *file)
{
    return change_file(file, (change){apply_mend, NULL});
}

call_answer call_new(const kept_file *file)
{
    kept_copy empty;
    int lock = kept_lock(file);
    if (lock < 0)
        return not_answered(CALL_FAILED);
    memset(&empty, 0, sizeof empty);
    call_answer answer = answered(TARNOKLEJ_DONE);
    if (access(file->name, F_OK) == 0) {
        say("%s is there already, and is left as it is", file->name);
        answer = not_answered(CALL_MISUSED);
    } else if (!kept_commit(file, &empty)) {
        answer = not_answered(CALL_FAILED);
    }
    kept_unlock(lock);
    return answer;
}

/* Finds a message in a copy that agrees, and takes it out of the table. */
static uint8_t take_found(const kept_copy *copy, call_key key, call_message *message)
{
    tarnoklej_found found = tarnoklej_find(copy->table, sizeof copy->table, copy->index, sizeof copy->index, key.owner,
                                           key.sin, key.group);
    if (found.refusal == TARNOKLEJ_DONE) {
        memcpy(message->bytes, copy->table + found.at, found.length);
        message->length = found.length;
    }
    return found.refusal;
}

call_answer call_find(const kept_file *file, call_key key, call_message *message)
{
    kept_copy copy;
    int mended;
    call_answer answer = read_agreeing(file, &copy, &mended);
    if (answer.outcome == CALL_ANSWERED && answer.refusal == TARNOKLEJ_DONE)
        answer.refusal = take_found(&copy, key, message);
    return answer;
}

/* Prints the line of a key where it has a message; another refusal than NONE is given back. */
static uint8_t list_key(const kept_copy *copy, call_key key)
{
    call_message message;
    uint8_t refusal = take_found(copy, key, &message);
    if (refusal == TARNOKLEJ_DONE)
        printf("sin %d group %d message %d of %zu bytes\n", key.sin, key.group,
               tarnoklej_read(message.bytes, message.length).number, message.length);
    return refusal == TARNOKLEJ_NONE ? TARNOKLEJ_DONE : refusal;
}

call_answer call_list(const kept_file *file, uint8_t owner)
{
    kept_copy copy;
    int mended;
    call_answer answer = read_agreeing(file, &copy, &mended);
    for (int sin = 0; sin <= UINT8_MAX && answer.outcome == CALL_ANSWERED; sin++)
        for (int group = TARNOKLEJ_TRANSFORMATION; group <= TARNOKLEJ_PROJECTION && answer.refusal == TARNOKLEJ_DONE; group++)
            answer.refusal = list_key(&copy, (call_key){owner, (uint8_t)sin, (uint8_t)group});
    return answer;
}

call_answer call_check(const kept_file *file)
{
    kept_copy copy;
    call_answer answer = read_copy(file, &copy);
    if (answer.outcome == CALL_ANSWERED && answer.refusal == TARNOKLEJ_DONE)
        printf("%s: the table is well formed and its index agrees\n", file->name);
    return answer;
}
