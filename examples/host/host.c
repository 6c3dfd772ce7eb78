/* host COMMAND FILE ..: keeps a table and its index in a file that the processes of two owners share, and loses nothing.
 * docs/HOST.md says why each step is there.
 */
#include <signal.h>
#include <stdio.h>
#include <string.h>
#include "calls.h"
#include "lines.h"

enum { EXIT_DONE = 0, EXIT_REFUSED = 1, EXIT_USAGE = 2, EXIT_FAILED = 3 };

static const char USAGE[] =
    "usage: host new FILE                     makes an empty table\n"
    "       host store FILE OWNER MESSAGE     stores the message of a file for an owner, 1 or 2\n"
    "       host find FILE OWNER SIN GROUP    writes a message to standard output\n"
    "       host remove FILE OWNER SIN GROUP  removes a message\n"
    "       host list FILE OWNER              prints a line for each message of an owner\n"
    "       host check FILE                   says whether the table is well formed and its index agrees\n"
    "       host mend FILE                    writes the index of a well-formed table anew\n"
    "       host calls FILE OWNER             answers the calls on standard input, one to a line:\n"
    "                                         store HEXADECIMAL, find SIN GROUP, remove SIN GROUP\n"
    "FILE holds the table and its index, 4,352 bytes; FILE.lock and FILE.new stand beside it.\n"
    "GROUP is 0 transformation (1021, 1022), 1 grid (1023, 1024), 2 projection (1025 to 1027).\n"
    "An answer of calls is a refusal number, 0 for done, with a message found behind it; failed; or bad, for no call.\n"
    "Exit status: 0 done, 1 refused, 2 wrong use or a file that is missing, 3 the disk or the lock failed.\n";

/* Reads a message from a file, one byte more than the longest at most, as that is refused anyway. */
static int read_message(const char *name, call_message *message)
{
    FILE *file = fopen(name, "rb");
    if (file == NULL) {
        say("cannot read %s", name);
        return 0;
    }
    message->length = fread(message->bytes, 1, sizeof message->bytes, file);
    int sound = !ferror(file);
    fclose(file);
    if (!sound)
        say("cannot read %s", name);
    return sound;
}

static int exit_status(call_answer answer)
{
    if (answer.outcome == CALL_MISUSED)
        return EXIT_USAGE;
    if (answer.outcome == CALL_FAILED)
        return EXIT_FAILED;
    if (answer.refusal == TARNOKLEJ_DONE)
        return EXIT_DONE;
    say("refused %d %s: %s", answer.refusal, tarnoklej_refusal_name(answer.refusal), tarnoklej_refusal_words(answer.refusal));
    return EXIT_REFUSED;
}

static int find_command(const kept_file *file, call_key key)
{
    call_message message;
    int status = exit_status(call_find(file, key, &message));
    if (status == EXIT_DONE)
        fwrite(message.bytes, 1, message.length, stdout);
    return status;
}

static int store_command(const kept_file *file, uint8_t owner, const char *name)
{
    call_message message;
    return read_message(name, &message) ? exit_status(call_store(file, owner, &message)) : EXIT_USAGE;
}

static int wrong_use(void)
{
    fputs(USAGE, stderr);
    return EXIT_USAGE;
}

/* Runs the command on a file; words are those behind it. */
static int run(const char *command, const kept_file *file, int count, char **words)
{
    call_key key = {0, 0, 0};
    int has_owner = count >= 1 && parse_byte(words[0], &key.owner);
    int has_key = has_owner && count == 3 && parse_byte(words[1], &key.sin) && parse_byte(words[2], &key.group);
    if (strcmp(command, "new") == 0 && count == 0)
        return exit_status(call_new(file));
    if (strcmp(command, "store") == 0 && has_owner && count == 2)
        return store_command(file, key.owner, words[1]);
    if (strcmp(command, "find") == 0 && has_key)
        return find_command(file, key);
    if (strcmp(command, "remove") == 0 && has_key)
        return exit_status(call_remove(file, key));
    if (strcmp(command, "list") == 0 && has_owner && count == 1)
        return exit_status(call_list(file, key.owner));
    if (strcmp(command, "check") == 0 && count == 0)
        return exit_status(call_check(file));
    if (strcmp(command, "mend") == 0 && count == 0)
        return exit_status(call_mend(file));
    if (strcmp(command, "calls") == 0 && has_owner && count == 1)
        return answer_lines(file, key.owner);
    return wrong_use();
}

int main(int argc, char **argv)
{
    if (argc == 2 && strcmp(argv[1], "--help") == 0) {
        fputs(USAGE, stdout);
        return EXIT_DONE;
    }
    if (argc < 3)
        return wrong_use();
    /* A limit on the size of files is then an error of write, as a full disk is. */
    signal(SIGXFSZ, SIG_IGN);
    kept_file file = kept_names(argv[2]);
    int status = run(argv[1], &file, argc - 3, argv + 3);
    kept_free(&file);
    if (fflush(stdout) != 0 || ferror(stdout)) {
        say("cannot write to standard output");
        return EXIT_FAILED;
    }
    return status;
}
