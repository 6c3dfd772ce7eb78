#include "lines.h"
#include <stdio.h>
#include <stdlib.h>
#include <string.h>
#include <unistd.h>
#include "calls.h"

/* The longest line that is taken: a word, and a message in hexadecimal digits. */
enum { LINE_SIZE = 512 };

int parse_byte(const char *text, uint8_t *number)
{
    unsigned value = 0;
    size_t digits = strspn(text, "0123456789");
    if (digits == 0 || digits > 3 || text[digits] != '\0')
        return 0;
    for (size_t i = 0; i < digits; i++)
        value = value * 10 + (unsigned)(text[i] - '0');
    *number = (uint8_t)value;
    return value <= UINT8_MAX;
}

static int digit_of(char character)
{
    static const char digits[] = "0123456789abcdef";
    const char *at = character == '\0' ? NULL : strchr(digits, character);
    return at == NULL ? -1 : (int)(at - digits);
}

/* Reads a message in hexadecimal digits. */
static int parse_message(const char *text, call_message *message)
{
    message->length = strlen(text) / 2;
    if (strlen(text) % 2 != 0 || message->length > sizeof message->bytes)
        return 0;
    for (size_t i = 0; i < message->length; i++) {
        int high = digit_of(text[2 * i]), low = digit_of(text[2 * i + 1]);
        if (high < 0 || low < 0)
            return 0;
        message->bytes[i] = (uint8_t)(high * 16 + low);
    }
    return 1;
}

/* The answer as a line: the refusal number, with a message that was found behind it; failed; or bad, for no call. */
static void print_answer(call_answer answer, const call_message *found, char *line)
{
    if (answer.outcome != CALL_ANSWERED) {
        strcpy(line, "failed\n");
        return;
    }
    line += sprintf(line, "%d", answer.refusal);
    if (found != NULL && answer.refusal == TARNOKLEJ_DONE) {
        *line++ = ' ';
        for (size_t i = 0; i < found->length; i++)
            line += sprintf(line, "%02x", found->bytes[i]);
    }
    strcpy(line, "\n");
}

/* Makes the call of a line, and the line that answers it. */
static void answer_line(const kept_file *file, uint8_t owner, char *call, char *line)
{
    call_key key = {owner, 0, 0};
    call_message message;
    const char *words[3] = {"", "", ""};
    int count = 0;
    for (char *word = strtok(call, " "); word != NULL && count < 4; word = strtok(NULL, " "), count++)
        if (count < 3)
            words[count] = word;
    int has_key = count == 3 && parse_byte(words[1], &key.sin) && parse_byte(words[2], &key.group);
    if (strcmp(words[0], "store") == 0 && count == 2 && parse_message(words[1], &message))
        print_answer(call_store(file, owner, &message), NULL, line);
    else if (strcmp(words[0], "remove") == 0 && has_key)
        print_answer(call_remove(file, key), NULL, line);
    else if (strcmp(words[0], "find") == 0 && has_key)
        print_answer(call_find(file, key, &message), &message, line);
    else
        strcpy(line, "bad\n");
}

/* Reads a line, and says whether it is one: ended, not too long, without zero bytes. Gives 0 at the end of the input. */
static int read_line(char *call, int *sound)
{
    size_t length = 0;
    int next = getchar();
    if (next == EOF)
        return 0;
    *sound = 1;
    for (; next != EOF && next != '\n'; next = getchar()) {
        if (length == LINE_SIZE - 1 || next == '\0')
            *sound = 0;
        else
            call[length++] = (char)next;
    }
    call[length] = '\0';
    *sound = *sound && next == '\n';
    return 1;
}

int answer_lines(const kept_file *file, uint8_t owner)
{
    char call[LINE_SIZE], line[LINE_SIZE];
    int sound;
    while (read_line(call, &sound)) {
        if (sound)
            answer_line(file, owner, call, line);
        else
            strcpy(line, "bad\n");
        size_t length = strlen(line);
        if (write(STDOUT_FILENO, line, length) != (ssize_t)length) {
            say("cannot write an answer");
            return 3;
        }
    }
    return 0;
}
