#define _GNU_SOURCE
#include "file.h"
#include <errno.h>
#include <fcntl.h>
#include <libgen.h>
#include <signal.h>
#include <stdarg.h>
#include <stdio.h>
#include <stdlib.h>
#include <string.h>
#include <sys/file.h>
#include <sys/stat.h>
#include <unistd.h>

void say(const char *format, ...)
{
    va_list words;
    va_start(words, format);
    fputs("host: ", stderr);
    vfprintf(stderr, format, words);
    fputc('\n', stderr);
    va_end(words);
}

/* Ends the process where memory is short; nothing is half done then, as a change is one rename. */
static char *owned(char *text)
{
    if (text == NULL) {
        say("no memory");
        exit(3);
    }
    return text;
}

static char *with_ending(const char *name, const char *ending)
{
    size_t length = strlen(name);
    char *text = owned(malloc(length + strlen(ending) + 1));
    memcpy(text, name, length);
    strcpy(text + length, ending);
    return text;
}

kept_file kept_names(const char *name)
{
    kept_file file;
    char *real = realpath(name, NULL);
    file.name = real != NULL ? real : with_ending(name, "");
    file.lock = with_ending(file.name, ".lock");
    file.fresh = with_ending(file.name, ".new");
    char *text = with_ending(file.name, "");
    file.folder = with_ending(dirname(text), "");
    free(text);
    return file;
}

void kept_free(kept_file *file)
{
    free(file->name);
    free(file->lock);
    free(file->fresh);
    free(file->folder);
}

static void ignore_alarm(int number)
{
    (void)number;
}

int kept_lock(const kept_file *file)
{
    /* Without SA_RESTART the alarm ends the waiting. */
    struct sigaction ended = {.sa_handler = ignore_alarm};
    int lock = open(file->lock, O_RDWR | O_CREAT | O_CLOEXEC, 0666);
    if (lock < 0) {
        say("cannot open %s: %s", file->lock, strerror(errno));
        return -1;
    }
    sigaction(SIGALRM, &ended, NULL);
    alarm(LOCK_SECONDS);
    int locked = flock(lock, LOCK_EX);
    int why = errno;
    alarm(0);
    if (locked == 0)
        return lock;
    if (why == EINTR)
        say("%s: the lock was held by another process for %d seconds", file->lock, LOCK_SECONDS);
    else
        say("cannot lock %s: %s", file->lock, strerror(why));
    close(lock);
    return -1;
}

void kept_unlock(int lock)
{
    close(lock);
}

/* Reads until the end or until size bytes are there, and gives their number, or -1. */
static ssize_t read_all(int descriptor, uint8_t *bytes, size_t size)
{
    size_t length = 0;
    while (length < size) {
        ssize_t more = read(descriptor, bytes + length, size - length);
        if (more < 0)
            return -1;
        if (more == 0)
            break;
        length += (size_t)more;
    }
    return (ssize_t)length;
}

static int write_all(int descriptor, const uint8_t *bytes, size_t size)
{
    while (size > 0) {
        ssize_t written = write(descriptor, bytes, size);
        if (written < 0)
            return 0;
        bytes += written;
        size -= (size_t)written;
    }
    return 1;
}

kept_reading kept_read(const kept_file *file, kept_copy *copy)
{
    uint8_t bytes[sizeof *copy + 1];
    int descriptor = open(file->name, O_RDONLY | O_CLOEXEC);
    if (descriptor < 0) {
        say("cannot read %s: %s", file->name, strerror(errno));
        return errno == ENOENT ? KEPT_MISSING : KEPT_UNREADABLE;
    }
    ssize_t length = read_all(descriptor, bytes, sizeof bytes);
    if (length < 0)
        say("cannot read %s: %s", file->name, strerror(errno));
    close(descriptor);
    if (length < 0)
        return KEPT_UNREADABLE;
    if ((size_t)length != sizeof *copy) {
        say("%s has %s than %zu bytes, so it is left as it is", file->name,
            (size_t)length < sizeof *copy ? "less" : "more", sizeof *copy);
        return KEPT_OTHER_SIZE;
    }
    memcpy(copy, bytes, sizeof *copy);
    return KEPT_READ;
}

/* Gives a new file the rights of the one that it replaces; the group is kept where the system allows it. */
static int keep_rights(const kept_file *file, int descriptor)
{
    struct stat old;
    if (stat(file->name, &old) != 0)
        return errno == ENOENT;
    if (fchown(descriptor, (uid_t)-1, old.st_gid) != 0 && errno != EPERM)
        return 0;
    return fchmod(descriptor, old.st_mode & 0777) == 0;
}

/* Writes the next file, down to the disk. */
static int write_fresh(const kept_file *file, const kept_copy *copy)
{
    int descriptor = open(file->fresh, O_WRONLY | O_CREAT | O_TRUNC | O_CLOEXEC | O_NOFOLLOW, 0666);
    if (descriptor < 0)
        return 0;
    int written = keep_rights(file, descriptor) && write_all(descriptor, (const uint8_t *)copy, sizeof *copy) &&
                  fsync(descriptor) == 0;
    int why = errno;
    close(descriptor);
    errno = why;
    return written;
}

/* Writes the names of the folder to the disk, so that the rename lasts. */
static int write_folder(const kept_file *file)
{
    int descriptor = open(file->folder, O_RDONLY | O_DIRECTORY | O_CLOEXEC);
    if (descriptor < 0)
        return 0;
    int written = fsync(descriptor) == 0;
    int why = errno;
    close(descriptor);
    errno = why;
    return written;
}

int kept_commit(const kept_file *file, const kept_copy *copy)
{
    if (!write_fresh(file, copy) || rename(file->fresh, file->name) != 0) {
        say("%s keeps what it held, since %s could not be written: %s", file->name, file->fresh, strerror(errno));
        unlink(file->fresh);
        return 0;
    }
    if (!write_folder(file)) {
        say("%s is changed, but a power cut may undo that, since %s could not be written: %s", file->name, file->folder,
            strerror(errno));
        return 0;
    }
    return 1;
}
