/* Test driver of the printed product, not proved: runs the program. */
#define _POSIX_C_SOURCE 200809L
#include "child.h"

#include <spawn.h>
#include <stdio.h>
#include <stdlib.h>
#include <sys/wait.h>
#include <unistd.h>

static void need(int holds, const char *what)
{
    if (holds)
        return;
    fprintf(stderr, "failed: %s\n", what);
    exit(2);
}

size_t read_file(const char *path, void *bytes, size_t room)
{
    FILE *file = fopen(path, "rb");
    need(file != NULL, path);
    size_t length = fread(bytes, 1, room, file);
    need(ferror(file) == 0, path);
    fclose(file);
    return length;
}

/* A temporary file with these bytes, which has no name; its offset is at the start. */
static int file_of(const uint8_t *bytes, size_t length)
{
    static FILE *file;
    if (file == NULL)
        file = tmpfile();
    need(file != NULL, "making a file");
    int descriptor = fileno(file);
    need(ftruncate(descriptor, 0) == 0 && pwrite(descriptor, bytes, length, 0) == (ssize_t)length, "writing the input");
    need(lseek(descriptor, 0, SEEK_SET) == 0, "going back in the input");
    return descriptor;
}

static pid_t start(const char *path, int input, const int output[2])
{
    posix_spawn_file_actions_t actions;
    char *words[] = {(char *)path, NULL}, *none[] = {NULL};
    pid_t process;
    need(posix_spawn_file_actions_init(&actions) == 0, "starting");
    need(posix_spawn_file_actions_adddup2(&actions, input, 0) == 0, "starting");
    need(posix_spawn_file_actions_adddup2(&actions, output[1], 1) == 0, "starting");
    need(posix_spawn_file_actions_addclose(&actions, output[0]) == 0, "starting");
    need(posix_spawn(&process, path, &actions, NULL, words, none) == 0, path);
    posix_spawn_file_actions_destroy(&actions);
    return process;
}

size_t run_program(const char *path, const uint8_t *input, size_t length, char text[TEXT_ROOM])
{
    int output[2], status;
    size_t count = 0;
    ssize_t got;
    need(pipe(output) == 0, "making a pipe");
    pid_t process = start(path, file_of(input, length), output);
    close(output[1]);
    while ((got = read(output[0], text + count, TEXT_ROOM - 1 - count)) > 0)
        count += (size_t)got;
    close(output[0]);
    need(got == 0 && waitpid(process, &status, 0) == process && status == 0, "the program's status");
    text[count] = 0;
    return count;
}
