/* What the plain loops in C share: chunk files below a folder, and processes of which each makes some of the parts. */
#include <fcntl.h>
#include <stdarg.h>
#include <stdint.h>
#include <stdio.h>
#include <stdlib.h>
#include <string.h>
#include <sys/resource.h>
#include <sys/stat.h>
#include <sys/wait.h>
#include <unistd.h>

static const char *folder;

static void die(const char *what)
{
    perror(what);
    exit(1);
}

static void *room(size_t bytes)
{
    void *found = malloc(bytes);
    if (!found)
        die("malloc");
    return found;
}

/* Files */

static int open_file(const char *path)
{
    int file = open(path, O_RDONLY);
    if (file < 0)
        die(path);
    return file;
}

static void read_at(int file, void *to, size_t bytes, size_t at)
{
    for (size_t done = 0; done < bytes;) {
        ssize_t count = pread(file, (char *)to + done, bytes - done, at + done);
        if (count <= 0)
            die("pread");
        done += count;
    }
}

/* Reads a whole chunk; the words are its file's. */
static void read_chunk(void *to, size_t bytes, const char *format, ...)
{
    char path[4096];
    int length = snprintf(path, sizeof path, "%s/", folder);
    va_list words;
    va_start(words, format);
    vsnprintf(path + length, sizeof path - length, format, words);
    va_end(words);
    int file = open_file(path);
    read_at(file, to, bytes, 0);
    close(file);
}

static void make_folders(char *path)
{
    for (char *at = strchr(path + strlen(folder) + 1, '/'); at; at = strchr(at + 1, '/')) {
        *at = 0;
        mkdir(path, 0777);
        *at = '/';
    }
}

/* Puts a chunk of the result in place; the words are its coordinate. */
static void put(const void *from, size_t bytes, const char *format, ...)
{
    char path[4096], new[4100];
    int length = snprintf(path, sizeof path, "%s/loops/c/", folder);
    va_list words;
    va_start(words, format);
    vsnprintf(path + length, sizeof path - length, format, words);
    va_end(words);
    make_folders(path);
    snprintf(new, sizeof new, "%s.new", path);
    int file = open(new, O_WRONLY | O_CREAT | O_TRUNC, 0666);
    if (file < 0)
        die(new);
    for (size_t done = 0; done < bytes;) {
        ssize_t count = write(file, (const char *)from + done, bytes - done);
        if (count <= 0)
            die(new);
        done += count;
    }
    if (fdatasync(file) || close(file) || rename(new, path))
        die(path);
}

/* Processes */

/* Makes all parts by a function that makes those from one to another; each of several processes has a share of them. */
static void make_all(void (*make)(int, int), int parts, int processes)
{
    if (processes == 1) {
        make(0, parts);
        return;
    }
    for (int share = 0; share < processes; share++) {
        pid_t child = fork();
        if (child < 0)
            die("fork");
        if (child == 0) {
            make(parts * share / processes, parts * (share + 1) / processes);
            exit(0);
        }
    }
    for (int status; wait(&status) > 0;)
        if (status)
            exit(1);
}

static double processor_seconds(int who)
{
    struct rusage spent;
    getrusage(who, &spent);
    return spent.ru_utime.tv_sec + spent.ru_stime.tv_sec + (spent.ru_utime.tv_usec + spent.ru_stime.tv_usec) / 1e6;
}

/* Prints the seconds of the processor in this process and in those that it made. */
static void tell_seconds(void)
{
    printf("%.6f\n", processor_seconds(RUSAGE_SELF) + processor_seconds(RUSAGE_CHILDREN));
}
