/* Sends frames over a loopback and appends what came, as a copy of a database does. Each frame is answered by nine
   bytes once its records are in the file. Each record is made to last by two calls of fdatasync: one behind it, and
   one behind a byte that says that it is there.
   Usage: copy FILE RECORD_SIZE < FRAMES     (FRAMES: a line for each frame, its size in bytes and its records) */
#include <arpa/inet.h>
#include <fcntl.h>
#include <netinet/in.h>
#include <stdio.h>
#include <stdlib.h>
#include <string.h>
#include <sys/socket.h>
#include <sys/wait.h>
#include <time.h>
#include <unistd.h>

enum { ANSWER = 9, MOST = 1 << 16 };

struct frame {
    size_t size;
    long records;
};

static struct frame frames[MOST];

static int read_frames(void) {
    int count = 0;
    while (count < MOST && scanf("%zu %ld", &frames[count].size, &frames[count].records) == 2)
        count++;
    return count;
}

static size_t greatest(int count) {
    size_t size = ANSWER;
    for (int i = 0; i < count; i++)
        if (frames[i].size > size)
            size = frames[i].size;
    return size;
}

static int take(int link, char *into, size_t size) {
    while (size > 0) {
        ssize_t taken = read(link, into, size);
        if (taken <= 0)
            return 1;
        into += taken;
        size -= (size_t)taken;
    }
    return 0;
}

static int give(int link, const char *bytes, size_t size) {
    while (size > 0) {
        ssize_t given = write(link, bytes, size);
        if (given <= 0)
            return 1;
        bytes += given;
        size -= (size_t)given;
    }
    return 0;
}

static int send_all(int count, struct sockaddr_in place) {
    char *bytes = calloc(1, greatest(count)), answer[ANSWER];
    int link = socket(AF_INET, SOCK_STREAM, 0);
    if (!bytes || link < 0 || connect(link, (struct sockaddr *)&place, sizeof place))
        return 1;
    for (int i = 0; i < count; i++)
        if (give(link, bytes, frames[i].size) || take(link, answer, ANSWER))
            return 1;
    return close(link);
}

static int append(int file, const char *record, size_t size, off_t at) {
    return pwrite(file, record, size + 1, at) != (ssize_t)size + 1 || fdatasync(file)
        || pwrite(file, "\1", 1, at) != 1 || fdatasync(file);
}

static int take_all(int count, int link, int file, size_t size) {
    char *bytes = malloc(greatest(count)), *record = malloc(size + 1), answer[ANSWER] = {0};
    off_t at = 0;
    if (!bytes || !record || link < 0)
        return 1;
    memset(record, 'x', size);
    record[size] = 0;
    for (int i = 0; i < count; i++) {
        if (take(link, bytes, frames[i].size))
            return 1;
        for (long j = 0; j < frames[i].records; j++, at += (off_t)size)
            if (append(file, record, size, at))
                return 1;
        if (give(link, answer, ANSWER))
            return 1;
    }
    return 0;
}

static double seconds(void) {
    struct timespec now;
    clock_gettime(CLOCK_MONOTONIC, &now);
    return (double)now.tv_sec + (double)now.tv_nsec / 1e9;
}

int main(int argc, char **argv) {
    if (argc != 3)
        return 1;
    int count = read_frames();
    int file = open(argv[1], O_CREAT | O_TRUNC | O_WRONLY, 0644);
    int door = socket(AF_INET, SOCK_STREAM, 0);
    struct sockaddr_in place = {.sin_family = AF_INET, .sin_addr.s_addr = htonl(INADDR_LOOPBACK)};
    socklen_t size = sizeof place;
    if (file < 0 || bind(door, (struct sockaddr *)&place, size) || listen(door, 1)
        || getsockname(door, (struct sockaddr *)&place, &size))
        return 1;
    double start = seconds();
    pid_t child = fork();
    if (child < 0)
        return 1;
    if (child == 0)
        _exit(send_all(count, place));
    int status = take_all(count, accept(door, NULL, NULL), file, (size_t)atol(argv[2])), ended = 1;
    if (waitpid(child, &ended, 0) != child || ended != 0 || status != 0)
        return 1;
    printf("%.6f\n", seconds() - start);
    return close(file);
}
