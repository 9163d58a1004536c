/* Runs a journal program with its standard input or output in this program's hands. What the program prints goes to this
   one's standard output. It may end with any status, but not by a signal.

     feed apart PROGRAM JOURNAL        every read of the program's brings one byte of the journal
     feed broken PROGRAM JOURNAL       after the journal's bytes a read fails, once
     feed HOW PROGRAM FIRST SECOND     a read brings the bytes of FIRST, the next those of SECOND, and HOW says what becomes
                                       of what is written: `full`, `closed` and `unread` refuse every write, `short` only
                                       long ones. After the first three, SECOND is to be unread when the program has ended. */
#define _GNU_SOURCE
#include <fcntl.h>
#include <signal.h>
#include <string.h>
#include <sys/socket.h>
#include <sys/wait.h>
#include <unistd.h>

#include "expect.h"

#define FILE_MOST (1 << 22) /* bytes of the longest file */
#define NOT_RUN 127         /* the status of a program that could not be run */
#define SHORT 4096          /* bytes of the shortest send buffer that the system gives, or fewer */

struct bytes {
    char *at;
    size_t count;
};

/* A pair of sockets: what one takes comes out of the other. */
struct pair {
    int ours;
    int theirs;
};

static struct bytes file(const char *name)
{
    struct bytes b = {malloc(FILE_MOST), 0};
    FILE *f = fopen(name, "rb");
    EXPECT(f != NULL && b.at != NULL);
    b.count = fread(b.at, 1, FILE_MOST, f);
    EXPECT(b.count < FILE_MOST && fclose(f) == 0);
    return b;
}

static struct pair pair_of(int kind)
{
    int ends[2];
    EXPECT(socketpair(AF_UNIX, kind | SOCK_CLOEXEC, 0, ends) == 0);
    return (struct pair){ends[0], ends[1]};
}

/* Starts the program with these as its standard input and output; -1 for an output that is closed. */
static pid_t start(const char *program, int in, int out)
{
    pid_t child = fork();
    EXPECT(child >= 0);
    if (child == 0) {
        dup2(in, STDIN_FILENO);
        if (out < 0)
            close(STDOUT_FILENO);
        else
            dup2(out, STDOUT_FILENO);
        execl(program, program, (char *)NULL);
        _exit(NOT_RUN);
    }
    return child;
}

/* Waits until the program has ended. */
static void await(pid_t child)
{
    int status;
    EXPECT(waitpid(child, &status, 0) == child);
    EXPECT(WIFEXITED(status) && WEXITSTATUS(status) != NOT_RUN);
}

/* A packet for each byte: a read gets one packet. A program that has ended takes no more. */
static void apart(const char *program, struct bytes journal)
{
    struct pair in = pair_of(SOCK_SEQPACKET);
    pid_t child = start(program, in.theirs, STDOUT_FILENO);
    close(in.theirs);
    size_t sent = 0;
    while (sent < journal.count && send(in.ours, journal.at + sent, 1, 0) == 1)
        sent++;
    close(in.ours);
    await(child);
}

/* An end that is closed while a byte to it is unread breaks the connection: the other end reads what is there, and then the
   read fails. */
static void broken(const char *program, struct bytes journal)
{
    struct pair in = pair_of(SOCK_STREAM);
    EXPECT(write(in.theirs, "", 1) == 1);
    EXPECT(write(in.ours, journal.at, journal.count) == (ssize_t)journal.count);
    close(in.ours);
    await(start(program, in.theirs, STDOUT_FILENO));
}

/* An output that is full, closed, without a reader, or with room for short writes alone. */
static int output(const char *how, struct pair *short_writes)
{
    int ends[2];
    int room = SHORT;
    if (strcmp(how, "full") == 0)
        return open("/dev/full", O_WRONLY | O_CLOEXEC);
    if (strcmp(how, "closed") == 0)
        return -1;
    if (strcmp(how, "unread") == 0) {
        EXPECT(pipe2(ends, O_CLOEXEC) == 0);
        close(ends[0]);
        return ends[1];
    }
    EXPECT(strcmp(how, "short") == 0);
    *short_writes = pair_of(SOCK_SEQPACKET);
    EXPECT(setsockopt(short_writes->theirs, SOL_SOCKET, SO_SNDBUF, &room, sizeof room) == 0);
    return short_writes->theirs;
}

/* Hands on what comes out of a socket, to its end. */
static void hand_on(int from)
{
    static char bytes[FILE_MOST];
    ssize_t got;
    while ((got = read(from, bytes, sizeof bytes)) > 0)
        EXPECT(fwrite(bytes, 1, (size_t)got, stdout) == (size_t)got);
    EXPECT(fflush(stdout) == 0);
}

static void unwritable(const char *how, const char *program, struct bytes first, struct bytes second)
{
    static char left[FILE_MOST];
    struct pair in = pair_of(SOCK_SEQPACKET), short_writes = {-1, -1};
    int out = output(how, &short_writes);
    EXPECT(send(in.ours, first.at, first.count, 0) == (ssize_t)first.count);
    EXPECT(send(in.ours, second.at, second.count, 0) == (ssize_t)second.count);
    EXPECT(shutdown(in.ours, SHUT_WR) == 0);
    pid_t child = start(program, in.theirs, out);
    if (out >= 0)
        close(out);
    if (short_writes.ours >= 0)
        hand_on(short_writes.ours);
    await(child);
    ssize_t got = recv(in.theirs, left, sizeof left, MSG_DONTWAIT);
    if (short_writes.ours < 0)
        EXPECT(got == (ssize_t)second.count && memcmp(left, second.at, second.count) == 0);
}

int main(int count, char **words)
{
    signal(SIGPIPE, SIG_IGN);
    EXPECT(count == 4 || count == 5);
    if (count == 5)
        unwritable(words[1], words[2], file(words[3]), file(words[4]));
    else if (strcmp(words[1], "apart") == 0)
        apart(words[2], file(words[3]));
    else
        broken(words[2], file(words[3]));
    return 0;
}
