/* Clients of the program at the same time, on the two pipes that they share, as those of an application or a gateway do:

   pipe CLIENTS SECONDS waiting|pipelined own|shared < REPLIES > LINES

   Client K is session K of `bank`, and takes 1 from row K of STOCK, or all take from row 1: an UPDATE and a COMMIT, again and again. A client that is
   `waiting` sends a line once its last one is answered. The lines that are due, once replies were read, are sent by one write. `pipelined` clients wait
   for nothing: a line of each in turn, as fast as the pipe takes them. After so many seconds each client ends what it has begun. A reply that isn't OK
   is an error. It prints on standard error how many takes were answered, the seconds by the clock to the last reply, and those of processor time. */
#include <poll.h>
#include <stdio.h>
#include <stdlib.h>
#include <string.h>
#include <time.h>
#include <unistd.h>

enum { MOST_CLIENTS = 64, MOST_LINE = 128, MOST_WRITE = 4096, MOST_READ = 1 << 16 };

static struct {
    char text[2][MOST_LINE]; /* the UPDATE and the COMMIT, which is sent if `holds` */
    int length[2], holds;
} client[MOST_CLIENTS];
static int clients, pipelined, is_over;
static double until;
static long takes, running; /* how many lines are due or on their way */
static char due[MOST_CLIENTS * 2 * MOST_LINE];
static size_t filled, sent;

static void fail(const char *what, int length) {
    fprintf(stderr, "pipe: %.*s\n", length, what);
    exit(2);
}

static double seconds(clockid_t clock) {
    struct timespec now;
    clock_gettime(clock, &now);
    return now.tv_sec + now.tv_nsec / 1e9;
}

/* Has a client's UPDATE or COMMIT sent. */
static void ask(int number, int is_commit) {
    memcpy(due + filled, client[number].text[is_commit], client[number].length[is_commit]);
    filled += client[number].length[is_commit];
    running++;
}

/* Has an UPDATE and a COMMIT of each client sent, a line of each in turn. */
static void ask_all(void) {
    for (int is_commit = 0; is_commit <= pipelined; is_commit++)
        for (int number = 0; number < clients; number++) ask(number, is_commit);
}

/* Writes lines that are due, no more at once than a pipe takes without a wait if it takes any. */
static void write_due(void) {
    size_t length = filled - sent < MOST_WRITE ? filled - sent : MOST_WRITE;
    ssize_t written = write(STDOUT_FILENO, due + sent, length);
    if (written <= 0) fail("the program has gone", 20);
    sent += written;
    if (sent == filled) sent = filled = 0;
}

/* Meets a reply, `bank.K> OK reserved N` or `bank.K> OK committed 1`, by which a client that waits has its next line sent. */
static void meet(const char *line, int length) {
    int number = atoi(line + 5) - 1;
    const char *text = memchr(line, '>', length);
    if (!text || number < 0 || number >= clients) fail(line, length);
    int *holds = &client[number].holds;
    if (strncmp(text, *holds ? "> OK committed 1" : "> OK reserved ", *holds ? 16 : 14)) fail(line, length);
    *holds = !*holds;
    running--;
    takes += !*holds;
    if (!pipelined && (*holds || !is_over)) ask(number, *holds);
}

/* Reads replies, at least a part of one, and meets those that are whole. */
static void read_replies(void) {
    static char got[MOST_READ + 1];
    static size_t kept;
    ssize_t length = read(STDIN_FILENO, got + kept, MOST_READ - kept);
    if (length <= 0) fail("the program has gone", 20);
    kept += length;
    char *line = got, *feed;
    while ((feed = memchr(line, '\n', got + kept - line))) {
        meet(line, feed - line);
        line = feed + 1;
    }
    kept -= line - got;
    memmove(got, line, kept);
}

/* Waits until the pipes take lines that are due or have replies, and has more lines sent where all are. */
static void write_and_read(void) {
    if (!filled && !is_over) ask_all();
    struct pollfd ends[] = {{.fd = STDIN_FILENO, .events = POLLIN}, {.fd = filled ? STDOUT_FILENO : -1, .events = POLLOUT}};
    if (poll(ends, 2, -1) < 0) fail("no poll", 7);
    if (ends[1].revents) write_due();
    if (ends[0].revents) read_replies();
}

/* Whether time is left, or a client has to end what it has begun. */
static int goes_on(void) {
    is_over = seconds(CLOCK_MONOTONIC) >= until;
    return running || !is_over;
}

int main(int argc, char **argv) {
    clients = argc == 5 ? atoi(argv[1]) : 0;
    if (clients < 1 || clients > MOST_CLIENTS) fail("wrong arguments", 15);
    pipelined = !strcmp(argv[3], "pipelined");
    for (int i = 0; i < clients; i++) {
        int row = strcmp(argv[4], "own") ? 1 : i + 1;
        client[i].length[0] = sprintf(client[i].text[0], "bank.%d: UPDATE STOCK SET PIECES = PIECES - 1 WHERE ID = %d\n", i + 1, row);
        client[i].length[1] = sprintf(client[i].text[1], "bank.%d: COMMIT\n", i + 1);
    }
    double began = seconds(CLOCK_MONOTONIC);
    until = began + atof(argv[2]);
    ask_all();
    while (goes_on()) {
        if (pipelined)
            write_and_read();
        else {
            write_due();
            read_replies();
        }
    }
    fprintf(stderr, "%ld %f %f\n", takes, seconds(CLOCK_MONOTONIC) - began, seconds(CLOCK_PROCESS_CPUTIME_ID));
    return 0;
}
