/* Clients of redis at the same time, each on a thread and a connection of its own:

   clients SOCKET CLIENTS LIMIT WAY own|shared [RESERVE END]

   Each makes LIMIT transactions, or as many as it can within so many seconds where LIMIT ends with an `s`. One is a reservation of -1 and a COMMIT,
   which are calls of the scripts of redis.py, RESERVE and END by their hashes; without them it is a plain DECR. WAY commands are on their way at a
   time. The clients' numbers are `n:1:0`, `n:2:0` and so on, or all the first. A reply that refuses is an error. It prints how many transactions
   there were, the seconds that all took by the clock, once they are connected, and the processor time of the clients. */
#include <pthread.h>
#include <stdio.h>
#include <stdlib.h>
#include <string.h>
#include <sys/resource.h>
#include <sys/socket.h>
#include <sys/un.h>
#include <time.h>
#include <unistd.h>

enum { MOST_CLIENTS = 64, MOST_WAY = 200, MOST_COMMAND = 256 };

static struct sockaddr_un address = {.sun_family = AF_UNIX};
static const char *reserve, *end;
static long count, way;
static double length_of_time; /* zero where the transactions are counted */
static int own;
static pthread_barrier_t start;

static void fail(const char *what) {
    fprintf(stderr, "clients: %s\n", what);
    exit(2);
}

static double seconds(clockid_t clock) {
    struct timespec now;
    clock_gettime(clock, &now);
    return now.tv_sec + now.tv_nsec / 1e9;
}

/* Writes a command of so many words, and answers its length. */
static int command(char *text, int words, const char *const *word) {
    int length = sprintf(text, "*%d\r\n", words);
    for (int i = 0; i < words; i++) length += sprintf(text + length, "$%zu\r\n%s\r\n", strlen(word[i]), word[i]);
    return length;
}

/* Writes the commands of a client's transaction, and answers how many there are. */
static int transaction(long number, char commands[2][MOST_COMMAND], int length[2]) {
    char session[32], amount[32];
    sprintf(session, "s:%ld", number);
    sprintf(amount, "n:%ld:0", own ? number : 1);
    if (!reserve) {
        length[0] = command(commands[0], 2, (const char *[]){"DECR", amount});
        return 1;
    }
    length[0] = command(commands[0], 6, (const char *[]){"EVALSHA", reserve, "2", session, amount, "-1"});
    length[1] = command(commands[1], 5, (const char *[]){"EVALSHA", end, "1", session, "COMMIT"});
    return 2;
}

/* Reads the replies to so many commands, of one line each. A reply is a number: the reservation's, how many a COMMIT ended, or what a DECR left. */
static void meet(int socket, long replies) {
    static __thread char got[1 << 16];
    int begins = 1, is_zero = 0;
    while (replies > 0) {
        ssize_t length = read(socket, got, sizeof got);
        if (length <= 0) fail("the server has gone");
        for (ssize_t i = 0; i < length; i++) {
            if (begins && got[i] != ':') fail("an error");
            if (got[i] == '\n') {
                if (is_zero) fail("refused");
                replies--;
            } else if (!begins && got[i] != '\r')
                is_zero = got[i] == '0' && is_zero;
            else if (begins)
                is_zero = 1;
            begins = got[i] == '\n';
        }
    }
}

/* Makes a client's transactions, and answers how many there were. */
static void *client(void *place) {
    char commands[2][MOST_COMMAND];
    int length[2];
    const int calls = transaction((long)place, commands, length);
    int to = socket(AF_UNIX, SOCK_STREAM, 0);
    if (to < 0 || connect(to, (struct sockaddr *)&address, sizeof address)) fail("no connection");
    pthread_barrier_wait(&start);
    const double until = seconds(CLOCK_MONOTONIC) + length_of_time;
    char *batch = malloc(MOST_WAY * MOST_COMMAND);
    long at = 0;
    for (int goes_on = 1; goes_on;) {
        size_t filled = 0;
        long asked = 0;
        for (; asked < way; asked++, at++) {
            if (at % calls == 0) goes_on = length_of_time ? seconds(CLOCK_MONOTONIC) < until : at < calls * count;
            if (!goes_on) break;
            memcpy(batch + filled, commands[at % calls], length[at % calls]);
            filled += length[at % calls];
        }
        for (size_t sent = 0; sent < filled;) {
            ssize_t more = write(to, batch + sent, filled - sent);
            if (more <= 0) fail("the server has gone");
            sent += more;
        }
        meet(to, asked);
    }
    free(batch);
    close(to);
    return (void *)(at / calls);
}

int main(int argc, char **argv) {
    if ((argc != 6 && argc != 8) || strlen(argv[1]) >= sizeof address.sun_path) fail("wrong arguments");
    strcpy(address.sun_path, argv[1]);
    long clients = atol(argv[2]), transactions = 0;
    count = atol(argv[3]);
    length_of_time = strchr(argv[3], 's') ? atof(argv[3]) : 0;
    way = atol(argv[4]);
    own = !strcmp(argv[5], "own");
    if (argc == 8) {
        reserve = argv[6];
        end = argv[7];
        if (strlen(reserve) > 64 || strlen(end) > 64) fail("wrong arguments");
    }
    if (clients < 1 || clients > MOST_CLIENTS || way < 1 || way > MOST_WAY) fail("wrong arguments");
    pthread_t threads[MOST_CLIENTS];
    pthread_barrier_init(&start, NULL, clients + 1);
    for (long i = 0; i < clients; i++)
        if (pthread_create(&threads[i], NULL, client, (void *)(i + 1))) fail("no thread");
    pthread_barrier_wait(&start);
    double began = seconds(CLOCK_MONOTONIC), worked = seconds(CLOCK_PROCESS_CPUTIME_ID);
    for (long i = 0; i < clients; i++) {
        void *made;
        pthread_join(threads[i], &made);
        transactions += (long)made;
    }
    printf("%ld %f %f\n", transactions, seconds(CLOCK_MONOTONIC) - began, seconds(CLOCK_PROCESS_CPUTIME_ID) - worked);
    return 0;
}
