#define _GNU_SOURCE
/* Both ends of a measurement, for bench/serve.py, bench/slow.py, bench/floods.py and bench/streams.py:
 *   serve load PORT CLIENTS COUNT STEP AMONG STATUS REQUEST
 *       asks so many times from so many clients at once, a connection each, wants this status each
 *       time, and prints the seconds. The n-th asking has the number (n * STEP) % AMONG; eight `@` in
 *       the request stand for it, eight `#` for the one after it, and twelve `$` for that in hexadecimal.
 *   serve wait PORT CLIENTS SECONDS STATUS REQUEST FROM PATIENCE PAUSE
 *       asks for SECONDS seconds from CLIENTS clients at the address FROM, each PAUSE microseconds after its last
 *       answer. It prints how many requests were answered, and how many weren't, or not within PATIENCE seconds. Then
 *       it prints within how many milliseconds half of the answers came, 99 of 100, and all.
 *   serve limit COUNT ANSWER [STORE insert|update AMONG]
 *       prints a port, and answers so many connections by the same bytes: what accepting, reading,
 *       writing and closing alone take. With a store, the row of a user is put or changed by SQLite
 *       before each answer, with a log and every commit on the disk. It needs -DSTORE -lsqlite3.
 *   serve push PORT COUNT FIND CREATE JOURNAL
 *       what a push of so many new users asks of the system and of SQLite, and nothing else: a row for
 *       each user in one commit, and then for each a search, a creation, a commit of what came of
 *       them, and a line. It needs -DSTORE -lsqlite3 too.
 *   serve hold PORT MILLISECONDS
 *       prints a port, and answers each connection as the provider at PORT does, but so long after it came.
 */
#include <arpa/inet.h>
#include <poll.h>
#include <pthread.h>
#include <stdio.h>
#include <stdlib.h>
#include <string.h>
#include <sys/socket.h>
#include <time.h>
#include <unistd.h>
#ifdef STORE
#include <sqlite3.h>
#endif

enum { ROOM = 65536, ANSWER_ROOM = 1048576, MOST_CLIENTS = 64 };

struct text {
    char bytes[ROOM];
    size_t length;
};

static struct text text;
static const char *status;
static int port, clients, count;
static long step, among;

static void fail(int code) {
    perror("bench/serve.c");
    exit(code);
}

static void take_text(struct text *to, const char *name) {
    FILE *file = fopen(name, "rb");
    if (!file) fail(2);
    to->length = fread(to->bytes, 1, sizeof to->bytes, file);
    fclose(file);
}

static double seconds(void) {
    struct timespec now;
    clock_gettime(CLOCK_MONOTONIC, &now);
    return now.tv_sec + now.tv_nsec / 1e9;
}

/* Puts a number wherever so many marks stand. */
static void put(const struct text *form, char *request, const char *marks, const char *digits_form, long number) {
    size_t wide = strlen(marks);
    const char *mark = form->bytes;
    char digits[32];
    snprintf(digits, sizeof digits, digits_form, number);
    for (; (mark = memmem(mark, form->bytes + form->length - mark, marks, wide)); mark += wide) memcpy(request + (mark - form->bytes), digits, wide);
}

static const char *own_address;
static struct timeval patience;

/* A stream to the port, or -1 if it can't be set up. If there is an own address, it comes from there, and each call on
 * it fails after the patience. */
static int connection(void) {
    struct sockaddr_in to = {.sin_family = AF_INET, .sin_port = htons(port), .sin_addr.s_addr = htonl(INADDR_LOOPBACK)};
    struct sockaddr_in own = {.sin_family = AF_INET};
    int one = 1, peer = socket(AF_INET, SOCK_STREAM, 0);
    if (own_address) {
        own.sin_addr.s_addr = inet_addr(own_address);
        setsockopt(peer, IPPROTO_IP, IP_BIND_ADDRESS_NO_PORT, &one, sizeof one);
        setsockopt(peer, SOL_SOCKET, SO_RCVTIMEO, &patience, sizeof patience);
        setsockopt(peer, SOL_SOCKET, SO_SNDTIMEO, &patience, sizeof patience);
        if (bind(peer, (struct sockaddr *)&own, sizeof own)) fail(3);
    }
    if (!connect(peer, (struct sockaddr *)&to, sizeof to)) return peer;
    close(peer);
    return -1;
}

static int connected(void) {
    int peer = connection();
    if (peer < 0) fail(3);
    return peer;
}

/* Asks on this connection, and closes it: whether an answer with this status came. */
static int is_answered(int peer, const char *request, size_t length, char *taken, size_t *got, const char *wanted) {
    ssize_t more = send(peer, request, length, MSG_NOSIGNAL) == (ssize_t)length ? 0 : -1;
    for (*got = 0; more >= 0 && (more = read(peer, taken + *got, ANSWER_ROOM - *got)) > 0;) *got += more;
    close(peer);
    return !more && *got >= 12 && !memcmp(taken + 9, wanted, 3);
}

/* Asks on a connection of its own, and wants an answer with this status. */
static void ask(const char *request, size_t length, char *taken, const char *wanted) {
    size_t got;
    if (!is_answered(connected(), request, length, taken, &got, wanted)) {
        fprintf(stderr, "%.*s\nis answered by %.*s\n", (int)length, request, (int)got, taken);
        exit(4);
    }
}

static void *client(void *place) {
    char *request = malloc(ROOM), *taken = malloc(ANSWER_ROOM);
    if (!request || !taken) fail(2);
    memcpy(request, text.bytes, text.length);
    for (int n = (int)(long)place; n < count; n += clients) {
        long number = n * step % among;
        put(&text, request, "@@@@@@@@", "%08ld", number);
        put(&text, request, "########", "%08ld", number + 1);
        put(&text, request, "$$$$$$$$$$$$", "%012lx", number + 1);
        ask(request, text.length, taken, status);
    }
    return 0;
}

static int load(void) {
    pthread_t threads[MOST_CLIENTS];
    if (clients < 1 || clients > MOST_CLIENTS) return 2;
    double start = seconds();
    for (long n = 0; n < clients; n++)
        if (pthread_create(&threads[n], 0, client, (void *)n)) fail(3);
    for (int n = 0; n < clients; n++) pthread_join(threads[n], 0);
    printf("%.6f\n", seconds() - start);
    return 0;
}

enum { MOST_WAITS = 4000000 };

/* How long each answer took, of all clients. */
static float *waits;
static int answered, unanswered;
static double until;
static int break_time;

static void *waiting_client(void *unused) {
    char *taken = malloc(ANSWER_ROOM);
    if (!taken) fail(2);
    for (double begin, end; (begin = seconds()) < until;) {
        size_t got;
        int peer = connection(), is_lost = peer < 0 || !is_answered(peer, text.bytes, text.length, taken, &got, status);
        end = seconds();
        int place = __atomic_fetch_add(is_lost ? &unanswered : &answered, 1, __ATOMIC_RELAXED);
        if (!is_lost && place < MOST_WAITS) waits[place] = (end - begin) * 1e3;
        /* (one that is refused at once comes again a moment later) */
        if (is_lost || break_time) usleep(is_lost ? 1000 : break_time);
    }
    free(taken);
    return unused;
}

static int is_longer(const void *one, const void *other) {
    float a = *(const float *)one, b = *(const float *)other;
    return (a > b) - (a < b);
}

static int waiting(double length) {
    pthread_t threads[MOST_CLIENTS];
    if (clients < 1 || clients > MOST_CLIENTS || !(waits = malloc(MOST_WAITS * sizeof *waits))) return 2;
    until = seconds() + length;
    for (long n = 0; n < clients; n++)
        if (pthread_create(&threads[n], 0, waiting_client, 0)) fail(3);
    for (int n = 0; n < clients; n++) pthread_join(threads[n], 0);
    if (answered > MOST_WAITS) answered = MOST_WAITS;
    qsort(waits, answered, sizeof *waits, is_longer);
    printf("%d %d %.3f %.3f %.3f\n", answered, unanswered, answered ? waits[answered / 2] : 0,
           answered ? waits[answered * 99L / 100] : 0, answered ? waits[answered - 1] : 0);
    return 0;
}

#ifdef STORE
static const char *modes = "PRAGMA journal_mode = WAL; PRAGMA synchronous = FULL;";
static sqlite3_stmt *change;

static void open_store(const char *path, const char *kind) {
    sqlite3 *store;
    const char *insert = "INSERT INTO resource (number, kind, name_key, version, content) VALUES (?1, 1, ?2, 1, ?3)";
    const char *update = "UPDATE resource SET version = version + 1, content = ?3 WHERE number = ?1";
    if (sqlite3_open(path, &store) || sqlite3_exec(store, modes, 0, 0, 0)) fail(5);
    if (sqlite3_prepare_v2(store, strcmp(kind, "insert") ? update : insert, -1, &change, 0)) fail(5);
}

static void commit(int n, const char *content, size_t size) {
    char name[32];
    snprintf(name, sizeof name, "%08d", n);
    sqlite3_bind_int64(change, 1, n % among + 1);
    sqlite3_bind_text(change, 2, name, -1, SQLITE_TRANSIENT);
    sqlite3_bind_text(change, 3, content, size, SQLITE_STATIC);
    if (sqlite3_step(change) != SQLITE_DONE) fail(6);
    sqlite3_reset(change);
}

static sqlite3 *open_journal(const char *path) {
    sqlite3 *journal;
    const char *table = "CREATE TABLE entry (name TEXT PRIMARY KEY, row TEXT NOT NULL, confirmed INTEGER NOT NULL, id TEXT)";
    if (sqlite3_open(path, &journal) || sqlite3_exec(journal, modes, 0, 0, 0) || sqlite3_exec(journal, table, 0, 0, 0)) fail(5);
    return journal;
}

/* Runs a statement on the entry of a user. */
static void on_entry(sqlite3_stmt *statement, int n, const struct text *row) {
    char name[32];
    snprintf(name, sizeof name, "%08d", n);
    sqlite3_bind_text(statement, 1, name, -1, SQLITE_TRANSIENT);
    sqlite3_bind_text(statement, 2, row->bytes, row->length, SQLITE_STATIC);
    if (sqlite3_step(statement) != SQLITE_DONE) fail(6);
    sqlite3_reset(statement);
}

static void offer(sqlite3 *journal, const struct text *row) {
    sqlite3_stmt *insert;
    const char *sql = "INSERT INTO entry (name, row, confirmed) VALUES (?1, ?2, 0)";
    if (sqlite3_exec(journal, "BEGIN", 0, 0, 0) || sqlite3_prepare_v2(journal, sql, -1, &insert, 0)) fail(5);
    for (int n = 0; n < count; n++) on_entry(insert, n, row);
    if (sqlite3_exec(journal, "COMMIT", 0, 0, 0)) fail(6);
}

static int push(const char *find_name, const char *create_name, const char *path) {
    static struct text find, create;
    char *request = malloc(ROOM), *taken = malloc(ANSWER_ROOM);
    sqlite3_stmt *confirm;
    const char *sql = "UPDATE entry SET confirmed = 1, id = ?2 WHERE name = ?1";
    struct text id = {.bytes = "5c1a0000-0000-8000-8000-000000000001", .length = 36};
    sqlite3 *journal = open_journal(path);
    take_text(&find, find_name);
    take_text(&create, create_name);
    offer(journal, &create);
    if (!request || !taken || sqlite3_prepare_v2(journal, sql, -1, &confirm, 0)) fail(5);
    for (int n = 0; n < count; n++) {
        memcpy(request, find.bytes, find.length), put(&find, request, "@@@@@@@@", "%08ld", n);
        ask(request, find.length, taken, "200");
        memcpy(request, create.bytes, create.length), put(&create, request, "@@@@@@@@", "%08ld", n);
        ask(request, create.length, taken, "201");
        on_entry(confirm, n, &id);
        printf("user %08d confirmed 1\n", n);
        fflush(stdout);
    }
    return 0;
}
#endif

/* The body of a request is the row's content. */
static void answer(int peer, int n, int stores) {
    char taken[ROOM];
    ssize_t got = read(peer, taken, sizeof taken);
    if (got < 0) fail(4);
#ifdef STORE
    char *body = memmem(taken, got, "\r\n\r\n", 4);
    if (stores && body) commit(n, body + 4, taken + got - body - 4);
#else
    if (stores) exit(2);
#endif
    (void)n;
    if (write(peer, text.bytes, text.length) < 0) fail(4);
}

/* Listens, and prints where. */
static int listening(void) {
    struct sockaddr_in at = {.sin_family = AF_INET, .sin_addr.s_addr = htonl(INADDR_LOOPBACK)};
    socklen_t size = sizeof at;
    int one = 1, listener = socket(AF_INET, SOCK_STREAM, 0);
    setsockopt(listener, SOL_SOCKET, SO_REUSEADDR, &one, sizeof one);
    if (bind(listener, (struct sockaddr *)&at, size) || listen(listener, 128)) fail(3);
    getsockname(listener, (struct sockaddr *)&at, &size);
    printf("listening 127.0.0.1:%d\n", ntohs(at.sin_port));
    fflush(stdout);
    return listener;
}

static double delay;

/* Hands a request on, and the answer back, not before its time. */
static void *hold(void *place) {
    char part[ROOM], taken[ROOM];
    double due = seconds() + delay;
    struct pollfd ends[] = {{.fd = (long)place, .events = POLLIN}, {.fd = connected(), .events = POLLIN}};
    ssize_t got = 0;
    for (ssize_t more; poll(ends, 2, -1) > 0 && !ends[1].revents;)
        if ((more = read(ends[0].fd, part, sizeof part)) <= 0) ends[0].fd = -1;
        else if (write(ends[1].fd, part, more) != more) fail(4);
    for (ssize_t more; (more = read(ends[1].fd, taken + got, sizeof taken - got)) > 0;) got += more;
    close(ends[1].fd);
    if (due > seconds()) usleep((due - seconds()) * 1e6);
    if (write((long)place, taken, got) != got) fail(4);
    close((long)place);
    return 0;
}

static void holding(void) {
    pthread_t thread;
    for (int listener = listening();;)
        if (pthread_create(&thread, 0, hold, (void *)(long)accept(listener, 0, 0)) || pthread_detach(thread)) fail(3);
}

static int limit(int stores) {
    int listener = listening();
    for (int n = 0; n < count; n++) {
        int peer = accept(listener, 0, 0);
        answer(peer, n, stores);
        close(peer);
    }
    return 0;
}

int main(int words, char **word) {
    if (words == 9 && !strcmp(word[1], "load")) {
        port = atoi(word[2]), clients = atoi(word[3]), count = atoi(word[4]);
        step = atol(word[5]), among = atol(word[6]), status = word[7];
        take_text(&text, word[8]);
        return load();
    }
    if (words == 10 && !strcmp(word[1], "wait")) {
        port = atoi(word[2]), clients = atoi(word[3]), status = word[5];
        own_address = word[7], patience.tv_sec = atoi(word[8]), break_time = atoi(word[9]);
        take_text(&text, word[6]);
        return waiting(atof(word[4]));
    }
    if (words == 4 && !strcmp(word[1], "hold")) {
        port = atoi(word[2]), delay = atoi(word[3]) / 1e3;
        holding();
    }
#ifdef STORE
    if (words == 7 && !strcmp(word[1], "push")) {
        port = atoi(word[2]), count = atoi(word[3]);
        return push(word[4], word[5], word[6]);
    }
#endif
    if (words < 4 || strcmp(word[1], "limit")) return 2;
    count = atoi(word[2]);
    take_text(&text, word[3]);
#ifdef STORE
    if (words == 7) {
        among = atol(word[6]);
        open_store(word[4], word[5]);
    }
#endif
    return limit(words == 7);
}
