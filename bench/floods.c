#define _GNU_SOURCE
/* A crowd of clients for bench/floods.py:
 *   floods KIND PORT FROM SPREAD CLIENTS SECONDS FIRST PACE
 * CLIENTS clients connect, send the text of the file FIRST, and go on by their KIND. If a client is closed or done, it
 * comes again at once. The clients share SPREAD addresses, from FROM on. Once each has sent its text, or after 10 s,
 * the program prints a line with the seconds that this took, and goes on for SECONDS seconds.
 *   ask       reads its answer to the end
 *   drain     once its answer comes, sends blocks of 64 KB for PACE milliseconds
 *   leave     closes as soon as it is connected. At most PACE connections a second are made
 *   sip       has room for few bytes, and reads 256 every PACE milliseconds
 *   stay      does nothing for PACE milliseconds, then closes; if that is 0, it stays
 *   trickle   sends the last byte of FIRST again every PACE milliseconds
 *   unread    as `stay`, with room for few bytes
 * At its end it prints how many connections were made since that line, and how many of them the server ended. */
#include <arpa/inet.h>
#include <netinet/tcp.h>
#include <stdio.h>
#include <stdlib.h>
#include <string.h>
#include <sys/epoll.h>
#include <sys/socket.h>
#include <time.h>
#include <unistd.h>

enum { ROOM = 65536, EVENTS = 512, SIP = 256, NEVER = 1000000, MOST_SETTING_UP = 10 };

struct client {
    int peer;
    size_t sent;
    enum { AWAY, CONNECTING, SENDING, SENT, DRAINED } state;
    /* whether it has ever sent its text */
    int is_set_up;
    /* when it does something by itself */
    double due;
};

static char first[ROOM], block[ROOM], kind;
static size_t length;
static int port, spread, poller, is_narrow;
static in_addr_t from;
static double pace, tokens, made_at;
static struct client *clients;
static long came, ended, set_up;

static void fail(void) {
    perror("bench/floods.c");
    exit(3);
}

static double seconds(void) {
    struct timespec now;
    clock_gettime(CLOCK_MONOTONIC, &now);
    return now.tv_sec + now.tv_nsec / 1e9;
}

static void watch(struct client *client, int how, unsigned events) {
    struct epoll_event event = {.events = events, .data.ptr = client};
    if (epoll_ctl(poller, how, client->peer, &event)) fail();
}

static void leave(struct client *client, double due) {
    close(client->peer);
    client->state = AWAY, client->due = due;
}

/* Whether one more connection may be made now. */
static int is_allowed(double now) {
    if (kind != 'l') return 1;
    tokens += (now - made_at) * pace * 1e3;
    made_at = now;
    if (tokens > pace * 10) tokens = pace * 10;
    return tokens >= 1 && tokens--;
}

static void come(struct client *client, double now) {
    struct sockaddr_in to = {.sin_family = AF_INET, .sin_port = htons(port), .sin_addr.s_addr = htonl(INADDR_LOOPBACK)};
    struct sockaddr_in own = {.sin_family = AF_INET, .sin_addr.s_addr = htonl(ntohl(from) + (client - clients) % spread)};
    int one = 1, least = 88;
    if (!is_allowed(now)) return;
    client->peer = socket(AF_INET, SOCK_STREAM | SOCK_NONBLOCK, 0);
    if (client->peer < 0) fail();
    setsockopt(client->peer, IPPROTO_IP, IP_BIND_ADDRESS_NO_PORT, &one, sizeof one);
    if (is_narrow) {
        setsockopt(client->peer, SOL_SOCKET, SO_RCVBUF, &one, sizeof one);
        setsockopt(client->peer, IPPROTO_TCP, TCP_MAXSEG, &least, sizeof least);
    }
    if (bind(client->peer, (struct sockaddr *)&own, sizeof own)) fail();
    client->state = CONNECTING, client->sent = 0, client->due = now + NEVER;
    watch(client, EPOLL_CTL_ADD, EPOLLOUT);
    /* (what fails later is an event) */
    connect(client->peer, (struct sockaddr *)&to, sizeof to);
}

static void be_set_up(struct client *client) {
    set_up += !client->is_set_up;
    client->is_set_up = 1;
}

/* Its first text is sent. */
static void go_on(struct client *client, double now) {
    be_set_up(client);
    client->state = SENT;
    watch(client, EPOLL_CTL_MOD, kind == 'p' ? 0 : kind == 'u' ? EPOLLRDHUP : EPOLLIN);
    if (kind == 't' || kind == 'p') client->due = now + pace;
    else if ((kind == 's' || kind == 'u') && pace > 0) client->due = now + pace;
}

/* Something can be sent, or the connection is set up. */
static void send_more(struct client *client, double now) {
    if (client->state == CONNECTING) {
        came++;
        client->state = SENDING;
        if (kind == 'l') return be_set_up(client), leave(client, now);
    }
    if (client->state == DRAINED) {
        if (send(client->peer, block, sizeof block, MSG_NOSIGNAL) < 0) ended++, leave(client, now);
        return;
    }
    ssize_t more = send(client->peer, first + client->sent, length - client->sent, MSG_NOSIGNAL);
    if (more < 0) return ended++, leave(client, now);
    if ((client->sent += more) == length) go_on(client, now);
}

/* Something came. */
static void take(struct client *client, double now) {
    static char taken[ROOM];
    ssize_t got = recv(client->peer, taken, is_narrow ? SIP : ROOM, MSG_DONTWAIT);
    if (got <= 0) return ended++, leave(client, now);
    if (kind == 'd') {
        client->state = DRAINED, client->due = now + pace;
        watch(client, EPOLL_CTL_MOD, EPOLLOUT);
    }
}

/* It is time to do something. */
static void act(struct client *client, double now) {
    if (client->state == AWAY) return come(client, now);
    if (kind == 't') {
        client->due = now + pace;
        send(client->peer, first + length - 1, 1, MSG_NOSIGNAL | MSG_DONTWAIT);
    } else if (kind == 'p') {
        static char taken[SIP];
        client->due = now + pace;
        if (recv(client->peer, taken, sizeof taken, MSG_DONTWAIT) == 0) ended++, leave(client, now);
    } else
        leave(client, now);
}

static void react(struct epoll_event *event, double now) {
    struct client *client = event->data.ptr;
    if (event->events & (EPOLLERR | EPOLLHUP | EPOLLRDHUP)) {
        /* one that wasn't set up tries again a moment later */
        if (client->state == CONNECTING) return leave(client, now + 0.01);
        return ended++, leave(client, now);
    }
    if (event->events & EPOLLIN) take(client, now);
    else send_more(client, now);
}

static void take_first(const char *name) {
    FILE *file = fopen(name, "rb");
    if (!file) fail();
    length = fread(first, 1, sizeof first, file);
    fclose(file);
}

int main(int words, char **word) {
    static struct epoll_event events[EVENTS];
    if (words != 9) return 2;
    /* (the two that begin with an s) */
    kind = strcmp(word[1], "sip") ? word[1][0] : 'p';
    port = atoi(word[2]), from = inet_addr(word[3]), spread = atoi(word[4]);
    long count = atol(word[5]);
    take_first(word[7]);
    pace = atof(word[8]) / 1e3, is_narrow = kind == 'p' || kind == 'u';
    clients = calloc(count, sizeof *clients), poller = epoll_create1(0);
    if (!clients || poller < 0) fail();
    double now = seconds(), begun = now, until = now + NEVER, looked = 0;
    made_at = now;
    while (now < until) {
        if (until >= begun + NEVER && (set_up == count || now - begun > MOST_SETTING_UP)) {
            printf("%.1f\n", now - begun);
            fflush(stdout);
            came = ended = 0, until = now + atof(word[6]);
        }
        int found = epoll_wait(poller, events, EVENTS, 1);
        now = seconds();
        for (int n = 0; n < found; n++) react(&events[n], now);
        if (now - looked < 1e-3) continue;
        looked = now;
        for (long n = 0; n < count; n++)
            if (clients[n].due <= now) act(&clients[n], now);
    }
    printf("%ld %ld\n", came, ended);
    return 0;
}
