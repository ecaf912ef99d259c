/* Clients of an echo server on 127.0.0.1, in one thread over epoll. A client has one line under way at a time.

   client PORT rounds CLIENTS SECONDS   CLIENTS at once send a line again and again once it came back, for so long;
                                        writes how often one came back, and in how many seconds
   client PORT calls CLIENTS            CLIENTS one after the other connect, send a line, get it back and hang up;
                                        writes their number, and the seconds

   Status 1: something other came back, or a call of the system failed, which is told. */
#include <arpa/inet.h>
#include <errno.h>
#include <netinet/tcp.h>
#include <stdint.h>
#include <stdio.h>
#include <stdlib.h>
#include <string.h>
#include <sys/epoll.h>
#include <sys/socket.h>
#include <time.h>
#include <unistd.h>

#define MOST 4096
static const char line[] = "a line of thirty-two bytes: ...\n";
#define LENGTH (sizeof line - 1)

static void fails(const char *what)
{
    perror(what);
    exit(1);
}

static double now(void)
{
    struct timespec t;
    clock_gettime(CLOCK_MONOTONIC, &t);
    return t.tv_sec + t.tv_nsec / 1e9;
}

/* A connection; of many, each hundredth has another address of its own, so that there are ports enough. */
static int connected(int port, int number)
{
    struct sockaddr_in own = {.sin_family = AF_INET}, server = {.sin_family = AF_INET, .sin_port = htons(port)};
    int it = socket(AF_INET, SOCK_STREAM, 0), yes = 1;
    own.sin_addr.s_addr = htonl(INADDR_LOOPBACK + 1 + number / 100 % 100);
    server.sin_addr.s_addr = htonl(INADDR_LOOPBACK);
    if (it < 0 || setsockopt(it, IPPROTO_IP, IP_BIND_ADDRESS_NO_PORT, &yes, sizeof yes) ||
        bind(it, (struct sockaddr *)&own, sizeof own) || connect(it, (struct sockaddr *)&server, sizeof server) ||
        setsockopt(it, IPPROTO_TCP, TCP_NODELAY, &yes, sizeof yes))
        fails("connect");
    return it;
}

static void say(int it)
{
    if (send(it, line, LENGTH, MSG_NOSIGNAL) != (ssize_t)LENGTH)
        fails("send");
}

/* How much of the line has come after what there is to be read now. */
static size_t hear(int it, size_t had)
{
    char piece[LENGTH];
    ssize_t count = recv(it, piece, LENGTH - had, 0);
    if (count <= 0)
        fails("recv");
    if (memcmp(piece, line + had, count)) {
        fputs("something other came back\n", stderr);
        exit(1);
    }
    return had + count;
}

static void rounds(int port, int clients, double seconds)
{
    static int its[MOST];
    static size_t had[MOST];
    static struct epoll_event came[MOST];
    int poll = epoll_create1(0);
    for (int i = 0; i < clients; i++) {
        struct epoll_event wanted = {.events = EPOLLIN, .data.u32 = i};
        its[i] = connected(port, i);
        if (epoll_ctl(poll, EPOLL_CTL_ADD, its[i], &wanted))
            fails("epoll_ctl");
    }
    for (int i = 0; i < clients; i++)
        say(its[i]);
    /* a second passes before it counts, which it tells by an empty line */
    double began = now() + 1, time;
    uint64_t came_back = 0, before = 0;
    int counts = 0;
    while ((time = now()) < began + seconds) {
        if (!counts && time >= began) {
            counts = 1;
            before = came_back;
            putchar('\n');
            fflush(stdout);
        }
        int count = epoll_wait(poll, came, MOST, 10);
        if (count < 0 && errno != EINTR)
            fails("epoll_wait");
        for (int k = 0; k < count; k++) {
            int i = came[k].data.u32;
            had[i] = hear(its[i], had[i]);
            if (had[i] == LENGTH) {
                had[i] = 0;
                came_back++;
                say(its[i]);
            }
        }
    }
    printf("%lu %f\n", came_back - before, time - began);
    fflush(stdout);
    for (int i = 0; i < clients; i++) {
        while (had[i] < LENGTH)
            had[i] = hear(its[i], had[i]);
        close(its[i]);
    }
}

static void calls(int port, int clients)
{
    double began = now();
    for (int i = 0; i < clients; i++) {
        int it = connected(port, i);
        say(it);
        for (size_t had = 0; had < LENGTH;)
            had = hear(it, had);
        close(it);
    }
    printf("%d %f\n", clients, now() - began);
}

int main(int count, char **words)
{
    if (count == 5 && !strcmp(words[2], "rounds") && atoi(words[3]) <= MOST)
        rounds(atoi(words[1]), atoi(words[3]), atof(words[4]));
    else if (count == 4 && !strcmp(words[2], "calls"))
        calls(atoi(words[1]), atoi(words[3]));
    else
        return 2;
    return 0;
}
