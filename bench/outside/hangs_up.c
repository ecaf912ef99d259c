/* A server on 127.0.0.1 that hangs up on each client as it calls: hangs_up PORT. Status 1: a call of the system failed, which is told. */
#include <arpa/inet.h>
#include <stdio.h>
#include <stdlib.h>
#include <sys/socket.h>
#include <unistd.h>

static void fails(const char *what)
{
    perror(what);
    exit(1);
}

int main(int count, char **words)
{
    struct sockaddr_in own = {.sin_family = AF_INET};
    int it = socket(AF_INET, SOCK_STREAM, 0), yes = 1;
    own.sin_addr.s_addr = htonl(INADDR_LOOPBACK);
    own.sin_port = htons(count > 1 ? atoi(words[1]) : 0);
    if (it < 0 || setsockopt(it, SOL_SOCKET, SO_REUSEADDR, &yes, sizeof yes) || bind(it, (struct sockaddr *)&own, sizeof own) ||
        listen(it, 128))
        fails("listen");
    for (;;) {
        int client = accept(it, 0, 0);
        if (client < 0 || close(client))
            fails("accept");
    }
}
