/* echo: the least that a server of HTTP/1.1 does for a request of `service`. It listens on a free port of 127.0.0.1, prints it, and
 * serves one connection after the other: it reads a request, whose length is that of its head and its Content-Length, and answers
 * the reply of an update that was made. It ends when its standard input does. */
#define _GNU_SOURCE
#include <arpa/inet.h>
#include <netinet/tcp.h>
#include <poll.h>
#include <stdio.h>
#include <stdlib.h>
#include <string.h>
#include <sys/socket.h>
#include <unistd.h>

static const char reply[] =
    "HTTP/1.1 200 OK\r\nContent-Type: application/json\r\nContent-Length: 27\r\n\r\n{\"code\":0,\"name\":\"NOERROR\"}";
static char in[131072];

/* the length of the request at the beginning of so many octets, or 0 if it is not whole */
static size_t whole(size_t have)
{
    in[have] = 0;
    char *end = strstr(in, "\r\n\r\n");
    if (!end) return 0;
    char *field = strcasestr(in, "\ncontent-length:");
    size_t length = end + 4 - in + (field && field < end ? strtoul(field + 16, 0, 10) : 0);
    return have < length ? 0 : length;
}

static void serve(int peer)
{
    size_t have = 0, length;
    ssize_t more;
    while ((more = read(peer, in + have, sizeof in - 1 - have)) > 0) {
        have += more;
        while ((length = whole(have))) {
            if (write(peer, reply, sizeof reply - 1) < 0) return;
            memmove(in, in + length, have - length);
            have -= length;
        }
    }
}

int main(void)
{
    struct sockaddr_in address = {.sin_family = AF_INET, .sin_addr.s_addr = htonl(INADDR_LOOPBACK)};
    socklen_t length = sizeof address;
    int door = socket(AF_INET, SOCK_STREAM, 0), on = 1;
    if (bind(door, (void *)&address, length) || listen(door, 16) || getsockname(door, (void *)&address, &length)) return 1;
    printf("%d\n", ntohs(address.sin_port));
    fflush(stdout);
    for (;;) {
        struct pollfd waits[2] = {{.fd = door, .events = POLLIN}, {.fd = 0, .events = POLLIN}};
        if (poll(waits, 2, -1) < 0 || waits[1].revents) return 0;
        int peer = accept(door, 0, 0);
        setsockopt(peer, IPPROTO_TCP, TCP_NODELAY, &on, sizeof on);
        serve(peer);
        close(peer);
    }
}
