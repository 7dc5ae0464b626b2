// A plain echo server: PORT. It answers each connection with the bytes that come, in one thread, until it is killed.
#include <arpa/inet.h>
#include <errno.h>
#include <fcntl.h>
#include <netinet/tcp.h>
#include <stdio.h>
#include <stdlib.h>
#include <sys/epoll.h>
#include <sys/socket.h>
#include <unistd.h>

int main(int count, char **words) {
    if (count != 2) return 2;
    int one = 1, door = socket(AF_INET, SOCK_STREAM | SOCK_NONBLOCK, 0);
    setsockopt(door, SOL_SOCKET, SO_REUSEADDR, &one, sizeof one);
    struct sockaddr_in at = {.sin_family = AF_INET, .sin_port = htons(atoi(words[1])), .sin_addr.s_addr = htonl(INADDR_LOOPBACK)};
    if (bind(door, (struct sockaddr *)&at, sizeof at) < 0 || listen(door, 128) < 0) {
        perror("echo");
        return 1;
    }
    int poll = epoll_create1(0);
    struct epoll_event event = {.events = EPOLLIN, .data.fd = door};
    epoll_ctl(poll, EPOLL_CTL_ADD, door, &event);
    static char bytes[1 << 16];
    for (;;) {
        struct epoll_event events[128];
        int n = epoll_wait(poll, events, 128, -1);
        for (int i = 0; i < n; i++) {
            int from = events[i].data.fd;
            if (from == door) {
                int made = accept(door, NULL, NULL);
                if (made < 0) continue;
                setsockopt(made, IPPROTO_TCP, TCP_NODELAY, &one, sizeof one);
                event.data.fd = made;
                epoll_ctl(poll, EPOLL_CTL_ADD, made, &event);
                continue;
            }
            ssize_t got = recv(from, bytes, sizeof bytes, 0);
            if (got <= 0) {
                close(from);
                continue;
            }
            for (ssize_t sent = 0; sent < got;) {
                ssize_t more = send(from, bytes + sent, got - sent, MSG_NOSIGNAL);
                if (more < 0) break;
                sent += more;
            }
        }
    }
}
