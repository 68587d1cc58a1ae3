/* Forwards each datagram as it is to a RADIUS server, and each of its answers back to where the request came from: a proxy
 * that reads, checks and keeps nothing, in one thread. What it makes is what a proxy could make here that takes no time.
 *
 *     forward PORT SERVER_PORT
 *
 * Each client's port has a socket of its own to the server, so that identifiers stay. All on 127.0.0.1. It runs until it is
 * ended by a signal.
 *
 * cc -O2 -o forward forward.c
 */
#include <arpa/inet.h>
#include <stdint.h>
#include <stdio.h>
#include <stdlib.h>
#include <sys/epoll.h>
#include <sys/socket.h>

enum { LONGEST = 4096, PORTS = 65536, EVENTS = 64 };

static int by_port[PORTS];
static struct sockaddr_in client_of[PORTS];

static struct sockaddr_in local(int port) {
    struct sockaddr_in address = {.sin_family = AF_INET, .sin_port = htons(port)};
    address.sin_addr.s_addr = htonl(INADDR_LOOPBACK);
    return address;
}

static void fail(const char *what) {
    perror(what);
    exit(1);
}

static void watch(int watcher, int socket) {
    struct epoll_event event = {.events = EPOLLIN, .data.fd = socket};
    if (epoll_ctl(watcher, EPOLL_CTL_ADD, socket, &event)) fail("epoll_ctl");
}

/* The socket to the server for this client. */
static int door(int watcher, const struct sockaddr_in *client, int server_port) {
    int *found = &by_port[ntohs(client->sin_port)];
    if (*found == 0) {
        struct sockaddr_in server = local(server_port);
        *found = socket(AF_INET, SOCK_DGRAM, 0);
        if (*found < 0 || connect(*found, (struct sockaddr *)&server, sizeof server)) fail("connect");
        watch(watcher, *found);
        client_of[*found] = *client;
    }
    return *found;
}

int main(int argc, char **argv) {
    if (argc != 3) {
        fprintf(stderr, "usage: forward PORT SERVER_PORT\n");
        return 1;
    }
    int front = socket(AF_INET, SOCK_DGRAM, 0), watcher = epoll_create1(0);
    struct sockaddr_in here = local(atoi(argv[1]));
    if (front < 0 || watcher < 0 || bind(front, (struct sockaddr *)&here, sizeof here)) fail("bind");
    watch(watcher, front);
    static uint8_t packet[LONGEST];
    for (;;) {
        struct epoll_event events[EVENTS];
        int count = epoll_wait(watcher, events, EVENTS, -1);
        for (int i = 0; i < count; i++) {
            int from = events[i].data.fd;
            ssize_t length;
            if (from != front) {
                while ((length = recv(from, packet, sizeof packet, MSG_DONTWAIT)) > 0)
                    sendto(front, packet, length, 0, (struct sockaddr *)&client_of[from], sizeof client_of[from]);
                continue;
            }
            struct sockaddr_in client;
            socklen_t size = sizeof client;
            while ((length = recvfrom(front, packet, sizeof packet, MSG_DONTWAIT, (struct sockaddr *)&client, &size)) > 0) {
                send(door(watcher, &client, atoi(argv[2])), packet, length, 0);
                size = sizeof client;
            }
        }
    }
}
