/* A RADIUS server that accepts each Access-Request: what the proxy beside the agent forwards to.
 *
 *     accepter PORT SECRET
 *
 * The reply repeats the request's Proxy-State attributes and begins with a Message-Authenticator.
 *
 * cc -O2 -o accepter accepter.c -lcrypto
 */
#include <arpa/inet.h>
#include <openssl/evp.h>
#include <openssl/hmac.h>
#include <stdint.h>
#include <stdio.h>
#include <stdlib.h>
#include <string.h>
#include <sys/socket.h>

static size_t put_proxy_states(const uint8_t *request, size_t length, uint8_t *reply, size_t at) {
    for (size_t i = 20; i + 2 <= length && request[i + 1] >= 2 && i + request[i + 1] <= length; i += request[i + 1])
        if (request[i] == 33 && at + request[i + 1] <= 4096) {
            memcpy(reply + at, request + i, request[i + 1]);
            at += request[i + 1];
        }
    return at;
}

static size_t answer(const uint8_t *request, size_t length, const char *secret, EVP_MD_CTX *context, uint8_t *reply) {
    uint8_t seal[16];
    unsigned size = 16;
    memset(reply, 0, 38);
    reply[0] = 2;
    reply[1] = request[1];
    reply[20] = 80;
    reply[21] = 18;
    size_t end = put_proxy_states(request, length, reply, 38);
    reply[2] = (uint8_t)(end >> 8);
    reply[3] = (uint8_t)end;
    memcpy(reply + 4, request + 4, 16);
    HMAC(EVP_md5(), secret, (int)strlen(secret), reply, end, seal, &size);
    memcpy(reply + 22, seal, 16);
    EVP_DigestInit_ex(context, EVP_md5(), NULL);
    EVP_DigestUpdate(context, reply, end);
    EVP_DigestUpdate(context, secret, strlen(secret));
    EVP_DigestFinal_ex(context, reply + 4, NULL);
    return end;
}

int main(int argc, char **argv) {
    if (argc < 3) return 1;
    int size = 4 << 20, sock = socket(AF_INET, SOCK_DGRAM, 0);
    struct sockaddr_in here = {.sin_family = AF_INET, .sin_port = htons((uint16_t)atoi(argv[1])), .sin_addr.s_addr = htonl(INADDR_LOOPBACK)};
    setsockopt(sock, SOL_SOCKET, SO_RCVBUF, &size, sizeof size);
    if (bind(sock, (struct sockaddr *)&here, sizeof here)) {
        perror("bind");
        return 1;
    }
    EVP_MD_CTX *context = EVP_MD_CTX_new();
    for (;;) {
        uint8_t request[4096], reply[4096];
        struct sockaddr_in from;
        socklen_t from_length = sizeof from;
        ssize_t length = recvfrom(sock, request, sizeof request, 0, (struct sockaddr *)&from, &from_length);
        if (length < 20 || request[0] != 1) continue;
        size_t end = answer(request, (size_t)length, argv[2], context, reply);
        sendto(sock, reply, end, 0, (struct sockaddr *)&from, from_length);
    }
}
