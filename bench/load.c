/* Sends logins to a RADIUS server, so many in flight at once, for so many seconds, and says how many were answered.
 *
 *     load ADDRESS PORT SECRET IN_FLIGHT SECONDS [PID [RATE]]
 *
 * Each request is a new one: another authenticator, and the password nemo/arctangent hidden under it (RFC 2865, section
 * 5.2). One that isn't answered within two seconds is counted as lost and takes its place anew. Where PID is given, the
 * processor time of that process over the run is told, too, and the run ends within a second after that process: its figures
 * are then those up to the last full second before. Where RATE is given, at most so many are sent a second. One line a second
 * tells the answers of that second, the processor time of each of them, and how many hundredths of the processors' time the
 * kernel counted as stolen by the host of a virtual machine.
 *
 * cc -O2 -o load load.c -lcrypto
 */
#include <arpa/inet.h>
#include <openssl/evp.h>
#include <poll.h>
#include <stdint.h>
#include <stdio.h>
#include <stdlib.h>
#include <string.h>
#include <sys/random.h>
#include <sys/socket.h>
#include <time.h>
#include <unistd.h>

enum { IDENTIFIERS = 256, MOST_SOCKETS = 64, PATIENCE = 2000000 };

struct pending {
    int waits;
    int64_t sent;
};

struct door {
    int socket;
    int used;
    struct pending pending[IDENTIFIERS];
};

static struct door doors[MOST_SOCKETS];
static const char *secret;
static int64_t answered, accepted, lost, spent, slowest, sent, begin, rate;

static int64_t now(void) {
    struct timespec t;
    clock_gettime(CLOCK_MONOTONIC, &t);
    return (int64_t)t.tv_sec * 1000000 + t.tv_nsec / 1000;
}

/* The processor time of a process in microseconds, -1 where it has ended. */
static int64_t processor_time(const char *pid) {
    char path[64], text[1024];
    long user = 0, kernel = 0;
    snprintf(path, sizeof path, "/proc/%s/stat", pid);
    FILE *file = fopen(path, "r");
    if (!file) return -1;
    size_t count = fread(text, 1, sizeof text - 1, file);
    fclose(file);
    text[count] = 0;
    char *rest = strrchr(text, ')');
    char state;
    if (!rest || sscanf(rest + 2, "%c %*d %*d %*d %*d %*d %*u %*u %*u %*u %*u %ld %ld", &state, &user, &kernel) != 3) return -1;
    return state == 'Z' || state == 'X' ? -1 : (user + kernel) * (1000000 / sysconf(_SC_CLK_TCK));
}

/* How far the run is, and what the kernel has counted of all processors: their time, and what of it was stolen. */
struct mark {
    int64_t moment, answered, accepted, used, all, stolen;
};

static struct mark mark_now(const char *process) {
    struct mark mark = {now(), answered, accepted, process ? processor_time(process) : 0, 0, 0};
    FILE *file = fopen("/proc/stat", "r");
    long long time;
    if (file && fscanf(file, "cpu") == 0)
        for (int i = 0; i < 8 && fscanf(file, "%lld", &time) == 1; i++) mark.all += mark.stolen = time;
    if (file) fclose(file);
    return mark;
}

/* Tells the second that ended. */
static void tell_second(const struct mark *from, const struct mark *to) {
    double answers = (double)(to->answered - from->answered), all = (double)(to->all - from->all);
    printf("second %.0f %.1f %.1f\n", answers, answers > 0 ? (double)(to->used - from->used) / answers : 0,
           all > 0 ? 100 * (double)(to->stolen - from->stolen) / all : 0);
}

static void digest(const uint8_t *first, size_t first_length, const uint8_t *second, size_t second_length, uint8_t *out) {
    static EVP_MD_CTX *context;
    if (!context) context = EVP_MD_CTX_new();
    EVP_DigestInit_ex(context, EVP_md5(), NULL);
    EVP_DigestUpdate(context, first, first_length);
    EVP_DigestUpdate(context, second, second_length);
    EVP_DigestFinal_ex(context, out, NULL);
}

/* Whether one more may be sent at this moment: each hundredth of a second has its share, and what is left of it is lost. */
static int may_send(int64_t moment) {
    static int64_t slot, before;
    if (rate == 0) return 1;
    if ((moment - begin) / 10000 != slot) {
        slot = (moment - begin) / 10000;
        before = sent;
    }
    return sent - before < rate / 100;
}

static void send_request(struct door *door, int identifier) {
    uint8_t packet[64] = {1, (uint8_t)identifier, 0, 0}, mask[16];
    static const char password[16] = "arctangent";
    size_t length = 20;
    if (getrandom(packet + 4, 16, 0) != 16) exit(1);
    memcpy(packet + length, "\x01\x06nemo", 6);
    length += 6;
    packet[length++] = 2;
    packet[length++] = 18;
    digest((const uint8_t *)secret, strlen(secret), packet + 4, 16, mask);
    for (int i = 0; i < 16; i++) packet[length++] = (uint8_t)password[i] ^ mask[i];
    memcpy(packet + length, "\x05\x06\x00\x00\x00\x03", 6);
    length += 6;
    packet[3] = (uint8_t)length;
    door->pending[identifier].waits = 1;
    door->pending[identifier].sent = now();
    sent++;
    send(door->socket, packet, length, 0);
}

static void take_replies(struct door *door, int64_t end) {
    uint8_t reply[4096];
    for (int k = 0; k < IDENTIFIERS; k++) {
        ssize_t length = recv(door->socket, reply, sizeof reply, MSG_DONTWAIT);
        if (length < 20) return;
        struct pending *pending = &door->pending[reply[1]];
        if (!pending->waits) continue;
        int64_t moment = now(), took = moment - pending->sent;
        pending->waits = 0;
        answered++;
        accepted += reply[0] == 2;
        spent += took;
        if (took > slowest) slowest = took;
        if (moment < end && may_send(moment)) send_request(door, reply[1]);
    }
}

static void send_lost_anew(int count, int64_t moment) {
    for (int d = 0; d < count; d++)
        for (int i = 0; i < doors[d].used; i++)
            if (doors[d].pending[i].waits && moment - doors[d].pending[i].sent > PATIENCE) {
                lost++;
                send_request(&doors[d], i);
            }
}

/* Sends what was held back for the rate, and says whether some still is. */
static int send_held(int count, int64_t moment) {
    for (int d = 0; d < count; d++)
        for (int i = 0; i < doors[d].used; i++)
            if (!doors[d].pending[i].waits) {
                if (!may_send(moment)) return 1;
                send_request(&doors[d], i);
            }
    return 0;
}

static int open_doors(const char *address, int port, int in_flight) {
    int count = 0;
    struct sockaddr_in to = {.sin_family = AF_INET, .sin_port = htons((uint16_t)port)};
    inet_pton(AF_INET, address, &to.sin_addr);
    /* At most half of the identifiers of a socket wait at once, so that one comes again late. */
    for (int left = in_flight; left > 0 && count < MOST_SOCKETS; count++) {
        int size = 4 << 20;
        doors[count].used = left < 128 ? left : 128;
        left -= doors[count].used;
        doors[count].socket = socket(AF_INET, SOCK_DGRAM, 0);
        setsockopt(doors[count].socket, SOL_SOCKET, SO_RCVBUF, &size, sizeof size);
        if (connect(doors[count].socket, (struct sockaddr *)&to, sizeof to)) exit(1);
    }
    return count;
}

int main(int argc, char **argv) {
    if (argc < 6) {
        fprintf(stderr, "usage: load ADDRESS PORT SECRET IN_FLIGHT SECONDS [PID [RATE]]\n");
        return 1;
    }
    secret = argv[3];
    int in_flight = atoi(argv[4]);
    int count = open_doors(argv[1], atoi(argv[2]), in_flight);
    struct pollfd polled[MOST_SOCKETS];
    const char *process = argc > 6 ? argv[6] : NULL;
    int64_t used = process ? processor_time(process) : 0;
    int ended = used < 0;
    rate = argc > 7 ? atoll(argv[7]) : 0;
    begin = now();
    int64_t end = begin + atoll(argv[5]) * 1000000, second = begin + 1000000;
    struct mark mark = mark_now(process);
    for (int d = 0; d < count; d++) polled[d] = (struct pollfd){.fd = doors[d].socket, .events = POLLIN};
    for (int64_t moment = begin; moment < end && !ended; moment = now()) {
        int held = send_held(count, moment);
        poll(polled, (nfds_t)count, held ? 1 : 100);
        for (int d = 0; d < count; d++)
            if (polled[d].revents) take_replies(&doors[d], end);
        if (moment >= second) {
            struct mark next = mark_now(process);
            ended = next.used < 0;
            if (ended) break;
            tell_second(&mark, &next);
            mark = next;
            second += 1000000;
            send_lost_anew(count, moment);
        }
    }
    if (!ended) mark = mark_now(process);
    double seconds = (double)(mark.moment - begin) / 1e6;
    if (ended) printf("process %s has ended; up to %.0f seconds:\n", process, seconds);
    printf("in flight %d: %.0f logins a second, %lld answered, %lld accepted, %lld lost, mean %.0f us, slowest %lld us\n", in_flight,
           (double)mark.answered / seconds, (long long)mark.answered, (long long)mark.accepted, (long long)lost,
           answered ? (double)spent / (double)answered : 0, (long long)slowest);
    if (process) printf("processor time %.1f us a login\n", mark.answered ? (double)(mark.used - used) / (double)mark.answered : 0);
    return 0;
}
