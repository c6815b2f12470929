/* A client of bench/serve: so many connections, each on a thread, log in over TDS 7.4 as `sa` and send one batch after
 * another for so many seconds, each when the reply to the last has come whole. Prints replies a second of all connections
 * together, and how many of them held an error. With `run` it sends the batches of a file instead, one a line, on one
 * connection, and prints nothing.
 *
 *   serve_client PORT run FILE
 *   serve_client PORT one|small|point|large|call|transfer|both CONNECTIONS SECONDS
 */
#include <arpa/inet.h>
#include <netinet/tcp.h>
#include <pthread.h>
#include <stdint.h>
#include <stdio.h>
#include <stdlib.h>
#include <string.h>
#include <sys/socket.h>
#include <time.h>
#include <unistd.h>

enum { SMALL = 1000, ACCOUNTS = 10000, LARGE = 1000000, ROOM = 1 << 20, HEADER = 8, DONE = 13 };

typedef struct {
    int port, seconds, number;
    char mode;
    uint64_t replies, errors;
} Worker;

static void fail(const char *what)
{
    perror(what);
    exit(1);
}

static double now(void)
{
    struct timespec t;
    clock_gettime(CLOCK_MONOTONIC, &t);
    return t.tv_sec + t.tv_nsec / 1e9;
}

static void send_all(int socket, const uint8_t *bytes, size_t length)
{
    while (length > 0) {
        ssize_t sent = send(socket, bytes, length, 0);
        if (sent <= 0)
            fail("send");
        bytes += sent;
        length -= (size_t)sent;
    }
}

static void receive_all(int socket, uint8_t *into, size_t length)
{
    while (length > 0) {
        ssize_t got = recv(socket, into, length, 0);
        if (got <= 0)
            fail("recv");
        into += got;
        length -= (size_t)got;
    }
}

/* One message in one packet. */
static void send_message(int socket, uint8_t kind, const uint8_t *payload, size_t length)
{
    static __thread uint8_t packet[ROOM];
    size_t whole = length + HEADER;
    memcpy(packet, (uint8_t[]){kind, 1, whole >> 8, whole & 255, 0, 0, 1, 0}, HEADER);
    memcpy(packet + HEADER, payload, length);
    send_all(socket, packet, whole);
}

/* A whole reply; whether it holds an ERROR as its first token, or what it ended with had failed. */
static int receive_reply(int socket)
{
    static __thread uint8_t payload[ROOM];
    uint8_t header[HEADER];
    int error = 0, first = 1;
    size_t length;
    do {
        receive_all(socket, header, HEADER);
        length = (size_t)(header[2] << 8 | header[3]) - HEADER;
        receive_all(socket, payload, length);
        if (first && length > 0 && payload[0] == 0xAA)
            error = 1;
        first = 0;
    } while (!(header[1] & 1));
    return error || (length >= DONE && payload[length - DONE + 1] & 2);
}

/* ALL_HEADERS, with which a batch and a call begin. */
static const uint8_t headers[22] = {22, 0, 0, 0, 18, 0, 0, 0, 2, 0, 0, 0, 0, 0, 0, 0, 0, 0, 1, 0, 0, 0};

static size_t put(uint8_t *into, size_t at, const uint8_t *bytes, size_t length)
{
    memcpy(into + at, bytes, length);
    return at + length;
}

/* A text in UTF-16. */
static size_t put_text(uint8_t *into, size_t at, const char *text)
{
    for (; *text; text++) {
        into[at++] = (uint8_t)*text;
        into[at++] = 0;
    }
    return at;
}

static int send_batch(int socket, const char *text)
{
    static __thread uint8_t payload[ROOM];
    size_t length = put_text(payload, put(payload, 0, headers, sizeof headers), text);
    send_message(socket, 0x01, payload, length);
    return receive_reply(socket);
}

/* An NVARCHAR parameter without a name: its size and its length in bytes, and a collation of zeros. */
static size_t put_parameter(uint8_t *into, size_t at, const char *text)
{
    uint8_t low = (uint8_t)(2 * strlen(text)), high = (uint8_t)(2 * strlen(text) >> 8);
    at = put(into, at, (uint8_t[]){0, 0, 0xE7, low, high, 0, 0, 0, 0, 0, low, high}, 12);
    return put_text(into, at, text);
}

/* A call of sp_executesql, by its number, whose statement has one INT: @k. */
static int send_call(int socket, const char *statement, int k)
{
    static __thread uint8_t payload[ROOM];
    size_t length = put(payload, 0, headers, sizeof headers);
    length = put(payload, length, (uint8_t[]){0xFF, 0xFF, 10, 0, 0, 0}, 6);
    length = put_parameter(payload, length, statement);
    length = put_parameter(payload, length, "@k INT");
    length = put(payload, length, (uint8_t[]){2, '@', 0, 'k', 0, 0, 0x26, 4, 4, k, k >> 8, k >> 16, k >> 24}, 13);
    send_message(socket, 0x03, payload, length);
    return receive_reply(socket);
}

/* LOGIN7 of `sa` with the password `A`: fixed part, then the two texts. */
static void log_in(int socket)
{
    uint8_t login[98] = {0};
    login[0] = sizeof login;
    login[7] = 0x74, login[4] = 4; /* TDSVersion 0x74000004 */
    login[9] = 0x10;               /* PacketSize 4096 */
    for (int field = 36; field <= 68; field += 4)
        login[field] = 94;
    login[40] = 94, login[42] = 2; /* UserName */
    login[44] = 98, login[46] = 1; /* Password */
    uint8_t whole[100];
    memcpy(whole, login, 94);
    whole[0] = sizeof whole;
    memcpy(whole + 94, (uint8_t[]){'s', 0, 'a', 0, 0xB1, 0xA5}, 6);
    send_message(socket, 0x10, whole, sizeof whole);
    receive_reply(socket);
}

static int open_connection(int port)
{
    int s = socket(AF_INET, SOCK_STREAM, 0), yes = 1;
    struct sockaddr_in at = {.sin_family = AF_INET, .sin_port = htons(port)};
    at.sin_addr.s_addr = htonl(INADDR_LOOPBACK);
    if (s < 0 || connect(s, (struct sockaddr *)&at, sizeof at) < 0)
        fail("connect");
    setsockopt(s, IPPROTO_TCP, TCP_NODELAY, &yes, sizeof yes);
    log_in(s);
    return s;
}

static const char *table_of(char mode)
{
    return mode == 's' ? "small" : mode == 'l' ? "large" : "accounts";
}

static int rows_of(char mode)
{
    return mode == 's' ? SMALL : mode == 'l' ? LARGE : ACCOUNTS;
}

/* The text of a batch over the rows a and b, but for the one with a parameter. */
static void put_batch(char *text, char mode, int a, int b)
{
    const char *add = "UPDATE accounts SET amount = amount + CASE WHEN id = %d THEN -1 ELSE 1 END WHERE id = %d";
    if (mode == 'o') {
        strcpy(text, "SELECT 1");
    } else if (mode == 't') {
        int length = sprintf(text, add, a, a);
        sprintf(text + length, " OR id = %d", b);
    } else if (mode == 'b') {
        int length = sprintf(text, "BEGIN TRANSACTION ");
        length += sprintf(text + length, add, a, a < b ? a : b);
        length += sprintf(text + length, " ");
        length += sprintf(text + length, add, a, a < b ? b : a);
        sprintf(text + length, " COMMIT");
    } else {
        sprintf(text, "SELECT amount FROM %s WHERE id = %d", table_of(mode), a);
    }
}

static void *work(void *given)
{
    Worker *w = given;
    int socket = open_connection(w->port);
    unsigned seed = 7919u * (unsigned)(w->number + 1);
    char text[512];
    double end = now() + w->seconds;
    int rows = rows_of(w->mode);
    while (now() < end) {
        int a = 1 + rand_r(&seed) % rows, b = 1 + (a + rand_r(&seed) % (rows - 1)) % rows;
        w->replies++;
        if (w->mode == 'c') {
            w->errors += (uint64_t)send_call(socket, "SELECT amount FROM accounts WHERE id = @k", a);
            continue;
        }
        put_batch(text, w->mode, a, b);
        w->errors += (uint64_t)send_batch(socket, text);
    }
    close(socket);
    return 0;
}

static void run_file(int port, const char *path)
{
    static char line[ROOM / 4];
    FILE *file = fopen(path, "r");
    if (!file)
        fail(path);
    int socket = open_connection(port);
    while (fgets(line, sizeof line, file)) {
        line[strcspn(line, "\n")] = 0;
        if (send_batch(socket, line)) {
            fprintf(stderr, "refused: %.60s\n", line);
            exit(1);
        }
    }
    close(socket);
    fclose(file);
}

int main(int count, char **words)
{
    int port = count > 3 ? atoi(words[1]) : 0;
    if (count == 4 && !strcmp(words[2], "run")) {
        run_file(port, words[3]);
        return 0;
    }
    if (count != 5 || !strchr("osplctb", words[2][0]))
        return 2;
    int many = atoi(words[3]);
    Worker workers[64];
    pthread_t threads[64];
    double begin = now();
    for (int i = 0; i < many; i++) {
        workers[i] = (Worker){port, atoi(words[4]), i, words[2][0], 0, 0};
        pthread_create(&threads[i], 0, work, &workers[i]);
    }
    uint64_t replies = 0, errors = 0;
    for (int i = 0; i < many; i++) {
        pthread_join(threads[i], 0);
        replies += workers[i].replies;
        errors += workers[i].errors;
    }
    printf("%.0f %llu\n", (double)replies / (now() - begin), (unsigned long long)errors);
    return 0;
}
