/* A client of HiSLIP 1.0 in synchronized mode: sends messages, prints responses and the status byte.
 *
 *     cc -o client client.c && ./client 4880 'VOLT 5;VOLT?' '*OPC?'
 *
 * It reads the response of each message that has a query, for five seconds at most: a refused one has none. The guide
 * has the frames (COMMANDS.md, "A client of your own").
 */
#include <arpa/inet.h>
#include <endian.h>
#include <errno.h>
#include <netinet/tcp.h>
#include <stdint.h>
#include <stdio.h>
#include <stdlib.h>
#include <string.h>
#include <sys/socket.h>
#include <sys/time.h>
#include <unistd.h>

enum {
    INITIALIZE = 0, FATAL_ERROR = 2, ERROR = 3, DATA = 6, DATA_END = 7, ASYNC_MAXIMUM_SIZE = 15, ASYNC_INITIALIZE = 17,
    ASYNC_SERVICE_REQUEST = 20, ASYNC_STATUS_QUERY = 21
};
enum { LARGEST = 65536, PROTOCOL_1_0 = 0x0100, VENDOR = 'X' << 8 | 'X', LONGEST_WAIT = 5 /* seconds */ };

struct header { /* 16 bytes, high byte first */
    char prologue[2];
    uint8_t type, control;
    uint32_t parameter;
    uint64_t length; /* of the payload alone */
} __attribute__((packed));

static int sync_socket, async_socket;
static uint32_t message_id = 0xffffff00; /* of the next message: steps of 2 */
static int is_delivered;                 /* RMT-delivered: a response was read whole since the last message */
static char payload[LARGEST + 1];

static void fail(const char *what) {
    fprintf(stderr, "client: %s\n", what);
    exit(1);
}

static int connected(int port) {
    struct sockaddr_in address = {.sin_family = AF_INET, .sin_port = htons(port)};
    struct timeval longest = {.tv_sec = LONGEST_WAIT};
    int made = socket(AF_INET, SOCK_STREAM, 0), on = 1;
    inet_pton(AF_INET, "127.0.0.1", &address.sin_addr);
    if (made < 0 || connect(made, (struct sockaddr *)&address, sizeof address) < 0) fail("nothing listens");
    setsockopt(made, SOL_SOCKET, SO_RCVTIMEO, &longest, sizeof longest);
    setsockopt(made, IPPROTO_TCP, TCP_NODELAY, &on, sizeof on);
    return made;
}

static void send_all(int to, const void *bytes, size_t count) {
    for (ssize_t done; count > 0; bytes = (const char *)bytes + done, count -= done)
        if ((done = send(to, bytes, count, MSG_NOSIGNAL)) <= 0) fail("the server closed the connection");
}

static void send_frame(int to, int type, int control, uint32_t parameter, const void *bytes, size_t count) {
    struct header header = {{'H', 'S'}, type, control, htonl(parameter), htobe64(count)};
    send_all(to, &header, sizeof header);
    send_all(to, bytes, count);
}

static void receive_all(int from, void *bytes, size_t count) {
    for (ssize_t done; count > 0; bytes = (char *)bytes + done, count -= done)
        if ((done = recv(from, bytes, count, 0)) <= 0)
            fail(done < 0 && errno == EAGAIN ? "no response in time (SYST:ERR? says why)" : "the server closed the connection");
}

/* Receives a frame into `header` and `payload`. An Error or FatalError ends the program. */
static void receive_frame(int from, struct header *header) {
    receive_all(from, header, sizeof *header);
    header->parameter = ntohl(header->parameter);
    header->length = be64toh(header->length);
    if (memcmp(header->prologue, "HS", 2) || header->length > LARGEST) fail("this is not HiSLIP");
    receive_all(from, payload, header->length);
    payload[header->length] = 0;
    if (header->type == ERROR || header->type == FATAL_ERROR) {
        fprintf(stderr, "client: %s %d\n", header->type == ERROR ? "Error" : "FatalError", header->control);
        exit(1);
    }
}

/* Sends a frame on the asynchronous connection and receives its response: a service request may come before it. */
static struct header ask(int type, int control, uint32_t parameter, const void *bytes, size_t count) {
    struct header header;
    send_frame(async_socket, type, control, parameter, bytes, count);
    do receive_frame(async_socket, &header);
    while (header.type == ASYNC_SERVICE_REQUEST);
    return header;
}

static void begin_session(int port) {
    struct header header;
    uint64_t largest = htobe64(LARGEST); /* with the header of 16 bytes */
    sync_socket = connected(port);
    send_frame(sync_socket, INITIALIZE, 0, (uint32_t)PROTOCOL_1_0 << 16 | VENDOR, "hislip0", 7);
    receive_frame(sync_socket, &header);
    async_socket = connected(port);
    ask(ASYNC_INITIALIZE, 0, header.parameter & 0xffff, "", 0); /* the session number */
    ask(ASYNC_MAXIMUM_SIZE, 0, 0, &largest, sizeof largest);
}

static void print_response(uint32_t id) {
    struct header header;
    do {
        receive_frame(sync_socket, &header);
        if (header.parameter == id) fwrite(payload, 1, header.length, stdout); /* else that of an earlier message */
    } while (header.parameter != id || header.type != DATA_END);
    is_delivered = 1;
}

/* The last byte of the block `#15hello` at a place, or of the message where that ends before. `#0` takes all of it. */
static const char *end_of_block(const char *at) {
    size_t digits = at[1] - '0', length = 0;
    if (digits == 0) return at + strlen(at) - 1;
    for (at++; digits > 0 && at[1] >= '0' && at[1] <= '9'; digits--) length = 10 * length + *++at - '0';
    return at + strnlen(at + 1, length);
}

/* Whether a message has a `?` outside of strings and blocks. */
static int has_query(const char *at) {
    for (; *at; at++) {
        if (*at == '?') return 1;
        if (*at == '"' || *at == '\'') at = strchr(at + 1, *at);
        else if (*at == '#' && at[1] >= '0' && at[1] <= '9') at = end_of_block(at);
        if (!at) return 0;
    }
    return 0;
}

int main(int count, char **words) {
    if (count < 3) fail("usage: client PORT MESSAGE..");
    begin_session(atoi(words[1]));
    for (int i = 2; i < count; i++, message_id += 2) {
        send_frame(sync_socket, DATA_END, is_delivered, message_id, words[i], strlen(words[i]));
        is_delivered = 0;
        if (has_query(words[i])) print_response(message_id);
    }
    printf("status byte %d\n", ask(ASYNC_STATUS_QUERY, is_delivered, message_id - 2, "", 0).control);
    return 0;
}
