// A load for `nexus serve`: each connection sends DEPTH requests at once, and the next when the replies to all of them were read.
//
//   load PLACE CONNECTIONS COUNT DEPTH call|miss|say|hello
//   load PLACE churn
//
// PLACE is a port of the loopback, or the path of a local socket.
// Connection K, of at most 1,024, is principal pN with the secret sN, N being K modulo 60, and asks COUNT times: for a call of `read oN` that is allowed, of `miss oN` that is denied,
// to say a label, or, each time over a connection of its own, to be admitted, once more before all is timed. Prints the requests a second of all connections, and how many microseconds 99 of 100 requests waited at most. With
// `churn` principal pC says a label and takes it back, 500 changes a second, until it is killed. Ends with 1 at a reply of another kind than the due one.
#include <arpa/inet.h>
#include <netinet/tcp.h>
#include <pthread.h>
#include <stdio.h>
#include <stdlib.h>
#include <string.h>
#include <sys/un.h>
#include <time.h>
#include <unistd.h>

enum { WELCOME = 65, DONE = 66, ALLOWED = 67, DENIED = 68, HELLO = 1, SAY = 2, DELETE = 4, CALL = 12, MOST_DEPTH = 64 };

struct Frame {
    unsigned char bytes[256];
    int length;
};

static int count, depth;
static const char *place, *kind;
static double *waits;
static pthread_barrier_t admitted;

static void begin(struct Frame *frame, int request) {
    frame->bytes[4] = request;
    frame->length = 5;
}

static void add_text(struct Frame *frame, const char *text) {
    int length = strlen(text);
    frame->bytes[frame->length] = 0;
    frame->bytes[frame->length + 1] = length;
    memcpy(frame->bytes + frame->length + 2, text, length);
    frame->length += 2 + length;
}

static void end(struct Frame *frame) {
    unsigned length = htonl(frame->length - 4);
    memcpy(frame->bytes, &length, 4);
}

static void take(int link, unsigned char *into, int wanted) {
    for (int got = 0; got < wanted;) {
        int n = read(link, into + got, wanted - got);
        if (n <= 0) exit(1);
        got += n;
    }
}

static void send_all(int link, const unsigned char *bytes, int length) {
    for (int sent = 0; sent < length;) {
        int n = write(link, bytes + sent, length - sent);
        if (n <= 0) exit(1);
        sent += n;
    }
}

// Reads a reply, which has to be of this kind.
static void expect(int link, int due, unsigned char *reply) {
    unsigned length;
    take(link, (unsigned char *)&length, 4);
    take(link, reply, ntohl(length));
    if (reply[0] != due) {
        fprintf(stderr, "load: a reply of kind %d, where %d was due\n", reply[0], due);
        exit(1);
    }
}

static void ask(int link, const struct Frame *frame, int due, unsigned char *reply) {
    send_all(link, frame->bytes, frame->length);
    expect(link, due, reply);
}

static double now(void) {
    struct timespec time;
    clock_gettime(CLOCK_MONOTONIC, &time);
    return time.tv_sec * 1e6 + time.tv_nsec / 1e3;
}

// A connection to the place, or -1.
static int connected(void) {
    int link, one = 1;
    if (place[0] == '/') {
        struct sockaddr_un peer = {.sun_family = AF_UNIX};
        strncpy(peer.sun_path, place, sizeof peer.sun_path - 1);
        link = socket(AF_UNIX, SOCK_STREAM, 0);
        if (connect(link, (struct sockaddr *)&peer, sizeof peer) == 0) return link;
    } else {
        struct sockaddr_in peer = {.sin_family = AF_INET, .sin_port = htons(atoi(place)), .sin_addr.s_addr = htonl(INADDR_LOOPBACK)};
        link = socket(AF_INET, SOCK_STREAM, 0);
        if (connect(link, (struct sockaddr *)&peer, sizeof peer) == 0) {
            setsockopt(link, IPPROTO_TCP, TCP_NODELAY, &one, sizeof one);
            return link;
        }
    }
    close(link);
    return -1;
}

static int dial(void) {
    for (int turn = 0; turn < 1000; turn++) {
        int link = connected();
        if (link >= 0) return link;
        usleep(10000);
    }
    exit(1);
}

// A link on which this principal was admitted.
static int admit(const char *name, const char *secret) {
    unsigned char reply[64];
    struct Frame frame;
    int link = dial();
    begin(&frame, HELLO);
    add_text(&frame, name);
    add_text(&frame, secret);
    end(&frame);
    ask(link, &frame, WELCOME, reply);
    return link;
}

static void say(struct Frame *frame, const char *name) {
    begin(frame, SAY);
    add_text(frame, name);
    add_text(frame, "ok");
    end(frame);
}

// Is admitted anew for each request, over a connection of its own.
static void greet(long k, const char *name, const char *secret) {
    for (int asked = 0; asked < count; asked++) {
        double sent = now();
        close(admit(name, secret));
        waits[k * count + asked] = now() - sent;
    }
}

static void *run(void *number) {
    long k = (long)number;
    char name[8], secret[8], object[8];
    unsigned char reply[64], burst[MOST_DEPTH * 256];
    struct Frame frame;
    snprintf(name, sizeof name, "p%ld", k % 60);
    snprintf(secret, sizeof secret, "s%ld", k % 60);
    snprintf(object, sizeof object, "o%ld", k % 60);
    if (strcmp(kind, "hello") == 0) {
        close(admit(name, secret));
        pthread_barrier_wait(&admitted);
        greet(k, name, secret);
        return NULL;
    }
    int due = strcmp(kind, "say") == 0 ? DONE : strcmp(kind, "call") == 0 ? ALLOWED : DENIED;
    int link = admit(name, secret);
    if (due == DONE) {
        say(&frame, name);
    } else {
        begin(&frame, CALL);
        add_text(&frame, due == ALLOWED ? "read" : "miss");
        add_text(&frame, object);
        memset(frame.bytes + frame.length, 0, 8);
        frame.length += 8;
        end(&frame);
    }
    for (int n = 0; n < depth; n++) memcpy(burst + n * frame.length, frame.bytes, frame.length);
    pthread_barrier_wait(&admitted);
    for (int asked = 0; asked < count; asked += depth) {
        double sent = now();
        send_all(link, burst, depth * frame.length);
        for (int n = 0; n < depth; n++) {
            expect(link, due, reply);
            waits[k * count + asked + n] = now() - sent;
        }
    }
    close(link);
    return NULL;
}

// Says a label and takes it back, 500 changes a second, until it is killed: a principal may have 4,096 entries.
static void churn(void) {
    unsigned char reply[64];
    struct Frame frame;
    int link = admit("pC", "sC");
    for (;;) {
        say(&frame, "pC");
        ask(link, &frame, DONE, reply);
        begin(&frame, DELETE);
        memcpy(frame.bytes + frame.length, reply + 9, 8);
        frame.length += 8;
        end(&frame);
        usleep(2000);
        ask(link, &frame, DONE, reply);
        usleep(2000);
    }
}

static int by_size(const void *a, const void *b) {
    double x = *(const double *)a, y = *(const double *)b;
    return (x > y) - (x < y);
}

int main(int words, char **word) {
    if (words == 3) {
        place = word[1];
        churn();
    }
    if (words != 6) return 2;
    place = word[1];
    int connections = atoi(word[2]);
    count = atoi(word[3]);
    depth = atoi(word[4]);
    kind = word[5];
    if (connections < 1 || connections > 1024 || depth < 1 || depth > MOST_DEPTH || count % depth != 0) return 2;
    waits = malloc(sizeof *waits * connections * count);
    pthread_t threads[1024];
    pthread_barrier_init(&admitted, NULL, connections + 1);
    for (long k = 0; k < connections; k++) pthread_create(&threads[k], NULL, run, (void *)k);
    pthread_barrier_wait(&admitted);
    double begun = now();
    for (int k = 0; k < connections; k++) pthread_join(threads[k], NULL);
    double over = now();
    long all = (long)connections * count;
    qsort(waits, all, sizeof *waits, by_size);
    printf("%.0f %.0f\n", all / (over - begun) * 1e6, waits[all - 1 - all / 100]);
    return 0;
}
