/* client guarddb PORT|PATH FILE [ROLE], client postgres FOLDER FILE [ROLE [DATABASE]]: sends the lines of FILE as statements, each once
   the answer to the one before is there, in a session of ROLE (root). Prints how many there were, how many rows came, and the
   microseconds that it took. Where the environment has LATENCIES, it prints instead what half of the statements took at most, and what
   99 of 100 did, in microseconds. */
#include <arpa/inet.h>
#include <netinet/tcp.h>
#include <stdint.h>
#include <stdio.h>
#include <stdlib.h>
#include <string.h>
#include <sys/socket.h>
#include <sys/un.h>
#include <time.h>
#include <unistd.h>

static unsigned char in[1 << 20], out[1 << 18];
static size_t in_start, in_end;
static int server;
static long rows;

static void fail(const char *why) { fprintf(stderr, "client: %s\n", why); exit(1); }

/* So many bytes of what comes, in place until the next call. */
static unsigned char *take(size_t count) {
    if (count > sizeof in) fail("a message is too long");
    if (in_end - in_start < count) {
        memmove(in, in + in_start, in_end - in_start);
        in_end -= in_start;
        in_start = 0;
    }
    while (in_end - in_start < count) {
        ssize_t got = read(server, in + in_end, sizeof in - in_end);
        if (got <= 0) fail("the connection ended");
        in_end += got;
    }
    in_start += count;
    return in + in_start - count;
}

static void send_all(size_t count) {
    for (size_t done = 0; done < count;) {
        ssize_t sent = write(server, out + done, count - done);
        if (sent <= 0) fail("the connection ended");
        done += sent;
    }
}

static void put32(unsigned char *at, uint32_t number) { number = htonl(number); memcpy(at, &number, 4); }
static uint32_t get32(const unsigned char *at) { uint32_t number; memcpy(&number, at, 4); return ntohl(number); }

static void ask_guarddb(int kind, const char *text, size_t length) {
    put32(out, 5 + length);
    out[4] = kind;
    put32(out + 5, 1);
    memcpy(out + 9, text, length);
    send_all(9 + length);
    uint32_t size = get32(take(4));
    unsigned char *answer = take(size) + 5;
    if (size - 5 > 6 && memcmp(answer, "rows ", 5) == 0) rows += atol((char *)answer + 5);
    else if (memcmp(answer, "ok ", 3) != 0) fail("Guarddb refused a statement");
}

static void read_postgres(void) {
    for (;;) {
        unsigned char kind = *take(1);
        take(get32(take(4)) - 4);
        if (kind == 'D') rows++;
        if (kind == 'E') fail("PostgreSQL refused a statement");
        if (kind == 'Z') return;
    }
}

static void ask_postgres(const char *text, size_t length) {
    out[0] = 'Q';
    put32(out + 1, 5 + length);
    memcpy(out + 5, text, length);
    out[5 + length] = 0;
    send_all(6 + length);
    read_postgres();
}

static void reach(const struct sockaddr *address, socklen_t size) {
    for (int i = 0; i < 3000; i++) {        /* for a minute */
        server = socket(address->sa_family, SOCK_STREAM, 0);
        if (connect(server, address, size) == 0) return;
        close(server);
        usleep(20000);
    }
    fail("no server is there");
}

static void reach_port(int port) {
    struct sockaddr_in address = { .sin_family = AF_INET, .sin_port = htons(port) };
    address.sin_addr.s_addr = htonl(INADDR_LOOPBACK);
    reach((struct sockaddr *)&address, sizeof address);
    int yes = 1;
    setsockopt(server, IPPROTO_TCP, TCP_NODELAY, &yes, sizeof yes);
}

static void reach_socket(const char *path) {
    struct sockaddr_un address = { .sun_family = AF_UNIX };
    if (strlen(path) >= sizeof address.sun_path) fail("the path of a socket is too long");
    strcpy(address.sun_path, path);
    reach((struct sockaddr *)&address, sizeof address);
}

static void open_guarddb(const char *place, const char *role) {
    if (strchr(place, '/')) reach_socket(place); else reach_port(atoi(place));
    ask_guarddb(1, role, strlen(role));
}

static size_t add_word(size_t at, const char *word) { strcpy((char *)out + at, word); return at + strlen(word) + 1; }

static void open_postgres(const char *folder, const char *role, const char *database) {
    char path[4096];
    snprintf(path, sizeof path, "%s/.s.PGSQL.5432", folder);
    reach_socket(path);
    size_t end = add_word(add_word(add_word(add_word(8, "user"), role), "database"), database);
    end = add_word(end, "");
    put32(out, end);
    put32(out + 4, 196608);
    send_all(end);
    read_postgres();
}

static long micros_between(struct timespec a, struct timespec z) {
    return (z.tv_sec - a.tv_sec) * 1000000L + (z.tv_nsec - a.tv_nsec) / 1000;
}

static int by_size(const void *a, const void *b) { return (*(const long *)a > *(const long *)b) - (*(const long *)a < *(const long *)b); }

int main(int argc, char **argv) {
    if (argc < 4 || argc > 6) fail("client guarddb PORT|PATH FILE [ROLE], or client postgres FOLDER FILE [ROLE [DATABASE]]");
    const char *role = argc > 4 ? argv[4] : "root", *database = argc > 5 ? argv[5] : "postgres";
    int is_guarddb = strcmp(argv[1], "guarddb") == 0;
    FILE *file = fopen(argv[3], "r");
    if (!file) fail("no such file");
    size_t count = 0, room = 0;
    char **lines = NULL, *line = NULL;
    for (size_t size = 0; getline(&line, &size, file) > 0; line = NULL, size = 0) {
        if (count == room) lines = realloc(lines, (room = room * 2 + 1024) * sizeof *lines);
        line[strcspn(line, "\n")] = 0;
        if (strlen(line) > 65536) fail("a line is too long");
        lines[count++] = line;
    }
    if (is_guarddb) open_guarddb(argv[2], role); else open_postgres(argv[2], role, database);
    long *each = calloc(count + 1, sizeof *each);
    struct timespec a, before, z;
    clock_gettime(CLOCK_MONOTONIC, &a);
    z = a;
    for (size_t i = 0; i < count; i++) {
        before = z;
        if (is_guarddb) ask_guarddb(2, lines[i], strlen(lines[i])); else ask_postgres(lines[i], strlen(lines[i]));
        clock_gettime(CLOCK_MONOTONIC, &z);
        each[i] = micros_between(before, z);
    }
    if (getenv("LATENCIES")) {
        qsort(each, count, sizeof *each, by_size);
        printf("half %ld us, of 100 99 %ld us\n", each[count / 2], each[count * 99 / 100]);
        return 0;
    }
    printf("%zu statements %ld rows %ld us\n", count, rows, micros_between(a, z));
}
