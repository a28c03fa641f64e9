/* server.c: the forum's server. It serves the page, and answers the check and the export of posts over dirgemist.h.
 *
 *     server [-p PORT] PAGE
 *
 *     GET  /        the file PAGE, as it was when the server started
 *     POST /check   the text is the body, any bytes: `1`, or `20`, a space and the place; then LF
 *     POST /export  the frames; or, with status 422, `20`, a space, the place and LF
 *
 * `?edition=2` tells the meter's edition; it is 1 where nothing is said. Any other gives `16` LF with status 400.
 *
 * It listens on this machine alone: a forum puts it behind its own web server. Nothing is kept from one request to the next. A body
 * has at most BODY_MOST bytes: one that says it is longer gets 413, one that turns out longer is cut off. A request has SECONDS in
 * all and a connection as long to say anything; there are at most CONNECTIONS, each with HEADERS_MOST bytes for what it asks. */
#define _POSIX_C_SOURCE 200809L
#include "dirgemist.h"

#include <arpa/inet.h>
#include <errno.h>
#include <microhttpd.h>
#include <signal.h>
#include <stdbool.h>
#include <stdio.h>
#include <stdlib.h>
#include <string.h>
#include <time.h>
#include <unistd.h>

#define BODY_MOST 65536
#define SECONDS 10
#define CONNECTIONS 256
#define HEADERS_MOST 16384
#define PAGE_MOST (4 << 20)
#define FRAMES_MOST (DIRGEMIST_FRAME * (DIRGEMIST_LONGEST_POST / DIRGEMIST_LINE))

static _Noreturn void fail(const char *what) {
    fprintf(stderr, "server: %s: %s\n", what, strerror(errno));
    exit(2);
}

static uint8_t *page;
static size_t page_length;

static void read_page(const char *name) {
    FILE *opened = fopen(name, "rb");
    page = malloc(PAGE_MOST);
    if (opened == NULL || page == NULL) {
        fail(name);
    }
    page_length = fread(page, 1, PAGE_MOST, opened);
    if (ferror(opened) || page_length == 0 || page_length == PAGE_MOST) {
        fail(name);
    }
    fclose(opened);
}

/* ---- Answers. */

struct answer {
    unsigned status;
    const char *type;
    const void *bytes;
    size_t length;
    enum MHD_ResponseMemoryMode memory;
    const char *allow; /* the methods that would do, where this one does not */
};

static enum MHD_Result give(struct MHD_Connection *connection, const struct answer *answer) {
    struct MHD_Response *response =
        MHD_create_response_from_buffer(answer->length, (void *)(uintptr_t)answer->bytes, answer->memory);
    if (response == NULL) {
        return MHD_NO;
    }
    bool good = MHD_add_response_header(response, "Content-Type", answer->type) == MHD_YES &&
                MHD_add_response_header(response, "X-Content-Type-Options", "nosniff") == MHD_YES &&
                MHD_add_response_header(response, "Content-Security-Policy", "frame-ancestors 'none'") == MHD_YES &&
                MHD_add_response_header(response, "Cache-Control", "no-store") == MHD_YES &&
                (answer->allow == NULL || MHD_add_response_header(response, "Allow", answer->allow) == MHD_YES);
    enum MHD_Result given = good ? MHD_queue_response(connection, answer->status, response) : MHD_NO;
    MHD_destroy_response(response);
    return given;
}

static enum MHD_Result say(struct MHD_Connection *connection, unsigned status, const char *words) {
    return give(connection, &(struct answer){.status = status, .type = "text/plain; charset=utf-8", .bytes = words, .length = strlen(words), .memory = MHD_RESPMEM_MUST_COPY});
}

/* A number of document 01, and the place where it has one. */
static enum MHD_Result say_number(struct MHD_Connection *connection, unsigned status, uint8_t number, size_t place) {
    char words[48];
    if (number == DIRGEMIST_NOT_A_POST) {
        snprintf(words, sizeof words, "%u %zu\n", number, place);
    } else {
        snprintf(words, sizeof words, "%u\n", number);
    }
    return say(connection, status, words);
}

/* ---- The calls. */

/* The edition that was asked for: a digit, 1 where none was, 0 for anything else. */
static uint8_t edition_of(struct MHD_Connection *connection) {
    const char *word = MHD_lookup_connection_value(connection, MHD_GET_ARGUMENT_KIND, "edition");
    if (word == NULL) {
        return 1;
    }
    return word[0] >= '0' && word[0] <= '9' && word[1] == '\0' ? (uint8_t)(word[0] - '0') : 0;
}

static enum MHD_Result check(struct MHD_Connection *connection, const uint8_t *text, size_t length) {
    size_t place = 0;
    uint8_t number = dirgemist_post_check(edition_of(connection), text, length, &place);
    return say_number(connection, number == DIRGEMIST_NO_EDITION ? MHD_HTTP_BAD_REQUEST : MHD_HTTP_OK, number, place);
}

static enum MHD_Result export(struct MHD_Connection *connection, const uint8_t *text, size_t length) {
    uint8_t frames[FRAMES_MOST];
    size_t place = 0, size = 0;
    uint8_t number = dirgemist_post_export(edition_of(connection), text, length, frames, sizeof frames, &size, &place);
    if (number != DIRGEMIST_DONE) {
        return say_number(connection, number == DIRGEMIST_NO_EDITION ? MHD_HTTP_BAD_REQUEST : MHD_HTTP_UNPROCESSABLE_CONTENT, number, place);
    }
    return give(connection, &(struct answer){.status = MHD_HTTP_OK, .type = "application/octet-stream", .bytes = frames, .length = size, .memory = MHD_RESPMEM_MUST_COPY});
}

/* ---- Requests. */

struct request {
    struct timespec until;
    enum MHD_Result (*call)(struct MHD_Connection *connection, const uint8_t *text, size_t length);
    size_t length, room;
    uint8_t *body;
};

static bool is_late(const struct request *request) {
    struct timespec now;
    clock_gettime(CLOCK_MONOTONIC, &now);
    return now.tv_sec > request->until.tv_sec;
}

/* Whether the body's next bytes have room; false ends the connection. */
static bool append(struct request *request, const void *bytes, size_t length) {
    if (length > BODY_MOST - request->length) {
        return false;
    }
    size_t room = request->room;
    while (room < request->length + length) {
        room = room == 0 ? 1024 : 2 * room;
    }
    if (room > request->room) {
        uint8_t *body = realloc(request->body, room);
        if (body == NULL) {
            return false;
        }
        request->body = body;
        request->room = room;
    }
    memcpy(request->body + request->length, bytes, length);
    request->length += length;
    return true;
}

/* A request's head has come: what can be said without its body, or a place for the body. */
static enum MHD_Result begin(struct MHD_Connection *connection, const char *url, const char *method, void **own) {
    bool is_page = strcmp(url, "/") == 0, is_check = strcmp(url, "/check") == 0, is_export = strcmp(url, "/export") == 0;
    bool gets = strcmp(method, "GET") == 0 || strcmp(method, "HEAD") == 0, posts = strcmp(method, "POST") == 0;
    if (!is_page && !is_check && !is_export) {
        return say(connection, MHD_HTTP_NOT_FOUND, "there is nothing here\n");
    }
    if (is_page ? !gets : !posts) {
        static const char words[] = "not with this method\n";
        return give(connection, &(struct answer){.status = MHD_HTTP_METHOD_NOT_ALLOWED, .type = "text/plain; charset=utf-8", .bytes = words, .length = sizeof words - 1, .memory = MHD_RESPMEM_PERSISTENT, .allow = is_page ? "GET, HEAD" : "POST"});
    }
    const char *said = MHD_lookup_connection_value(connection, MHD_HEADER_KIND, "Content-Length");
    if (said != NULL && (strlen(said) > 9 || strtoul(said, NULL, 10) > BODY_MOST)) {
        return say(connection, MHD_HTTP_CONTENT_TOO_LARGE, "the text is too long\n");
    }
    struct request *request = calloc(1, sizeof *request);
    if (request == NULL) {
        return MHD_NO;
    }
    clock_gettime(CLOCK_MONOTONIC, &request->until);
    request->until.tv_sec += SECONDS;
    request->call = is_check ? check : is_export ? export : NULL;
    *own = request;
    return MHD_YES;
}

static enum MHD_Result ask(void *none, struct MHD_Connection *connection, const char *url, const char *method, const char *version, const char *bytes, size_t *length, void **own) {
    (void)none;
    (void)version;
    if (*own == NULL) {
        return begin(connection, url, method, own);
    }
    struct request *request = *own;
    if (is_late(request)) {
        return MHD_NO;
    }
    if (*length > 0) {
        bool taken = append(request, bytes, *length);
        *length = 0;
        return taken ? MHD_YES : MHD_NO;
    }
    if (request->call == NULL) {
        return give(connection, &(struct answer){.status = MHD_HTTP_OK, .type = "text/html; charset=utf-8", .bytes = page, .length = page_length, .memory = MHD_RESPMEM_PERSISTENT});
    }
    static const uint8_t nothing;
    return request->call(connection, request->body == NULL ? &nothing : request->body, request->length);
}

static void finish(void *none, struct MHD_Connection *connection, void **own, enum MHD_RequestTerminationCode how) {
    (void)none;
    (void)connection;
    (void)how;
    struct request *request = *own;
    if (request != NULL) {
        free(request->body);
        free(request);
        *own = NULL;
    }
}

/* ---- The server. */

static uint16_t port_of(const char *word) {
    char *end;
    unsigned long port = strtoul(word, &end, 10);
    if (*word < '0' || *word > '9' || *end != '\0' || port > 65535) {
        fprintf(stderr, "server: '%s' is no port\n", word);
        exit(2);
    }
    return (uint16_t)port;
}

int main(int count, char **words) {
    uint16_t port = 8080;
    for (int option; (option = getopt(count, words, "p:")) != -1;) {
        if (option != 'p') {
            fprintf(stderr, "usage: server [-p PORT] PAGE\n");
            return 2;
        }
        port = port_of(optarg);
    }
    if (count - optind != 1) {
        fprintf(stderr, "usage: server [-p PORT] PAGE\n");
        return 2;
    }
    read_page(words[optind]);
    /* Blocked before the server's threads start, so that the signal comes to this one. */
    sigset_t ends;
    sigemptyset(&ends);
    sigaddset(&ends, SIGTERM);
    sigaddset(&ends, SIGINT);
    sigprocmask(SIG_BLOCK, &ends, NULL);
    struct sockaddr_in here = {.sin_family = AF_INET, .sin_port = htons(port), .sin_addr.s_addr = htonl(INADDR_LOOPBACK)};
    struct MHD_Daemon *daemon = MHD_start_daemon(
        MHD_USE_AUTO | MHD_USE_INTERNAL_POLLING_THREAD, port, NULL, NULL, ask, NULL, MHD_OPTION_SOCK_ADDR, &here, MHD_OPTION_THREAD_POOL_SIZE, 2u,
        MHD_OPTION_CONNECTION_LIMIT, (unsigned)CONNECTIONS, MHD_OPTION_CONNECTION_TIMEOUT, (unsigned)SECONDS,
        MHD_OPTION_CONNECTION_MEMORY_LIMIT, (size_t)HEADERS_MOST, MHD_OPTION_NOTIFY_COMPLETED, finish, NULL, MHD_OPTION_END);
    if (daemon == NULL) {
        fail("the port");
    }
    const union MHD_DaemonInfo *info = MHD_get_daemon_info(daemon, MHD_DAEMON_INFO_BIND_PORT);
    printf("server: http://127.0.0.1:%u/\n", info == NULL ? port : info->port);
    fflush(stdout);
    int signal;
    sigwait(&ends, &signal);
    MHD_stop_daemon(daemon);
    free(page);
    return 0;
}
