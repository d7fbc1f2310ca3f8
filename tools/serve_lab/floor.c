/* The floor: the least that a forwarding proxy with one RESPMOD service asks of a machine. It makes the system calls of
 * `adaptproxy serve`, in their order, and checks next to nothing. tools/bench_serve measures it beside `adaptproxy`.
 *
 *     gcc -O2 -pthread -o floor tools/serve_lab/floor.c
 *     floor [SETTING..] PORT ORIGIN_PORT [SERVICE_PORT SERVICE_PATH]
 *
 *     --origin fresh|kept    a connection to the origin for each exchange, or kept ones (default fresh)
 *     --service kept|moved   idle connections to the service stay with their thread, or are in one pool for all (default kept)
 *     --turn BYTES           the bytes of a read and of a write, at least 4096 (default 4096)
 *     --threads COUNT        event loops (default 2)
 *
 * It is for measuring alone, and trusts its peers: they listen on the loopback, requests are GET, answers have a Content-Length,
 * heads are below 3,500 bytes, and the service answers each preview by 204. It has no OPTIONS, deadline, log or bound on memory.
 *
 * Each thread has one epoll with edges. A connection that stays is registered once, for reads and writes. One that doesn't is
 * registered for reads, and for writes only where one came short: so the registration itself makes no event.
 */
#define _GNU_SOURCE
#include <arpa/inet.h>
#include <errno.h>
#include <getopt.h>
#include <netinet/tcp.h>
#include <pthread.h>
#include <stdbool.h>
#include <stdio.h>
#include <stdlib.h>
#include <string.h>
#include <strings.h>
#include <sys/epoll.h>
#include <sys/socket.h>
#include <unistd.h>

/* HEAD: the most bytes of a head. GROWTH: the most bytes by which a forwarded head is longer than the one that came. */
enum { HEAD = 4096, GROWTH = 64, PREVIEW = 1024, EVENTS = 256, BUFFERS = 256, THREADS = 64 };
/* What a call on a socket says in place of a count of bytes. */
enum { NOTHING_NOW = -1, BROKEN = -2 };
enum kind { LISTENER, USER, ORIGIN, SERVICE };
enum state { READ_REQUEST, ASK, READ_HEAD, OFFER, READ_REPLY, PASS };
/* What a step of an exchange says: the next one may begin, an event is waited for, or the user is gone. */
enum step { GOES_ON, WAITS, GONE };

struct connection {
    int descriptor;
    enum kind kind;
    bool readable, writable, hung_up, watches_writes, reused;
    struct user *user; /* whose exchange it serves; none where it is idle */
    struct connection *next, *previous;
};

struct list {
    struct connection *first;
};

/* A user's connection, and its exchange. */
struct user {
    struct connection connection; /* first: a connection of a user is its user */
    enum state state;
    bool closes, origin_closes;
    struct connection *origin, *service;
    size_t came, request; /* bytes in `incoming`, and those of the request's head */
    size_t asked, fields; /* bytes in `forwarded`, and those of them that a service sees */
    size_t sent;          /* bytes of `forwarded` that the origin has */
    char *buffer;         /* of the answer: room for a longer head, then a turn */
    size_t from, to;      /* what of the buffer the user hasn't got */
    size_t head;          /* bytes of the forwarded head, which begins at `from` */
    size_t length, left;  /* bytes of the body, and those that the origin hasn't sent */
    size_t replied;       /* bytes in `reply` */
    char incoming[HEAD], forwarded[HEAD], reply[PREVIEW];
};

struct worker {
    int epoll;
    struct list idle_origins, idle_services, closed;
    char *buffers[BUFFERS];
    int spare;
    pthread_t thread;
};

struct settings {
    size_t turn;
    int threads;
    bool keeps_origins, moves_services, has_service;
    struct sockaddr_in origin, service;
    char offer[HEAD]; /* the first lines of an ICAP request */
    size_t offer_length;
};

static struct settings settings = { .turn = 4096, .threads = 2 };
static struct worker workers[THREADS];
static pthread_mutex_t pool_lock = PTHREAD_MUTEX_INITIALIZER;
static struct list pool;

/* ---- Lists and buffers ---- */

static void put(struct list *list, struct connection *connection) {
    connection->previous = NULL;
    connection->next = list->first;
    if (list->first) list->first->previous = connection;
    list->first = connection;
}

static void take_out(struct list *list, struct connection *connection) {
    if (connection->previous) connection->previous->next = connection->next;
    else list->first = connection->next;
    if (connection->next) connection->next->previous = connection->previous;
}

static struct connection *take(struct list *list) {
    struct connection *connection = list->first;
    if (connection) take_out(list, connection);
    return connection;
}

static char *take_buffer(struct worker *worker) {
    return worker->spare ? worker->buffers[--worker->spare] : malloc(GROWTH + settings.turn);
}

static void put_buffer(struct worker *worker, struct user *user) {
    if (worker->spare < BUFFERS) worker->buffers[worker->spare++] = user->buffer;
    else free(user->buffer);
    user->buffer = NULL;
}

/* ---- Sockets ---- */

static void control(struct worker *worker, int operation, struct connection *connection) {
    struct epoll_event event = { .events = EPOLLIN | EPOLLRDHUP | EPOLLET, .data.ptr = connection };
    if (connection->watches_writes) event.events |= EPOLLOUT;
    epoll_ctl(worker->epoll, operation, connection->descriptor, &event);
}

/* The bytes that came, or 0 at the end. After a short read the next byte makes an event of its own, so that nothing more is read now. */
static ssize_t receive(struct connection *connection, char *to, size_t room) {
    if (!connection->readable) return NOTHING_NOW;
    ssize_t count = recv(connection->descriptor, to, room, 0);
    if (count < 0) {
        connection->readable = false;
        return errno == EAGAIN ? NOTHING_NOW : BROKEN;
    }
    if (count > 0 && (size_t)count < room && !connection->hung_up) connection->readable = false;
    return count;
}

/* The bytes that the socket took. Where it didn't take all, an event says when it takes more. */
static ssize_t transmit(struct worker *worker, struct connection *connection, const char *from, size_t length) {
    if (!connection->writable) return NOTHING_NOW;
    ssize_t count = send(connection->descriptor, from, length, MSG_NOSIGNAL);
    if (count < 0 && errno != EAGAIN) return BROKEN;
    if (count < (ssize_t)length) {
        connection->writable = false;
        if (!connection->watches_writes) {
            connection->watches_writes = true;
            control(worker, EPOLL_CTL_MOD, connection);
        }
    }
    return count < 0 ? NOTHING_NOW : count;
}

/* Its memory is freed after the events at hand, some of which may be of it. */
static void close_connection(struct worker *worker, struct connection *connection) {
    close(connection->descriptor);
    connection->descriptor = -1;
    connection->user = NULL;
    put(&worker->closed, connection);
}

static struct connection *dial(struct worker *worker, enum kind kind, const struct sockaddr_in *address) {
    bool stays = kind == ORIGIN ? settings.keeps_origins : !settings.moves_services;
    int on = 1, descriptor = socket(AF_INET, SOCK_STREAM | SOCK_NONBLOCK | SOCK_CLOEXEC, 0);
    if (descriptor < 0) return NULL;
    if (kind == SERVICE || stays) setsockopt(descriptor, IPPROTO_TCP, TCP_NODELAY, &on, sizeof on);
    if (connect(descriptor, (const struct sockaddr *)address, sizeof *address) < 0 && errno != EINPROGRESS) {
        close(descriptor);
        return NULL;
    }
    struct connection *connection = calloc(1, sizeof *connection);
    /* On the loopback it is connected by now; where it isn't, the first write says so. */
    *connection = (struct connection){ .descriptor = descriptor, .kind = kind, .writable = true, .watches_writes = stays };
    control(worker, EPOLL_CTL_ADD, connection);
    return connection;
}

static void accept_users(struct connection *listener) {
    static unsigned count;
    int descriptor;
    while ((descriptor = accept4(listener->descriptor, NULL, NULL, SOCK_NONBLOCK | SOCK_CLOEXEC)) >= 0) {
        struct user *user = calloc(1, sizeof *user);
        user->connection =
            (struct connection){ .descriptor = descriptor, .kind = USER, .writable = true, .watches_writes = true, .user = user };
        control(&workers[count++ % settings.threads], EPOLL_CTL_ADD, &user->connection);
    }
}

/* ---- Connections of an exchange ---- */

static struct connection *take_origin(struct worker *worker) {
    struct connection *origin = take(&worker->idle_origins);
    return origin ? origin : dial(worker, ORIGIN, &settings.origin);
}

/* One of the pool, if its service hasn't closed it. */
static struct connection *take_moved(struct worker *worker) {
    for (;;) {
        char byte;
        pthread_mutex_lock(&pool_lock);
        struct connection *service = take(&pool);
        pthread_mutex_unlock(&pool_lock);
        if (!service) return NULL;
        if (recv(service->descriptor, &byte, 1, MSG_PEEK) < 0 && errno == EAGAIN) {
            service->writable = true;
            service->watches_writes = false;
            control(worker, EPOLL_CTL_ADD, service);
            return service;
        }
        close_connection(worker, service);
    }
}

static struct connection *take_service(struct worker *worker) {
    struct connection *service = settings.moves_services ? take_moved(worker) : take(&worker->idle_services);
    return service ? service : dial(worker, SERVICE, &settings.service);
}

static void keep_origin(struct worker *worker, struct user *user) {
    struct connection *origin = user->origin;
    user->origin = NULL;
    origin->user = NULL;
    origin->readable = false;
    origin->reused = true;
    if (settings.keeps_origins && !user->origin_closes && !origin->hung_up) put(&worker->idle_origins, origin);
    else close_connection(worker, origin);
}

static void keep_service(struct worker *worker, struct user *user) {
    struct connection *service = user->service;
    user->service = NULL;
    service->user = NULL;
    service->readable = false;
    service->reused = true;
    if (service->hung_up) close_connection(worker, service);
    else if (settings.moves_services) {
        epoll_ctl(worker->epoll, EPOLL_CTL_DEL, service->descriptor, NULL);
        pthread_mutex_lock(&pool_lock);
        put(&pool, service);
        pthread_mutex_unlock(&pool_lock);
    } else put(&worker->idle_services, service);
}

static enum step leave(struct worker *worker, struct user *user) {
    if (user->origin) close_connection(worker, user->origin);
    if (user->service) close_connection(worker, user->service);
    if (user->buffer) put_buffer(worker, user);
    close_connection(worker, &user->connection);
    return GONE;
}

static enum step refuse(struct worker *worker, struct user *user) {
    static const char text[] = "HTTP/1.1 502 Bad Gateway\r\nContent-Length: 0\r\nConnection: close\r\n\r\n";
    transmit(worker, &user->connection, text, sizeof text - 1);
    return leave(worker, user);
}

/* After a connection broke before it answered: one that was kept may have been closed meanwhile, so another one is asked. */
static enum step begin_anew(struct worker *worker, struct user *user, struct connection **broken, enum state state) {
    bool again = (*broken)->reused;
    close_connection(worker, *broken);
    *broken = NULL;
    user->state = state;
    user->sent = user->replied = 0;
    return again ? GOES_ON : refuse(worker, user);
}

/* ---- Heads ---- */

static char *add(char *to, const char *text) {
    return stpcpy(to, text);
}

static bool is_named(const char *field, const char *name) {
    return !strncasecmp(field, name, strlen(name));
}

/* Copies fields without those of the connection, and notes what two of them say. */
static char *copy_fields(char *to, const char *from, const char *end, ssize_t *length, bool *closes) {
    while (from < end) {
        const char *line = (const char *)memchr(from, '\n', end - from) + 1;
        char first = *from | 32;
        bool drops = false;
        if (first == 'c' && is_named(from, "connection:")) {
            drops = true;
            *closes |= memmem(from, line - from, "close", 5) != NULL;
        } else if (first == 'c' && is_named(from, "content-length:")) *length = atol(from + 15);
        else if (first == 'k') drops = is_named(from, "keep-alive:");
        else if (first == 'p') drops = is_named(from, "proxy-connection:");
        if (!drops) to = mempcpy(to, from, line - from);
        from = line;
    }
    return add(to, "Via: 1.1 floor\r\n");
}

/* The request for the origin, of a head that begins `incoming`; false where it can't be. */
static bool forward_request(struct user *user) {
    char *line = memchr(user->incoming, '\n', user->request), *end = user->incoming + user->request - 2;
    char *name = memmem(user->incoming, line - user->incoming, "://", 3);
    char *path = name ? memchr(name + 3, '/', line - name - 3) : memchr(user->incoming, '/', line - user->incoming);
    if (!path || user->request > HEAD - GROWTH) return false;
    ssize_t length = 0;
    user->closes = false;
    char *to = mempcpy(add(user->forwarded, "GET "), path, line + 1 - path);
    to = copy_fields(to, line + 1, end, &length, &user->closes);
    user->fields = to - user->forwarded;
    to = add(to, settings.keeps_origins ? "\r\n" : "Connection: close\r\n\r\n");
    user->asked = to - user->forwarded;
    return true;
}

/* Puts the forwarded head before the body bytes that came with the head of `length` bytes. */
static bool forward_head(struct user *user, size_t length) {
    char text[HEAD + GROWTH], *begins = user->buffer + GROWTH;
    ssize_t body = -1;
    if (length > HEAD) return false;
    user->origin_closes = false;
    char *to = copy_fields(text, begins, begins + length - 2, &body, &user->origin_closes);
    to = add(to, user->closes ? "Connection: close\r\n\r\n" : "\r\n");
    user->head = to - text;
    user->from = GROWTH + length - user->head;
    memcpy(user->buffer + user->from, text, user->head);
    user->length = body;
    user->left = body - (user->to - GROWTH - length);
    return body >= 0;
}

/* The ICAP request that offers the answer, with a preview of the body bytes at hand. */
static size_t write_offer(const struct user *user, char *text) {
    size_t preview = user->length < PREVIEW ? user->length : PREVIEW;
    const char *head = user->buffer + user->from;
    char *to = mempcpy(text, settings.offer, settings.offer_length);
    if (user->length) to = add(to, "Preview: 1024\r\n");
    to += sprintf(to, "Encapsulated: req-hdr=0, res-hdr=%zu, %s=%zu\r\n\r\n", user->fields + 2, user->length ? "res-body" : "null-body",
                  user->fields + 2 + user->head);
    to = add(mempcpy(to, user->forwarded, user->fields), "\r\n");
    to = mempcpy(to, head, user->head);
    if (user->length) {
        to += sprintf(to, "%zx\r\n", preview);
        to = mempcpy(to, head + user->head, preview);
        to = add(to, user->length > PREVIEW ? "\r\n0\r\n\r\n" : "\r\n0; ieof\r\n\r\n");
    }
    return to - text;
}

/* ---- The steps of an exchange ---- */

static enum step read_request(struct worker *worker, struct user *user) {
    char *end = memmem(user->incoming, user->came, "\r\n\r\n", 4);
    if (end) {
        user->request = end + 4 - user->incoming;
        user->sent = user->replied = 0;
        user->state = ASK;
        return forward_request(user) ? GOES_ON : leave(worker, user);
    }
    ssize_t count = receive(&user->connection, user->incoming + user->came, HEAD - user->came);
    if (count == NOTHING_NOW) return WAITS;
    if (count <= 0) return leave(worker, user);
    user->came += count;
    return GOES_ON;
}

static enum step ask(struct worker *worker, struct user *user) {
    if (!user->origin && !(user->origin = take_origin(worker))) return refuse(worker, user);
    user->origin->user = user;
    ssize_t count = transmit(worker, user->origin, user->forwarded + user->sent, user->asked - user->sent);
    if (count == BROKEN) return begin_anew(worker, user, &user->origin, ASK);
    if (count == NOTHING_NOW) return WAITS;
    user->sent += count;
    if (user->sent < user->asked) return WAITS;
    if (!user->buffer) user->buffer = take_buffer(worker);
    user->to = GROWTH;
    user->head = 0;
    user->state = READ_HEAD;
    return GOES_ON;
}

/* Reads the head of the answer, and with a service the body bytes of its preview. */
static enum step read_head(struct worker *worker, struct user *user) {
    ssize_t count = receive(user->origin, user->buffer + user->to, GROWTH + settings.turn - user->to);
    if (count == NOTHING_NOW) return WAITS;
    if (count <= 0) return user->to > GROWTH ? refuse(worker, user) : begin_anew(worker, user, &user->origin, ASK);
    user->to += count;
    if (user->head) user->left -= count;
    else {
        char *begins = user->buffer + GROWTH, *end = memmem(begins, user->to - GROWTH, "\r\n\r\n", 4);
        if (!end) return GOES_ON;
        if (!forward_head(user, end + 4 - begins)) return refuse(worker, user);
    }
    size_t body = user->length - user->left;
    if (!settings.has_service) user->state = PASS;
    else if (body >= PREVIEW || !user->left) user->state = OFFER;
    return GOES_ON;
}

static enum step offer(struct worker *worker, struct user *user) {
    char text[3 * HEAD + PREVIEW + GROWTH];
    if (!user->service && !(user->service = take_service(worker))) return refuse(worker, user);
    user->service->user = user;
    size_t length = write_offer(user, text);
    ssize_t count = transmit(worker, user->service, text, length);
    if (count == NOTHING_NOW) return WAITS;
    if (count == BROKEN) return begin_anew(worker, user, &user->service, OFFER);
    user->state = READ_REPLY;
    return (size_t)count == length ? GOES_ON : refuse(worker, user);
}

static enum step read_reply(struct worker *worker, struct user *user) {
    ssize_t count = receive(user->service, user->reply + user->replied, sizeof user->reply - user->replied);
    if (count == NOTHING_NOW) return WAITS;
    if (count <= 0) return user->replied ? refuse(worker, user) : begin_anew(worker, user, &user->service, OFFER);
    user->replied += count;
    char *end = memmem(user->reply, user->replied, "\r\n\r\n", 4);
    if (!end) return GOES_ON;
    if (memcmp(user->reply, "ICAP/1.0 204", 12) || end + 4 != user->reply + user->replied) return refuse(worker, user);
    keep_service(worker, user);
    user->state = PASS;
    return GOES_ON;
}

static enum step finish(struct worker *worker, struct user *user) {
    keep_origin(worker, user);
    put_buffer(worker, user);
    if (user->closes) return leave(worker, user);
    user->came -= user->request;
    if (user->came) memmove(user->incoming, user->incoming + user->request, user->came);
    user->state = READ_REQUEST;
    return GOES_ON;
}

/* A turn: what the buffer holds is written, then as much is read again. */
static enum step pass(struct worker *worker, struct user *user) {
    ssize_t count;
    if (user->from < user->to) {
        count = transmit(worker, &user->connection, user->buffer + user->from, user->to - user->from);
        if (count == NOTHING_NOW) return WAITS;
        if (count == BROKEN) return leave(worker, user);
        user->from += count;
        if (user->from < user->to) return WAITS;
    }
    if (!user->left) return finish(worker, user);
    count = receive(user->origin, user->buffer, settings.turn);
    if (count == NOTHING_NOW) return WAITS;
    if (count <= 0 || (size_t)count > user->left) return leave(worker, user);
    user->from = 0;
    user->to = count;
    user->left -= count;
    return GOES_ON;
}

static void drive(struct worker *worker, struct user *user) {
    static enum step (*const steps[])(struct worker *, struct user *) = {
        [READ_REQUEST] = read_request, [ASK] = ask,           [READ_HEAD] = read_head, [OFFER] = offer,
        [READ_REPLY] = read_reply,     [PASS] = pass,
    };
    while (steps[user->state](worker, user) == GOES_ON) {}
}

/* ---- Event loops ---- */

static void handle(struct worker *worker, struct connection *connection, uint32_t events) {
    if (connection->descriptor < 0) return;
    if (connection->kind == LISTENER) {
        accept_users(connection);
        return;
    }
    bool ends = events & (EPOLLRDHUP | EPOLLHUP | EPOLLERR);
    connection->readable |= ends || events & EPOLLIN;
    connection->writable |= ends || events & EPOLLOUT;
    connection->hung_up |= ends;
    if (connection->user) drive(worker, connection->user);
    else if (connection->readable) { /* An idle one, which the other side has closed. */
        take_out(connection->kind == ORIGIN ? &worker->idle_origins : &worker->idle_services, connection);
        close_connection(worker, connection);
    }
}

static void *run(void *of) {
    struct worker *worker = of;
    struct epoll_event events[EVENTS];
    struct connection *connection;
    for (;;) {
        int count = epoll_wait(worker->epoll, events, EVENTS, -1);
        for (int at = 0; at < count; at++) handle(worker, events[at].data.ptr, events[at].events);
        while ((connection = take(&worker->closed))) free(connection);
    }
    return NULL;
}

/* ---- Settings ---- */

static void stop_unless(bool holds, const char *text) {
    if (holds) return;
    fprintf(stderr, "floor: %s\n", text);
    exit(2);
}

static bool is_second(const char *word, const char *first, const char *second) {
    stop_unless(!strcmp(word, first) || !strcmp(word, second), "a setting has another word than it may");
    return !strcmp(word, second);
}

static struct sockaddr_in loopback(const char *port) {
    struct sockaddr_in address = { .sin_family = AF_INET, .sin_port = htons(atoi(port)), .sin_addr.s_addr = htonl(INADDR_LOOPBACK) };
    return address;
}

/* Reads the words of the command. Answers those that are no settings. */
static char **read_words(int count, char **words) {
    static const struct option options[] = { { "origin", required_argument, NULL, 'o' }, { "service", required_argument, NULL, 's' },
                                             { "turn", required_argument, NULL, 't' },   { "threads", required_argument, NULL, 'n' },
                                             { NULL, 0, NULL, 0 } };
    for (int option; (option = getopt_long(count, words, "", options, NULL)) != -1;) {
        if (option == 'o') settings.keeps_origins = is_second(optarg, "fresh", "kept");
        else if (option == 's') settings.moves_services = is_second(optarg, "kept", "moved");
        else if (option == 't') settings.turn = atol(optarg);
        else if (option == 'n') settings.threads = atoi(optarg);
        else exit(2);
    }
    stop_unless(count - optind == 2 || count - optind == 4, "floor [SETTING..] PORT ORIGIN_PORT [SERVICE_PORT SERVICE_PATH]");
    stop_unless(settings.turn >= HEAD, "a turn has at least 4096 bytes");
    stop_unless(settings.threads >= 1 && settings.threads <= THREADS, "there are 1 to 64 threads");
    settings.origin = loopback(words[optind + 1]);
    settings.has_service = count - optind == 4;
    if (settings.has_service) {
        const char *port = words[optind + 2], *path = words[optind + 3];
        settings.service = loopback(port);
        settings.offer_length = snprintf(settings.offer, sizeof settings.offer,
                                         "RESPMOD icap://127.0.0.1:%s%s ICAP/1.0\r\nHost: 127.0.0.1:%s\r\nAllow: 204\r\n", port, path, port);
        stop_unless(settings.offer_length < HEAD / 2, "the service's path is too long");
    }
    return words + optind;
}

static int listen_on(const char *port) {
    struct sockaddr_in address = loopback(port);
    int on = 1, descriptor = socket(AF_INET, SOCK_STREAM | SOCK_NONBLOCK | SOCK_CLOEXEC, 0);
    setsockopt(descriptor, SOL_SOCKET, SO_REUSEADDR, &on, sizeof on);
    setsockopt(descriptor, IPPROTO_TCP, TCP_NODELAY, &on, sizeof on); /* Those that are accepted take it over. */
    stop_unless(!bind(descriptor, (struct sockaddr *)&address, sizeof address) && !listen(descriptor, 4096), "can't listen on the port");
    return descriptor;
}

int main(int count, char **words) {
    struct connection listener = { .kind = LISTENER };
    words = read_words(count, words);
    listener.descriptor = listen_on(words[0]);
    for (int at = 0; at < settings.threads; at++) workers[at].epoll = epoll_create1(EPOLL_CLOEXEC);
    control(&workers[0], EPOLL_CTL_ADD, &listener);
    for (int at = 1; at < settings.threads; at++)
        stop_unless(!pthread_create(&workers[at].thread, NULL, run, &workers[at]), "no thread can be started");
    run(&workers[0]);
    return 0;
}
