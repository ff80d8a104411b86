/* A relying party over a process of `x509check session`, or a connection to a socket (x509check_party.h).
 *
 * Process and socket are one thing here: a stream socket to whoever answers lines. Whoever has the turn (take_turn) writes a request,
 * reads its answer, and starts a process whenever there is none. */
#define _POSIX_C_SOURCE 200809L
#include "x509check_party.h"

#include "../c/x509check_common.h"

#include <errno.h>
#include <fcntl.h>
#include <inttypes.h>
#include <limits.h>
#include <poll.h>
#include <pthread.h>
#include <signal.h>
#include <spawn.h>
#include <stdarg.h>
#include <stdbool.h>
#include <stdio.h>
#include <stdlib.h>
#include <string.h>
#include <sys/socket.h>
#include <sys/stat.h>
#include <sys/un.h>
#include <sys/wait.h>
#include <time.h>
#include <unistd.h>

#define MOST_LINE ((size_t)1 << 20) /* octets that a request may have */
#define MOST_BESIDE 256             /* octets that a line of an answer may have beside those that echo its request */
#define MOST_CERTIFICATES 128       /* that a path may have below its anchor (docs/REFERENCE.md, "Profile") */
#define PRINT X509CHECK_FINGERPRINT_LENGTH
#define BATCH 128                   /* fingerprints that are told at once; their answers fit into what a socket keeps */
#define PROCESSES 2                 /* that may end during one request, before it is given up */
#define FIRST_QUESTIONS 32          /* for which there is room at first */
#define LIMIT 30000                 /* milliseconds of a call, if none are said */
#define ENDING 200                  /* milliseconds for which a process may end by itself that has closed its output */
#define CLOSING 2000                /* the same of one whose input has ended */
#define RANK_EMPTY 15               /* the ranks of what is wrong with the path itself (docs/REFERENCE.md, "Faults") */
#define RANK_TOO_LONG 16
#define SHOWN 80                    /* octets of a line that are shown if it is no answer */

extern char **environ;

/* A text that grows. Once memory was refused it grows no more, and says so. */
struct grown {
    char *octets;
    size_t length, room;
    bool lacks_memory;
};

/* Fingerprints, one behind the other. Those that are believed are in ascending order. */
struct prints {
    uint8_t *octets;
    size_t count, room;
};

struct x509check_party {
    struct x509check_party *next; /* of all parties of the process */
    pid_t owner;                  /* the process that opened it */
    bool is_forked;               /* that process was forked, and this is the child */
    char **words;                 /* of the program; null of a socket */
    struct sockaddr_un address;   /* of the socket */
    uint32_t milliseconds;
    pthread_mutex_t lock; /* of the fields down to `believed`, which only who has the turn changes, and reads without the lock */
    pthread_cond_t changed;
    bool is_taken;
    uint64_t forgets; /* how often it was forgotten what is believed */
    struct prints believed;
    /* Who has the turn uses these. */
    int channel;   /* -1 if nobody answers; changed only under the lock of all parties */
    pid_t process; /* 0 of a socket */
    struct grown heard;
    size_t used; /* the front of what was heard that was handed out */
};

/* A call: until when it waits, and how it ended. */
struct call {
    struct x509check_party *party;
    int64_t deadline;
    struct x509check_party_outcome *outcome;
};

enum form { GREETING, BELIEVE, FORGET, DELIVER, CHECK, FIND };

/* Values of a request that stand in one word, and what the caller knows them by. */
struct operand {
    const char *title;
    const struct x509check_text *texts;
    size_t count;
    char *word;
    char *file; /* that the word names, in a folder of its own; null if the octets stand in the word */
};

/* What is asked, and what was answered. The operands of a search are the anchors, the others if there are any, and the target. */
struct request {
    enum form form;
    struct operand *operands;
    size_t operand_count;
    struct grown line;
    uint64_t counts[3];
    uint32_t verdict, reason;
    size_t certificate;
    size_t places[X509CHECK_PATH_ROOM]; /* of the certificates of a path, each in its operand */
    size_t place_count;
};

#include "party_channel.h"
#include "party_lines.h"

/* ---- fingerprints */

static bool make_room(struct prints *prints, size_t more)
{
    size_t wanted = prints->count + more, room = wanted < 2 * prints->room ? 2 * prints->room : wanted;
    uint8_t *octets;

    if (wanted <= prints->room)
        return true;
    octets = room > SIZE_MAX / PRINT ? NULL : realloc(prints->octets, room * PRINT);
    if (octets != NULL) {
        prints->octets = octets;
        prints->room = room;
    }
    return octets != NULL;
}

/* Where the fingerprint stands among ascending ones, or would stand. */
static size_t place_of(const struct prints *prints, const uint8_t *print)
{
    size_t from = 0, to = prints->count;

    while (from < to) {
        size_t middle = from + (to - from) / 2;

        if (memcmp(prints->octets + middle * PRINT, print, PRINT) < 0)
            from = middle + 1;
        else
            to = middle;
    }
    return from;
}

static bool has(const struct prints *prints, const uint8_t *print)
{
    size_t place = place_of(prints, print);

    return place < prints->count && memcmp(prints->octets + place * PRINT, print, PRINT) == 0;
}

/* Adds a fingerprint to ascending ones, which have room for it. */
static void insert(struct prints *prints, const uint8_t *print)
{
    uint8_t *place = prints->octets + place_of(prints, print) * PRINT;
    uint8_t *end = prints->octets + prints->count * PRINT;

    memmove(place + PRINT, place, (size_t)(end - place));
    memcpy(place, print, PRINT);
    prints->count++;
}

/* ---- asking */

/* Takes the turn, or says that others had it all the time. */
static bool take_turn(struct call *call)
{
    struct x509check_party *party = call->party;
    struct timespec until = time_of(call->deadline);
    bool is_ours;
    int error = 0;

    pthread_mutex_lock(&party->lock);
    while (party->is_taken && error == 0)
        error = pthread_cond_timedwait(&party->changed, &party->lock, &until);
    is_ours = !party->is_taken;
    party->is_taken = true;
    pthread_mutex_unlock(&party->lock);
    return is_ours || fail(call, X509CHECK_PARTY_TIMED_OUT, "others were answered for %" PRIu32 " ms", party->milliseconds);
}

static void leave_turn(struct x509check_party *party)
{
    pthread_mutex_lock(&party->lock);
    party->is_taken = false;
    pthread_cond_signal(&party->changed);
    pthread_mutex_unlock(&party->lock);
}

/* Tells whoever answers that signatures with these fingerprints are good. */
static bool tell(struct call *call, const struct prints *good)
{
    struct request believing = {.form = BELIEVE};
    bool is_told = true;

    for (size_t from = 0; is_told && from < good->count; from += BATCH) {
        size_t count = good->count - from < BATCH ? good->count - from : BATCH;

        believing.line.length = 0;
        for (size_t i = from; i < from + count; i++) {
            add(&believing.line, "believe ");
            add_hex(&believing.line, good->octets + i * PRINT, PRINT);
            add(&believing.line, "\n");
        }
        is_told = !believing.line.lacks_memory || fail(call, X509CHECK_PARTY_NO_MEMORY, "no memory");
        is_told = is_told && send_all(call, believing.line.octets, believing.line.length);
        for (size_t i = 0; is_told && i < count; i++)
            is_told = hear(call, &believing);
    }
    free(believing.line.octets);
    return is_told || cut(call); /* (of others of the batch there may be answers still) */
}

/* Starts whoever answers if there is nobody, and tells what is believed. */
static bool is_ready(struct call *call)
{
    struct x509check_party *party = call->party;
    char octet, how[64];
    ssize_t count = party->channel < 0 ? 0 : recv(party->channel, &octet, 1, MSG_PEEK);

    if (count < 0 && (errno == EAGAIN || errno == EWOULDBLOCK))
        return true;
    if (count > 0) {
        fail(call, X509CHECK_PARTY_GARBLED, "a line that nobody asked for");
        return cut(call);
    }
    end(party, ENDING, how, sizeof how);
    return (party->words != NULL ? start_process(call) : start_connection(call)) && tell(call, &party->believed);
}

/* Believes what is good and was not believed before. */
static bool believe_all(struct call *call, const struct prints *good)
{
    struct x509check_party *party = call->party;
    struct prints fresh = {0};
    bool is_told, has_room = make_room(&fresh, good->count);

    for (size_t i = 0; has_room && i < good->count; i++)
        if (!has(&party->believed, good->octets + i * PRINT))
            memcpy(fresh.octets + fresh.count++ * PRINT, good->octets + i * PRINT, PRINT);
    pthread_mutex_lock(&party->lock);
    has_room = has_room && make_room(&party->believed, fresh.count);
    pthread_mutex_unlock(&party->lock);
    is_told = has_room ? tell(call, &fresh) : fail(call, X509CHECK_PARTY_NO_MEMORY, "no memory");
    pthread_mutex_lock(&party->lock);
    for (size_t i = 0; is_told && i < fresh.count; i++)
        insert(&party->believed, fresh.octets + i * PRINT);
    pthread_mutex_unlock(&party->lock);
    free(fresh.octets);
    return is_told;
}

/* Sends the request, if it has a line, to whoever answers, and reads the answer, behind which nothing may stand. */
static bool ask_once(struct call *call, struct request *request, const struct prints *good)
{
    struct x509check_party *party = call->party;

    if (!is_ready(call) || !believe_all(call, good))
        return false;
    if (request->line.length > 0 && !(send_all(call, request->line.octets, request->line.length) && hear(call, request)))
        return false;
    if (party->used == party->heard.length)
        return true;
    fail(call, X509CHECK_PARTY_GARBLED, "more than an answer");
    return cut(call);
}

/* Asks while it is this call's turn, if need be a second process. */
static bool ask(struct call *call, struct request *request, const struct prints *good)
{
    int most = request->form == GREETING ? 1 : PROCESSES;

    for (int ended = 0; ended < most; ended++) {
        if (ask_once(call, request, good)) {
            *call->outcome = (struct x509check_party_outcome){.status = X509CHECK_PARTY_DONE};
            return true;
        }
        if (call->outcome->status != X509CHECK_PARTY_DIED)
            return false;
    }
    return false;
}

/* ---- judging */

/* What a call is about, and who judges its signatures: a query or a search, and of a delivery a statement. */
struct inquiry {
    const struct x509check_query *query;   /* null of a search */
    const struct x509check_search *search; /* null of a query */
    const struct x509check_text *statement;
    x509check_party_judge *judge;
    void *context;
    struct x509check_signature_question *questions;
    size_t count;
};

/* Writes what is refused, as the caller knows it. Certificates are counted from 1, and only the anchor of a path is 0. */
static void name_refused(const struct inquiry *inquiry, const struct x509check_refusal *refusal, char *name, size_t room)
{
    size_t index = refusal->index, anchors = inquiry->search == NULL ? 0 : inquiry->search->anchor_count;

    if (refusal->text == X509CHECK_STATEMENTS)
        snprintf(name, room, "statement");
    else if (inquiry->statement != NULL)
        snprintf(name, room, "issuer");
    else if (inquiry->query != NULL && index == 0)
        snprintf(name, room, "anchor");
    else if (inquiry->query != NULL)
        snprintf(name, room, "certificate %zu", index);
    else if (index == anchors)
        snprintf(name, room, "target");
    else
        snprintf(name, room, "%s %zu", index < anchors ? "anchor" : "other", index < anchors ? index + 1 : index - anchors);
}

static bool unreadable(struct call *call, const struct inquiry *inquiry, const struct x509check_refusal *refusal)
{
    char name[X509CHECK_NAME_ROOM] = "", title[40];

    if (refusal->text == 0)
        return fail(call, X509CHECK_PARTY_NO_MEMORY, "no memory");
    x509check_fault_name(refusal->fault, name, sizeof name);
    name_refused(inquiry, refusal, title, sizeof title);
    fail(call, X509CHECK_PARTY_UNREADABLE, "%s: %" PRIu32 " %s at %zu", title, refusal->fault, name, refusal->offset);
    call->outcome->refusal = *refusal;
    return false;
}

static struct x509check_asked list_questions(const struct inquiry *inquiry, size_t room)
{
    if (inquiry->query == NULL)
        return x509check_find_questions(inquiry->search, NULL, 0, inquiry->questions, room);
    return x509check_questions(inquiry->query, inquiry->statement, inquiry->statement != NULL, inquiry->questions, room);
}

static int by_fingerprint(const void *one, const void *other)
{
    const struct x509check_signature_question *first = one, *second = other;

    return memcmp(first->fingerprint, second->fingerprint, PRINT);
}

/* One question may be there twice: of equal ones the first is kept. */
static void keep_different(struct inquiry *inquiry)
{
    size_t kept = 0;

    if (inquiry->count > 0)
        qsort(inquiry->questions, inquiry->count, sizeof *inquiry->questions, by_fingerprint);
    for (size_t i = 0; i < inquiry->count; i++)
        if (i == 0 || by_fingerprint(&inquiry->questions[i], &inquiry->questions[kept - 1]) != 0)
            inquiry->questions[kept++] = inquiry->questions[i];
    inquiry->count = kept;
}

/* Reads the certificates and the statement, and lists the questions about them if somebody judges. Nothing is passed over that cannot be
 * read: a text of two certificates would count as two, and the program would number those behind it otherwise. */
static bool read_texts(struct call *call, struct inquiry *inquiry)
{
    struct x509check_asked asked;

    for (size_t room = inquiry->judge == NULL ? 0 : FIRST_QUESTIONS;; room = asked.count) {
        struct x509check_signature_question *questions = room == 0 ? NULL : realloc(inquiry->questions, room * sizeof *questions);

        if (room > 0 && questions == NULL)
            return fail(call, X509CHECK_PARTY_NO_MEMORY, "no memory");
        inquiry->questions = questions;
        asked = list_questions(inquiry, room);
        if (asked.refusal.fault != 0)
            return unreadable(call, inquiry, &asked.refusal);
        if (inquiry->judge == NULL || asked.count <= room)
            break;
    }
    inquiry->count = inquiry->judge == NULL ? 0 : asked.count;
    keep_different(inquiry);
    return true;
}

/* The octets at a place. The certificates are numbered as x509check.h says (X509CHECK_CERTIFICATES). */
static struct x509check_text text_at(const struct inquiry *inquiry, const struct x509check_place *place)
{
    const struct x509check_search *search = inquiry->search;
    const struct x509check_text *text = inquiry->statement;

    if (place->text == X509CHECK_CERTIFICATES && inquiry->query != NULL)
        text = place->index == 0 ? &inquiry->query->anchor : &inquiry->query->path[place->index - 1];
    else if (place->text == X509CHECK_CERTIFICATES)
        text = place->index < search->anchor_count    ? &search->anchors[place->index]
               : place->index == search->anchor_count ? &search->target
                                                      : &search->bag[place->index - search->anchor_count - 1];
    return (struct x509check_text){text->octets + place->offset, place->length};
}

/* 1 if it is good; a negative number if nobody can tell. */
static int judge(const struct inquiry *inquiry, const struct x509check_signature_question *question)
{
    const struct x509check_party_question asked = {
        .algorithm = text_at(inquiry, &question->algorithm),
        .key_info = text_at(inquiry, &question->key_info),
        .message = text_at(inquiry, &question->message),
        .signature = text_at(inquiry, &question->signature),
        .fingerprint = question->fingerprint,
    };

    return inquiry->judge(&asked, inquiry->context);
}

static bool believes(struct x509check_party *party, const uint8_t *print)
{
    bool is_believed;

    pthread_mutex_lock(&party->lock);
    is_believed = has(&party->believed, print);
    pthread_mutex_unlock(&party->lock);
    return is_believed;
}

/* The fingerprints of what is good; of what is believed the judge is not asked. There is room for all. */
static bool judge_all(struct call *call, const struct inquiry *inquiry, struct prints *good)
{
    good->count = 0;
    for (size_t i = 0; i < inquiry->count; i++) {
        const struct x509check_signature_question *question = &inquiry->questions[i];
        bool is_asked = inquiry->statement == NULL || question->message.text == X509CHECK_STATEMENTS;
        int said = !is_asked ? 0 : believes(call->party, question->fingerprint) ? 1 : judge(inquiry, question);

        if (said < 0)
            return fail(call, X509CHECK_PARTY_NOT_JUDGED, "the judge could not tell whether a signature is good");
        if (said == 1)
            insert(good, question->fingerprint);
    }
    return true;
}

static uint64_t forgets_of(struct x509check_party *party)
{
    uint64_t forgets;

    pthread_mutex_lock(&party->lock);
    forgets = party->forgets;
    pthread_mutex_unlock(&party->lock);
    return forgets;
}

/* Judges and asks. Whoever makes the party forget meanwhile wants to have it judged anew. */
static bool judge_and_ask(struct call *call, const struct inquiry *inquiry, struct request *request)
{
    struct x509check_party *party = call->party;
    struct prints good = {0};
    bool is_current = false, is_answered = false;

    if (!make_room(&good, inquiry->count))
        return fail(call, X509CHECK_PARTY_NO_MEMORY, "no memory");
    while (!is_current) {
        uint64_t forgets = forgets_of(party);

        if (!judge_all(call, inquiry, &good))
            break;
        call->deadline = now() + party->milliseconds;
        if (!take_turn(call))
            break;
        is_current = forgets == forgets_of(party) || good.count == 0;
        is_answered = is_current && ask(call, request, &good);
        leave_turn(party);
    }
    free(good.octets);
    return is_answered;
}

/* ---- the calls */

static void release_memory(struct x509check_party *party)
{
    for (char **word = party->words; word != NULL && *word != NULL; word++)
        free(*word);
    free(party->words);
    free(party->believed.octets);
    free(party->heard.octets);
    free(party);
}

static void release(struct x509check_party *party)
{
    unlist_party(party);
    pthread_cond_destroy(&party->changed);
    pthread_mutex_destroy(&party->lock);
    release_memory(party);
}

static struct x509check_party *create(uint32_t milliseconds)
{
    struct x509check_party *party = calloc(1, sizeof *party);
    pthread_condattr_t attributes;
    bool is_made;

    if (party == NULL || pthread_condattr_init(&attributes) != 0) {
        free(party);
        return NULL;
    }
    party->channel = -1;
    party->owner = getpid();
    party->milliseconds = milliseconds == 0 ? LIMIT : milliseconds;
    is_made = pthread_condattr_setclock(&attributes, CLOCK_MONOTONIC) == 0 && pthread_cond_init(&party->changed, &attributes) == 0 &&
              pthread_mutex_init(&party->lock, NULL) == 0;
    pthread_condattr_destroy(&attributes);
    if (is_made && list_party(party))
        return party;
    free(party);
    return NULL;
}

/* The words of the program, copied: those in front, and then `session --store STORE`. */
static char **words_of(const char *const front[], const char *store)
{
    const char *const behind[] = {"session", "--store", store, NULL};
    size_t count = 0, length = 0;
    char **words;
    bool is_whole = true;

    while (front[count] != NULL)
        count++;
    words = calloc(count + sizeof behind / sizeof *behind, sizeof *words);
    for (; words != NULL && is_whole && length < count + 3; length++)
        is_whole = (words[length] = strdup(length < count ? front[length] : behind[length - count])) != NULL;
    while (words != NULL && !is_whole && length > 0)
        free(words[--length]);
    if (is_whole)
        return words;
    free(words);
    return NULL;
}

/* Hands the party out if somebody answers, and else frees it. */
static void greet(struct call *call, struct x509check_party **party)
{
    struct request greeting = {.form = GREETING};
    struct prints none = {0};

    add(&greeting.line, "greeting");
    call->deadline = now() + call->party->milliseconds;
    if (end_line(call, &greeting) && ask(call, &greeting, &none))
        *party = call->party;
    else
        x509check_party_close(call->party);
    if (call->outcome->status == X509CHECK_PARTY_DIED)
        call->outcome->status = X509CHECK_PARTY_CANNOT_START;
    discard(&greeting);
}

struct x509check_party_outcome x509check_party_open(struct x509check_party **party, const char *const words[], const char *store,
                                                    uint32_t milliseconds)
{
    struct x509check_party_outcome outcome = {0};
    struct call call = {.outcome = &outcome};

    *party = NULL;
    if (words[0] == NULL || milliseconds > INT32_MAX)
        fail(&call, X509CHECK_PARTY_BAD_REQUEST, "%s", words[0] == NULL ? "there is no program" : "the limit is too long");
    else if ((call.party = create(milliseconds)) == NULL)
        fail(&call, X509CHECK_PARTY_NO_MEMORY, "no memory");
    else if ((call.party->words = words_of(words, store)) == NULL) {
        release(call.party);
        fail(&call, X509CHECK_PARTY_NO_MEMORY, "no memory");
    } else
        greet(&call, party);
    return outcome;
}

struct x509check_party_outcome x509check_party_connect(struct x509check_party **party, const char *socket, uint32_t milliseconds)
{
    struct x509check_party_outcome outcome = {0};
    struct call call = {.outcome = &outcome};

    *party = NULL;
    if (strlen(socket) >= sizeof call.party->address.sun_path)
        fail(&call, X509CHECK_PARTY_BAD_REQUEST, "the name of the socket is too long");
    else if (milliseconds > INT32_MAX)
        fail(&call, X509CHECK_PARTY_BAD_REQUEST, "the limit is too long");
    else if ((call.party = create(milliseconds)) == NULL)
        fail(&call, X509CHECK_PARTY_NO_MEMORY, "no memory");
    else {
        call.party->address.sun_family = AF_UNIX;
        strcpy(call.party->address.sun_path, socket);
        greet(&call, party);
    }
    return outcome;
}

void x509check_party_close(struct x509check_party *party)
{
    char how[64];

    if (party == NULL)
        return;
    if (is_forked(party)) {
        forsake(party);
        release_memory(party); /* (other threads may have had the locks when it was forked) */
        return;
    }
    end(party, CLOSING, how, sizeof how);
    release(party);
}

struct x509check_party_outcome x509check_party_believe(struct x509check_party *party, const uint8_t fingerprint[PRINT])
{
    struct x509check_party_outcome outcome = {0};
    struct call call = {.party = party, .deadline = now() + party->milliseconds, .outcome = &outcome};
    struct request request = {.form = BELIEVE};
    uint8_t octets[PRINT];
    const struct prints good = {.octets = octets, .count = 1};

    memcpy(octets, fingerprint, PRINT);
    if (is_own(&call) && take_turn(&call)) {
        ask(&call, &request, &good);
        leave_turn(party);
    }
    return outcome;
}

struct x509check_party_outcome x509check_party_forget(struct x509check_party *party)
{
    struct x509check_party_outcome outcome = {0};
    struct call call = {.party = party, .deadline = now() + party->milliseconds, .outcome = &outcome};
    struct request request = {.form = FORGET};
    const struct prints none = {0};

    if (!is_own(&call))
        return outcome;
    while (!take_turn(&call))
        call.deadline = now() + party->milliseconds;
    pthread_mutex_lock(&party->lock);
    party->believed.count = 0;
    party->forgets++;
    pthread_mutex_unlock(&party->lock);
    add(&request.line, "forget");
    call.deadline = now() + party->milliseconds;
    if (!end_line(&call, &request) || !ask(&call, &request, &none))
        cut(&call); /* (what it believes is in it alone) */
    leave_turn(party);
    discard(&request);
    return outcome;
}

/* A certificate of version 1 without any extension (RFC 5280, 4.1), issued by CN=x, whose signature has no octets. */
static const uint8_t any_certificate[] = {
    0x30, 76, 0x30, 66, 2, 1, 1, 0x30, 3, 6, 1, 0x2A, 0x30, 12, 0x31, 10, 0x30, 8, 6, 3, 0x55, 4, 3, 12, 1, 'x',
    0x30, 30, 0x17, 13, '7', '0', '0', '1', '0', '1', '0', '0', '0', '0', '0', '0', 'Z',
    0x17, 13, '7', '0', '0', '1', '0', '1', '0', '0', '0', '0', '0', '0', 'Z',
    0x30, 0, 0x30, 8, 0x30, 3, 6, 1, 0x2A, 3, 1, 0, 0x30, 3, 6, 1, 0x2A, 3, 1, 0};

struct x509check_party_delivery x509check_party_deliver(struct x509check_party *party, struct x509check_text issuer,
                                                        struct x509check_text statement, x509check_party_judge *judge, void *context)
{
    struct x509check_party_delivery delivery = {0};
    struct call call = {.party = party, .outcome = &delivery.outcome};
    /* (about the certificate below the issuer nothing is asked: it makes the issuer the anchor, which is read in either profile alike) */
    /* (and the wide profile reads what the stated one does alike: whether the store serves a list at a point is the program's to say) */
    const struct x509check_text below = {any_certificate, sizeof any_certificate};
    const struct x509check_query query = {.anchor = issuer, .path = &below, .path_count = 1, .wide = 1};
    struct inquiry inquiry = {.query = &query, .statement = &statement, .judge = judge, .context = context};
    struct operand operands[] = {
        {.title = "issuer", .texts = &issuer, .count = 1},
        {.title = "statement", .texts = &statement, .count = 1},
    };
    struct request request = {.form = DELIVER, .operands = operands, .operand_count = 2};

    add(&request.line, "deliver");
    if (is_own(&call) && read_texts(&call, &inquiry) && write_operands(&call, &request) && end_line(&call, &request) &&
        judge_and_ask(&call, &inquiry, &request)) {
        delivery.stored = request.counts[0];
        delivery.kept = request.counts[1];
        delivery.contradicted = request.counts[2];
        if (delivery.contradicted > 0)
            fail(&call, X509CHECK_PARTY_CONTRADICTED, "the issuer signed something else with the same number or times, which is held");
    }
    discard(&request);
    free(inquiry.questions);
    return delivery;
}

/* Whether the certificate, which has been read, is there for the purpose by its keyUsage; false if memory is refused. */
static bool look_at_usage(struct call *call, const struct x509check_text *certificate, const struct x509check_text *purpose,
                          bool *is_there)
{
    uint32_t fault;

    *is_there = x509check_key_usage_allows(*certificate, *purpose, &fault);
    return fault == 0 || fail(call, X509CHECK_PARTY_NO_MEMORY, "no memory");
}

struct x509check_party_verdict x509check_party_check(struct x509check_party *party, const struct x509check_query *query,
                                                     x509check_party_judge *judge, void *context)
{
    struct x509check_party_verdict answer = {0};
    struct call call = {.party = party, .outcome = &answer.outcome};
    struct operand operands[MOST_CERTIFICATES + 2] = {{.title = "anchor", .texts = &query->anchor, .count = 1}};
    struct x509check_query asked = *query;
    struct inquiry inquiry = {.query = &asked, .judge = judge, .context = context};
    struct request request = {.form = CHECK, .operands = operands, .operand_count = 1};
    bool is_there;

    if (asked.path_count > MOST_CERTIFICATES + 1)
        asked.path_count = MOST_CERTIFICATES + 1; /* (it is as much too long) */
    for (size_t i = 0; i < asked.path_count; i++)
        operands[request.operand_count++] = (struct operand){.title = "certificate", .texts = &asked.path[i], .count = 1};
    if (asked.path_count == 0)
        fail(&call, X509CHECK_PARTY_BAD_REQUEST, "a path has at least one certificate");
    else if (is_own(&call) && begin_line(&call, &request, "check ", asked.moment, &asked.purpose) && read_texts(&call, &inquiry) &&
             look_at_usage(&call, &asked.path[asked.path_count - 1], &asked.purpose, &is_there) && write_operands(&call, &request) &&
             end_line(&call, &request) && judge_and_ask(&call, &inquiry, &request)) {
        if (!is_there && request.verdict != X509CHECK_INVALID) {
            request.verdict = X509CHECK_INVALID;
            request.reason = X509CHECK_RANK_PURPOSE;
            request.certificate = asked.path_count;
        }
        answer.verdict = request.verdict;
        answer.reason = request.reason;
        answer.certificate = request.certificate;
    }
    discard(&request);
    free(inquiry.questions);
    return answer;
}

/* Whether the target speaks for the name, in X509CHECK_SPEAKS or X509CHECK_DOES_NOT_SPEAK; false if nobody can say. */
static bool ask_name(struct call *call, const struct x509check_text *target, const struct x509check_party_name *name, uint32_t *speaks)
{
    const struct x509check_text *identity = &name->identity;
    struct x509check_speaking said =
        x509check_speaks_for(target->octets, target->length, name->kind, identity->octets, identity->length);

    *speaks = said.speaks;
    if (said.speaks == X509CHECK_SPEAKS || said.speaks == X509CHECK_DOES_NOT_SPEAK)
        return true;
    if (said.speaks == X509CHECK_IDENTITY_REFUSED)
        return fail(call, X509CHECK_PARTY_BAD_REQUEST, "the name is none, by its rule %" PRIu32 " at %zu", said.fault, said.offset);
    return fail(call, X509CHECK_PARTY_NO_MEMORY, "no memory"); /* (the certificate was read before) */
}

/* Writes the answer to a search, whose operands have the certificates in the order of their indices, except that the target is in front of
 * the others. */
static void tell_path(const struct x509check_search *search, const struct request *request, struct x509check_party_finding *found,
                      size_t *path, size_t room)
{
    size_t last = request->place_count - 1;

    for (size_t i = 0; i < request->place_count && i < room; i++)
        path[i] = request->places[i] + (i == 0 ? 0 : i == last ? search->anchor_count : search->anchor_count + 1);
    found->path_count = request->place_count;
    found->verdict = request->verdict;
    found->reason = request->reason;
    found->certificate = request->certificate;
}

/* Reads the certificates of a search, and lists the questions; `*gives_up` if they are more than a judge is asked. They are counted by
 * names first, as each takes memory. */
static bool read_search(struct call *call, struct inquiry *inquiry, bool *gives_up)
{
    enum x509check_amount amount = x509check_amount_of_questions(inquiry->search, NULL, 0, X509CHECK_QUESTIONS_MOST);

    *gives_up = amount == X509CHECK_MANY;
    if (amount == X509CHECK_UNCOUNTED)
        return fail(call, X509CHECK_PARTY_NO_MEMORY, "no memory");
    if (*gives_up)
        return true;
    if (!read_texts(call, inquiry))
        return false;
    *gives_up = inquiry->count > X509CHECK_SIGNATURES;
    return true;
}

/* Asks the program for a path to a target whose certificates and signatures are read. */
static bool ask_search(struct call *call, const struct inquiry *inquiry, const struct x509check_party_name *name, struct request *request)
{
    const struct x509check_search *search = inquiry->search;
    uint32_t speaks = X509CHECK_SPEAKS;
    bool is_there;

    if (!look_at_usage(call, &search->target, &search->purpose, &is_there) ||
        (name != NULL && !ask_name(call, &search->target, name, &speaks)) || !write_operands(call, request) || !end_line(call, request) ||
        !judge_and_ask(call, inquiry, request))
        return false;
    if (request->place_count > 0 && !is_there) {
        request->verdict = X509CHECK_NOT_FOUND;
        request->reason = 0;
        request->certificate = request->place_count = 0;
    }
    if (request->verdict == X509CHECK_VALID && speaks != X509CHECK_SPEAKS)
        request->verdict = X509CHECK_PARTY_OTHER_NAME;
    return true;
}

struct x509check_party_finding x509check_party_find(struct x509check_party *party, const struct x509check_search *search,
                                                    const struct x509check_party_name *name, x509check_party_judge *judge,
                                                    void *context, size_t *path, size_t room)
{
    struct x509check_party_finding found = {0};
    struct call call = {.party = party, .outcome = &found.outcome};
    struct operand operands[3] = {{.title = "anchors", .texts = search->anchors, .count = search->anchor_count}};
    struct inquiry inquiry = {.search = search, .judge = judge, .context = context};
    struct request request = {.form = FIND, .operands = operands, .operand_count = 1};
    bool gives_up;

    if (search->bag_count > 0)
        operands[request.operand_count++] = (struct operand){.title = "others", .texts = search->bag, .count = search->bag_count};
    operands[request.operand_count++] = (struct operand){.title = "target", .texts = &search->target, .count = 1};
    if (search->anchor_count == 0)
        fail(&call, X509CHECK_PARTY_BAD_REQUEST, "there is no anchor");
    else if (is_own(&call) && begin_line(&call, &request, "find ", search->moment, &search->purpose) &&
             read_search(&call, &inquiry, &gives_up)) {
        if (gives_up)
            found = (struct x509check_party_finding){.outcome.status = X509CHECK_PARTY_DONE, .verdict = X509CHECK_GAVE_UP};
        else if (ask_search(&call, &inquiry, name, &request))
            tell_path(search, &request, &found, path, room);
    }
    discard(&request);
    free(inquiry.questions);
    return found;
}
