/* Makes the calls of x509check_party.h that standard input asks for, a line each, and prints how each ended (bindings/party/try):
 *
 *     try_party GOOD LIMIT open STORE PROGRAM [WORD..]
 *     try_party GOOD LIMIT connect SOCKET
 *
 * GOOD has the fingerprints of good signatures, 32 octets each. JUDGE is `good` (a judge that knows these), `none` (no judge), or the
 * number that a judge always answers. Certificates and statements are files of DER, several with commas between them; `-` stands for
 * nothing.
 *
 *     believe FINGERPRINT | forget | descriptors
 *     fork LINE (in a child, which closes the party then, by a call) | leave (a child that lives on; its number)
 *     deliver JUDGE ISSUER STATEMENT
 *     check JUDGE MOMENT PURPOSE ANCHOR PATH
 *     find JUDGE MOMENT PURPOSE KIND NAME ANCHORS OTHERS TARGET
 *     threads COUNT CHECKS VERDICT JUDGE MOMENT ANCHOR PATH     (each thread checks so often, and expects that verdict) */
#define _POSIX_C_SOURCE 200809L
#include <dirent.h>
#include <inttypes.h>
#include <pthread.h>
#include <stdio.h>
#include <stdlib.h>
#include <string.h>
#include <sys/wait.h>
#include <unistd.h>

#include "x509check_party.h"

enum { MOST_WORDS = 16, MOST_TEXTS = 2048 };

struct texts {
    struct x509check_text texts[MOST_TEXTS];
    size_t count;
};

static struct x509check_text good;

static void *must(void *answer, const char *what)
{
    if (answer == NULL) {
        perror(what);
        exit(2);
    }
    return answer;
}

static struct x509check_text text_of(const char *path)
{
    FILE *file = must(fopen(path, "rb"), path);
    long length = fseek(file, 0, SEEK_END) == 0 ? ftell(file) : -1;
    uint8_t *octets = must(length < 0 ? NULL : malloc((size_t)length + 1), path);

    rewind(file);
    if (fread(octets, 1, (size_t)length, file) != (size_t)length)
        must(NULL, path);
    fclose(file);
    return (struct x509check_text){octets, (size_t)length};
}

static struct texts texts_of(char *names)
{
    struct texts found = {.count = 0};
    char *rest = NULL;

    if (strcmp(names, "-") == 0)
        return found;
    for (char *name = strtok_r(names, ",", &rest); name != NULL; name = strtok_r(NULL, ",", &rest))
        found.texts[found.count++] = text_of(name);
    return found;
}

static void release(struct texts *texts)
{
    for (size_t i = 0; i < texts->count; i++)
        free((void *)texts->texts[i].octets);
}

/* The octets that hexadecimal digits stand for. */
static struct x509check_text octets_of(const char *digits)
{
    size_t length = strcmp(digits, "-") == 0 ? 0 : strlen(digits) / 2;
    uint8_t *octets = must(malloc(length + 1), "octets");

    for (size_t i = 0; i < length; i++)
        sscanf(digits + 2 * i, "%2" SCNx8, &octets[i]);
    return (struct x509check_text){octets, length};
}

/* Knows the good fingerprints, and sees that a question has the texts of which its fingerprint is made. */
static int judge_good(const struct x509check_party_question *question, void *context)
{
    uint8_t made[X509CHECK_FINGERPRINT_LENGTH];
    const struct x509check_text *a = &question->algorithm, *k = &question->key_info, *m = &question->message, *s = &question->signature;

    (void)context;
    x509check_fingerprint(a->octets, a->length, k->octets, k->length, m->octets, m->length, s->octets, s->length, made);
    if (memcmp(made, question->fingerprint, sizeof made) != 0) {
        fputs("a question has other texts than its fingerprint\n", stderr);
        exit(2);
    }
    for (size_t at = 0; at < good.length; at += sizeof made)
        if (memcmp(good.octets + at, made, sizeof made) == 0)
            return 1;
    return 0;
}

static int judge_always(const struct x509check_party_question *question, void *context)
{
    (void)question;
    return atoi(context);
}

static x509check_party_judge *judge_of(const char *word)
{
    return strcmp(word, "none") == 0 ? NULL : strcmp(word, "good") == 0 ? judge_good : judge_always;
}

/* How a call ended, and in front of it what it answered. */
static void print(const struct x509check_party_outcome *outcome, const char *answer)
{
    printf("%d", (int)outcome->status);
    if (outcome->status == X509CHECK_PARTY_DONE || outcome->status == X509CHECK_PARTY_CONTRADICTED)
        printf("%s", answer);
    if (outcome->status == X509CHECK_PARTY_REFUSED)
        printf(" %" PRIu32, outcome->program_status);
    if (outcome->status == X509CHECK_PARTY_UNREADABLE)
        printf(" %" PRIu32 " %zu %" PRIu32 " %zu", outcome->refusal.text, outcome->refusal.index, outcome->refusal.fault,
               outcome->refusal.offset);
    printf("%s%s\n", outcome->text[0] == '\0' ? "" : " ", outcome->text);
    fflush(stdout);
}

static void deliver(struct x509check_party *party, char **words)
{
    struct x509check_text issuer = text_of(words[2]), statement = text_of(words[3]);
    struct x509check_party_delivery said = x509check_party_deliver(party, issuer, statement, judge_of(words[1]), words[1]);
    char answer[96];

    snprintf(answer, sizeof answer, " stored %" PRIu64 " kept %" PRIu64 " contradicted %" PRIu64, said.stored, said.kept,
             said.contradicted);
    print(&said.outcome, answer);
    free((void *)issuer.octets);
    free((void *)statement.octets);
}

static void check(struct x509check_party *party, char **words)
{
    struct texts anchor = texts_of(words[4]), path = texts_of(words[5]);
    struct x509check_text purpose = octets_of(words[3]);
    struct x509check_query query = {anchor.texts[0], path.texts, path.count, strtoll(words[2], NULL, 10), purpose, 0};
    struct x509check_party_verdict said = x509check_party_check(party, &query, judge_of(words[1]), words[1]);
    char answer[96];

    snprintf(answer, sizeof answer, " %" PRIu32 " %zu %" PRIu32, said.verdict, said.certificate, said.reason);
    print(&said.outcome, answer);
    free((void *)purpose.octets);
    release(&anchor);
    release(&path);
}

static void find(struct x509check_party *party, char **words)
{
    struct texts anchors = texts_of(words[6]), others = texts_of(words[7]), target = texts_of(words[8]);
    struct x509check_text purpose = octets_of(words[3]);
    struct x509check_search search = {.anchors = anchors.texts, .anchor_count = anchors.count, .target = target.texts[0],
                                      .bag = others.texts, .bag_count = others.count, .moment = strtoll(words[2], NULL, 10),
                                      .purpose = purpose};
    struct x509check_party_name name = {(uint32_t)atoi(words[4]), {(const uint8_t *)words[5], strlen(words[5])}};
    size_t path[X509CHECK_PATH_ROOM], length;
    struct x509check_party_finding said = x509check_party_find(party, &search, name.kind == 0 ? NULL : &name, judge_of(words[1]), words[1],
                                                               path, X509CHECK_PATH_ROOM);
    char answer[4096];

    length = (size_t)snprintf(answer, sizeof answer, " %" PRIu32 " %zu %" PRIu32 " of", said.verdict, said.certificate, said.reason);
    for (size_t i = 0; i < said.path_count; i++)
        length += (size_t)snprintf(answer + length, sizeof answer - length, " %zu", path[i]);
    print(&said.outcome, answer);
    free((void *)purpose.octets);
    release(&anchors);
    release(&others);
    release(&target);
}

static void believe(struct x509check_party *party, char **words)
{
    struct x509check_text fingerprint = octets_of(words[1]);
    struct x509check_party_outcome said = x509check_party_believe(party, fingerprint.octets);

    print(&said, "");
    free((void *)fingerprint.octets);
}

/* ---- many threads */

struct work {
    struct x509check_party *party;
    struct x509check_query query;
    char *judge;
    int checks;
    uint32_t verdict; /* that is expected */
    int right, wrong, died, failed;
};

static void *check_often(void *about)
{
    struct work *work = about;

    for (int i = 0; i < work->checks; i++) {
        struct x509check_party_verdict said = x509check_party_check(work->party, &work->query, judge_of(work->judge), work->judge);

        if (said.outcome.status == X509CHECK_PARTY_DONE)
            *(said.verdict == work->verdict ? &work->right : &work->wrong) += 1;
        else
            *(said.outcome.status == X509CHECK_PARTY_DIED && said.verdict == 0 ? &work->died : &work->failed) += 1;
    }
    return NULL;
}

static void check_by_threads(struct x509check_party *party, char **words)
{
    struct texts anchor = texts_of(words[6]), path = texts_of(words[7]);
    struct work sum = {.party = party, .judge = words[4], .checks = atoi(words[2]), .verdict = (uint32_t)atoi(words[3])};
    int count = atoi(words[1]);
    struct work *works = must(calloc((size_t)count, sizeof *works), "threads");
    pthread_t *threads = must(calloc((size_t)count, sizeof *threads), "threads");

    sum.query = (struct x509check_query){anchor.texts[0], path.texts, path.count, strtoll(words[5], NULL, 10), {NULL, 0}, 0};
    for (int i = 0; i < count; i++)
        works[i] = sum;
    for (int i = 0; i < count; i++) {
        if (pthread_create(&threads[i], NULL, check_often, &works[i]) != 0)
            must(NULL, "threads");
    }
    for (int i = 0; i < count; i++) {
        pthread_join(threads[i], NULL);
        sum.right += works[i].right;
        sum.wrong += works[i].wrong;
        sum.died += works[i].died;
        sum.failed += works[i].failed;
    }
    printf("right %d wrong %d died %d failed %d\n", sum.right, sum.wrong, sum.died, sum.failed);
    fflush(stdout);
    free(works);
    free(threads);
    release(&anchor);
    release(&path);
}

static void count_descriptors(void)
{
    DIR *folder = must(opendir("/proc/self/fd"), "/proc/self/fd");
    int count = 0;

    while (readdir(folder) != NULL)
        count++;
    closedir(folder);
    printf("%d\n", count - 3); /* (two names of folders, and the folder itself) */
    fflush(stdout);
}

/* ---- children */

static void answer_line(struct x509check_party *party, char *line);

/* What a child that is forked says to the line. It closes the party. */
static void answer_in_child(struct x509check_party *party, char *line)
{
    int status;
    pid_t child;

    fflush(stdout);
    child = fork();
    if (child == 0) {
        answer_line(party, line);
        x509check_party_close(party);
        _exit(0);
    }
    if (child < 0 || waitpid(child, &status, 0) != child || status != 0)
        must(NULL, "child");
}

/* A child that does nothing, for as long as nobody ends it. */
static void leave_child(void)
{
    pid_t child = fork();

    if (child == 0) {
        close(STDOUT_FILENO);
        for (;;)
            pause();
    }
    printf("%d\n", (int)child);
    fflush(stdout);
}

/* ---- lines */

static void answer_line(struct x509check_party *party, char *line)
{
    char *words[MOST_WORDS] = {NULL}, *rest = NULL;
    size_t count = 0;

    if (strncmp(line, "fork ", 5) == 0) {
        answer_in_child(party, line + 5);
        return;
    }
    for (char *word = strtok_r(line, " \n", &rest); word != NULL && count < MOST_WORDS; word = strtok_r(NULL, " \n", &rest))
        words[count++] = word;
    if (count == 2 && strcmp(words[0], "believe") == 0) {
        believe(party, words);
    } else if (count == 1 && strcmp(words[0], "forget") == 0) {
        struct x509check_party_outcome said = x509check_party_forget(party);

        print(&said, "");
    } else if (count == 1 && strcmp(words[0], "leave") == 0) {
        leave_child();
    } else if (count == 1 && strcmp(words[0], "descriptors") == 0) {
        count_descriptors();
    } else if (count == 4 && strcmp(words[0], "deliver") == 0) {
        deliver(party, words);
    } else if (count == 6 && strcmp(words[0], "check") == 0) {
        check(party, words);
    } else if (count == 9 && strcmp(words[0], "find") == 0) {
        find(party, words);
    } else if (count == 8 && strcmp(words[0], "threads") == 0) {
        check_by_threads(party, words);
    } else {
        fprintf(stderr, "no such call: %s\n", words[0] == NULL ? "" : words[0]);
        exit(2);
    }
}

int main(int argc, char **argv)
{
    struct x509check_party *party = NULL;
    struct x509check_party_outcome opened;
    char *line = NULL;
    size_t room = 0;

    if (argc < 5)
        return 2;
    good = text_of(argv[1]);
    if (strcmp(argv[3], "open") == 0)
        opened = x509check_party_open(&party, (const char *const *)(argv + 5), argv[4], (uint32_t)atoi(argv[2]));
    else
        opened = x509check_party_connect(&party, argv[4], (uint32_t)atoi(argv[2]));
    print(&opened, "");
    while (party != NULL && getline(&line, &room, stdin) > 0)
        answer_line(party, line);
    x509check_party_close(party);
    count_descriptors();
    free(line);
    free((void *)good.octets);
    return 0;
}
