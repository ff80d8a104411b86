/* Refuses requests for memory in new processes, where libcrypto is used for the first time, by counting: no place in which memory is
 * refused makes a revoked certificate valid, or says of a good signature that it is not, neither in that call nor in the next one of the
 * process.
 *
 *     try_fresh [STEP]
 *
 * Each STEP-th place is tried (1), alone and with all behind it, in the folder that ../try makes: of searches by lists that are good and a
 * statement that is not, as a response of a delegate with an RSA key that revokes, and of judgements. OpenSSL 3.0 may crash itself: that
 * is counted. The status is 1 if something else is said. */
#define _GNU_SOURCE /* MAP_ANONYMOUS */
#include <sys/mman.h>
#include <sys/wait.h>
#include <time.h>
#include <unistd.h>

#include "kinds.h"
#include "refuse.h"
#include "testdata.h"

/* How a call ends: it says what is right, or nothing, or something else; or it did not ask so often for memory. */
enum end { RIGHT, NOTHING, WRONG, NEVER };

typedef enum end attempt(size_t number);

static struct x509check_text root, middle, leaf, lists[2], others[3];
static struct made *made; /* one of each kind, shared with the process that makes them */

static enum end end_of(enum x509check_openssl_status status, bool is_right)
{
    if (status == X509CHECK_OPENSSL_DONE)
        return is_right ? RIGHT : WRONG;
    return status == X509CHECK_OPENSSL_NO_MEMORY || status == X509CHECK_OPENSSL_FAILED ? NOTHING : WRONG;
}

/* What is right of the leaf by the lists of both authorities and another statement. */
static const struct {
    const char *name, *statement;
    enum x509check_openssl_status status;
    uint32_t verdict;
} searches[] = {
    {"revoked", "by_delegate.ocsp", X509CHECK_OPENSSL_DONE, X509CHECK_REVOKED},
    {"contradicted", "revoking_list.crl", X509CHECK_OPENSSL_CONTRADICTED, X509CHECK_NOT_FILLED},
    {"not judged", "weak_list.crl", X509CHECK_OPENSSL_UNJUDGED, X509CHECK_NOT_FILLED},
};

#define SEARCHES (sizeof searches / sizeof *searches)

static enum end find(size_t number)
{
    struct x509check_text statements[] = {lists[0], lists[1], others[number]};
    struct x509check_search search = {.anchors = &root,
                                      .anchor_count = 1,
                                      .target = leaf,
                                      .bag = &middle,
                                      .bag_count = 1,
                                      .moment = (int64_t)time(NULL),
                                      .limits = {X509CHECK_SIGNATURES, X509CHECK_STEPS, X509CHECK_VERDICTS}};
    struct x509check_finding found;
    enum x509check_openssl_status status = x509check_openssl_find(&search, statements, 3, NULL, &found, NULL, 0);

    if (status == searches[number].status)
        return found.verdict.verdict == searches[number].verdict ? RIGHT : WRONG;
    return end_of(status, false);
}

static enum end judge_good(size_t kind)
{
    struct x509check_openssl_signature question = question_about(kind, &made[kind]);
    enum x509check_openssl_judgement judgement = (enum x509check_openssl_judgement)0;
    enum x509check_openssl_status status = x509check_openssl_judge(&question, NULL, &judgement);

    return end_of(status, judgement == X509CHECK_OPENSSL_GOOD);
}

/* In a process of its own: what is said with a refused request, and afterwards. */
static int try_once(attempt *tried, size_t number, long at)
{
    enum end end;

    refused = at;
    end = tried(number);
    refused = 0;
    if (asked < at)
        return end == RIGHT ? NEVER : WRONG;
    return tried(number) == WRONG ? WRONG : end;
}

struct tally {
    long places, said, crashed;
    bool is_sound, is_over;
};

static void note(struct tally *tally, const char *name, long at, int status)
{
    int end = WIFEXITED(status) ? WEXITSTATUS(status) : -1;

    tally->is_over = end == NEVER;
    tally->places += !tally->is_over;
    tally->said += end == RIGHT;
    tally->crashed += end == -1;
    if (end != -1 && end != RIGHT && end != NOTHING && end != NEVER) {
        tally->is_sound = false;
        printf("%s: something else at request %ld%s\n", name, at, in_a_row == ALL ? " and all behind it" : "");
    }
}

static bool refuse_each(attempt *tried, size_t number, const char *name, long step)
{
    struct tally tally = {.is_sound = true};

    for (long at = 1; !tally.is_over; at += step) {
        pid_t child = fork();
        int status;

        if (child < 0)
            exit(1);
        if (child == 0)
            _exit(try_once(tried, number, at));
        if (waitpid(child, &status, 0) != child)
            exit(1);
        note(&tally, name, at, status);
    }
    printf("%s%s: %ld places, said %ld, OpenSSL crashed %ld\n", name, in_a_row == ALL ? ", then all" : "", tally.places, tally.said,
           tally.crashed);
    fflush(stdout);
    return tally.is_sound;
}

static bool refuse_in_turn(attempt *tried, size_t number, const char *name, long step)
{
    bool is_sound;

    in_a_row = 1;
    is_sound = refuse_each(tried, number, name, step);
    in_a_row = ALL;
    return refuse_each(tried, number, name, step) && is_sound;
}

/* (this process uses nothing of libcrypto) */
static void make_signatures(void)
{
    pid_t child;
    int status;

    made = mmap(NULL, KINDS * sizeof *made, PROT_READ | PROT_WRITE, MAP_SHARED | MAP_ANONYMOUS, -1, 0);
    if (made == MAP_FAILED || (child = fork()) < 0)
        exit(1);
    if (child == 0) {
        for (size_t i = 0; i < KINDS; i++)
            make_signature(i, &made[i]);
        _exit(0);
    }
    if (waitpid(child, &status, 0) != child || status != 0)
        exit(1);
}

int main(int argc, char **argv)
{
    long step = argc > 1 ? atol(argv[1]) : 1;
    bool is_sound = true;

    root = text_of("root.der"), middle = text_of("middle.der"), leaf = text_of("leaf.der");
    lists[0] = text_of("root_list.crl"), lists[1] = text_of("middle_list.crl");
    for (size_t i = 0; i < SEARCHES; i++)
        others[i] = text_of(searches[i].statement);
    make_signatures();
    for (size_t i = 0; i < SEARCHES; i++)
        is_sound = refuse_in_turn(find, i, searches[i].name, step) && is_sound;
    for (size_t i = 0; i < KINDS; i++)
        is_sound = refuse_in_turn(judge_good, i, kinds[i].name, step) && is_sound;
    return is_sound ? 0 : 1;
}
