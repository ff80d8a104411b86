/* Whoever answers lines: a process, or a connection to a socket. A part of x509check_party.c, which alone includes it, so that no name
 * but those of the calls is seen by a program. */
/* ---- how a call ends */

static void fill(struct x509check_party_outcome *outcome, enum x509check_party_status status, const char *format, va_list words)
{
    *outcome = (struct x509check_party_outcome){.status = status};
    vsnprintf(outcome->text, sizeof outcome->text, format, words);
    for (char *octet = outcome->text; *octet != '\0'; octet++)
        *octet = *octet < ' ' || *octet > '~' ? '?' : *octet;
}

/* Says how the call ends, and answers false. */
static bool fail(struct call *call, enum x509check_party_status status, const char *format, ...)
{
    va_list words;

    va_start(words, format);
    fill(call->outcome, status, format, words);
    va_end(words);
    return false;
}

static bool fail_by_system(struct call *call, enum x509check_party_status status, const char *what, int error)
{
    char said[96] = "";

    (void)strerror_r(error, said, sizeof said);
    return fail(call, status, "%s: %s", what, said);
}

static int64_t now(void)
{
    struct timespec time;

    clock_gettime(CLOCK_MONOTONIC, &time);
    return (int64_t)time.tv_sec * 1000 + time.tv_nsec / 1000000;
}

static struct timespec time_of(int64_t milliseconds)
{
    return (struct timespec){.tv_sec = (time_t)(milliseconds / 1000), .tv_nsec = (long)(milliseconds % 1000) * 1000000};
}

static void rest(void)
{
    struct timespec time = time_of(2);

    nanosleep(&time, NULL);
}

/* ---- texts */

/* Makes room for so many more octets and a zero behind them; false if memory is refused. */
static bool grow(struct grown *text, size_t more)
{
    size_t wanted = text->length + more + 1, room = wanted < 2 * text->room ? 2 * text->room : wanted;
    char *octets;

    if (text->lacks_memory || wanted <= text->room)
        return !text->lacks_memory;
    octets = realloc(text->octets, room);
    text->lacks_memory = octets == NULL;
    if (octets != NULL) {
        text->octets = octets;
        text->room = room;
    }
    return octets != NULL;
}

static void add(struct grown *text, const char *word)
{
    size_t length = strlen(word);

    if (grow(text, length)) {
        memcpy(text->octets + text->length, word, length + 1);
        text->length += length;
    }
}

static void add_hex(struct grown *text, const uint8_t *octets, size_t length)
{
    static const char digits[] = "0123456789abcdef";

    if (!grow(text, 2 * length))
        return;
    for (size_t i = 0; i < length; i++) {
        text->octets[text->length++] = digits[octets[i] >> 4];
        text->octets[text->length++] = digits[octets[i] & 15];
    }
    text->octets[text->length] = '\0';
}

/* ---- processes that are forked */

/* All parties of the process. The lock is theirs and that of their channels, which are made and closed under it: at a fork no channel is
 * on the way, so that the child can close them all. With a channel it would keep whoever answers alive. */
static pthread_mutex_t parties_lock = PTHREAD_MUTEX_INITIALIZER;
static struct x509check_party *parties;
static pthread_once_t handlers_once = PTHREAD_ONCE_INIT;
static bool has_handlers;

static void before_fork(void)
{
    pthread_mutex_lock(&parties_lock);
}

static void after_fork(void)
{
    pthread_mutex_unlock(&parties_lock);
}

/* Gives up a channel in a child, where it is the parent's: nothing is told to the other end. */
static void forsake(struct x509check_party *party)
{
    if (party->channel >= 0)
        close(party->channel);
    party->channel = -1;
}

static void after_fork_in_child(void)
{
    for (struct x509check_party *party = parties; party != NULL; party = party->next) {
        forsake(party);
        party->is_forked = true;
    }
    parties = NULL;
    after_fork();
}

static void set_handlers(void)
{
    has_handlers = pthread_atfork(before_fork, after_fork, after_fork_in_child) == 0;
}

/* Lists a party with the others; false if memory is refused. */
static bool list_party(struct x509check_party *party)
{
    if (pthread_once(&handlers_once, set_handlers) != 0 || !has_handlers)
        return false;
    pthread_mutex_lock(&parties_lock);
    party->next = parties;
    parties = party;
    pthread_mutex_unlock(&parties_lock);
    return true;
}

static void unlist_party(const struct x509check_party *party)
{
    struct x509check_party **at = &parties;

    pthread_mutex_lock(&parties_lock);
    while (*at != party)
        at = &(*at)->next;
    *at = party->next;
    pthread_mutex_unlock(&parties_lock);
}

/* (of a child that was made without the handlers its number tells) */
static bool is_forked(const struct x509check_party *party)
{
    return party->is_forked || party->owner != getpid();
}

static bool is_own(struct call *call)
{
    return !is_forked(call->party) || fail(call, X509CHECK_PARTY_FORKED, "the party was opened before this process was forked");
}

/* ---- whoever answers */

/* Starts the process, whose input and output are the socket. The answer is 0 or an error of the system. */
static int spawn(char *const words[], int socket, pid_t *process)
{
    posix_spawn_file_actions_t actions;
    posix_spawnattr_t attributes;
    sigset_t blocked, reset;
    int error;

    sigemptyset(&blocked);
    sigemptyset(&reset);
    sigaddset(&reset, SIGPIPE);
    if ((error = posix_spawn_file_actions_init(&actions)) != 0)
        return error;
    if ((error = posix_spawnattr_init(&attributes)) == 0) {
        if ((error = posix_spawn_file_actions_adddup2(&actions, socket, STDIN_FILENO)) == 0 &&
            (error = posix_spawn_file_actions_adddup2(&actions, socket, STDOUT_FILENO)) == 0 &&
            (error = posix_spawnattr_setsigmask(&attributes, &blocked)) == 0 &&
            (error = posix_spawnattr_setsigdefault(&attributes, &reset)) == 0 &&
            (error = posix_spawnattr_setflags(&attributes, POSIX_SPAWN_SETSIGMASK | POSIX_SPAWN_SETSIGDEF)) == 0)
            error = posix_spawnp(process, words[0], &actions, &attributes, words, environ);
        posix_spawnattr_destroy(&attributes);
    }
    posix_spawn_file_actions_destroy(&actions);
    return error;
}

/* Makes the channel and the process at its other end. The answer is 0 or an error of the system, at `*where`. */
static int open_channel_to_process(struct x509check_party *party, const char **where)
{
    int ends[2], error;

    *where = "socketpair";
    if (socketpair(AF_UNIX, SOCK_STREAM | SOCK_CLOEXEC, 0, ends) != 0)
        return errno;
    *where = party->words[0];
    error = fcntl(ends[0], F_SETFL, O_NONBLOCK) == 0 ? spawn(party->words, ends[1], &party->process) : errno;
    close(ends[1]);
    if (error == 0) {
        party->channel = ends[0];
        return 0;
    }
    close(ends[0]);
    party->process = 0; /* (it may have been written to) */
    return error;
}

static bool start_process(struct call *call)
{
    const char *where;
    int error;

    pthread_mutex_lock(&parties_lock);
    error = open_channel_to_process(call->party, &where);
    pthread_mutex_unlock(&parties_lock);
    return error == 0 || fail_by_system(call, X509CHECK_PARTY_CANNOT_START, where, error);
}

/* Closes the channel. Whoever answers sees that also if a child has it still. */
static void close_channel(struct x509check_party *party)
{
    pthread_mutex_lock(&parties_lock);
    if (party->channel >= 0) {
        shutdown(party->channel, SHUT_RDWR);
        close(party->channel);
    }
    party->channel = -1;
    pthread_mutex_unlock(&parties_lock);
}

static bool start_connection(struct call *call)
{
    struct x509check_party *party = call->party;
    const struct sockaddr *address = (const struct sockaddr *)&party->address;
    int error;

    pthread_mutex_lock(&parties_lock);
    party->channel = socket(AF_UNIX, SOCK_STREAM | SOCK_CLOEXEC | SOCK_NONBLOCK, 0);
    error = errno;
    pthread_mutex_unlock(&parties_lock);
    if (party->channel < 0)
        return fail_by_system(call, X509CHECK_PARTY_CANNOT_START, "socket", error);
    /* (whoever listens has a row of those who wait; as long as it is full, there is nothing to poll for) */
    while ((error = connect(party->channel, address, sizeof party->address) == 0 ? 0 : errno) != 0) {
        if ((error != EAGAIN && error != EINTR) || now() >= call->deadline)
            break;
        rest();
    }
    if (error == 0)
        return true;
    close_channel(party);
    if (error == EAGAIN || error == EINTR)
        return fail(call, X509CHECK_PARTY_TIMED_OUT, "no connection within %" PRIu32 " ms", party->milliseconds);
    return fail_by_system(call, X509CHECK_PARTY_CANNOT_START, party->address.sun_path, error);
}

/* Waits until that moment for the end of a process, then kills it, and says how it ended. */
static void reap(pid_t process, int64_t until, char *how, size_t room)
{
    int status = 0;
    pid_t gone;

    while ((gone = waitpid(process, &status, WNOHANG)) == 0 && now() < until)
        rest();
    if (gone == 0) {
        kill(process, SIGKILL);
        do
            gone = waitpid(process, &status, 0);
        while (gone < 0 && errno == EINTR);
    }
    if (gone < 0)
        snprintf(how, room, "somebody else waited for the process");
    else if (WIFSIGNALED(status))
        snprintf(how, room, "killed by signal %d", WTERMSIG(status));
    else
        snprintf(how, room, "ended with status %d", WEXITSTATUS(status));
}

/* Ends whoever answers, and says how: a process may end by itself for so many milliseconds. */
static void end(struct x509check_party *party, int64_t milliseconds, char *how, size_t room)
{
    snprintf(how, room, "the connection was closed");
    close_channel(party);
    if (party->process != 0)
        reap(party->process, now() + milliseconds, how, room);
    party->process = 0;
    party->heard.length = party->used = 0;
}

/* Whoever answers has ended by itself. */
static bool died(struct call *call)
{
    char how[64];

    end(call->party, ENDING, how, sizeof how);
    return fail(call, X509CHECK_PARTY_DIED, "%s", how);
}

/* Ends whoever answers, as what comes next would be read as an answer to another request. The outcome says why already. */
static bool cut(struct call *call)
{
    char how[64];

    end(call->party, 0, how, sizeof how);
    return false;
}

static bool garbled(struct call *call, const char *line)
{
    fail(call, X509CHECK_PARTY_GARBLED, "no answer to the request: \"%.*s\"", SHOWN, line);
    return cut(call);
}

static bool wait_for(struct call *call, short events)
{
    struct pollfd one = {.fd = call->party->channel, .events = events};
    int64_t left = call->deadline - now();

    if (left > 0 && (poll(&one, 1, left > INT_MAX ? INT_MAX : (int)left) >= 0 || errno == EINTR))
        return true; /* (that the time is over shows when it is asked for again) */
    if (left > 0)
        fail_by_system(call, X509CHECK_PARTY_NO_MEMORY, "poll", errno);
    else
        fail(call, X509CHECK_PARTY_TIMED_OUT, "no answer within %" PRIu32 " ms", call->party->milliseconds);
    return cut(call);
}

static bool send_all(struct call *call, const char *octets, size_t length)
{
    while (length > 0) {
        ssize_t sent = send(call->party->channel, octets, length, MSG_NOSIGNAL);

        if (sent >= 0) {
            octets += sent;
            length -= (size_t)sent;
        } else if (errno == EAGAIN || errno == EWOULDBLOCK) {
            if (!wait_for(call, POLLOUT))
                return false;
        } else if (errno != EINTR) {
            return died(call);
        }
    }
    return true;
}

/* Reads what has come, or waits for it. */
static bool hear_more(struct call *call)
{
    enum { PIECE = 1 << 14 };
    struct grown *heard = &call->party->heard;

    if (!grow(heard, PIECE)) {
        heard->lacks_memory = false;
        fail(call, X509CHECK_PARTY_NO_MEMORY, "no memory");
        return cut(call);
    }
    for (;;) {
        ssize_t count = recv(call->party->channel, heard->octets + heard->length, PIECE, 0);

        if (count > 0) {
            heard->length += (size_t)count;
            return true;
        }
        if (count == 0 || (errno != EAGAIN && errno != EWOULDBLOCK && errno != EINTR))
            return died(call);
        if (!wait_for(call, POLLIN))
            return false;
    }
}

/* The end of the first line of what was heard, from that octet on; null if it has not come yet. */
static char *line_end(const struct grown *heard, size_t from)
{
    return from == heard->length ? NULL : memchr(heard->octets + from, '\n', heard->length - from);
}

/* The next line without its end; null if there is none, or not one of at most so many octets, all printable. It stays until the next
 * call. */
static const char *next_line(struct call *call, size_t most)
{
    struct x509check_party *party = call->party;
    struct grown *heard = &party->heard;
    size_t sought = 0;
    char *found;

    heard->length -= party->used;
    if (party->used > 0)
        memmove(heard->octets, heard->octets + party->used, heard->length);
    party->used = 0;
    while ((found = line_end(heard, sought)) == NULL && heard->length <= most) {
        sought = heard->length;
        if (!hear_more(call))
            return NULL;
    }
    heard->octets[heard->length] = '\0';
    if (found != NULL)
        *found = '\0';
    for (const char *octet = heard->octets; found != NULL && octet < found; octet++)
        found = *octet < ' ' || *octet > '~' ? NULL : found;
    if (found == NULL || (size_t)(found - heard->octets) > most) {
        garbled(call, heard->octets);
        return NULL;
    }
    party->used = (size_t)(found - heard->octets) + 1;
    return heard->octets;
}
