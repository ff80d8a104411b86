/* The lines of `x509check session`: requests as they are written, and which answers belong to them. A part of x509check_party.c, which
 * alone includes it, so that no name but those of the calls is seen by a program. */
/* ---- what is asked */

/* Adds a moment as `YYYYMMDDHHMMSSZ`; false if it lies outside the years 0 to 9999. */
static bool add_moment(struct grown *line, int64_t moment)
{
    enum { DAY = 86400, ERA = 146097 };
    const int64_t first = INT64_C(-62167219200), last = INT64_C(253402300799);
    int second, days, of_era, year_of_era, of_year, month;
    char word[32];

    if (moment < first || moment > last)
        return false;
    second = (int)((moment - first) % DAY);
    /* Years begin in March here, so that a leap day ends one; 400 of them have as many days as ERA says. The first is the year -400. */
    days = (int)((moment - first) / DAY) + ERA - 60;
    of_era = days % ERA;
    year_of_era = (of_era - of_era / 1460 + of_era / 36524 - of_era / 146096) / 365;
    of_year = of_era - (365 * year_of_era + year_of_era / 4 - year_of_era / 100);
    month = (5 * of_year + 2) / 153;
    snprintf(word, sizeof word, "%04d%02d%02d%02d%02d%02dZ", days / ERA * 400 - 400 + year_of_era + (month >= 10),
             month < 10 ? month + 3 : month - 9, of_year - (153 * month + 2) / 5 + 1, second / 3600, second / 60 % 60, second % 60);
    add(line, word);
    return true;
}

/* Adds the contents of an OBJECT IDENTIFIER in dotted decimal (X.690, 8.19); false if they are none, or a number is 2^63 or more. */
static bool add_numbers(struct grown *line, const struct x509check_text *contents)
{
    char word[48];

    for (size_t at = 0; at < contents->length; at++) {
        uint64_t number = 0, first;
        bool is_first = at == 0;

        if (contents->octets[at] == 0x80)
            return false;
        for (; contents->octets[at] & 0x80; at++) {
            number |= contents->octets[at] & 0x7F;
            if (at + 1 == contents->length || number >> 56 != 0)
                return false;
            number <<= 7;
        }
        number |= contents->octets[at];
        first = number < 80 ? number / 40 : 2;
        if (is_first)
            snprintf(word, sizeof word, "%" PRIu64 ".%" PRIu64, first, number - 40 * first);
        else
            snprintf(word, sizeof word, ".%" PRIu64, number);
        add(line, word);
    }
    return true;
}

/* Begins the line of a question about certificates. */
static bool begin_line(struct call *call, struct request *request, const char *word, int64_t moment,
                       const struct x509check_text *purpose)
{
    add(&request->line, word);
    if (!add_moment(&request->line, moment))
        return fail(call, X509CHECK_PARTY_BAD_REQUEST, "the moment lies outside the years 0 to 9999");
    if (purpose->length > 0) {
        add(&request->line, " purpose=");
        if (!add_numbers(&request->line, purpose))
            return fail(call, X509CHECK_PARTY_BAD_REQUEST, "the purpose is none that a request may have");
    }
    return true;
}

static size_t length_of(const struct operand *operand)
{
    size_t length = 0;

    for (size_t i = 0; i < operand->count; i++)
        length += operand->texts[i].length;
    return length;
}

static bool write_file(const char *name, const struct operand *operand)
{
    int file = open(name, O_WRONLY | O_CREAT | O_EXCL | O_CLOEXEC, S_IRUSR | S_IWUSR);
    bool is_written = file >= 0;

    for (size_t i = 0; i < operand->count; i++) {
        const struct x509check_text *text = &operand->texts[i];

        for (size_t at = 0; is_written && at < text->length;) {
            ssize_t count = write(file, text->octets + at, text->length - at);

            at += count > 0 ? (size_t)count : 0;
            is_written = count >= 0 || errno == EINTR;
        }
    }
    return (file < 0 || close(file) == 0) && is_written;
}

/* Adds a file's name, with what could be read otherwise escaped. */
static void add_name(struct grown *word, const char *name)
{
    for (; *name != '\0'; name++) {
        bool is_plain = *name > ' ' && *name <= '~' && strchr("\\:=", *name) == NULL;
        const char octet[] = {*name, '\0'};

        add(word, is_plain ? octet : "\\");
        if (!is_plain)
            add_hex(word, (const uint8_t *)name, 1);
    }
}

/* Writes the octets into a file in a folder of its own, and its name into the word. */
static bool spool(struct call *call, struct operand *operand, struct grown *word)
{
    static const char name[] = "/value";
    const char *top = getenv("TMPDIR");
    struct grown path = {0};

    add(&path, top != NULL && top[0] == '/' ? top : "/tmp");
    add(&path, "/x509check-XXXXXX");
    if (!grow(&path, sizeof name) || mkdtemp(path.octets) == NULL) {
        free(path.octets);
        return fail_by_system(call, X509CHECK_PARTY_NO_FILE, "a file for a long value", errno);
    }
    add(&path, name);
    operand->file = path.octets;
    if (!write_file(operand->file, operand))
        return fail_by_system(call, X509CHECK_PARTY_NO_FILE, "a file for a long value", errno);
    add_name(word, operand->file);
    return true;
}

static bool write_word(struct call *call, struct operand *operand, bool is_spooled)
{
    struct grown word = {0};

    if (is_spooled && !spool(call, operand, &word)) {
        free(word.octets);
        return false;
    }
    if (!is_spooled) {
        add(&word, "hex:");
        for (size_t i = 0; i < operand->count; i++)
            add_hex(&word, operand->texts[i].octets, operand->texts[i].length);
    }
    operand->word = word.octets;
    return !word.lacks_memory || fail(call, X509CHECK_PARTY_NO_MEMORY, "no memory");
}

/* Writes the operands behind the words of the line. If it were too long, the longest of them are handed over in files. */
static bool write_operands(struct call *call, struct request *request)
{
    size_t length = request->line.length;
    size_t longest = SIZE_MAX; /* the octets of the shortest that stands in a file */

    for (size_t i = 0; i < request->operand_count; i++)
        length += sizeof " hex:" - 1 + 2 * length_of(&request->operands[i]);
    while (length > MOST_LINE) {
        size_t next = 0;

        for (size_t i = 0; i < request->operand_count; i++)
            if (length_of(&request->operands[i]) < longest && length_of(&request->operands[i]) > next)
                next = length_of(&request->operands[i]);
        if (call->party->words == NULL || next == 0)
            return fail(call, X509CHECK_PARTY_BAD_REQUEST, "what is asked does not fit into a line of 2^20 octets");
        for (size_t i = 0; i < request->operand_count; i++)
            length -= length_of(&request->operands[i]) == next ? 2 * next : 0;
        longest = next;
    }
    for (size_t i = 0; i < request->operand_count; i++) {
        struct operand *operand = &request->operands[i];

        if (!write_word(call, operand, length_of(operand) >= longest))
            return false;
        add(&request->line, " ");
        add(&request->line, operand->word);
    }
    return true;
}

static bool end_line(struct call *call, struct request *request)
{
    if (request->line.length > MOST_LINE) /* (by the names of files) */
        return fail(call, X509CHECK_PARTY_BAD_REQUEST, "what is asked does not fit into a line of 2^20 octets");
    add(&request->line, "\n");
    return !request->line.lacks_memory || fail(call, X509CHECK_PARTY_NO_MEMORY, "no memory");
}

/* Removes the files and the memory of a request. */
static void discard(struct request *request)
{
    for (size_t i = 0; i < request->operand_count; i++) {
        struct operand *operand = &request->operands[i];

        if (operand->file != NULL) {
            unlink(operand->file);
            *strrchr(operand->file, '/') = '\0';
            rmdir(operand->file);
        }
        free(operand->file);
        free(operand->word);
    }
    free(request->line.octets);
}

/* ---- what is answered (docs/REFERENCE.md, "session", "find" and "Answers") */

/* Takes a word off the front of a text; false if it begins otherwise. */
static bool take(const char **text, const char *word)
{
    size_t length = strlen(word);
    bool begins = strncmp(*text, word, length) == 0;

    *text += begins ? length : 0;
    return begins;
}

/* The same of a number as the program prints it: without a sign, and without a zero in front. */
static bool take_number(const char **text, uint64_t *number)
{
    const char *digit = *text;

    for (*number = 0; *digit >= '0' && *digit <= '9'; digit++) {
        if (*number > (UINT64_MAX - 9) / 10 || (digit > *text && **text == '0'))
            return false;
        *number = 10 * *number + (uint64_t)(*digit - '0');
    }
    if (digit == *text)
        return false;
    *text = digit;
    return true;
}

/* Whether a reason has this number and, of a verdict's line, this name. */
static bool is_reason(uint32_t verdict, uint64_t reason, const char *name)
{
    char its[X509CHECK_NAME_ROOM];

    return reason <= UINT32_MAX && x509check_reason_name(verdict, (uint32_t)reason, its, sizeof its) > 0 &&
           (name == NULL || strcmp(name, its) == 0);
}

/* Takes the word of a verdict, the number of a certificate, and that of a reason. */
static bool take_reason(const char **text, const char *word, uint64_t *certificate, uint64_t *reason)
{
    return take(text, word) && take_number(text, certificate) && take(text, " ") && take_number(text, reason);
}

/* The verdict on a path of so many certificates below the anchor; false if the text is none, or not of that status. */
static bool read_verdict(struct request *request, unsigned status, const char *text, size_t most)
{
    uint64_t certificate = 0, reason = 0;
    bool is_whole = false; /* whether it is about the path itself */

    switch (status) {
    case 0:
        request->verdict = X509CHECK_VALID;
        return strcmp(text, "valid") == 0;
    case 1:
        request->verdict = X509CHECK_INVALID;
        if (!take_reason(&text, "invalid ", &certificate, &reason) || !take(&text, " ") || !is_reason(X509CHECK_INVALID, reason, text))
            return false;
        is_whole = reason == RANK_TOO_LONG && most > MOST_CERTIFICATES;
        break;
    case 2:
        request->verdict = X509CHECK_REVOKED;
        if (!take_reason(&text, "revoked ", &certificate, &reason) || *text != '\0' || !is_reason(X509CHECK_REVOKED, reason, NULL))
            return false;
        break;
    case 3:
        request->verdict = X509CHECK_UNKNOWN;
        if (!take(&text, "unknown ") || !take_number(&text, &certificate) || *text != '\0')
            return false;
        break;
    default:
        return false;
    }
    request->reason = (uint32_t)reason;
    request->certificate = (size_t)certificate;
    return is_whole ? certificate == 0 : certificate >= 1 && certificate <= most && (status != 1 || reason < RANK_EMPTY);
}

/* The line of a certificate of a path: its number there, its operand, and which of those that is. */
static bool read_place(struct request *request, bool is_last, const char *line)
{
    size_t number = request->place_count;
    const struct operand *first = request->operands, *target = first + request->operand_count - 1;
    const struct operand *operand = number == 0 ? first : is_last ? target : first + 1;
    uint64_t said, place;

    if (operand == target && !is_last)
        return false; /* (a search without others) */
    if (!take_number(&line, &said) || said != number || !take(&line, " ") || !take(&line, operand->word) || !take(&line, " ") ||
        !take_number(&line, &place) || *line != '\0' || place < 1 || place > operand->count)
        return false;
    request->places[request->place_count++] = (size_t)place - 1;
    return true;
}

/* The last line of what is found: the verdict on the path whose certificates came before, or why there is none. */
static bool read_found(struct request *request, unsigned status, const char *text)
{
    if (request->place_count >= 2)
        return read_verdict(request, status, text, request->place_count - 1);
    request->verdict = status == 1 ? X509CHECK_NOT_FOUND : X509CHECK_GAVE_UP;
    return request->place_count == 0 &&
           ((status == 1 && strcmp(text, "not found") == 0) || (status == 3 && strcmp(text, "gave up") == 0));
}

/* Reads the lines behind the first one of `find`, of which the text says how many there are. */
static bool hear_path(struct call *call, struct request *request, unsigned status, const char *text)
{
    size_t most = request->line.length + MOST_BESIDE;
    uint64_t count;
    const char *line;

    request->place_count = 0;
    if (!take_number(&text, &count) || *text != '\0' || count < 1 || count > X509CHECK_PATH_ROOM + 1)
        return garbled(call, text);
    for (uint64_t number = 1; number < count; number++) {
        if ((line = next_line(call, most)) == NULL)
            return false;
        if (!read_place(request, number + 1 == count, line))
            return garbled(call, line);
    }
    if ((line = next_line(call, most)) == NULL)
        return false;
    return read_found(request, status, line) || garbled(call, line);
}

static bool read_counts(struct request *request, const char *text)
{
    return take(&text, "stored ") && take_number(&text, &request->counts[0]) && take(&text, " kept ") &&
           take_number(&text, &request->counts[1]) && take(&text, " contradicted ") && take_number(&text, &request->counts[2]) &&
           *text == '\0';
}

/* Whether a text is that of a failure with this status. */
static bool is_failure(unsigned status, const char *text)
{
    switch (status) {
    case 4:
        return strstr(text, ": refused ") != NULL;
    case 5:
        return strncmp(text, "bad ", 4) == 0 || strcmp(text, "line too long") == 0;
    case 6:
        return strncmp(text, "cannot ", 7) == 0 || strncmp(text, "store fault ", 12) == 0 || strcmp(text, "no memory") == 0;
    default:
        return false;
    }
}

/* The outcome of a failure, which names its operand as the caller does. */
static bool refuse(struct call *call, const struct request *request, unsigned status, const char *text)
{
    const char *found = NULL, *title = "", *behind = "";

    for (size_t i = 0; found == NULL && i < request->operand_count; i++) {
        const struct operand *operand = &request->operands[i];

        found = strstr(text, operand->word);
        title = operand->title;
        behind = found == NULL ? "" : found + strlen(operand->word);
    }
    if (found == NULL)
        fail(call, X509CHECK_PARTY_REFUSED, "%s", text);
    else
        fail(call, X509CHECK_PARTY_REFUSED, "%.*s%s%s", (int)(found - text), text, title, behind);
    call->outcome->program_status = status;
    return false;
}

/* Reads the answer to a request. */
static bool hear(struct call *call, struct request *request)
{
    const char *line = next_line(call, request->line.length + MOST_BESIDE), *text = line;
    bool is_answer = false;
    uint64_t status;

    if (line == NULL)
        return false;
    if (request->form == GREETING)
        return strcmp(line, "5 bad line") == 0 || garbled(call, line);
    if (!take_number(&text, &status) || status > 6 || !take(&text, " "))
        return garbled(call, line);
    if (is_failure((unsigned)status, text))
        return refuse(call, request, (unsigned)status, text);
    switch (request->form) {
    case BELIEVE:
        is_answer = strcmp(line, "0 believed") == 0;
        break;
    case FORGET:
        is_answer = strcmp(line, "0 forgotten") == 0;
        break;
    case DELIVER:
        is_answer = status == 0 && read_counts(request, text);
        break;
    case CHECK:
        is_answer = read_verdict(request, (unsigned)status, text, request->operand_count - 1);
        break;
    case FIND:
        return status <= 3 ? hear_path(call, request, (unsigned)status, text) : garbled(call, line);
    case GREETING:
        break;
    }
    return is_answer || garbled(call, line);
}
