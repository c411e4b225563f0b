/* Scripts and packets in lent memory: reports and lines that just fit and those that don't, and each fault, with its line.
 * Prints what is wrong, and ends with 1 where something is. */
#include "scripting.h"
#include "trying.h"

enum { ROOM = 12000000 };
static uint8_t room[ROOM];

static int32_t run(const char *script, size_t length, size_t size, size_t *count, uint32_t *line)
{
    *count = 77;
    *line = 77;
    return mscp_run_script((const uint8_t *)script, length, room, size, count, line);
}

/* A report of so many bytes needs room for twice as many. Where there is less nothing is told. */
static void fits_just(const char *script, const char *report)
{
    size_t length = strlen(report), count;
    uint32_t line;
    is("report", run(script, strlen(script), 2 * length, &count, &line), MSCP_DONE);
    is("its bytes", (int64_t)count, (int64_t)length);
    is("text", memcmp(room, report, length), 0);
    is("no line", line, 77);
    is("less room", run(script, strlen(script), 2 * length - 1, &count, &line), MSCP_SMALL);
    is("no room", run(script, strlen(script), 0, &count, &line), MSCP_SMALL);
    is("no bytes", (int64_t)count, 77);
}

/* A script's fault is told in any room, however much the lines before it report. */
static void fails_in(size_t size, const char *script, size_t length, int32_t fault, uint32_t where)
{
    size_t count;
    uint32_t line;
    is("fault", run(script, length, size, &count, &line), fault);
    is("its line", line, where);
    is("no report", (int64_t)count, 77);
}

static void fails(const char *script, size_t length, int32_t fault, uint32_t where)
{
    fails_in(ROOM, script, length, fault, where);
}

/* The longest run of idle steps, whose report has 5,000,032 bytes. */
static void much_fits_just(void)
{
    static char script[sizeof HEADER + 10000], report[5000100];
    char *end = script + sprintf(script, HEADER), *last = report;
    for (int i = 0; i < 1000; i++)
        end += sprintf(end, "step 1000\n");
    for (int i = 0; i < 1000000; i++, last += 5)
        memcpy(last, "idle\n", 5);
    sprintf(last, "steps 1000000 seeks 0 pending 0\n");
    fits_just(script, report);
}

/* A line of each kind, what is answered, refused, aborted and served, of both connections. */
static const char EACH_KIND[] =
    "credits 14 4\nbudget 16\nlongest 8\ntimeout 60\nunit 0 10 2 1 1000\nunit 3 10 2 1 1000\ngo\n"
    "online 1 0\nonline 2 3\nstep 2\ntake\ntake\ntake\nread 3 0 1024 0\nwrite 4 0 512 40\naccess 5 3 512 40\n"
    "erase 6 3 512 50\ncompare 7 0 512 60\nread 7 0 512 1\nread 8 9 512 0\nread 8 0 511 1000\nabort 8 4\nabort 9 4\n"
    "take\ntake\ntake\ntake\nstatus 10 3\nunitstatus 11 0\nsetcontroller 12\ntake\ntake\ntake\npacket 0400\n"
    "packet 0D000000000000007F000000\npacket 0E0000000000000021000000\ntake\ntake\nstep 1\nlook\navailable 13 3\n"
    "setunit 14 3\nsecond read 3 0 512 7\nsecond read 4 0 512 8\nsecond read 5 0 512 9\nsecond abort 6 3\nlook\n"
    "bad 0008\nsecond take\nsecond take\nstep 20\ntake\ntake\ntake\ntake\nread 20 3 512 0\nstep 1\ntake\n";

/* Wherever its report may be cut, there is too little room, and nothing is told. */
static void each_smaller_room_is_small(void)
{
    static uint8_t report[sizeof room / 1000];
    size_t count, length;
    uint32_t line;
    is("report", run(EACH_KIND, sizeof EACH_KIND - 1, ROOM, &length, &line), MSCP_DONE);
    is("its bytes", length > 1000 && length < sizeof report, 1);
    memcpy(report, room, length);
    for (size_t size = 0; size < 2 * length; size += 2) {
        is("less room", run(EACH_KIND, sizeof EACH_KIND - 1, size, &count, &line), MSCP_SMALL);
        is("no bytes", (int64_t)count, 77);
    }
    is("just room", run(EACH_KIND, sizeof EACH_KIND - 1, 2 * length, &count, &line), MSCP_DONE);
    is("all bytes", (int64_t)count, (int64_t)length);
    is("the same", memcmp(room, report, length), 0);
}

/* This is no word that may stand on this line of a script. */
static void is_no_word(const char *before, const char *word, size_t length, const char *behind, uint32_t line)
{
    static char script[256];
    fails(script, (size_t)sprintf(script, "%s%.*s%s\n", before, (int)length, word, behind), MSCP_SCRIPT_WORD, line);
}

/* A word is none with a letter less, one more, or another one, wherever that is. */
static void letters_count(const char *before, const char *word, uint32_t line)
{
    size_t length = strlen(word);
    char other[16];
    for (size_t at = 0; at < length; at++) {
        memcpy(other, word, length + 1);
        other[at] = 'q';
        is_no_word(before, other, length, "", line);
        other[at] = (char)(word[at] + 1);
        is_no_word(before, other, length, "", line);
        is_no_word(before, word, length, word + at, line);
        if (at > 0)
            is_no_word(before, word, at, "", line);
    }
    is_no_word(before, word, length, "q", line);
}

/* Nor is it one with some of its letters, and others up to each length. */
static void beginnings_count(const char *before, const char *word, uint32_t line)
{
    char other[16];
    for (size_t length = 1; length < 16; length++)
        for (size_t same = 0; same < length && same < strlen(word); same++) {
            memset(other, 'q', sizeof other);
            memcpy(other, word, same);
            is_no_word(before, other, length, "", line);
        }
}

static void words_are_exact(void)
{
    static const char *const LINES[] = {
        "read", "write", "access", "erase", "compare", "online", "available", "setunit", "unitstatus", "setcontroller", "status",
        "abort", "packet", "take", "second", "step", "bad", "look"};
    letters_count("", "credits", 1);
    letters_count("credits 4\n", "budget", 2);
    letters_count("credits 4\n", "passing", 2);
    letters_count("credits 4\nbudget 16\n", "longest", 3);
    letters_count("credits 4\nbudget 16\nlongest 8\n", "timeout", 4);
    letters_count("credits 4\nbudget 16\nlongest 8\ntimeout 60\n", "unit", 5);
    letters_count("credits 4\nbudget 16\nlongest 8\ntimeout 60\nunit 0 10 2 1 1000\n", "unit", 6);
    letters_count("credits 4\nbudget 16\nlongest 8\ntimeout 60\nunit 0 10 2 1 1000\n", "go", 6);
    for (size_t i = 0; i < COUNT(LINES); i++) {
        letters_count(HEADER, LINES[i], 7);
        letters_count(HEADER "second ", LINES[i], 7);
        beginnings_count(HEADER, LINES[i], 7);
        beginnings_count(HEADER "second ", LINES[i], 7);
    }
    is_no_word(HEADER "second ", "step", 4, " 1", 7);
    is_no_word(HEADER "second ", "bad", 3, " 0008", 7);
    is_no_word(HEADER "second ", "look", 4, "", 7);
    is_no_word(HEADER "second ", "second", 6, " take", 7);
}

/* Blanks around words, comments of each length and empty lines change nothing. */
static void blanks_say_nothing(void)
{
    static char script[60000];
    static uint8_t report[8192];
    size_t length, count;
    uint32_t line;
    is("report", run(EACH_KIND, sizeof EACH_KIND - 1, ROOM, &length, &line), MSCP_DONE);
    memcpy(report, room, length);
    for (unsigned blanks = 1; blanks < 20; blanks += 3) {
        char *end = script;
        for (const char *at = EACH_KIND; *at != 0; at++) {
            if (*at == '\n')
                end += sprintf(end, "%*s\n#%.*s\n\n", (int)(blanks % 7), "", (int)((at - EACH_KIND) % 200),
                               FIFTY FIFTY FIFTY FIFTY);
            else if (*at == ' ')
                end += sprintf(end, "%*s", (int)blanks, "");
            else
                *end++ = *at;
            if (*at == '\n' && at[1] != 0)
                end += sprintf(end, "%*s", (int)(blanks % 5), "");
        }
        is("with blanks", run(script, (size_t)(end - script), ROOM, &count, &line), MSCP_DONE);
        is("its bytes", (int64_t)count, (int64_t)length);
        is("the same", memcmp(room, report, length), 0);
    }
    for (int last = 0; last < 200; last++) { /* bytes of the last line, which no line feed ends */
        const char *end = script + sprintf(script, "%s#%.*s", EACH_KIND, last, FIFTY FIFTY FIFTY FIFTY);
        is("with a last line", run(script, (size_t)(end - script), ROOM, &count, &line), MSCP_DONE);
        is("its bytes", (int64_t)count, (int64_t)length);
    }
}

/* A line has as many words as its kind has, however many blanks are around them. */
static void words_are_counted(void)
{
    static const struct { const char *before, *line, *cut, *more; uint32_t at; } LINES[] = {
        {"", "credits", "", " 4 0 1", 1}, {"credits 4\n", "budget", "", " 1 2", 2}, {"credits 4\n", "passing", "", " 1 2", 2},
        {"credits 4\nbudget 16\n", "longest", "", " 8 8", 3}, {"credits 4\nbudget 16\nlongest 8\n", "timeout", "", " 60 1", 4},
        {"credits 4\nbudget 16\nlongest 8\ntimeout 60\n", "unit", " 0 10 2 1", " 0 10 2 1 1000 1", 5},
        {"credits 4\nbudget 16\nlongest 8\ntimeout 60\nunit 0 10 2 1 1000\n", "go", NULL, " 1", 6},
        {HEADER, "read", " 1 0 512", " 1 0 512 1 1", 7}, {HEADER, "write", " 1 0 512", " 1 0 512 1 1", 7},
        {HEADER, "access", " 1 0 512", " 1 0 512 1 1", 7}, {HEADER, "erase", " 1 0 512", " 1 0 512 1 1", 7},
        {HEADER, "compare", " 1 0 512", " 1 0 512 1 1", 7}, {HEADER, "online", " 1", " 1 0 1", 7},
        {HEADER, "available", " 1", " 1 0 1", 7}, {HEADER, "setunit", " 1", " 1 0 1", 7}, {HEADER, "unitstatus", " 1", " 1 0 1", 7},
        {HEADER, "setcontroller", "", " 1 1", 7}, {HEADER, "status", " 1", " 1 2 3", 7}, {HEADER, "abort", " 1", " 1 2 3", 7},
        {HEADER, "packet", "", " 00 00", 7}, {HEADER, "step", "", " 1 1", 7}, {HEADER, "bad", "", " 0008 1", 7},
        {HEADER, "take", NULL, " 1", 7}, {HEADER, "look", NULL, " 1", 7}, {HEADER "second ", "take", NULL, " 1", 7},
        {HEADER "second ", "read", " 1 0 512", " 1 0 512 1 1", 7}, {HEADER "second ", "online", " 1", " 1 0 1", 7},
        {HEADER "second ", "packet", "", " 00 00", 7}, {HEADER "second ", "setcontroller", "", " 1 1", 7},
        {HEADER "second ", "status", " 1", " 1 2 3", 7}, {HEADER, "second", "", NULL, 7}};
    static char script[512];
    for (size_t i = 0; i < COUNT(LINES); i++)
        for (unsigned blanks = 0; blanks < 4; blanks++)
            for (unsigned more = 0; more < 2; more++) {
                const char *words = more ? LINES[i].more : LINES[i].cut;
                if (words != NULL)
                    fails(script, (size_t)sprintf(script, "%s%s%s%*s\n", LINES[i].before, LINES[i].line, words, (int)blanks, ""),
                          MSCP_SCRIPT_COUNT, LINES[i].at);
                for (int cut = 0; !more && words != NULL && words[cut] != 0; cut++)
                    if (words[cut] == ' ')
                        fails(script,
                              (size_t)sprintf(script, "%s%s%.*s%*s\n", LINES[i].before, LINES[i].line, cut, words, (int)blanks, ""),
                              MSCP_SCRIPT_COUNT, LINES[i].at);
            }
}

/* A line feed behind a comment of each count of bytes, and then so many more that are no word: the line is cut there, and one of
 * over 200 bytes is at fault before its word is. What is behind the script is none of it. */
static void lines_end_anywhere(void)
{
    static char room_of_it[1024];
    size_t count;
    uint32_t line;
    for (size_t rest = 1; rest < 560; rest += rest < 300 ? 1 : 7)
        for (size_t at = 0; at <= rest && at < 300; at += at < 206 ? 1 : 5) { /* at the end there is none */
            char *script = room_of_it + rest % 33; /* at addresses of each kind */
            memset(room_of_it, '\n', sizeof room_of_it);
            size_t length = (size_t)sprintf(script, HEADER), more = at < rest ? rest - at - 1 : 0;
            script[length] = '\n';
            memset(script + length, '#', at);
            memset(script + length + (rest - more), 'q', more);
            int32_t wanted = at > 200 || more > 200 ? MSCP_SCRIPT_LONG : more > 0 ? MSCP_SCRIPT_WORD : MSCP_DONE;
            is("lines", run(script, length + rest, ROOM, &count, &line), wanted);
            is("the line at fault", line, wanted == MSCP_DONE ? 77 : at > 200 ? 7 : 8);
        }
}

/* A line of a header is the last one that a script may have, or one more. */
static void headers_have_lines(void)
{
    memset(large, '\n', 1000001);
    fails(large, 1000000, MSCP_SCRIPT_HEADER, 1000001);
    fails(large, 1000001, MSCP_SCRIPT_LINES, 1000001);
    memcpy(large + 999999, HEADER, sizeof HEADER - 1);
    fails(large, 999999 + sizeof HEADER - 1, MSCP_SCRIPT_LINES, 1000001);
}

#define UNITS "credits 4\nbudget 16\nlongest 8\ntimeout 60\nunit "

/* Where a number stands it has 1 to 10 digits, and is at most so much. */
static void numbers_have_bounds(void)
{
    static const struct { const char *before, *behind; uint32_t most, line; } PLACES[] = {
        {HEADER "read ", " 0 512 1", UINT32_MAX, 7}, {HEADER "read 1 ", " 512 1", 65535, 7},
        {HEADER "read 1 0 ", " 1", UINT32_MAX, 7}, {HEADER "read 1 0 512 ", "", UINT32_MAX, 7},
        {HEADER "online ", " 0", UINT32_MAX, 7}, {HEADER "online 1 ", "", 65535, 7}, {HEADER "setcontroller ", "", UINT32_MAX, 7},
        {HEADER "abort ", " 1", UINT32_MAX, 7}, {HEADER "abort 1 ", "", UINT32_MAX, 7}, {HEADER "status ", " 1", UINT32_MAX, 7},
        {HEADER "status 1 ", "", UINT32_MAX, 7}, {HEADER "second read 1 ", " 512 1", 65535, 7},
        {HEADER "second read ", " 0 512 1", UINT32_MAX, 7}, {HEADER "step ", "", 1000, 7}};
    static const struct { const char *before, *behind; uint32_t most, line; } HEADERS[] = {
        {"credits ", "\nbudget 16\n", UINT32_MAX, 1}, {"credits ", " 4\nbudget 16\n", UINT32_MAX, 1},
        {"credits 4 ", "\nbudget 16\n", UINT32_MAX, 1}, {"credits 4\nbudget ", "\n", UINT32_MAX, 2},
        {"credits 4\npassing ", "\n", UINT32_MAX, 2}, {"credits 4\nbudget 16\nlongest ", "\n", UINT32_MAX, 3},
        {"credits 4\nbudget 16\nlongest 8\ntimeout ", "\n", 65535, 4},
        {UNITS, " 10 2 1 1000\ngo\n", 65535, 5}, {UNITS "0 ", " 2 1 1000\ngo\n", 65535, 5},
        {UNITS "0 10 ", " 1 1000\ngo\n", 65535, 5}, {UNITS "0 10 2 ", " 1000\ngo\n", 65535, 5},
        {UNITS "0 10 2 1 ", "\ngo\n", UINT32_MAX, 5}, {UNITS "0 10 2 1 1000\nunit ", " 10 2 1 1000\ngo\n", 65535, 6},
        {UNITS "0 10 2 1 1000\nunit 1 ", " 2 1 1000\ngo\n", 65535, 6},
        {UNITS "0 10 2 1 1000\nunit 1 10 ", " 1 1000\ngo\n", 65535, 6},
        {UNITS "0 10 2 1 1000\nunit 1 10 2 ", " 1000\ngo\n", 65535, 6},
        {UNITS "0 10 2 1 1000\nunit 1 10 2 1 ", "\ngo\n", UINT32_MAX, 6}};
    static const char *const BAD[] = {"99999999999", "00000000001", "4294967296", "9999999999", "x", "1x", "1/", "1:", "/1", ":1", "-1"};
    static char script[512];
    size_t count;
    uint32_t line;
    for (size_t i = 0; i < COUNT(PLACES); i++) {
        size_t length = (size_t)sprintf(script, "%s%010lu%s\n", PLACES[i].before, (unsigned long)PLACES[i].most, PLACES[i].behind);
        is("the most", run(script, length, ROOM, &count, &line), MSCP_DONE);
        length = (size_t)sprintf(script, "%s0000000001%s\n", PLACES[i].before, PLACES[i].behind);
        is("ten digits", run(script, length, ROOM, &count, &line), MSCP_DONE);
        if (PLACES[i].most != UINT32_MAX) {
            length = (size_t)sprintf(script, "%s%lu%s\n", PLACES[i].before, (unsigned long)PLACES[i].most + 1, PLACES[i].behind);
            fails(script, length, MSCP_SCRIPT_NUMBER, PLACES[i].line);
        }
        for (size_t k = 0; k < COUNT(BAD); k++) {
            length = (size_t)sprintf(script, "%s%s%s\n", PLACES[i].before, BAD[k], PLACES[i].behind);
            fails(script, length, MSCP_SCRIPT_NUMBER, PLACES[i].line);
        }
    }
    for (size_t i = 0; i < COUNT(HEADERS); i++) {
        size_t length = (size_t)sprintf(script, "%s%010lu%s", HEADERS[i].before, (unsigned long)HEADERS[i].most, HEADERS[i].behind);
        is("the most", run(script, length, ROOM, &count, &line) != MSCP_SCRIPT_NUMBER, 1);
        if (HEADERS[i].most != UINT32_MAX) {
            length = (size_t)sprintf(script, "%s65536%s", HEADERS[i].before, HEADERS[i].behind);
            fails(script, length, MSCP_SCRIPT_NUMBER, HEADERS[i].line);
        }
        for (size_t k = 0; k < COUNT(BAD); k++) {
            length = (size_t)sprintf(script, "%s%s%s", HEADERS[i].before, BAD[k], HEADERS[i].behind);
            fails(script, length, MSCP_SCRIPT_NUMBER, HEADERS[i].line);
        }
    }
    is("zero steps", run(HEADER "step 0\n", sizeof HEADER + 6, ROOM, &count, &line), MSCP_SCRIPT_NUMBER);
}

/* Numbers of each count of digits are written, also where one begins with a zero. */
static void numbers_are_written(void)
{
    static char script[512], report[512];
    for (unsigned long border = 1; border <= 1000000000; border *= 10)
        for (unsigned long n = border - 1; n <= border + 1; n++) {
            sprintf(script, HEADER "read %010lu 0 512 1\nabort %lu 7\nlook\nstep 1\n", n, n + 7);
            sprintf(report, "queued %lu\nanswered %lu\nfigure %lu 17\nserve %lu unit 0 block none seek 0 ended 0004\n"
                            "steps 1 seeks 0 pending 0\n", n, n + 7, n, n);
            if (n != 7)
                fits_just(script, report);
        }
}

/* A byte that is no digit is told wherever it stands, in a packet and in a script that may have it there. */
static void digits_are_judged(void)
{
    static char script[256];
    char word[] = "050000000000000013000000";
    size_t count = 77;
    for (unsigned byte = 1; byte < 256; byte++)
        for (size_t at = 0; at < 24; at += at == 1 ? 21 : 1) {
            const int is_digit = strchr("0123456789abcdefABCDEF", (int)byte) != NULL;
            const char was = word[at];
            word[at] = (char)byte;
            if (!is_digit)
                is("no digit", mscp_show_packet((const uint8_t *)word, 24, room, 1024, &count), MSCP_WORD_HEX);
            is("a digit", mscp_show_packet((const uint8_t *)word, 24, room, 1024, &count) != MSCP_WORD_HEX, is_digit);
            if (byte > 32 && byte < 127 && !is_digit)
                fails(script, (size_t)sprintf(script, HEADER "packet %s\n", word), MSCP_SCRIPT_HEX, 7);
            word[at] = was;
        }
}

static void packets_are_shown(void)
{
    size_t count;
    for (size_t i = 0; i < 2 * COUNT(PACKETS); i++) {
        const size_t n = i / 2, length = strlen(PACKETS[n].text), size = i % 2 == 0 ? 1024 : 2 * length;
        const uint8_t *word = (const uint8_t *)PACKETS[n].word;
        count = 77;
        is("packet", mscp_show_packet(word, strlen(PACKETS[n].word), room, size, &count), PACKETS[n].status);
        is("its bytes", (int64_t)count, PACKETS[n].status == MSCP_DONE ? (int64_t)length : 77);
        is("its text", memcmp(room, PACKETS[n].text, length), 0);
    }
    for (size_t n = 0; n < COUNT(PACKETS); n++)
        for (size_t size = 0; size < 2 * strlen(PACKETS[n].text); size++) {
            count = 77;
            is("less room", mscp_show_packet((const uint8_t *)PACKETS[n].word, strlen(PACKETS[n].word), room, size, &count),
               MSCP_SMALL);
            is("no bytes", (int64_t)count, 77);
        }
}

int main(void)
{
    fits_just(HEADER, "steps 0 seeks 0 pending 0\n");
    fits_just(HEADER "online 9 0\nstep 1\ntake\n",
              "queued 9\nserve 9 unit 0 block none seek 0 ended 0000\n"
              "end 090000000000000089000000000000000000000001000000000000000000000000000000e803000001000000\n"
              "steps 1 seeks 0 pending 0\n");
    much_fits_just();
    for (size_t i = 0; i < COUNT(SCRIPTS); i++) {
        fails(SCRIPTS[i].text, strlen(SCRIPTS[i].text), SCRIPTS[i].fault, SCRIPTS[i].line);
        fails_in(0, SCRIPTS[i].text, strlen(SCRIPTS[i].text), SCRIPTS[i].fault, SCRIPTS[i].line);
    }
    const char behind[] = HEADER "online 9 0\njump\n"; /* behind "queued 9\n", of 9 bytes */
    const size_t sizes[] = {0, 1, 16, 17, 18};
    for (size_t i = 0; i < COUNT(sizes); i++)
        fails_in(sizes[i], behind, strlen(behind), MSCP_SCRIPT_WORD, 8);
    fails(large, make_large(MSCP_SCRIPT_LINES), MSCP_SCRIPT_LINES, 1000001);
    fails(large, make_large(MSCP_SCRIPT_SIZE), MSCP_SCRIPT_SIZE, 0);
    fails(large, make_large(MSCP_SCRIPT_EVENTS), MSCP_SCRIPT_EVENTS, 1007);
    fails_in(ROOM / 2, large, make_large(MSCP_SCRIPT_EVENTS), MSCP_SCRIPT_EVENTS, 1007); /* behind 5,000,000 bytes */
    packets_are_shown();
    each_smaller_room_is_small();
    words_are_exact();
    blanks_say_nothing();
    words_are_counted();
    lines_end_anywhere();
    headers_have_lines();
    numbers_have_bounds();
    numbers_are_written();
    digits_are_judged();
    return wrong;
}
