/* box: logs each line of standard input, and echoes it once it is logged. The echo is the acknowledgement: an echoed line is found
 * again, whatever kills the process, until it is dropped as the oldest. Lost is at most the line in hand, which had no echo. */
#include <stdio.h>
#include <stdlib.h>
#include <string.h>

#include "file.h"

enum { REFUSED = 1, USAGE = 2, LINE_TOO_LONG = 3 };

static struct file file;
static liftlog_device device;
static liftlog_state state;

static const char *meaning(unsigned number)
{
    switch (number) {
    case LIFTLOG_SIZE: return "E or S is out of range, or the length is not 84 + S x E";
    case LIFTLOG_LSNS_SPENT: return "every LSN is spent";
    case LIFTLOG_BAD_METADATA: return "a metadata rule is broken";
    case LIFTLOG_BAD_EXTENTS: return "extents do not join, or the head is in none of them";
    case LIFTLOG_BAD_TAIL: return "the tail is not where the metadata has it";
    case LIFTLOG_SLOT_TWICE: return "a slot is listed twice";
    default: return "see liftlog.h";
    }
}

/* Takes a done call: its store goes to the file, and its state is the next. A refusal and a failing file end the program. */
static void take(liftlog_answer a, const char *call)
{
    if (a.number != LIFTLOG_DONE) {
        fprintf(stderr, "box: %s: %s is refused with %u: %s\n", file.name, call, a.number, meaning(a.number));
        exit(REFUSED);
    }
    int failed = liftlog_carry(&device, file.image, a.store);
    if (failed != 0) {
        fprintf(stderr, "box: %s: %s: %s\n", file.name, call, strerror(failed));
        exit(EXIT_FAILURE);
    }
    state = a.state;
}

static void recover(void)
{
    take(liftlog_open(file.image, file.length), "open");
    take(liftlog_wipe(state, file.image, file.length), "wipe");
    take(liftlog_mark(state, file.image, file.length), "mark");
}

/* The first extent goes, with all its records. Where no slot is free there is a second one. */
static void drop_oldest(void)
{
    take(liftlog_head_start(state, file.image, file.length, state.starts[1]), "head start");
    take(liftlog_head_finish(state, file.image, file.length), "head finish");
}

static void roll(const uint8_t *line, size_t p)
{
    if (liftlog_counts(state).free == 0)
        drop_oldest();
    take(liftlog_roll_begin(state, file.image, file.length, p), "roll begin");
    take(liftlog_roll_write(state, file.image, file.length, line, p), "roll write");
    take(liftlog_roll_list(state, file.image, file.length), "roll list");
}

static void log_line(const uint8_t *line, size_t p)
{
    liftlog_answer a = liftlog_append(state, file.image, file.length, line, p);
    if (a.number == LIFTLOG_NO_ROOM)
        roll(line, p);
    else
        take(a, "append");
}

/* The length of the next line without its end, or one above the longest payload when it is longer; -1 at the end of input. */
static int next_line(uint8_t *line)
{
    int p = 0;
    int c;
    while (p <= (int)LIFTLOG_PAYLOAD_MOST && (c = getchar()) != '\n') {
        if (c == EOF)
            return p == 0 ? -1 : p;
        line[p++] = (uint8_t)c;
    }
    return p;
}

static void echo(const uint8_t *line, size_t p)
{
    if (fwrite(line, 1, p, stdout) == p && putchar('\n') != EOF && fflush(stdout) == 0)
        return;
    perror("box: echo");
    exit(EXIT_FAILURE);
}

static int log_input(void)
{
    uint8_t line[LIFTLOG_PAYLOAD_MOST + 1];
    int most = state.e - 14 < LIFTLOG_PAYLOAD_MOST ? (int)state.e - 14 : (int)LIFTLOG_PAYLOAD_MOST;
    int p;
    while ((p = next_line(line)) >= 0) {
        if (p > most) {
            fprintf(stderr, "box: a line is longer than M, %d bytes: nothing of it is logged\n", most);
            return LINE_TOO_LONG;
        }
        log_line(line, (size_t)p);
        echo(line, (size_t)p);
    }
    return EXIT_SUCCESS;
}

static int usage(FILE *out, int status)
{
    fputs("usage: box FILE [E S]\n"
          "Logs each line of standard input in FILE, then echoes it. Rolls when the write extent is full, and drops the oldest extent when\n"
          "no slot is free. A FILE that is not there or empty is made with S slots of E bytes, 15 of 4096 unless told; any other has its\n"
          "own E and S. A line longer than M, the smaller of 1024 and E - 14 bytes, ends box with status 3: nothing of it is logged.\n", out);
    return status;
}

/* A number in a range; 0 for anything else. */
static uint32_t number(const char *word, uint32_t least, uint32_t most)
{
    char *end;
    unsigned long v = strtoul(word, &end, 10);
    return *end == '\0' && least <= v && v <= most ? (uint32_t)v : 0;
}

int main(int count, char **words)
{
    if (count == 2 && strcmp(words[1], "--help") == 0)
        return usage(stdout, EXIT_SUCCESS);
    if (count != 2 && count != 4)
        return usage(stderr, USAGE);
    uint32_t e = number(count == 4 ? words[2] : "4096", LIFTLOG_E_LEAST, LIFTLOG_E_MOST);
    uint32_t s = number(count == 4 ? words[3] : "15", LIFTLOG_S_LEAST, LIFTLOG_S_MOST);
    if (e == 0 || s == 0)
        return usage(stderr, USAGE);
    file = file_open(words[1], e, (uint8_t)s);
    device = file_device(&file);
    recover();
    int status = log_input();
    take(liftlog_close(state, file.image, file.length), "close");
    return status;
}
