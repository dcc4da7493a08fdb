/* Hands mutated jobs to the router, with output memory of any size and now and then too little memory to run, and looks at every
 * answer.
 *
 *     fuzz COUNT SEED JOB...
 *
 * The job and the output memory each end at a page that may not be touched, so that a read or write past the end stops the program;
 * the bytes in front of the output and those behind what was written must stay as they were. What was written must be lines of
 * the forms that a job says. A job run twice must give the same answer.
 */
#include "sumoalder.h"

#include <stdbool.h>
#include <stdio.h>
#include <stdlib.h>
#include <string.h>
#include <sys/mman.h>
#include <unistd.h>

/* ---- memory for the router: as memory.c, but the call number `fail_at` finds none */

struct rattle_memory {
    bool found;
    void *at;
};

struct rattle_memory rattle_alloc(size_t size, size_t alignment);
struct rattle_memory rattle_realloc(void *at, size_t kept, size_t size, size_t alignment);
void rattle_dealloc(void *at);

static char nowhere;
static long allocations, fail_at = -1, live;

struct rattle_memory rattle_alloc(size_t size, size_t alignment)
{
    if (allocations++ == fail_at)
        return (struct rattle_memory){false, &nowhere};
    void *at = malloc(size > 0 ? size : alignment);
    if (at == NULL)
        return (struct rattle_memory){false, &nowhere};
    live++;
    return (struct rattle_memory){true, at};
}

struct rattle_memory rattle_realloc(void *at, size_t kept, size_t size, size_t alignment)
{
    (void)kept;
    if (allocations++ == fail_at)
        return (struct rattle_memory){false, &nowhere};
    void *to = realloc(at, size > 0 ? size : alignment);
    return (struct rattle_memory){to != NULL, to != NULL ? to : &nowhere};
}

void rattle_dealloc(void *at)
{
    live--;
    free(at);
}

/* ---- chance */

static uint64_t state;

static uint64_t next(void)
{
    state ^= state << 13;
    state ^= state >> 7;
    state ^= state << 17;
    return state;
}

static size_t below(size_t n)
{
    return n == 0 ? 0 : (size_t)(next() % n);
}

/* ---- mutation */

enum { JOB_ROOM = 40000, OUTPUT_ROOM = 70000, FRONT = 64 };

static uint8_t job[JOB_ROOM];
static size_t length;

static void splice(size_t at, size_t cut, const uint8_t *in, size_t in_length)
{
    if (at > length)
        at = length;
    if (cut > length - at)
        cut = length - at;
    if (length - cut + in_length > JOB_ROOM)
        return;
    memmove(job + at + in_length, job + at + cut, length - at - cut);
    memcpy(job + at, in, in_length);
    length = length - cut + in_length;
}

/* The first byte of the line that holds `at`, and how long the line is with its LF. */
static size_t line_at(size_t at, size_t *line_length)
{
    size_t from = at, to = at;
    while (from > 0 && job[from - 1] != '\n')
        from--;
    while (to < length && job[to] != '\n')
        to++;
    *line_length = to - from + (to < length ? 1 : 0);
    return from;
}

static void mutate(void)
{
    static const char *const words[] = {
        "field ", "escape ", "pad ", "land ", "keep ", "place ", "lift ", "bar ", "clear ", "show ", " ", "  ", "\n", "\r\n", "\t", "0",
        "1", "2", "9999", "65535", "10000", "00", "A", "B", "ABCDEFGH", "ABCDEFGHI", "-1", "+1", "field 64 32\n", "escape 1 1\n",
        "show A\n", "place B\n", "bar 1 0 0\n", "clear 2 0 1\n", "keep 1 0 0\n", "land 0 0\n", "pad Z 1 1\n", "\xff", "\x80",
    };
    uint8_t copy[600], byte = (uint8_t)next();
    size_t at = below(length + 1), line_length, from;
    const char *word = words[below(sizeof words / sizeof *words)];
    switch (below(8)) {
    case 0:
        splice(at, 1, &byte, 1);
        break;
    case 1:
        splice(at, 1 + below(8), &byte, 0);
        break;
    case 2:
        splice(at, below(3), (const uint8_t *)word, strlen(word));
        break;
    case 3:
        from = line_at(at, &line_length);
        splice(from, line_length, &byte, 0);
        break;
    case 4:
        from = line_at(at, &line_length);
        if (line_length > 0 && line_length <= sizeof copy) {
            memcpy(copy, job + from, line_length);
            from = line_at(below(length + 1), &(size_t){0});
            splice(from, 0, copy, line_length);
        }
        break;
    case 5:
        byte = (uint8_t)('0' + below(10));
        while (at < length && (job[at] < '0' || job[at] > '9'))
            at++;
        if (at < length)
            job[at] = byte;
        break;
    case 6:
        byte = (uint8_t)('A' + below(4));
        while (at < length && (job[at] < 'A' || job[at] > 'Z'))
            at++;
        if (at < length)
            job[at] = byte;
        break;
    default:
        length = at;
    }
}

/* ---- memory that ends at a page that may not be touched */

static uint8_t *guarded(size_t room, uint8_t **end)
{
    size_t page = (size_t)sysconf(_SC_PAGESIZE);
    size_t size = (room + page - 1) / page * page;
    uint8_t *at = mmap(NULL, size + page, PROT_READ | PROT_WRITE, MAP_PRIVATE | MAP_ANONYMOUS, -1, 0);
    if (at == MAP_FAILED || mprotect(at + size, page, PROT_NONE) != 0) {
        perror("guarded memory");
        exit(2);
    }
    *end = at + size;
    return at;
}

/* ---- what an answer may be */

static void dump(const char *why, size_t output_length, uint64_t answer)
{
    fprintf(stderr, "%s: output memory %zu, answer %llu, allocation %ld fails; the job is in fuzz-failure.job\n", why, output_length,
            (unsigned long long)answer, fail_at);
    FILE *file = fopen("fuzz-failure.job", "wb");
    if (file != NULL) {
        fwrite(job, 1, length, file);
        fclose(file);
    }
    exit(1);
}

static const uint8_t *number(const uint8_t *s, const uint8_t *end)
{
    const uint8_t *from = s;
    while (s < end && *s >= '0' && *s <= '9')
        s++;
    return s > from && s - from <= 5 && (*from != '0' || s - from == 1) ? s : NULL;
}

static const uint8_t *word(const uint8_t *s, const uint8_t *end, const char *text)
{
    size_t n = strlen(text);
    return s != NULL && (size_t)(end - s) >= n && memcmp(s, text, n) == 0 ? s + n : NULL;
}

/* A line without its LF: an answer, a refusal or a course. */
static bool is_answer(const uint8_t *s, const uint8_t *end)
{
    const uint8_t *t = word(s, end, "ok ");
    if (t != NULL && number(t, end) == end)
        return true;
    t = word(s, end, "no ");
    if (t != NULL && word(t, end, "12 ") != NULL) {
        t = number(t + 3, end);
        t = word(t, end, " ");
        return t != NULL && number(t, end) == end;
    }
    if (t != NULL && number(t, end) == end)
        return true;
    const uint8_t *name = s;
    while (s < end && ((*s >= 'A' && *s <= 'Z') || (*s >= '0' && *s <= '9')))
        s++;
    if (s == name || s - name > 8 || s == end || *s++ != ' ' || s == end)
        return false;
    while (s < end && strchr("NESWD", *s) != NULL && *s != '\0')
        s++;
    return s == end;
}

/* The number of the fault that the line tells, or 0. */
static unsigned fault_of(const uint8_t *s, const uint8_t *end)
{
    static const struct {
        const char *tail;
        unsigned fault;
    } tails[] = {{" text 17", 17}, {" text 18", 18}, {" text 19", 19}, {" text 20", 20}, {" board 13", 13}, {" board 16", 16}};
    s = word(s, end, "fault ");
    s = s == NULL ? NULL : number(s, end);
    for (size_t i = 0; s != NULL && i < sizeof tails / sizeof *tails; i++)
        if (word(s, end, tails[i].tail) == end)
            return tails[i].fault;
    return 0;
}

static void look(const uint8_t *output, size_t output_length, uint64_t answer)
{
    size_t bytes = sumoalder_bytes(answer), from = 0;
    unsigned fault = sumoalder_fault(answer), told = 0;
    if (bytes > output_length)
        dump("more bytes than there is room for", output_length, answer);
    if ((fault == 21) != (length > SUMOALDER_JOB_MAX || output_length < SUMOALDER_OUTPUT_MIN))
        dump("fault 21", output_length, answer);
    if ((fault == 21 || fault == 33) && bytes != 0)
        dump("bytes written with 21 or 33", output_length, answer);
    if (fault == 33 && fail_at < 0)
        dump("fault 33 with memory enough", output_length, answer);
    while (from < bytes) {
        const uint8_t *lf = memchr(output + from, '\n', bytes - from);
        if (told != 0 || lf == NULL)
            dump("a line after the fault, or with no end", output_length, answer);
        told = fault_of(output + from, lf);
        if (told == 0 && !is_answer(output + from, lf))
            dump("no such line", output_length, answer);
        from = (size_t)(lf - output) + 1;
    }
    if (told != (fault == 21 || fault == 33 ? 0 : fault))
        dump("the fault told is another", output_length, answer);
}

int main(int argc, char **argv)
{
    if (argc < 4) {
        fprintf(stderr, "usage: fuzz COUNT SEED JOB...\n");
        return 2;
    }
    long count = atol(argv[1]), by_fault[256] = {0};
    state = (uint64_t)atoll(argv[2]) * 2654435761u + 1;
    uint8_t *job_end, *output_end, *again = malloc(OUTPUT_ROOM);
    uint8_t *job_from = guarded(JOB_ROOM, &job_end);
    uint8_t *output_from = guarded(OUTPUT_ROOM + FRONT, &output_end);
    (void)job_from;
    (void)output_from;
    for (long i = 0; i < count; i++) {
        FILE *file = fopen(argv[3 + below((size_t)argc - 3)], "rb");
        if (file == NULL || again == NULL) {
            perror("job");
            return 2;
        }
        length = fread(job, 1, JOB_ROOM, file);
        fclose(file);
        for (size_t k = below(6); k > 0; k--)
            mutate();
        size_t output_length = below(4) == 0 ? 65536 : below(4) == 0 ? below(30) : below(600);
        fail_at = below(8) == 0 ? (long)below(40) : -1;
        allocations = live = 0;

        uint8_t fill = (uint8_t)next(), *text = job_end - length, *output = output_end - output_length;
        memcpy(text, job, length);
        memset(output - FRONT, fill, output_length + FRONT);
        uint64_t answer = sumoalder_run_job(text, length, output, output_length);
        if (live != 0)
            dump("memory not given back", output_length, answer);
        if (memcmp(text, job, length) != 0)
            dump("the job was written to", output_length, answer);
        look(output, output_length, answer);
        for (size_t k = 0; k < FRONT; k++)
            if (output[(ptrdiff_t)k - FRONT] != fill)
                dump("written in front of the output", output_length, answer);
        for (size_t k = sumoalder_bytes(answer); k < output_length; k++)
            if (output[k] != fill)
                dump("written behind the bytes answered", output_length, answer);
        by_fault[sumoalder_fault(answer)]++;

        memcpy(again, output, output_length);
        memset(output, fill, output_length);
        allocations = 0;
        if (sumoalder_run_job(text, length, output, output_length) != answer || memcmp(again, output, output_length) != 0)
            dump("another answer the second time", output_length, answer);
    }
    free(again);
    printf("%ld jobs:", count);
    for (int k = 0; k < 256; k++)
        if (by_fault[k] > 0)
            printf(" %ld with %d,", by_fault[k], k);
    printf(" none wrong\n");
    return 0;
}
