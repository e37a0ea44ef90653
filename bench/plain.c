// A yardstick for speed: the run of a listing in plain C, write-back layer included. It takes a listing without faults.
// With a number it runs it so often, and prints what pace prints; on standard error it says how many turns applied a rule,
// and how many did not, in all runs.
#include <stdint.h>
#include <stdio.h>
#include <stdlib.h>
#include <string.h>

enum { CELLS = 4096, JOBS = 16, STEPS = 24, HELD = 32, ALLOTMENTS = 3000 };

typedef struct { uint32_t cell, number; } Entry;
typedef struct { Entry entries[STEPS]; int len; } Log;
typedef struct { char letter; uint32_t fields[3]; } Step;
typedef enum { START, AT, ROLLBACK, VALIDATE, COMMIT, DONE } Stage;
typedef struct {
    Step steps[STEPS];
    int len, at, marked;
    Stage stage;
    uint32_t registers[8], starts;
    Log reads, writes;
} Job;

static uint32_t words[CELLS], count;
static Entry held[HELD];
static int held_len;
static Job jobs[JOBS];
static uint64_t applied, idle, settings;
static int job_count, holder = -1, order[JOBS], joined;

static uint32_t get(uint32_t cell) {
    if (cell >= count) return 0;
    for (int i = 0; i < held_len; i++)
        if (held[i].cell == cell) return held[i].number;
    return words[cell];
}

static void set(uint32_t cell, uint32_t number) {
    if (cell >= count) return;
    for (int i = 0; i < held_len; i++)
        if (held[i].cell == cell) { held[i].number = number; return; }
    if (held_len == HELD) {
        words[held[0].cell] = held[0].number;
        memmove(held, held + 1, (HELD - 1) * sizeof held[0]);
        held_len--;
    }
    held[held_len++] = (Entry){cell, number};
}

static int find(const Log *log, uint32_t cell) {
    for (int i = 0; i < log->len && log->entries[i].cell <= cell; i++)
        if (log->entries[i].cell == cell) return i;
    return -1;
}

static void put(Log *log, uint32_t cell, uint32_t number) {
    int i = 0;
    while (i < log->len && log->entries[i].cell < cell) i++;
    if (i == log->len || log->entries[i].cell != cell)
        memmove(log->entries + i + 1, log->entries + i, (log->len++ - i) * sizeof(Entry));
    log->entries[i] = (Entry){cell, number};
}

static void take(Log *log, int i) {
    memmove(log->entries + i, log->entries + i + 1, (--log->len - i) * sizeof(Entry));
}

// The first entry that equals its cell, or that differs.
static int first(const Log *log, int same) {
    for (int i = 0; i < log->len; i++)
        if ((get(log->entries[i].cell) == log->entries[i].number) == same) return i;
    return -1;
}

static uint32_t read_cell(Job *job, uint32_t cell) {
    int i = find(&job->writes, cell);
    if (i >= 0) return job->writes.entries[i].number;
    i = find(&job->reads, cell);
    if (i >= 0) return job->reads.entries[i].number;
    uint32_t number = get(cell);
    put(&job->reads, cell, number);
    return number;
}

// A step answers whether a rule was applied, and so does a turn.
static int step(Job *job) {
    const uint32_t *f = job->steps[job->at].fields;
    uint32_t *r = job->registers;
    switch (job->steps[job->at++].letter) {
    case 'R': r[f[0]] = read_cell(job, f[1]); return 1;
    case 'W': put(&job->writes, f[0], r[f[1]]); return 1;
    case 'K': r[f[0]] = f[1]; return 1;
    case 'A': r[f[0]] += r[f[1]]; return 1;
    case 'S': r[f[0]] -= r[f[1]]; return 1;
    case 'L': if (r[f[0]] < r[f[1]]) job->at = f[2] - 1; return 1;
    case 'T':
        job->at--;
        if (first(&job->reads, 0) < 0) return 0;
        job->stage = ROLLBACK;
        return 1;
    default:
        job->at--;
        if (holder >= 0) return 0;
        job->marked = 1;
        job->stage = VALIDATE;
        return 1;
    }
}

static void validate(Job *job, int j) {
    if (job->marked) {
        int i = first(&job->reads, 1);
        if (i >= 0) { take(&job->reads, i); return; }
        if (job->reads.len) { take(&job->reads, 0); job->marked = 0; }
        else if (holder < 0) { job->marked = 0; holder = j; job->stage = COMMIT; return; }
    }
    job->stage = ROLLBACK;
}

static void commit(Job *job, int j) {
    for (int i = 0; i < job_count; i++)
        if (i != j && jobs[i].marked) { jobs[i].marked = 0; return; }
    if (job->writes.len) {
        set(job->writes.entries[0].cell, job->writes.entries[0].number);
        settings++;
        take(&job->writes, 0);
        return;
    }
    holder = -1;
    order[joined++] = j + 1;
    job->stage = DONE;
}

static int turn(int j) {
    Job *job = jobs + j;
    switch (job->stage) {
    case START:
        if (job->writes.len) take(&job->writes, 0);
        else if (job->reads.len) take(&job->reads, 0);
        else { memset(job->registers, 0, sizeof job->registers); job->starts++; job->at = 0; job->stage = AT; }
        return 1;
    case AT: return step(job);
    case ROLLBACK: job->stage = START; return 1;
    case VALIDATE: validate(job, j); return 1;
    case COMMIT: commit(job, j); return 1;
    default: return 0;
    }
}

static Entry presets[ALLOTMENTS];
static uint32_t preset_count, who[ALLOTMENTS], turns[ALLOTMENTS], allotments;

static void read_listing(void) {
    static char text[70000];
    text[fread(text, 1, sizeof text - 1, stdin)] = 0;
    for (char *line = text, *end; *line; line = end + 1) {
        uint32_t f[3] = {0, 0, 0};
        int fields = 0;
        end = strchr(line, '\n');
        for (char *p = line + 1; p < end; p += 11) f[fields++] = strtoul(p, 0, 10);
        switch (*line) {
        case 'M': count = f[0]; break;
        case 'C': presets[preset_count++] = (Entry){f[0], f[1]}; break;
        case 'J': job_count++; break;
        case 'G': who[allotments] = f[0]; turns[allotments++] = f[1]; break;
        default: {
            Job *job = jobs + job_count - 1;
            job->steps[job->len++] = (Step){*line, {f[0], f[1], f[2]}};
        }
        }
    }
}

// The whole run, from cells that hold 0. After a turn that applies no rule the others of its line are not taken.
static void run(void) {
    memset(words, 0, sizeof words);
    held_len = joined = 0;
    holder = -1;
    for (int j = 0; j < job_count; j++) {
        jobs[j].reads.len = jobs[j].writes.len = jobs[j].marked = 0;
        jobs[j].starts = 0;
        jobs[j].stage = START;
    }
    for (uint32_t i = 0; i < preset_count; i++) set(presets[i].cell, presets[i].number);
    for (uint32_t i = 0; i < allotments; i++)
        for (uint32_t k = 0; k < turns[i]; k++) {
            if (!turn(who[i] - 1)) { idle++; break; }
            applied++;
        }
    for (; holder >= 0; applied++) turn(holder);
}

static void report(void) {
    for (int i = 0; i < joined; i++) printf("D%11d%11d\n", i + 1, order[i]);
    for (int i = 0; i < job_count; i++) {
        int committed = 0;
        for (int k = 0; k < joined; k++) committed |= order[k] == i + 1;
        printf("N%11d%11u%11d\n", i + 1, jobs[i].starts, committed);
    }
    for (uint32_t c = 0; c < count; c++) printf("C%11u%11u\n", c, get(c));
}

int main(int words_given, char **word) {
    read_listing();
    if (words_given < 2) {
        run();
        report();
        return 0;
    }
    unsigned long long starts = 0;
    long times = atol(word[1]);
    for (long i = 0; i < times; i++) {
        run();
        for (int j = 0; j < job_count; j++) starts += jobs[j].starts;
    }
    printf("%ld runs: jobs started %llu times, and cells were set %llu times\n", times, starts, (unsigned long long)settings);
    fprintf(stderr, "%llu %llu\n", (unsigned long long)applied, (unsigned long long)idle);
}
