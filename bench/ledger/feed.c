/* How fast a ledger answers: starts a program that reads operations from standard input and answers each with a line, in order, and keeps
 * so many operations in flight: for each answer it sends one more.
 *
 *   feed IN_FLIGHT SECONDS PROGRAM WORD..
 *
 * It prints how many operations a second were answered, and in nanoseconds how long half of the answers, 99 of a hundred, 999 of a thousand
 * and all took at most, from before an operation is sent until its answer is read. */
#define _POSIX_C_SOURCE 200809L
#include <stdint.h>
#include <stdio.h>
#include <stdlib.h>
#include <string.h>
#include <sys/wait.h>
#include <time.h>
#include <unistd.h>

enum { LINES = 1 << 16, LONGEST = 32, MOST_IN_FLIGHT = 1 << 16, PARTS = 64, BUCKETS = 64 * PARTS, ACCOUNTS = 1000 };

/* The operations, again and again: the k-th begins at begins[k]. */
static char text[LINES * LONGEST];
static size_t begins[LINES + 1];

/* When each operation in flight was sent, by its number; and of how many answers a time fell into which bucket. */
static uint64_t sent_at[MOST_IN_FLIGHT], buckets[BUCKETS];
static uint64_t sent, answered, most;
static int to, from;

static void fail(const char *what) {
    perror(what);
    exit(1);
}

static uint64_t now(void) {
    struct timespec time;
    clock_gettime(CLOCK_MONOTONIC, &time);
    return (uint64_t)time.tv_sec * 1000000000 + (uint64_t)time.tv_nsec;
}

/* Deposits, withdrawals and transfers over a thousand accounts, as those of bench/bench.py. */
static void make_lines(void) {
    for (int k = 0; k < LINES; k++) {
        char *line = text + begins[k];
        int account = k % ACCOUNTS, other = 7 * k % ACCOUNTS, amount = 1 + k % 97, length;
        if (k % 3 == 0) length = sprintf(line, "0,deposit,%d,%d\n", account, amount);
        else if (k % 3 == 1) length = sprintf(line, "0,withdraw,%d,%d\n", account, amount);
        else length = sprintf(line, "0,transfer,%d,%d,%d\n", account, other, amount);
        begins[k + 1] = begins[k] + (size_t)length;
    }
}

static void start(char **words) {
    int input[2], output[2];
    if (pipe(input) || pipe(output)) fail("pipe");
    pid_t child = fork();
    if (child < 0) fail("fork");
    if (child == 0) {
        dup2(input[0], 0), dup2(output[1], 1);
        close(input[0]), close(input[1]), close(output[0]), close(output[1]);
        execvp(words[0], words);
        fail(words[0]);
    }
    close(input[0]), close(output[1]);
    to = input[1], from = output[0];
}

static void write_all(const char *bytes, size_t count) {
    while (count) {
        ssize_t done = write(to, bytes, count);
        if (done <= 0) fail("write");
        bytes += done, count -= (size_t)done;
    }
}

/* Sends the next operations, with one write where they lie side by side. */
static void send(uint64_t count) {
    const uint64_t begun = now();
    for (uint64_t k = 0; k < count; k++) sent_at[(sent + k) % MOST_IN_FLIGHT] = begun;
    while (count) {
        const uint64_t first = sent % LINES, n = count < LINES - first ? count : LINES - first;
        write_all(text + begins[first], begins[first + n] - begins[first]);
        sent += n, count -= n;
    }
}

/* Those below PARTS each have a bucket, and from there on each power of two has PARTS of them. */
static size_t bucket_of(uint64_t nanos) {
    unsigned shift = 0;
    while (nanos >> shift >= 2 * PARTS) shift++;
    return shift * PARTS + (nanos >> shift);
}

static uint64_t least_of(size_t bucket) {
    const size_t shift = bucket < 2 * PARTS ? 0 : bucket / PARTS - 1;
    return (uint64_t)(bucket - shift * PARTS) << shift;
}

static void note(uint64_t nanos) {
    buckets[bucket_of(nanos)]++;
    if (nanos > most) most = nanos;
}

/* Reads what has come, at least something, and answers how many answers it has, or none at the end. */
static uint64_t receive(void) {
    static char bytes[1 << 16];
    uint64_t count = 0;
    while (count == 0) {
        const ssize_t there = read(from, bytes, sizeof bytes);
        if (there < 0) fail("read");
        if (there == 0) return 0;
        for (const char *at = bytes; (at = memchr(at, '\n', (size_t)(bytes + there - at))); at++) count++;
    }
    const uint64_t came = now();
    for (uint64_t k = 0; k < count; k++) note(came - sent_at[(answered + k) % MOST_IN_FLIGHT]);
    answered += count;
    return count;
}

static uint64_t part(double share, uint64_t all) {
    uint64_t upto = 0;
    size_t bucket = 0;
    while ((upto += buckets[bucket]) < share * (double)all) bucket++;
    return least_of(bucket);
}

/* Ends the program: all that was sent has to be answered. */
static void end(void) {
    int status;
    close(to);
    while (receive()) {}
    wait(&status);
    if (status || answered != sent) fprintf(stderr, "status %d, %lu answers of %lu\n", status, answered, sent), exit(1);
}

int main(int count, char **words) {
    if (count < 4) return fprintf(stderr, "usage: feed IN_FLIGHT SECONDS PROGRAM WORD..\n"), 1;
    const uint64_t in_flight = strtoull(words[1], NULL, 10);
    const double seconds = strtod(words[2], NULL);
    if (in_flight < 1 || in_flight > MOST_IN_FLIGHT) return fprintf(stderr, "from 1 to %d in flight\n", MOST_IN_FLIGHT), 1;
    make_lines();
    start(words + 3);
    /* (the first tells that it has started) */
    send(1);
    if (!receive()) return 1;
    memset(buckets, 0, sizeof buckets), most = 0;
    const uint64_t begun = now(), before = answered;
    send(in_flight);
    while ((double)(now() - begun) < seconds * 1e9) {
        const uint64_t came = receive();
        if (!came) return fprintf(stderr, "it ended\n"), 1;
        send(came);
    }
    const uint64_t all = answered - before;
    const double took = (double)(now() - begun) * 1e-9;
    printf("%.0f %lu %lu %lu %lu\n", (double)all / took, part(0.5, all), part(0.99, all), part(0.999, all), most);
    end();
    return 0;
}
