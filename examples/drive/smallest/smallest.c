/* The smallest harness of `swimsim drive`: a plain detector by pings and acks.

   Each member pings the next one of a ring every second, and suspects it where no ack came in 300 ticks.

       cc -o smallest smallest.c
       ./smallest swimsim drive FILE --trace T

   It starts the words behind its own name as a child, reads the child's events and answers each of them. */
#include <stdio.h>
#include <stdlib.h>
#include <string.h>
#include <unistd.h>

enum { MEMBERS = 4096, NAME = 32, BEAT = 0, TIMEOUT = 1 };

static char names[MEMBERS][NAME];
static int members;
static long probe[MEMBERS], acked[MEMBERS]; /* numbers of the last probe, and of the last ack */

/* The text behind "NAME": in a line, or NULL. Lines have no blanks, so this is all that it takes. */
static const char *behind(const char *line, const char *name) {
    char quoted[64];
    snprintf(quoted, sizeof quoted, "\"%s\":", name);
    const char *place = strstr(line, quoted);
    return place ? place + strlen(quoted) : NULL;
}

static long number(const char *line, const char *name) {
    return strtol(behind(line, name), NULL, 10);
}

/* Copies the text in quotes that stands here. */
static void text(const char *place, char *to) {
    sscanf(place, "\"%31[^\"]", to);
}

static int member(const char *line, const char *which) {
    char name[NAME];
    text(behind(line, which), name);
    for (int at = 0; at < members; at++)
        if (strcmp(names[at], name) == 0) return at;
    exit(1);
}

/* The first line has all members, in the order of their numbers. */
static void read_members(const char *line) {
    const char *place = behind(line, "members");
    if (!place) return;
    while (*place != ']') {
        text(place + 1, names[members++]);
        place = strchr(strchr(place + 1, '"') + 1, '"') + 1;
    }
}

/* Answers an event, but for a crash and the end. */
static void answer(const char *line, FILE *out) {
    int here = member(line, "member"), next = (here + 1) % members;
    const char *event = behind(line, "event");
    if (strncmp(event, "\"start\"", 7) == 0) {
        fprintf(out, "[{\"timer\":%d,\"after\":%d}]\n", BEAT, 1 + here % 1000);
    } else if (strncmp(event, "\"timer\"", 7) == 0 && number(line, "id") == BEAT) {
        probe[here]++;
        if (members == 1) { fprintf(out, "[]\n"); return; }
        fprintf(out, "[{\"send\":\"ping\",\"to\":\"%s\",\"value\":%ld},", names[next], probe[here]);
        fprintf(out, "{\"timer\":%d,\"after\":300},{\"timer\":%d,\"after\":1000}]\n", TIMEOUT, BEAT);
    } else if (strncmp(event, "\"timer\"", 7) == 0 && acked[here] < probe[here]) {
        fprintf(out, "[{\"row\":\"suspect\",\"about\":\"%s\"}]\n", names[next]);
    } else if (strncmp(event, "\"message\"", 9) == 0 && strstr(line, "\"what\":\"ping\"")) {
        fprintf(out, "[{\"send\":\"ack\",\"to\":\"%s\",\"value\":%ld}]\n", names[member(line, "from")], number(line, "value"));
    } else {
        if (strncmp(event, "\"message\"", 9) == 0) acked[here] = number(line, "value");
        fprintf(out, "[]\n");
    }
}

int main(int count, char **words) {
    int events[2], answers[2];
    if (count < 2 || pipe(events) || pipe(answers)) return 1;
    if (fork() == 0) {
        dup2(answers[0], 0), dup2(events[1], 1);
        close(answers[1]), close(events[0]);
        execvp(words[1], words + 1);
        _exit(127);
    }
    close(answers[0]), close(events[1]);
    FILE *in = fdopen(events[0], "r"), *out = fdopen(answers[1], "w");
    char *line = NULL;
    size_t room = 0;
    while (getline(&line, &room, in) > 0) {
        read_members(line);
        if (!strstr(line, "\"event\":\"crash\"") && !strstr(line, "\"event\":\"end\"")) answer(line, out);
        fflush(out);
    }
    return 0;
}
