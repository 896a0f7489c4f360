/* feed HOW FILE COMMAND [ARGS..]: runs the command on the bytes of FILE, in a way that a shell has no words for, and ends with its status.
   slow     through a pipe, 5 bytes at a time, each part once the one before it was taken
   stuck    the same pipe, but its reading end never waits, and after the first 5 bytes no more come until the command has ended: its read fails
   unread   FILE is its standard input, and its standard output a pipe that nobody reads: a write fails, or is ended by the signal PIPE
            where the command does not ignore it
   ignored  the same, with that signal ignored from the start: a write fails
   A command that does neither take its part nor end within a minute is given the rest. */
#define _GNU_SOURCE
#include <fcntl.h>
#include <signal.h>
#include <stdio.h>
#include <stdlib.h>
#include <string.h>
#include <sys/ioctl.h>
#include <sys/wait.h>
#include <unistd.h>

enum { PART = 5, TURNS = 30000 }; /* turns of 2 ms */

static void need(int held, const char *what) {
    if (held) return;
    perror(what);
    exit(3);
}

static int is_ended(pid_t child) {
    siginfo_t told;
    told.si_pid = 0;
    need(waitid(P_PID, (id_t)child, &told, WEXITED | WNOHANG | WNOWAIT) == 0, "waitid");
    return told.si_pid != 0;
}

/* waits until the command has ended or, where taken is asked, has taken all that lies in the pipe */
static void wait_for(pid_t child, int pipe_end, int taken) {
    for (int turn = 0; turn < TURNS; turn++) {
        int left = 1;
        if (is_ended(child)) return;
        if (taken && ioctl(pipe_end, FIONREAD, &left) == 0 && left == 0) return;
        usleep(2000);
    }
}

static void start(char **command, int from, int to, int to_close) {
    if (from != 0) need(dup2(from, 0) == 0 && close(from) == 0, "dup2");
    if (to != 1) need(dup2(to, 1) == 1 && close(to) == 0, "dup2");
    if (to_close >= 0) close(to_close);
    execvp(command[0], command);
    perror(command[0]);
    _exit(3);
}

static void put_parts(pid_t child, int in, int to, int is_stuck) {
    char part[PART];
    ssize_t n;
    while ((n = read(in, part, PART)) > 0 && write(to, part, (size_t)n) == n) {
        wait_for(child, to, 1);
        if (is_stuck) wait_for(child, to, 0);
        is_stuck = 0;
    }
    close(to);
}

int main(int count, char **words) {
    need(count >= 4, "usage: feed slow|stuck|unread|ignored FILE COMMAND [ARGS..]");
    int is_stuck = strcmp(words[1], "stuck") == 0, is_slow = strcmp(words[1], "slow") == 0;
    int is_ignored = strcmp(words[1], "ignored") == 0;
    int in = open(words[2], O_RDONLY | O_CLOEXEC), ends[2], status;
    need(in >= 0, words[2]);
    need(pipe(ends) == 0, "pipe");
    if (is_stuck) need(fcntl(ends[0], F_SETFL, O_NONBLOCK) == 0, "fcntl");
    if (!is_slow && !is_stuck) close(ends[0]);
    pid_t child = fork();
    need(child >= 0, "fork");
    if (child == 0) {
        signal(SIGPIPE, is_ignored ? SIG_IGN : SIG_DFL);
        if (is_slow || is_stuck) start(words + 3, ends[0], 1, ends[1]);
        start(words + 3, in, ends[1], -1);
    }
    signal(SIGPIPE, SIG_IGN);
    if (is_slow || is_stuck) {
        close(ends[0]);
        put_parts(child, in, ends[1], is_stuck);
    }
    need(waitpid(child, &status, 0) == child, "waitpid");
    return WIFEXITED(status) ? WEXITSTATUS(status) : 128 + WTERMSIG(status);
}
