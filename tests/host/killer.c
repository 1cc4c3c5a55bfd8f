/*
 * killer TURN COMMAND...: runs a command and kills it at one of its system calls.
 * Each call has two turns, before it is done and after. Exit status 0 if the
 * command was killed; if it ended by itself, 1 and the count of turns on standard
 * error.
 */
#define _GNU_SOURCE
#include <signal.h>
#include <stdio.h>
#include <stdlib.h>
#include <sys/ptrace.h>
#include <sys/wait.h>
#include <unistd.h>

static void be_traced(char **command)
{
    if (ptrace(PTRACE_TRACEME, 0, NULL, NULL) != 0 || raise(SIGSTOP) != 0)
        _exit(2);
    execv(command[0], command);
    _exit(2);
}

/* Whether the child stopped at a system call; other signals go on to it. */
static int stopped_at_call(int status, int *signal_number)
{
    *signal_number = WSTOPSIG(status);
    if (*signal_number == (SIGTRAP | 0x80)) {
        *signal_number = 0;
        return 1;
    }
    if (*signal_number == SIGTRAP)
        *signal_number = 0;
    return 0;
}

int main(int count, char **arguments)
{
    long turn = count > 2 ? atol(arguments[1]) : 0, turns = 0;
    int status, signal_number = 0;
    pid_t child;
    if (turn <= 0 || (child = fork()) < 0)
        return 2;
    if (child == 0)
        be_traced(arguments + 2);
    if (waitpid(child, &status, 0) != child || !WIFSTOPPED(status) ||
        ptrace(PTRACE_SETOPTIONS, child, NULL,
               (void *)(long)(PTRACE_O_TRACESYSGOOD | PTRACE_O_EXITKILL)) != 0)
        return 2;
    while (ptrace(PTRACE_SYSCALL, child, NULL, (void *)(long)signal_number) == 0 &&
           waitpid(child, &status, 0) == child && WIFSTOPPED(status)) {
        if (stopped_at_call(status, &signal_number) && ++turns == turn) {
            kill(child, SIGKILL);
            return waitpid(child, &status, 0) == child && WIFSIGNALED(status) ? 0 : 2;
        }
    }
    fprintf(stderr, "%ld\n", turns);
    return 1;
}
