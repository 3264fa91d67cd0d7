/* Runs a program up to a system call of it: kill_at N PROGRAM WORDS..

   The program is killed right before its Nth call, and kill_at ends with 99. With a shell command in $AT that is run
   there instead, and the program goes on. If the program makes fewer calls, kill_at ends as it does, and with 98 if it
   can't be traced. */
#include <signal.h>
#include <stdlib.h>
#include <sys/ptrace.h>
#include <sys/wait.h>
#include <unistd.h>

enum { KILLED = 99, UNTRACED = 98, AT_CALL = SIGTRAP | 0x80 };

/* What is done at the call. Returns whether the program goes on. */
static int reached(pid_t program) {
    const char *command = getenv("AT");
    if (command) return system(command) == 0;
    kill(program, SIGKILL);
    return 0;
}

int main(int count, char **words) {
    if (count < 3) return UNTRACED;
    long left = atol(words[1]);
    pid_t program = fork();
    if (program == 0) {
        if (ptrace(PTRACE_TRACEME, 0, 0, 0)) _exit(UNTRACED);
        execv(words[2], words + 2);
        _exit(UNTRACED);
    }
    int status, enters = 1;
    if (waitpid(program, &status, 0) < 0 || !WIFSTOPPED(status)) return UNTRACED;
    if (ptrace(PTRACE_SETOPTIONS, program, 0, PTRACE_O_TRACESYSGOOD | PTRACE_O_EXITKILL)) return UNTRACED;
    for (;;) {
        if (ptrace(PTRACE_SYSCALL, program, 0, 0) || waitpid(program, &status, 0) < 0) return UNTRACED;
        if (WIFEXITED(status)) return WEXITSTATUS(status);
        if (WIFSIGNALED(status)) return 128 + WTERMSIG(status);
        if (WSTOPSIG(status) != AT_CALL) continue;
        if (enters && --left == 0 && !reached(program)) {
            waitpid(program, &status, 0);
            return KILLED;
        }
        enters = !enters;
    }
}
