// The most memory that a program had, in KiB, on standard output:
//
//     peak PROGRAM WORDS..
//
// A child's count begins with what the process that started it had. This one has little, so the count is the program's
// own.
#include <cstdio>
#include <fcntl.h>
#include <sys/resource.h>
#include <sys/wait.h>
#include <unistd.h>

int main(int count, char **words) {
    if (count < 2) {
        return 2;
    }
    pid_t child = fork();
    if (child == 0) {
        dup2(open("/dev/null", O_WRONLY), STDOUT_FILENO);
        execv(words[1], words + 1);
        _exit(127);
    }
    int status;
    struct rusage used;
    if (child < 0 || wait4(child, &status, 0, &used) != child || status != 0) {
        return 1;
    }
    std::printf("%ld\n", used.ru_maxrss);
}
