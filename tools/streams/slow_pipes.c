/* slow_pipes PROGRAM: runs the program with standard input and output as pipes that do not block on its side, and feeds and drains them slowly:
   our input goes in and what comes out is ours. */
#define _GNU_SOURCE
#include <errno.h>
#include <fcntl.h>
#include <poll.h>
#include <stdio.h>
#include <sys/wait.h>
#include <time.h>
#include <unistd.h>

enum { CHUNK = 4096 };

static void child(const int in[2], const int out[2], char **command) {
    dup2(in[0], 0);
    dup2(out[1], 1);
    close(in[0]), close(in[1]), close(out[0]), close(out[1]);
    fcntl(0, F_SETFL, O_NONBLOCK);
    fcntl(1, F_SETFL, O_NONBLOCK);
    execv(command[0], command);
    _exit(127);
}

static void wait_a_little(void) {
    struct timespec little = {0, 500000};
    nanosleep(&little, NULL);
}

/* One chunk from one descriptor to another; whether there was one. */
static int moved(int from, int to) {
    char chunk[CHUNK];
    ssize_t n = read(from, chunk, sizeof chunk);
    for (ssize_t done = 0; done < n;) {
        ssize_t put = write(to, chunk + done, (size_t)(n - done));
        if (put < 0) return 0;
        done += put;
    }
    return n > 0;
}

int main(int count, char **arguments) {
    int in[2], out[2], feeding = 1, draining = 1, status = 0;
    if (count < 2 || pipe(in) != 0 || pipe(out) != 0) return 2;
    pid_t program = fork();
    if (program == 0) child(in, out, arguments + 1);
    close(in[0]), close(out[1]);
    for (unsigned turn = 0; feeding || draining; turn++) {
        struct pollfd ends[2] = {{feeding ? in[1] : -1, POLLOUT, 0}, {draining && (turn % 4 == 0 || !feeding) ? out[0] : -1, POLLIN, 0}};
        poll(ends, 2, 10);
        wait_a_little();
        if (ends[0].revents != 0 && !(feeding = moved(0, in[1]))) close(in[1]);
        if (ends[1].revents != 0) draining = moved(out[0], 1);
    }
    if (program < 0 || waitpid(program, &status, 0) < 0) return 2;
    return WIFEXITED(status) ? WEXITSTATUS(status) : 1;
}
