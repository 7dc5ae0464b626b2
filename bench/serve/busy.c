// A program that never rests: it counts until it is killed, or until the process that started it ends.
#include <signal.h>
#include <sys/prctl.h>

int main(void) {
    prctl(PR_SET_PDEATHSIG, SIGKILL);
    for (volatile unsigned long count = 0;; count++) {
    }
}
