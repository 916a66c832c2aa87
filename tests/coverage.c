// Linked into a program whose blocks tests/coverage.py has marked. A block that is entered stores 1 at its place in `entered`,
// which lies in the file ENTERED. So runs add up, even those that are killed, that run at the same time, or that have no
// environment.
#include <fcntl.h>
#include <sys/mman.h>
#include <unistd.h>

// Far more than there are blocks.
char entered[1 << 16] __attribute__((aligned(1 << 12)));

__attribute__((constructor)) static void share(void) {
    int file = open(ENTERED, O_RDWR | O_CREAT, 0666);
    if (file >= 0 && ftruncate(file, sizeof entered) == 0)
        mmap(entered, sizeof entered, PROT_READ | PROT_WRITE, MAP_SHARED | MAP_FIXED, file, 0);
    close(file);
}
