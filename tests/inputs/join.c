/* Puts each request and its answer one after the other.
     join REQUESTS ANSWERS [answered] > LIST
   With `answered` it leaves out the requests to which there is no answer (255). */
#include <stdio.h>

int main(int argc, char **argv)
{
    char record[128];
    int all = argc == 3;
    if (argc != 3 && argc != 4) return 2;
    FILE *requests = fopen(argv[1], "rb"), *answers = fopen(argv[2], "rb");
    if (!requests || !answers) return 2;
    while (fread(record, 64, 1, requests) == 1) {
        if (fread(record + 64, 64, 1, answers) != 1) return 1;
        if (!all && (unsigned char)record[64] == 255) continue;
        if (fwrite(record, 128, 1, stdout) != 1) return 1;
    }
    return fflush(stdout) != 0;
}
