/* Runs scripts as the program mscpq does, each as its own run would, and behind each writes its name and status. A word that
 * begins with @ is the digits of a message, which is shown. */
#include <stdio.h>

int program(int argc, char **argv);
#define main program
#include "../../portable/mscpq.c"
#undef main

int main(int argc, char **argv)
{
    static char run_word[] = "run", packet_word[] = "packet";
    char *words[] = {argv[0], NULL, NULL, NULL};
    int at;
    for (at = 1; at < argc; at++) {
        int status;
        words[1] = argv[at][0] == '@' ? packet_word : run_word;
        words[2] = argv[at][0] == '@' ? argv[at] + 1 : argv[at];
        status = program(3, words);
        fflush(stderr);
        printf("= %s %d\n", argv[at], status);
        fflush(stdout);
    }
    return 0;
}
