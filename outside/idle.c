/* A program that writes its version, and nothing else. Each test of csqsim has to fail it. */
#include <stdio.h>
#include <string.h>

int main(int count, char **words)
{
    if (count == 2 && strcmp(words[1], "--version") == 0)
        puts("csqsim 0");
    return 0;
}
