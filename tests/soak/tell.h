/* What a soak tells of itself: the answers by number, and the memory that a process holds. */
#ifndef TELL_H
#define TELL_H

#include <stdio.h>

/* How often each number was answered, without those that never came. */
static void print_answers(const unsigned long *by_number, int numbers)
{
    for (int i = 0; i < numbers; i++)
        if (by_number[i]) printf(" %d:%lu", i, by_number[i]);
}

/* The memory of a process in kB ("self", or its id), or -1 where it cannot be read. */
static long resident_kb(const char *process)
{
    char path[64], row[256];
    long kb = -1;
    snprintf(path, sizeof path, "/proc/%s/status", process);
    FILE *status = fopen(path, "r");
    if (status == NULL) return -1;
    while (kb < 0 && fgets(row, sizeof row, status) != NULL)
        if (sscanf(row, "VmRSS: %ld kB", &kb) != 1) kb = -1;
    fclose(status);
    return kb;
}

#endif
