// Strings, a table of them, and calls with any number of arguments.
#include <stdio.h>

static const char *const days[] = {"Monday", "Tuesday", "Wednesday"};

void greet(unsigned day, double hours)
{
    if (day < 3)
        printf("%s:\t%.1f hours\n", days[day], hours);
    else
        fputs("\"no day\" \xf0\x9f\x99\x82\n", stderr);
}
