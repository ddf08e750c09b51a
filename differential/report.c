/* Reads a plan text from standard input and prints its report, or the line (refused N), through the library's C header. */
#include "vamzsolik.h"

#include <stdio.h>

#define MAX_TEXT 65537

static uint8_t text[MAX_TEXT];
static uint8_t out[VAMZSOLIK_MAX_REPORT];
static double numbers[VAMZSOLIK_MAX_NUMBERS];

int main(void)
{
    size_t length = fread(text, 1, MAX_TEXT, stdin);
    int64_t report = report_c(text, length, out, VAMZSOLIK_MAX_REPORT);
    int64_t marks = marks_c(text, length, numbers, VAMZSOLIK_MAX_NUMBERS);
    if (report < 0) {
        printf("(refused %lld)\n", (long long)-report);
        return marks == report ? 0 : 1;
    }
    fwrite(out, 1, (size_t)report, stdout);
    return marks > 0 ? 0 : 1;
}
