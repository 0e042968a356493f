/* Reads all of standard input and parses its numbers with the C library. This is the work of the program `constriction`
   besides coding. Without arguments, it prints the number of numbers and their sum. With COUNT and LIMIT, it writes COUNT
   numbers below LIMIT as a line, as the program writes its results. */
#include <stdio.h>
#include <stdlib.h>

/* Writes numbers spread over 0 .. limit, separated by spaces, and a line feed. */
static int write_line(size_t count, unsigned long limit) {
    char *line = malloc(21 * count + 1), *at = line;
    if (!line) return 1;
    for (size_t i = 0; i < count; i++) {
        unsigned long number = i * 2654435761 % limit;
        char digits[20], *first = digits + sizeof digits;
        do *--first = '0' + number % 10; while (number /= 10);
        if (i) *at++ = ' ';
        while (first < digits + sizeof digits) *at++ = *first++;
    }
    *at++ = '\n';
    size_t length = at - line;
    return fwrite(line, 1, length, stdout) != length;
}

int main(int arguments, char **argument) {
    size_t room = 1 << 16, length = 0, got;
    char *text = malloc(room + 1);
    while (text && (got = fread(text + length, 1, room - length, stdin)) > 0) {
        length += got;
        if (length == room) text = realloc(text, (room *= 2) + 1);
    }
    if (!text) return 1;
    text[length] = '\0';

    unsigned long *numbers = NULL, sum = 0;
    size_t count = 0, places = 0;
    for (char *at = text, *end;; at = end) {
        unsigned long number = strtoul(at, &end, 10);
        if (end == at) break;
        if (count == places) {
            places = places ? 2 * places : 1 << 10;
            numbers = realloc(numbers, places * sizeof *numbers);
            if (!numbers) return 1;
        }
        numbers[count++] = number;
    }
    if (arguments == 3) return write_line(strtoul(argument[1], NULL, 10), strtoul(argument[2], NULL, 10));
    for (size_t i = 0; i < count; i++) sum += numbers[i];
    printf("%zu %lu\n", count, sum);
    return 0;
}
