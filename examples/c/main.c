/* Reads rule.book and trace.run in the current folder and prints the rule watch's line. */
#include <stdio.h>

#include "rulewatch.h"

static size_t read_front(const char *path, uint8_t *buf, size_t size) {
    FILE *file = fopen(path, "rb");
    if (file == NULL) {
        return 0;
    }
    size_t n = fread(buf, 1, size, file);
    fclose(file);
    return n;
}

int main(void) {
    /* one byte more than the longest book and the longest trace, so that longer files are refused for their length */
    static uint8_t book[1537];
    static uint8_t trace[32769];
    uint8_t line[RULEWATCH_LINE_MAX];
    size_t book_len = read_front("rule.book", book, sizeof book);
    size_t trace_len = read_front("trace.run", trace, sizeof trace);
    size_t n = rulewatch_run(book, book_len, trace, trace_len, line, sizeof line);
    fwrite(line, 1, n, stdout);
    return n == 0;
}
