/* Reads its input line by line. With a word it writes `yes` and a point for each line, by a call of its own. */
#include <string.h>
#include <unistd.h>

static char buffer[1 << 16];

int main(int count, char **words)
{
    ssize_t length;

    (void)words;
    while ((length = read(0, buffer, sizeof buffer)) > 0) {
        char *from = buffer, *end = buffer + length, *at;
        while ((at = memchr(from, '\n', end - from)) != NULL) {
            if (count > 1 && write(1, "yes\n.\n", 6) != 6)
                return 1;
            from = at + 1;
        }
    }
    return length != 0;
}
