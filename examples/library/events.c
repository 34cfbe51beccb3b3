/* Prints the log of each hour from SINCE until UNTIL: events SINCE UNTIL <FILE, as events 2024-03-01 2024-03-08T12 <north.cadf */
#include <cadf.h>
#include <stdio.h>
#include <string.h>

static uint8_t file[1 << 26], parts[1 << 27], joined[1 << 27], shown[1 << 27];

int main(int count, char **words)
{
    struct cadf_bytes input = cadf_bytes_of(file, fread(file, 1, sizeof file, stdin)), hour = cadf_bytes_of("hour", 4), two[2];
    size_t many = 1, length = 0, size = 0, used = 0;
    int status = count == 3 ? cadf_split(&hour, &input, 1, NULL, parts, sizeof parts - 1, &length) : CADF_ARGUMENT_REFUSED;
    for (char *part = status ? NULL : strstr((char *)parts, "\nP "), *next; part && !status; part = next) {
        char *name = part + strlen("\nP "), *begin = strchr(name, '\n') + 1;
        next = strstr(begin, "\nP ");
        char *end = next ? next + 1 : (char *)parts + length - 67; /* before the split file's own digest */
        two[0] = cadf_bytes_of(begin, end - begin);
        if (strncmp(name, "shared\n", strlen("shared\n")) == 0) /* what has no time, as rulings, stands first */
            two[many++] = two[0];
        if (strncmp(name, words[1], strlen(words[1])) < 0 || strncmp(name, words[2], strlen(words[2])) >= 0)
            continue;
        status = cadf_join(two, many, NULL, joined, sizeof joined, &size);
        two[0] = cadf_bytes_of(joined, size);
        status = status ? status : cadf_show(false, &two[0], shown, sizeof shown, &used);
        fwrite(shown, 1, status ? 0 : used, stdout);
    }
    return status;
}
