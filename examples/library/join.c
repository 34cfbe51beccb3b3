/* Joins the files of two sites: join NORTH SOUTH >BOTH. With the names the other way round it writes the same bytes. */
#include <cadf.h>
#include <stdio.h>
#include <stdlib.h>

static struct cadf_bytes contents(const char *name)
{
    FILE *file = fopen(name, "rb");
    uint8_t *bytes = malloc(1 << 26);
    if (!file || !bytes) {
        perror(name);
        exit(3);
    }
    return cadf_bytes_of(bytes, fread(bytes, 1, 1 << 26, file));
}

int main(int count, char **words)
{
    if (count != 3)
        return CADF_ARGUMENT_REFUSED;
    struct cadf_bytes sites[2] = {contents(words[1]), contents(words[2])};
    size_t length;
    int status = cadf_join(sites, 2, NULL, NULL, 0, &length); /* how much room */
    uint8_t *both = malloc(length);
    if (!both)
        return CADF_OUT_OF_MEMORY;
    status = cadf_join(sites, 2, NULL, both, length, &length);
    fwrite(both, 1, length, status ? stderr : stdout); /* or why a file is refused */
    return status;
}
