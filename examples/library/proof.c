/* Checks a proof that facts are among those that were sealed: proof SEAL FACTS PROOF. It reads no site. */
#include <cadf.h>
#include <stdio.h>
#include <stdlib.h>

static struct cadf_bytes contents(const char *name)
{
    FILE *file = fopen(name, "rb");
    uint8_t *bytes = malloc(1 << 26);
    if (!file || !bytes) {
        perror(name);
        exit(3);
    }
    return cadf_bytes_of(bytes, fread(bytes, 1, 1 << 26, file));
}

int main(int count, char **words)
{
    if (count != 4)
        return CADF_ARGUMENT_REFUSED;
    struct cadf_bytes seal = contents(words[1]), facts = contents(words[2]), proof = contents(words[3]);
    size_t length;
    int status = cadf_verify(false, false, &seal, &facts, &proof, NULL, 0, &length); /* how much room */
    uint8_t *lines = malloc(length);
    if (!lines)
        return CADF_OUT_OF_MEMORY;
    status = cadf_verify(false, false, &seal, &facts, &proof, lines, length, &length);
    fwrite(lines, 1, length, status ? stderr : stdout); /* a line for each fact, or what isn't shown */
    return status;
}
