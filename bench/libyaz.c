/* Decodes the APDUs of a file again and again with libyaz: libyaz FILE TIMES. Prints how many there were. */

#include <stdio.h>
#include <stdlib.h>
#include <yaz/odr.h>
#include <yaz/proto.h>

static char *read_all(const char *path, int *size)
{
    FILE *file = fopen(path, "rb");
    char *octets;
    long end;

    if (!file || fseek(file, 0, SEEK_END) || (end = ftell(file)) < 0)
        return 0;
    rewind(file);
    octets = malloc(end);
    if (octets && fread(octets, 1, end, file) != (size_t) end)
        octets = 0;
    fclose(file);
    *size = end;
    return octets;
}

static long decode(ODR odr, char *octets, int size)
{
    long count = 0;
    int at = 0;

    while (at < size) {
        int length = completeBER(octets + at, size - at);
        Z_APDU *apdu = 0;

        if (length <= 0)
            return -1;
        odr_reset(odr);
        odr_setbuf(odr, octets + at, length, 0);
        if (!z_APDU(odr, &apdu, 0, 0))
            return -1;
        at += length;
        count++;
    }
    return count;
}

int main(int argc, char **argv)
{
    int size = 0, times = argc == 3 ? atoi(argv[2]) : 0;
    char *octets = argc == 3 ? read_all(argv[1], &size) : 0;
    ODR odr = odr_createmem(ODR_DECODE);
    long count = 0;

    if (!octets || !odr)
        return 1;
    while (times-- > 0 && count >= 0)
        count = decode(odr, octets, size);
    odr_destroy(odr);
    free(octets);
    printf("%ld\n", count);
    return count < 0;
}
