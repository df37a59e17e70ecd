/* Asks one server over so many connections at a time with libyaz's ZOOM, for so many records on each:
 * pool ADDRESS SYNTAX QUERY CONNECTIONS RECORDS STEP, where STEP is how many records one request asks for.
 * Prints how many octets the records of each connection have; fails where one has fewer records. */
#include <stdio.h>
#include <stdlib.h>
#include <yaz/zoom.h>

#define MOST 1000

static ZOOM_options settings(const char *syntax, const char *records, const char *step)
{
    ZOOM_options options = ZOOM_options_create();

    ZOOM_options_set(options, "async", "1");
    ZOOM_options_set(options, "preferredRecordSyntax", syntax);
    ZOOM_options_set(options, "start", "0");
    ZOOM_options_set(options, "count", records);
    ZOOM_options_set(options, "presentChunk", step);
    return options;
}

static long octets_of(ZOOM_resultset set, int records)
{
    long sum = 0;

    for (int place = 0; place < records; place++) {
        ZOOM_record record = ZOOM_resultset_record_immediate(set, place);
        int length = 0;

        if (!record || !ZOOM_record_get(record, "raw", &length))
            return -1;
        sum += length;
    }
    return sum;
}

static int tell(ZOOM_resultset *sets, int count, int records)
{
    for (int place = 0; place < count; place++) {
        long octets = octets_of(sets[place], records);

        if (octets < 0)
            return 1;
        printf("%ld\n", octets);
    }
    return 0;
}

int main(int argc, char **argv)
{
    static ZOOM_connection connections[MOST];
    static ZOOM_resultset sets[MOST];
    int count = argc == 7 ? atoi(argv[4]) : 0;
    ZOOM_options options;

    if (count < 1 || count > MOST)
        return 1;
    options = settings(argv[2], argv[5], argv[6]);
    for (int place = 0; place < count; place++) {
        connections[place] = ZOOM_connection_create(options);
        ZOOM_connection_connect(connections[place], argv[1], 0);
        sets[place] = ZOOM_connection_search_pqf(connections[place], argv[3]);
    }
    while (ZOOM_event(count, connections))
        ;
    return tell(sets, count, atoi(argv[5]));
}
