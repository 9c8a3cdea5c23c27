/* Reads the lines of a log by libapparmor's reader, and prints how many of them are records. */
#include <aalogparse/aalogparse.h>
#include <stdio.h>
#include <stdlib.h>

int main(int count, char **words)
{
    FILE *log = count == 2 ? fopen(words[1], "r") : NULL;
    if (!log)
        return 2;
    char *line = NULL;
    size_t room = 0;
    long records = 0;
    while (getline(&line, &room, log) >= 0) {
        aa_log_record *record = parse_record(line);
        records += record && record->event != AA_RECORD_INVALID;
        free_record(record);
    }
    free(line);
    printf("%ld\n", records);
    return 0;
}
