// An index of a CSV file: it maps the number in each row's second field to the place where the row begins, and then shows the rows
// of some keys without reading the others. Run: csv_index FILE [KEY ..]
#include "blink.h"
#include <stdio.h>
#include <stdlib.h>
#include <string.h>

static void expect(int code) {
    if (code != BLINK_DONE) exit(fprintf(stderr, "libblink: %s\n", blink_message(code)));
}

int main(int argc, char **argv) {
    FILE *file = fopen(argc > 1 ? argv[1] : "../first.csv", "r");
    if (!file) return perror("csv_index"), 1;
    char row[1000];
    size_t count = 0, room = 0;
    blink_entry *entries = NULL;
    for (long place = 0; fgets(row, sizeof row, file); place = ftell(file)) {
        const char *comma = strchr(row, ',');
        if (!comma) continue;
        if (count == room) entries = realloc(entries, (room = room * 2 + 64) * sizeof *entries);
        if (!entries) return 1;
        entries[count++] = (blink_entry){strtoull(comma + 1, NULL, 10), (uint64_t)place};
    }
    // The rows come in any order; of two with one key the first stays.
    blink_index index = {NULL};
    expect(blink_index_from_entries(32, entries, count, &index));
    printf("%zu rows, %zu keys\n", count, blink_index_len(&index));
    for (int i = 2; i < argc; i++) {
        uint64_t place;
        if (!blink_index_get(&index, strtoull(argv[i], NULL, 10), &place)) {
            printf("%s: no row\n", argv[i]);
        } else if (!fseek(file, (long)place, SEEK_SET) && fgets(row, sizeof row, file)) {
            printf("%s: %s", argv[i], row);
        }
    }
    blink_index_free(index);
    free(entries);
    fclose(file);
    return 0;
}
