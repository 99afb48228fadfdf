/* Prints the fault number of the plan record, or of its graph, in each file that is named. */
#include <stdio.h>

#include "viqondes.h"

enum { ROOM = 8 + 3 * 512 + 1 }; /* one byte more than the longest record, so that a longer file shows */

int main(int argc, char **argv)
{
    static uint8_t record[ROOM];

    for (int i = 1; i < argc; i++) {
        FILE *file = fopen(argv[i], "rb");
        if (file == NULL) {
            perror(argv[i]);
            return 1;
        }
        size_t len = fread(record, 1, sizeof record, file);
        fclose(file);
        printf("%s: fault %d\n", argv[i], viqondes_plan_fault(record, len));
    }
    return 0;
}
