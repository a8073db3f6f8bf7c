/* Plans the job in a file, amended by a second file where there is one, with a map, and prints both.
 *
 *     cc -I DIR example.c DIR/libfitplan.a -o example    (DIR: where tools/library has put the header and the archive) */
#include "fitplan.h"
#include "show.h"
#include <inttypes.h>
#include <stdio.h>
#include <stdlib.h>

void put(char byte) { putchar(byte); }

static size_t read_file(const char *name, uint8_t *bytes, size_t room) {
    FILE *file = fopen(name, "rb");
    if (file == NULL) {
        fprintf(stderr, "example: cannot read %s\n", name);
        exit(2);
    }
    size_t length = fread(bytes, 1, room, file);
    fclose(file);
    return length;
}

int main(int argc, char **argv) {
    /* room for one byte too many: a longer file is refused, and not cut */
    static uint8_t job[FIT_JOB_LENGTH + 1], amendments[FIT_AMENDMENTS_LENGTH + 1];
    static uint8_t sheet[FIT_SHEET_LENGTH], map[FIT_MAP_LENGTH];
    if (argc != 2 && argc != 3) {
        fputs("usage: example JOB [AMENDMENTS]   (files with the bytes of a job, and of its amendments)\n", stderr);
        return 2;
    }
    struct fit_call call = {.job = job, .job_length = read_file(argv[1], job, sizeof job), .area = sheet,
                            .area_length = sizeof sheet, .map = map, .map_length = sizeof map};
    if (argc == 3) {
        call.amendments = amendments;
        call.amendments_length = read_file(argv[2], amendments, sizeof amendments);
    }
    struct fit_outcome outcome = fit_plan(&call);
    if (outcome.kind == FIT_PLANNED) {
        printf("worth %" PRId64 "\n", outcome.worth);
        show_sheet(sheet);
        show_map(map);
    } else if (outcome.kind == FIT_NO_FIT) {
        printf("no fit at count %" PRIu32 "\n", outcome.count);
        show_map(map);
    } else {
        printf("refused %" PRIu32 " row %" PRIu32 "\n", outcome.reason, outcome.row);
    }
    return 0;
}
