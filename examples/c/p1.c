/* P1 through the library: four tasks on two processors, all arriving at tick 0, to tick 3. */
#include <inttypes.h>
#include <stdio.h>

#include "robinrow.h"

enum { PROCESSORS = 2, TASKS = 4, UNTIL = 3, RECORDS = 16 };

/* period, execution, deadline */
static const uint32_t rows[TASKS][3] = {{4, 3, 4}, {6, 4, 6}, {3, 1, 3}, {4, 1, 4}};

static robinrow_state state;

static int refused(uint32_t number, uint64_t row) {
    printf("refused %" PRIu32 " %" PRIu64 "\n", number, row);
    return 1;
}

int main(void) {
    uint8_t table[TASKS * ROBINROW_ROW_SIZE], room[RECORDS * ROBINROW_RECORD_SIZE];
    for (unsigned i = 0; i < TASKS; i++) robinrow_put_row(table, i, rows[i][0], rows[i][1], rows[i][2]);

    uint64_t row, records;
    uint32_t number = robinrow_admit(&state, table, sizeof table, PROCESSORS, &row);
    if (number) return refused(number, row);
    printf("scale %" PRIu64 "\n", state.scale);

    for (uint64_t task = 1; task <= TASKS; task++) {
        number = robinrow_arrive(&state, task);
        if (number) return refused(number, 0);
    }

    /* a room full of records at a time, until the present is the horizon */
    while (state.now < UNTIL * state.scale) {
        number = robinrow_run(&state, UNTIL, room, sizeof room, &records);
        if (number) return refused(number, 0);
        for (uint64_t k = 0; k < records; k++) {
            const uint8_t *record = room + ROBINROW_RECORD_SIZE * k;
            printf("%" PRIu64 " %" PRIu64, robinrow_from(record), robinrow_to(record));
            for (unsigned p = 1; p <= PROCESSORS; p++) printf(" %u", robinrow_task_on(record, p));
            printf("\n");
        }
    }
    return 0;
}
