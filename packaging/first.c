/* Adds one route, makes the writes of its commit to a memory that isn't there, and looks a packet up. */
#include <stdio.h>
#include <tcam.h>

int main(void) {
    struct tcam_manager manager = TCAM_MANAGER_NONE;
    struct tcam_numbers numbers;
    struct tcam_refusal refusal;
    struct tcam_write write;
    struct tcam_key key = {.destination = 0x0a010203};
    struct tcam_answer answer;
    if (tcam_version() != TCAM_VERSION) return 1; /* this header is another version's */
    if (tcam_new(&manager, 8, TCAM_COVER, TCAM_RANK) || tcam_add_route(&manager, 0x0a000000, 8, 7)) return 1;
    if (tcam_prepare(&manager, &numbers, &refusal)) return 1;
    while (tcam_next(&manager, &write) == TCAM_OK && write.kind != TCAM_NOTHING) tcam_made(&manager);
    if (tcam_answer(&manager, &key, &answer)) return 1;
    printf("10.1.2.3 goes to %u\n", (unsigned)answer.result);
    return (int)tcam_free(&manager);
}
