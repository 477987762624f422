/* Prints the number and the name of each refusal of cyclic.h, as the table there has them, and then its version. Ends with 1 where a
 * number has no text, or one that is no refusal has one, or the library is of another version than the header. */
#include <stdio.h>
#include <string.h>
#include "cyclic.h"

#define COUNT(number, name, text) +1
#define SAYS(number, name, text) \
    wrong |= strcmp(cyclic_refusal_name(number), name) != 0 || strcmp(cyclic_refusal_text(number), text) != 0 || strlen(text) == 0;

int main(void)
{
    int wrong = CYCLIC_CALL_HANDLER != CYCLIC_HANDLER_REFUSED, known = 0;
    char version[32];
    CYCLIC_REFUSALS(SAYS)
    for (uint32_t answer = 0; answer < 256; answer++) {
        if (strcmp(cyclic_refusal_name(answer), "Done") == 0 || strcmp(cyclic_refusal_name(answer), "NoAnswer") == 0)
            continue;
        printf("%u %s\n", (unsigned)answer, cyclic_refusal_name(answer));
        known++;
    }
    sprintf(version, "%d.%d.%d", CYCLIC_VERSION_MAJOR, CYCLIC_VERSION_MINOR, CYCLIC_VERSION_PATCH);
    printf("version %s\n", CYCLIC_VERSION);
    wrong |= cyclic_version() != CYCLIC_VERSION_NUMBER;
    return wrong || known != 0 CYCLIC_REFUSALS(COUNT) || strcmp(version, CYCLIC_VERSION) != 0 || strcmp(cyclic_refusal_text(0), "done") != 0;
}
