/* One call of the library over what is lent, with all that must hold of it. */
#ifndef CALL_H
#define CALL_H

#include <stdbool.h>
#include <stddef.h>
#include <stdint.h>

enum kind { BEGIN, HEAR, ELAPSE, SET_WORD, PULSE, SET_VALUE, STORE, CONTACT, SAMPLE };

enum { CALL_SAMPLED = 6, CALL_TURNED = 4 }; /* characters in which a sample and a stretch are answered */

struct call {
    enum kind kind;
    bool nulls;     /* parts of no length are lent as null */
    uint8_t number; /* of an input, contact, calculation or file */
    uint8_t event;
    uint32_t value; /* milliseconds, word, count, value or state; of a stretch its lag */
};

/* Calls twice from the same memory and checks; what fails is printed and ends the program. */
void call_checked(const struct call *c);

/* How many calls were checked, and how many of the outcomes that a stretch can have were among their answers. */
unsigned long call_count(void);
int call_outcomes(void);

#endif
