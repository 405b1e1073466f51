/* What a replay asks of the machine that it runs on. */
#ifndef MACHINE_H
#define MACHINE_H

#include <stdint.h>

#ifdef __cplusplus
extern "C" {
#endif

/* The program, which answers 0 where all went well. */
int replay(void);

/* The next characters of the recording, and how many they are: fewer at its end. */
uint32_t machine_read(uint8_t *to, uint32_t many);
void machine_tell(const char *chars, uint32_t many);

#ifdef __cplusplus
}
#endif

#endif
