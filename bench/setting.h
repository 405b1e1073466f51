// Units brought by events to where a row stands. An end other than the wanted one stops the run.
#ifndef SETTING_H
#define SETTING_H

#include "units.h"

enum { POINTS = 208 };

extern struct units u;

void expect(const char *what, unsigned got, unsigned wanted);

// A request of the one master.
void ask(unsigned function, unsigned command, const void *data, size_t count, int counted, unsigned wanted);

// A WRITE and an EXECUTE of the one master, in one stretch.
void ask_both(const void *place, const void *data, size_t count, int counted, unsigned wanted);

// So many of the 208 points, the analogs first; 127 calculations, 32 files of the longest records, the longest parameter block.
void equip(int points);

// The same with so many files of the 32, and just the room lent that they ask for.
void equip_files(int files);

// So many of the longest records into a file.
void store(int file, int n);

// The table area, in two parts.
void write_tables(const uint8_t area[256]);

// Calculations 0, 1 and 2 are means of 1, 16 and 256 samples of input 80h, ready, besides what equip does.
void equip_means(void);

// The eight contacts of a group are in these states.
void contacts(int group, unsigned states);

#endif
