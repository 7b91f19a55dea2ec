/* A sheet read: its rows found, and its inputs looked at. */
#ifndef SHEET_H
#define SHEET_H

#include "layout.h"

/* 0 with the places of the rows, or the number of the refusal (3 to 6, 19). */
uint32_t read_sheet(const uint8_t *sheet, size_t bytes, uint16_t *places, uint32_t *rows);

/* The bytes of the next sheet of a bundle, or 0 if it is not all there. */
size_t next_sheet(const uint8_t *bundle, size_t bytes);

#endif
