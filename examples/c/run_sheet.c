/* Reads a sheet from standard input and prints its answers through the vault library. */
#include <stdio.h>
#include <stdlib.h>

#include "vault.h"

/* One byte more than a sheet may have, so that a longer one is noticed. */
static uint8_t sheet[65537];

int main(void) {
  size_t sheet_len = fread(sheet, 1, sizeof sheet, stdin);
  size_t room = 1024;
  for (;;) {
    uint8_t *out = malloc(room);
    if (out == NULL) return 1;
    size_t len = vault_run_sheet(sheet, sheet_len, out, room);
    if (len <= room) {
      int whole = fwrite(out, 1, len, stdout) == len && fflush(stdout) == 0;
      free(out);
      return whole ? 0 : 1;
    }
    free(out);
    room = len;
  }
}
