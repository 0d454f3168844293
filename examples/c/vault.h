/* The vault library for C and C++. `rt lib`, in the folder of the crate `capi`, writes out/libcapi.a there; nothing has to be
 * linked beside it.
 *
 * No function allocates, keeps a pointer, or keeps anything between calls. Each takes any numbers; what it cannot answer it
 * refuses by number and leaves the caller's memory as it was. A pointer has to point to as many entries as the length after
 * it says, and no memory that is written may overlap any other that is passed. */
#ifndef VAULT_H
#define VAULT_H

#include <stddef.h>
#include <stdint.h>

#ifdef __cplusplus
extern "C" {
#endif

/* A regular site: `racks` racks of `each` nodes, at most 32 racks and 256 nodes in all; node v is in rack v / each. A node may
 * keep a block where the bit of its rack in `targets` is 1, bit 0 being the lowest. */
struct vault_site {
  uint32_t racks, each, targets;
};

/* Of n blocks k are data, and at most c are left in one rack: 1 <= k <= 16, k < n <= 24, 1 <= c <= n - k. */
struct vault_code {
  uint32_t n, k, c;
};

/* Blocks go in by their lists of nodes, in the writer's order: eight entries of `nodes` to a block, of which the first
 * lens[i] are the list of block i. There are at most 16 blocks, and nodes_len is 8 * lens_len. A list has 2 to 8 nodes. */
enum vault_refusal {
  VAULT_OUTSIDE_LIMITS = 1,  /* n, k or c is outside its limits */
  VAULT_LIST_LENGTH = 3,     /* a list has fewer than 2 or more than 8 nodes */
  VAULT_OUTSIDE_REGULAR = 9, /* the site is outside its limits */
  VAULT_NO_CHOICE = 24,      /* there is no choice */
  VAULT_NOT_FULL = 25,       /* there are not k lists */
  VAULT_ARRAYS = 30,         /* more than 16 lists, or not eight entries to each */
  VAULT_NO_PLAN = 31         /* there are no n nodes: no choice, or too little space */
};

/* Whether the blocks and an offered one have a choice: one node out of each list, all in target racks, all different, at most
 * c in a rack. 0 where they have; else the first refusal of 9, 30, 3 and 24. At 24, where the blocks without the offered one
 * have a choice, *set becomes the least set of blocks that has none: bit i for block i, and bit lens_len for the offered one. */
uint32_t vault_admit(const struct vault_site *site, uint32_t c, const uint16_t *nodes, size_t nodes_len, const uint8_t *lens,
                     size_t lens_len, const uint16_t *offered, size_t offered_len, uint32_t *set);

/* The n nodes of a stripe of k blocks: the first choice, by the order of the lists, and then the parity nodes, visited from
 * node `start` on. 0, with the nodes at the front of `out`, as far as it has room, and *len set to n; else the first refusal
 * of 9, 1, 30, 3, 25 and 31. */
uint32_t vault_plan(const struct vault_site *site, const struct vault_code *code, const uint16_t *nodes, size_t nodes_len,
                    const uint8_t *lens, size_t lens_len, uint16_t start, uint16_t *out, size_t out_len, size_t *len);

/* Runs a sheet, and writes its answers, the heading first, to the front of `out`: the bytes that the program `vault` prints.
 * The result is how many bytes the answers have. Where that is more than out_len, `out` was too short and has their front. */
size_t vault_run_sheet(const uint8_t *sheet, size_t sheet_len, uint8_t *out, size_t out_len);

#ifdef __cplusplus
}
#endif

#endif
