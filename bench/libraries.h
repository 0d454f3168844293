// What the benchmark asks: the proved library, the Rust beside it, and LEMON, all by the same calls.
#pragma once
#include "../examples/c/vault.h"

using Admit = decltype(&vault_admit);
using Plan = decltype(&vault_plan);
using RunSheet = decltype(&vault_run_sheet);

extern "C" {
uint32_t peer_admit(const vault_site *site, uint32_t c, const uint16_t *nodes, size_t nodes_len, const uint8_t *lens,
                    size_t lens_len, const uint16_t *offered, size_t offered_len, uint32_t *set);
uint32_t peer_plan(const vault_site *site, const vault_code *code, const uint16_t *nodes, size_t nodes_len,
                   const uint8_t *lens, size_t lens_len, uint16_t start, uint16_t *out, size_t out_len, size_t *len);
size_t peer_run_sheet(const uint8_t *sheet, size_t sheet_len, uint8_t *out, size_t out_len);
}

uint32_t lemon_admit(const vault_site *site, uint32_t c, const uint16_t *nodes, size_t nodes_len, const uint8_t *lens,
                     size_t lens_len, const uint16_t *offered, size_t offered_len, uint32_t *set);
