../tools/compare shop.trace --each '+MBas aoffcbf gf' --each '+MBsbct 64 256 512' \
    --columns list,mb_most,mb_end,carriers_end,utilisation_end,blocks_single,mb_single,gap_kb,failed \
    --all '+MBacul 0'
