../tools/compare busy-days.trace --each '+MHas aoffcbf aoff bf gf' --each '+MHsbct 64 256 512' \
    --columns list,mb_most,mb_end,carriers_most,carriers_end,utilisation_most,utilisation_end,blocks_single,failed,moved \
    --all '+MHacul 0 +MHlmbcs 512'
