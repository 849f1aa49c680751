../../../tools/help/blk-misses
