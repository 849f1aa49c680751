../../../tools/help/blk-sim
