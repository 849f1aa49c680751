../../../tools/help/blk-compare
