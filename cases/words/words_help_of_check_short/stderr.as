../../../tools/help/blk-check
