../../../tools/help/blk-spread
