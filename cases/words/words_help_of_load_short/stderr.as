../../../tools/help/blk-load
