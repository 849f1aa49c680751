../../../tools/help/blk
