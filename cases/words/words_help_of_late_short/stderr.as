../../../tools/help/blk-late
