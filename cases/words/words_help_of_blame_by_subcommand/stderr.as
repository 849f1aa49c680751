../../../tools/help/blk-blame
