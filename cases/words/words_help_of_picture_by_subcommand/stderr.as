../../../tools/help/blk-picture
