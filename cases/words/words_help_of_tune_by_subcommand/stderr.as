../../../tools/help/blk-tune
