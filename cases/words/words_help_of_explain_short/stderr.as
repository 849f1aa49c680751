../../../tools/help/blk-explain
