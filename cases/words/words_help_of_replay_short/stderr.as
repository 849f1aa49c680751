../../../tools/help/blk-replay
