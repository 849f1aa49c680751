../../../tools/help/blk-judge
