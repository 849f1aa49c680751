../../../tools/help/blk-oracle
